#!/usr/bin/env python3
"""Gives the definitions and lemmas of this repository the spelling of today's Rattle.

    python3 tools/respell.py        at the top of the repository, once, after the toolchain's own port.py

Types are in camel case, all other names in snake case. A name that would have fallen together with a function of src/ got another
one. Only names of specs/ and proofs/ are turned, wherever they stand: in definitions, proofs, clauses, must-fail edits and, between
backticks, in the documents. Strings are left alone.
"""
import glob
import re

NAMES = """
    Alike-after:AlikeAfter Alike-run:AlikeRun D-ok:D_ok Fits-area:FitsArea Layout-bijective:LayoutBijective Layout-figure:LayoutFigure
    added-ok:added_ok added-same:added_same after-data:after_data after-high:after_high after-ten:after_ten afterSpaces:after_spaces
    afterSpaces-append:after_spaces_append agree-is:agree_is all-bytes:all_bytes all-summed:all_summed all-units:all_units all-zero:all_zero
    allBut:all_others alone-data:alone_data alone-is:alone_is alone-written:alone_written and-false:and_false and-true:and_true answer-of:answer_of
    answer-step:answer_step answers-in:answers_in any-ten:any_ten_tell apart-at:apart_at archive-law:archive_law area-meaning:area_meaning
    area-number:area_number area-sound:area_sound area-store:area_store as-byte-small:as_byte_small asked-call:asked_call assoc-basis:assoc_basis
    at-given:at_given at-twin:at_twin at-u:at_u bit-lt:bit_lt bit-other:bit_other bit-same:bit_same bit-small:bit_small book-of:book_of
    book-status:book_status but-ten:but_ten by-ok:by_ok by-positions:by_positions by-store:by_store by-the-book:by_the_book byte-in:byte_in
    byte-in-small:byte_in_small byte-raised:byte_raised byte-summed:byte_summed byte-written:byte_written bytes-c:bytes_c bytes-d:bytes_d
    bytes-shortened:bytes_shortened call-of:call_of can-rebuild:can_rebuild cauchy-plain:cauchy_plain cauchy-small:cauchy_small
    cauchy-sound:cauchy_sound cauchy-tested:cauchy_tested chained-at:chained_at change-accepted:change_accepted change-more:change_more
    change-moves:change_moves changed-at:changed_at changed-is:changed_is changed-store:changed_store chosen-all:chosen_all chosen-small:chosen_small
    chosen-ten:chosen_ten close-accepted:close_accepted close-moves:close_moves codeWord:word_of_code codeword-add:codeword_add
    codeword-none:codeword_none codeword-ok:codeword_ok codeword-row:codeword_row codeword-same:codeword_same codeword-single:codeword_single
    column-answer:column_answer column-at:column_at column-cut:column_cut column-is:column_is column-of:column_of comm-basis:comm_basis
    common-size:common_size cond-add:cond_add cond-ok:cond_ok cons-bytes:cons_bytes count-more:count_more counted-at:counted_at
    cut-from-printed:cut_from_printed cut-long:cut_long data-high:data_high data-is-unit:data_is_unit data-low:data_low data-unit:data_unit
    data-word:data_word data-written:data_written decimal-two:decimal_two delta-length:delta_length divided-share:divided_share dot-add:dot_add
    dot-byte:dot_byte dot-comm:dot_comm dot-down:dot_down dot-gm:dot_gm dot-mix:dot_mix dot-more:dot_more dot-none:dot_none dot-one:dot_one
    dot-same:dot_same dot-set:dot_set dot-set-row:dot_set_row dot-swap:dot_swap dot-terms:dot_terms dot-zeros:dot_zeros drop-first:drop_first
    due-at:due_at due-fits:due_fits due-stand:due_stand either-missing:either_missing either-ok:either_ok element-more:element_more empty-is:empty_is
    encoded-is:encoded_is end-group:end_group entered-same:entered_same entered-size:entered_size entryText:entry_text every-all:every_all
    except-count:except_count except-other:except_other except-own:except_own except-within:except_within exchange-holds:exchange_holds exp-at:exp_at
    exps-rows:exps_rows fetch-list:fetch_list_of fetched-by:fetched_by fetched-cut:fetched_cut fetched-front:fetched_front fetched-more:fetched_more
    fetched-of:fetched_of fetched-ok:fetched_ok fetched-own:fetched_own fill-accepted:fill_accepted fill-moves:fill_moves first-add:first_add
    first-column:first_column first-half:first_half first-half-bytes:first_half_bytes first-is:first_is first-length:first_length first-ok:first_ok
    first-same:first_same first-solved:first_solved fits-due:fits_due fits-other:fits_other flat-at:flat_at flat-exps:flat_exps
    flat-log-at:flat_log_at flat-log-lt:flat_log_lt form-ok:form_ok form-single:form_single form-sum:form_sum form-times:form_times
    form-zero:form_zero forms-are:forms_are forms-of:forms_of from-pairs:from_pairs from-two:from_two front-in:front_in front-local:front_local
    front-second:front_second front-ten:front_ten fronts-test:fronts_test full-ticket:full_ticket gather-accepted:gather_accepted
    gather-moves:gather_moves gathered-is:gathered_is gathered-more:gathered_more gave-more:gave_more generator-byte:generator_byte
    getD-small:get_or_small given-same:given_same giving-up:giving_up gm-byte:gm_byte gm-is:gm_is gmul-assoc:gmul_assoc gmul-comm:gmul_comm
    gmul-exps:gmul_exps gmul-inverse:gmul_inverse gmul-l:gmul_l gmul-lt:gmul_lt gmul-one-l:gmul_one_l gmul-r:gmul_r gmul-raised:gmul_raised
    gmul-zero-l:gmul_zero_l gmul-zero-r:gmul_zero_r group-proper:group_proper groups-proper:groups_proper half-at-high:half_at_high
    half-at-position:half_at_position half-bytes:half_bytes half-in-laid:half_in_laid half-low:half_low half-read:half_read half-same:half_same
    half-symbol:half_symbol has-without:has_without held-length:held_length hop-low:hop_low hops-twice:hops_twice idle-is:idle_is in-wholes:in_wholes
    in-xs:in_xs index-at-below:index_at_below index-at-position:index_at_position inverse-byte:inverse_byte inverse-byte-test:inverse_byte_test
    inverse-lt:inverse_lt inverse-one:inverse_one inverse-test:inverse_test is-data:is_data is-data-one:is_data_one is-data-other:is_data_other
    is-half:is_half is-half-from:is_half_from is-logged:is_logged is-lower:is_lower is-short:is_short_for is-unit:is_unit is-unit-from:is_unit_from
    kept-size:kept_size last-listed:last_listed law-gmul:law_gmul law-lifts:law_lifts length-lineOf:length_line_of lin-after:lin_after
    lin-bit:lin_bit lin-ext:lin_ext lin-id:lin_id lin-lt:lin_lt lin-shift:lin_shift lin-xor:lin_xor lin-zero:lin_zero line-more:line_more
    lineText:line_text list-for:list_for list-is:list_is listed-stand:listed_stand log-at:log_at log-lt:log_lt log-test:log_test logs-rows:logs_rows
    lone-piece:lone_piece lonely-last:lonely_last long-list:long_list lose-accepted:lose_accepted lose-answer:lose_answer lose-done:lose_done
    lose-holds:lose_holds lose-moves:lose_moves lose-store:lose_store lost-is:lost_is lower-lose:lower_lose lower-put:lower_put
    lowest-count:lowest_count lowest-ten:lowest_ten lowest-within:lowest_within lt-basis:lt_basis made-fits:made_fits made-own:made_own
    made-same:made_same map-map:map_map matches-is:matches_is matches-not:matches_not may-rebuild:may_rebuild missing-can:missing_can
    missing-list:missing_list mixed-ok:mixed_ok multiplier-of:multiplier_of never-refused:never_refused new-book:new_book new-right:new_right
    new-set:new_set new-shown:new_shown next-half:next_half no-form:no_form no-symbols:no_symbols no-tenth:no_tenth no-unit:no_unit
    none-chosen:none_chosen none-present:none_present not-T-false:not_t_false not-newline:not_newline not-placed:not_placed not-ten:not_ten
    not-zero:not_zero noted-same:noted_same nothing-added:nothing_added of-a:of_a of-b:of_b ok-sum:ok_sum ok-times:ok_times ok-zero:ok_zero okW:ok_w
    okY:ok_y oks-a:oks_a oks-b:oks_b oks-of:oks_of one-basis:one_basis one-rebuilt:one_rebuilt only-a:only_a only-b:only_b only-short:only_short
    only-whole:only_whole open-accepted:open_accepted open-moves:open_moves open-ticket:open_ticket others-chosen:others_chosen
    others-left:others_left others-listed:others_listed others-more:others_more others-taken:others_taken others-test:others_test
    over-append:over_append over-cauchy:over_cauchy over-group:over_group over-l:over_l over-left:over_left over-ok:over_ok over-poly:over_poly
    over-r:over_r over-right:over_right over-same:over_same over-without:over_without own-bytes:own_bytes own-listed:own_listed own-lone:own_lone
    own-other:own_other own-parity:own_parity own-piece:own_piece own-rebuilt:own_rebuilt own-size:own_size own-stands:own_stands own-units:own_units
    padded-from:padded_from padded-is:padded_is padded-length:padded_length pageText:page_text parity-bytes:parity_bytes parity-first:parity_first
    parity-second:parity_second parity-second-add:parity_second_add part-byte:part_byte part-written:part_written pattern-at:pattern_at pick-l:pick_l
    pick-r:pick_r piece-at:piece_at piece-local:piece_local piece-same:piece_same pivot-at:pivot_at placed-home:placed_home plain-term:plain_term
    poly-entries:poly_entries poly-small:poly_small poly-sound:poly_sound poly-tested:poly_tested position-below:position_below power-byte:power_byte
    power-high:power_high printed-from-cut:printed_from_cut printed-refusal:printed_refusal printed-unit:printed_unit product-byte:product_byte
    product-l:product_l product-r:product_r proper-below:proper_below put-accepted:put_accepted put-answer:put_answer put-area:put_area
    put-done:put_done put-on-lower:put_on_lower put-on-upper:put_on_upper put-own:put_own put-slot:put_slot put-store:put_store put-units:put_units
    puts-is:puts_is raised-add:raised_add raised-inverse:raised_inverse raised-pos:raised_pos read-accepted:read_accepted read-bytes:read_bytes
    read-missing:read_missing read-own:read_own read-place:read_place rebuilt-all:rebuilt_all rebuilt-at:rebuilt_at rebuilt-bytes:rebuilt_bytes
    rebuilt-if:rebuilt_if rebuilt-is:rebuilt_is rebuilt-one:rebuilt_one rebuilt-own:rebuilt_own rebuilt-same:rebuilt_same refusalText:text_of_refusal
    remainder-lin:remainder_lin right-holds:right_holds right-kind:right_kind right-short:right_short row-byte:row_byte row-halves:row_halves
    row-length:row_length row-test:row_test rows-no-tenth:rows_no_tenth same-made:same_made same-pairs:same_pairs same-right:same_right
    same-stands:same_stands same-status:same_status second-add:second_add second-alone:second_alone second-column:second_column
    second-half:second_half second-length:second_length second-ok:second_ok second-read:second_read second-same:second_same
    second-solved:second_solved seconds-only:seconds_only set-small:set_small share-add:share_add share-ok:share_ok shelf-accepted:shelf_accepted
    shelf-put:shelf_put short-end:short_end short-is:short_is short-list:short_list short-others:short_others shortened-ok:shortened_ok
    shortened-padded:shortened_padded shown-at-rest:shown_at_rest shown-is:shown_is shown-store:shown_store shut-step:shut_step
    single-byte:single_byte single-other:single_other single-same:single_same size-over:size_over slot-in:slot_in slot-laid:slot_laid
    slot-more:slot_more small-entry:small_entry small-table:small_table solved-at:solved_at solved-fits:solved_fits solves-lowest:solves_lowest
    sound-same:sound_same spell-lt:spell_lt standing-long:standing_long stands-answer:stands_answer stands-in:stands_in start-at:start_at
    state-step:state_step step-passed:step_passed step-taken:step_taken suits-answer:suits_answer sum-assoc:sum_assoc sum-at:sum_at sum-byte:sum_byte
    sum-bytes:sum_bytes sum-halves:sum_halves sum-made:sum_made sum-unit:sum_unit sum-units:sum_units sum-zero:sum_zero summed-all:summed_all
    summed-more:summed_more sums-small:sums_small tablePage:table_page take-bytes:take_bytes tally-more:tally_more ten-products:ten_products
    ten-stand:ten_stand ten-tell:ten_tell term-lt:term_lt tested-sound:tested_sound then-space:then_space ticket-accepted:ticket_accepted
    times-bytes:times_bytes times-left:times_left times-one:times_one times-right:times_right times-twice:times_twice together-step:together_step
    told-answer:told_answer told-read:told_read twin-units:twin_units two-accepted:two_accepted two-first:two_first two-meaning:two_meaning
    two-shelves:two_shelves two-shelves-sound:two_shelves_sound unit-at:unit_at unit-bytes:unit_bytes unit-end:unit_end unit-form:unit_form
    unit-high:unit_high unit-in:unit_in unit-low:unit_low unit-of:unit_of unit-right:unit_right unit-small:unit_small unit-start:unit_start
    unit-summed:unit_summed unit-true:unit_true unitPage:page_of_unit units-cong:units_cong units-same:units_same upper-lose:upper_lose
    upper-put:upper_put upto-more:upto_more versionWord:word_of_version whole-full:whole_full whole-missing:whole_missing whole-taken:whole_taken
    wholes-all:wholes_all with-due:with_due with-rebuild:with_rebuild with-slot:with_slot with-store:with_store within-fourteen:within_fourteen
    without-append:without_append without-none:without_none written-above:written_above written-length:written_length written-more:written_more
    written-other:written_other x-is:x_is xor-bit:xor_bit xor-scale:xor_scale zero-at:zero_at zero-bytes:zero_bytes zero-r:zero_r
    zero-times:zero_times zeros-small:zeros_small zip-append:zip_append
    of-call:of_call ten-from:ten_from short-in:short_in short-at:short_at pattern-entry:pattern_entry is-unit-number:is_unit_number has-second:has_second
    fetch-of:fetch_of divided-by:divided_by at-a-byte:at_a_byte among-lowest:among_lowest Home-of:HomeOf
"""

MAP = dict(pair.split(":") for pair in NAMES.split())
TOKEN = re.compile(r"(?<![\w\-'·])(" + "|".join(map(re.escape, sorted(MAP, key=len, reverse=True))) + r")(?![\w\-'])")
STRING = re.compile(r'("(?:[^"\\\n]|\\.)*")')
SPAN = re.compile(r"(`[^`\n]*`)")


def respelled(text):
    return TOKEN.sub(lambda m: MAP[m.group(1)], text)


def outside(text, pattern):
    """Respells what the pattern does not match."""
    return "".join(part if k % 2 else respelled(part) for k, part in enumerate(pattern.split(text)))


def inside(text, pattern):
    """Respells what the pattern matches."""
    return "".join(respelled(part) if k % 2 else part for k, part in enumerate(pattern.split(text)))


def main():
    ways = [
        ("crates/*/specs/**/*.antt", respelled),
        ("crates/*/proofs/**/*.antt", respelled),
        ("crates/*/src/**/*.rt", lambda t: outside(t, STRING)),
        ("crates/*/must-fail/*.edit", lambda t: outside(t, STRING)),
        ("docs/*.md", lambda t: inside(t, SPAN)),
        ("README.md", lambda t: inside(t, SPAN)),
    ]
    turned = 0
    for pattern, way in ways:
        for path in sorted(glob.glob(pattern, recursive=True)):
            with open(path, encoding="utf-8") as file:
                old = file.read()
            new = way(old)
            if new != old:
                turned += 1
                with open(path, "w", encoding="utf-8") as file:
                    file.write(new)
    print(f"{turned} files respelled")


if __name__ == "__main__":
    main()
