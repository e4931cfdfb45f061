#!/usr/bin/env bash
# Compile errors that the must-fail edits cannot show, since such an edit never reaches the prover: each case writes a misuse
# into a copy of the repository and expects the named error, and its right use beside it to compile.
set -euo pipefail
cd "$(dirname "$0")/.."
copy=$(mktemp -d)
trap 'rm -rf "$copy"' EXIT
cp crates.txt "$copy"
for crate in crates/*; do
    mkdir -p "$copy/$crate"
    cp -r "$crate/src" "$crate/specs" "$copy/$crate"
done
failed=0

# compile CRATE: whether the crate's source in the copy compiles, which is tried by an empty test; what is said is kept in $copy/log
compile() {
    printf '#[test]\nfn compiles(_rt: HostRuntime) {}\n' >>"$copy/crates/$1/src/lib.rt"
    (cd "$copy/crates/$1" && rt try --test) >"$copy/log" 2>&1
}

# case NAME CRATE ERROR WRONG RIGHT: the line WRONG at the end of the crate's lib.rt is refused with ERROR, and RIGHT is not
case_of() {
    local name=$1 crate=$2 error=$3 wrong=$4 right=$5 file="$copy/crates/$2/src/lib.rt"
    cp "$file" "$copy/kept"
    printf '\n%s\n' "$right" >>"$file"
    if ! compile "$crate"; then
        echo "must not build: $name: the right use was refused"
        cat "$copy/log"
        failed=1
    fi
    cp "$copy/kept" "$file"
    printf '\n%s\n' "$wrong" >>"$file"
    if compile "$crate"; then
        echo "must not build: $name: it was built"
        failed=1
    elif grep -q "error\[$error\]" "$copy/log"; then
        echo "must not build: $name: refused with $error, as it must be"
    else
        echo "must not build: $name: refused, but not with $error"
        cat "$copy/log"
        failed=1
    fi
    cp "$copy/kept" "$file"
}

case_of "XOR+ over POLY" codes unsatisfied-bound \
    'pub fn misuse(code: poly::Poly) -> scheme::Over<scheme::XorPlus, poly::Poly> { scheme::Over { kind: scheme::XorPlus, code } }' \
    'pub fn misuse(code: cauchy::Cauchy) -> scheme::Over<scheme::XorPlus, cauchy::Cauchy> { scheme::Over { kind: scheme::XorPlus, code } }'

case_of "the version of XOR+ over POLY" codes unsatisfied-bound \
    'pub fn misuse(code: poly::Poly) -> version::Version { scheme::Scheme::version(&scheme::Over { kind: scheme::XorPlus, code }) }' \
    'pub fn misuse(code: cauchy::Cauchy) -> version::Version { scheme::Scheme::version(&scheme::Over { kind: scheme::XorPlus, code }) }'

# Tickets: the fronts of functions that take a set and an open or a full ticket, or a ticket alone
on_set='pub fn misuse<V: codes::scheme::Scheme, S: stores::store::UnitStore>(set: &mut set::Set<V, S>,'
by_open="$on_set t: ticket::OpenTicket)"
by_full="$on_set t: ticket::FullTicket)"
give_up_open='let _ = set.give_up(ticket::AnyTicket::Open(t));'
give_up_full='let _ = set.give_up(ticket::AnyTicket::Full(t));'

case_of "closing with an open ticket" sets mismatched-types \
    "$by_open -> Result<u8, ticket::FullTicket> { set.close(t) }" \
    "$by_full -> Result<u8, ticket::FullTicket> { set.close(t) }"

case_of "an open ticket that lapses" sets linear-value-let-go \
    'pub fn misuse(_t: ticket::OpenTicket) {}' \
    "$by_open { $give_up_open }"

case_of "a full ticket that lapses" sets linear-value-let-go \
    'pub fn misuse(_t: ticket::FullTicket) {}' \
    "$by_full { $give_up_full }"

case_of "a ticket used twice" sets borrow-e0382 \
    "$by_open { $give_up_open $give_up_open }" \
    "$by_open { $give_up_open }"

case_of "a forged ticket" archive private-field \
    'pub fn misuse() -> sets::ticket::FullTicket { sets::ticket::FullTicket { unit: 2, count: 13, stage: std::marker::PhantomData } }' \
    'pub fn misuse(t: sets::ticket::FullTicket) -> (u8, u8, sets::ticket::FullTicket) { (t.unit(), t.count(), t) }'

case_of "a gather whose result is dropped" sets linear-value-let-go \
    "$by_open { let _ = set.gather(t); }" \
    "$by_open -> Result<ticket::Gathered, ticket::OpenTicket> { set.gather(t) }"

case_of "a gather whose result is not looked at" sets unused-must-use \
    "$by_open { set.gather(t); }" \
    "$by_open -> Result<ticket::Gathered, ticket::OpenTicket> { set.gather(t) }"

exit "$failed"
