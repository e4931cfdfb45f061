#!/usr/bin/env python3
"""A second, plain reading of docs/: it prints what archive_walk must print.

    archive_reference.py

Units, lists and elimination are those of reference.py; the calls of a set are written from the documents. Like that page it
shares nothing with the proved code. The stored output of archive_walk was made with it.
"""
from reference import cleared, eliminated, fetched, halves, mul, unit_form


class Declined(Exception):
    """A call that a set declines, with its number."""


class Set:
    """The set of docs/SET.md. A unit is a pair of halves, lists of h bytes; a ticket is (kind, unit, count)."""

    def __init__(self, version, code, h):
        self.version, self.code, self.h = version, code, h
        self.units = {}
        self.under, self.listed, self.gathered = 0, [], []

    def decline(self, *reasons):
        """Declines with the first reason that is met."""
        for number, met in reasons:
            if met:
                raise Declined(number)

    def unit_for(self, data, u):
        """The version's unit for data, at each byte position by the unit's two forms."""
        h = self.h
        made = []
        for form in unit_form(self.version, self.code, u):
            half = [0] * h
            for k, c in enumerate(form):
                j, second = k % 10, k // 10
                if c:
                    start = j * 2 * h + second * h
                    half = [x ^ mul(c, y) for x, y in zip(half, data[start:start + h])]
            made.append(half)
        return tuple(made)

    def rebuilt(self, u, listed, halves):
        """The unit from the bytes of its listed halves alone."""
        rows = [unit_form(self.version, self.code, v)[k - 1] + half for (v, k), half in zip(listed, halves)]
        pivots = eliminated(rows)
        made = []
        for form in unit_form(self.version, self.code, u):
            left = cleared(form + [0] * self.h, pivots)
            assert not any(left[:20]), "the listed halves do not tell the unit"
            made.append(left[20:])
        return tuple(made)

    def list_for(self, u):
        return fetched(self.version, u, [v for v in range(1, 15) if v not in self.units])

    def value(self, u):
        """What a read of unit u gives, and how many halves it fetches."""
        if u in self.units:
            return self.units[u], 2
        listed = self.list_for(u)
        return self.rebuilt(u, listed, [self.units[v][k - 1] for v, k in listed]), len(listed)

    def fill(self, data):
        self.decline((3, len(data) != 20 * self.h), (6, self.under))
        self.units = {u: self.unit_for(data, u) for u in range(1, 15)}
        return 0

    def lose(self, u):
        self.decline((1, not 1 <= u <= 14), (6, self.under))
        self.units.pop(u, None)
        return 0

    def read(self, u, length):
        self.decline((1, not 1 <= u <= 10), (3, length != 2 * self.h),
                     (5, u not in self.units and len(self.units) < 10))
        (first, second), count = self.value(u)
        return count, first + second

    def change(self, u, new):
        self.decline((1, not 1 <= u <= 10), (3, len(new) != 2 * self.h), (6, self.under),
                     (5, len(self.units) < 10))
        (first, second), _ = self.value(u)
        data = [0] * (20 * self.h)
        data[(u - 1) * 2 * self.h:u * 2 * self.h] = [x ^ y for x, y in zip(first + second, new)]
        put = 0
        for v in (u, 11, 12, 13, 14):
            if v in self.units:
                self.units[v] = tuple([x ^ y for x, y in zip(old, more)]
                                      for old, more in zip(self.units[v], self.unit_for(data, v)))
                put += 1
        return put

    def open(self, u):
        self.decline((1, not 1 <= u <= 14), (6, self.under), (8, u in self.units), (5, len(self.units) < 10))
        self.under, self.listed, self.gathered = u, self.list_for(u), []
        return ("open", u, 0)

    def match(self, ticket):
        kind = "full" if len(self.gathered) == len(self.listed) else "open"
        self.decline((7, not self.under or ticket != (kind, self.under, len(self.gathered))))

    def gather(self, ticket):
        self.match(ticket)
        u, k = self.listed[len(self.gathered)]
        self.gathered.append(self.units[u][k - 1])
        n = len(self.gathered)
        return (u, k), ("full" if n == len(self.listed) else "open", self.under, n)

    def close(self, ticket):
        self.match(ticket)
        self.units[self.under] = self.rebuilt(self.under, self.listed, self.gathered)
        self.under = 0
        return len(self.gathered)

    def give_up(self, ticket):
        self.match(ticket)
        self.under = 0
        return 0


OLD_TICKET = ("open", 3, 0)


def run(scheme, h, steps):
    """Makes the calls of the steps on a new set. Each line is the step, its arguments, and the answer or the refusal.

    ("goon",) gathers or closes with the set's own ticket, ("stop",) gives it up; "goon-old" and "stop-old" do so
    with a ticket of another set."""
    held = {"own": None, "old": OLD_TICKET}
    the_set = Set(*scheme, h)
    log = []
    for name, *args in steps:
        whose = "old" if name.endswith("-old") else "own"
        if name.startswith(("goon", "stop")):
            ticket = held[whose]
            name = {"goon": "gather" if ticket[0] == "open" else "close", "stop": "give_up"}[name[:4]]
            args = [ticket]
            if name == "give_up":
                held[whose] = None
        try:
            told = getattr(the_set, name)(*args)
            if name == "open":
                held["own"] = told
            elif name == "gather":
                held[whose] = told[1]
            elif name == "close":
                held[whose] = None
            log.append((name, args, told, 0))
        except Declined as refusal:
            log.append((name, args, None, refusal.args[0]))
    return log


MEANING = {
    1: "the unit is not 1 to 14, or not 1 to 10 where data is read or changed",
    2: "the half is not 1 or 2",
    3: "a slice has another length than stated",
    4: "the unit that a store is to read is missing",
    5: "fewer than ten units stand",
    6: "a rebuild is open",
    7: "the ticket does not match",
    8: "the unit to be opened stands",
    9: "the half size is 0 or over 512",
    10: "the hop length is 0 or does not divide the half size",
    11: "the area does not have 28 half sizes",
}


def asked(name, args):
    if name == "fill":
        return f"fill with {len(args[0])} bytes"
    if name == "lose":
        return f"lose unit {args[0]}"
    if name == "read":
        return f"read unit {args[0]} into {args[1]} bytes"
    if name == "change":
        return f"change unit {args[0]} with {len(args[1])} bytes"
    if name == "open":
        return f"open the rebuild of unit {args[0]}"
    _, u, n = args[0]
    by = {"gather": "gather by a ticket", "close": "close by a ticket", "give_up": "give up a ticket"}[name]
    return f"{by} with unit {u} and count {n}"


def unit_in(data, u):
    size = len(data) // 10
    return data[(u - 1) * size:u * size]


def same(one, other):
    return sum(x == y for x, y in zip(one, other))


def told_run(log):
    """The lines of a run. What the units should hold is kept by the accepted fills and changes."""
    out, data, gathers = [], [], []
    for name, args, answer, refusal in log + [(None, [], None, 0)]:
        if name == "gather" and not refusal:
            gathers.append(answer[0])
            continue
        if gathers:
            out.append("  gather:" + halves(gathers))
            gathers = []
        if name is None:
            break
        line = "  " + asked(name, args) + ": "
        if refusal:
            line += f"declined with {refusal}, {MEANING[refusal]}"
        elif name == "read":
            line += f"{answer[0]} halves fetched, {same(answer[1], unit_in(data, args[0]))} of {args[1]} bytes are right"
        elif name == "open":
            line += f"a ticket with unit {answer[1]} and count {answer[2]}"
        elif name == "change":
            size = len(data) // 10
            data[(args[0] - 1) * size:args[0] * size] = args[1]
            line += f"{answer} units put"
        elif name == "close":
            line += f"done, {answer} halves gathered"
        else:
            line += "done"
        if name == "fill" and not refusal:
            data = list(args[0])
        out.append(line)
    return out


def link_ms(count):
    """Milliseconds for so many bytes at 250 bytes a millisecond, rounded up."""
    return -(-count // 250)


RECORDING = [(29 * i + 101 * (i // 256)) % 256 for i in range(12000)]
WALK = [("RS", "CAUCHY", "in one area"), ("XOR", "CAUCHY", "in one area"), ("XOR+", "CAUCHY", "on two shelves"),
        ("NONXOR", "CAUCHY", "in one area"), ("NONXOR", "POLY", "in one area")]
LOST = [2, 8, 10, 12]


def sets_of(recording):
    padded = recording + [0] * (-len(recording) % 20)
    return [padded[i:i + 10240] for i in range(0, len(padded), 10240)]


def rebuild_lines(scheme, number, data, u):
    """A lost unit of one set: what is printed of its rebuild, and the halves and bytes fetched."""
    h = len(data) // 20
    listed = len(fetched(scheme[0], u, [u]))
    steps = [("fill", data), ("lose", u), ("open", u)] + [("goon",)] * (listed + 1)
    back = u if u <= 10 else 1
    if u > 10:
        steps += [("lose", 1), ("lose", 2)]
    log = run(scheme, h, steps + [("read", back, 2 * h)])
    got = [answer[0] for name, _, answer, _ in log if name == "gather"]
    read = log[-1][2][1]
    count = len(got) * h
    way = f"unit {back} reads back" if u <= 10 else f"with units 1 and 2 lost, unit {back} reads back through unit {u}"
    return [
        f"  set {number}: {len(got)} halves:{halves(got)}",
        f"    {count} bytes in {link_ms(count)} ms, Reed-Solomon {20 * h} bytes in {link_ms(20 * h)} ms",
        f"    {way}: {same(read, unit_in(data, back))} of {2 * h} bytes are the recording's",
    ], len(got), count


def boxes(version, code, place, parts):
    """The lost boxes under one scheme, and the line of its total."""
    out = ["", f"{version} over {code}, {place}"]
    total_halves = total_bytes = rs_halves = rs_bytes = 0
    for u in LOST:
        out.append(f"box {u} is lost")
        for number, data in enumerate(parts, 1):
            lines, got, count = rebuild_lines((version, code), number, data, u)
            out += lines
            total_halves, total_bytes = total_halves + got, total_bytes + count
            rs_halves, rs_bytes = rs_halves + 20, rs_bytes + len(data)
    name = f"{version} over {code}"
    return out, (f"  {name:<18}  {total_halves} halves, {total_bytes} bytes, {link_ms(total_bytes)} ms; "
                 f"Reed-Solomon {rs_halves} halves, {rs_bytes} bytes, {link_ms(rs_bytes)} ms")


def scenes(data):
    h = len(data) // 20
    unit, scheme = 2 * h, ("XOR+", "CAUCHY")
    first = unit_in(data, 1)
    goon = [("goon",)]
    yield "A degraded read: the unit is missing, and is rebuilt for the reader alone.", run(scheme, h, [
        ("fill", data), ("read", 3, unit), ("lose", 3), ("read", 3, unit), ("read", 4, unit), ("read", 3, unit)])
    yield "A change while a parity is missing: unit 13 learns of it when it is rebuilt.", run(scheme, h, [
        ("fill", data), ("lose", 13), ("change", 6, first), ("open", 13)] + goon * 21
        + [("lose", u) for u in (4, 5, 6)] + [("read", u, unit) for u in range(1, 11)])
    yield "Ten units are enough, nine are not.", run(scheme, h, [
        ("fill", data), ("lose", 1), ("lose", 2), ("lose", 11), ("lose", 14), ("read", 1, unit), ("lose", 9),
        ("read", 1, unit), ("read", 3, unit), ("change", 3, first), ("open", 1)])
    yield "An old ticket of another set, and a rebuild given up.", run(scheme, h, [
        ("fill", data), ("lose", 3), ("open", 3)] + goon * 2 + [("goon-old",), ("stop-old",), ("read", 3, unit)] + goon
        + [("stop",), ("open", 3)] + goon * 14 + [("read", 3, unit)])


def refusals(data):
    h = len(data) // 20
    log = run(("NONXOR", "POLY"), h, [
        ("fill", data), ("lose", 15), ("read", 1, 3), ("lose", 1), ("lose", 2), ("lose", 3), ("lose", 4), ("lose", 5),
        ("read", 1, 2 * h), ("fill", data), ("lose", 1), ("open", 1), ("lose", 2), ("goon-old",), ("stop",), ("open", 2)])
    out = ["", "The refusals of a set:"]
    out += [f"  {refusal:>2}  {asked(name, args)}: {MEANING[refusal]}" for name, args, _, refusal in log if refusal]
    out.append("Those of a store's read:")
    for unit, half in ((1, 3), (1, 1)):
        number = 2 if half not in (1, 2) else 4
        out.append(f"  {number:>2}  read half {unit}.{half}: {MEANING[number]}")
    out.append("Those of an area's measures:")
    for length, size, hop in ((28, 0, 1), (14336, 512, 5), (14335, 512, 4)):
        number = 9 if not 1 <= size <= 512 else 10 if hop == 0 or size % hop else 11
        assert number < 11 or length != 28 * size
        out.append(f"  {number:>2}  {length} bytes, half size {size}, hop length {hop}: {MEANING[number]}")
    return out


def archive_walk():
    parts = sets_of(RECORDING)
    zeros = sum(map(len, parts)) - len(RECORDING)
    out = [f"A recording of {len(RECORDING)} bytes, kept in sets of at most 10240 bytes: {len(parts)} in all.",
           f"Zeros behind it, up to a multiple of 20 bytes: {zeros}."]
    for number, data in enumerate(parts, 1):
        out.append(f"  set {number}: {len(data)} bytes, ten data units of two halves of {len(data) // 20} bytes")
    out.append("Fourteen boxes hold one unit of every set each, boxes 11 to 14 the parities.")
    out.append("The link carries 2 Mbit in a second: 250 bytes in a millisecond. Times are rounded up.")
    out.append("A fetched half is written as unit.half.")
    totals = []
    for version, code, place in WALK:
        lines, total = boxes(version, code, place, parts)
        out += lines
        totals.append(total)
    for title, log in scenes(parts[-1]):
        out += ["", title] + told_run(log)
    out += refusals(parts[-1]) + ["", "In all, for the lost boxes above:"] + totals
    return "\n".join(out)


if __name__ == "__main__":
    print(archive_walk())
