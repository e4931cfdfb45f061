#!/usr/bin/env python3
"""A second, plain reading of docs/: it prints what the programs must print.

    reference.py walkthrough          the whole output of the walkthrough
    reference.py plate VERSION CODE U the plate's answer to one line

It shares nothing with the proved code: products bit by bit, parities of POLY by long division, versions and
lists written from the documents, lost units by elimination among the forms of the fetched halves. The stored
outputs under crates/ were made with it.
"""
import functools
import sys

H = 2
TOGETHER = [1, 4, 12, 14]


@functools.lru_cache(maxsize=None)
def mul(a, b):
    p = 0
    for i in range(8):
        if b >> i & 1:
            p ^= a << i
    for i in range(14, 7, -1):
        if p >> i & 1:
            p ^= 285 << (i - 8)
    return p


@functools.lru_cache(maxsize=None)
def inv(a):
    return next((b for b in range(256) if mul(a, b) == 1), 0)


def cauchy(l, j):
    return mul(11 ^ (j - 1), inv((9 + l) ^ (j - 1)))


def poly(l, j):
    word = [0] * 14
    word[j - 1] = 1
    for i in range(10):
        q = word[i]
        for k, g in enumerate([1, 15, 54, 120, 64]):
            word[i + k] ^= mul(q, g)
    return word[9 + l]


CODES = {"CAUCHY": cauchy, "POLY": poly}
GROUPS = {
    "RS": {},
    "XOR": {12: [1, 2, 3], 13: [4, 5, 6], 14: [7, 8, 9, 10]},
    "XOR+": {12: [1, 2, 3], 13: [4, 5, 6], 14: [7, 8, 9]},
    "NONXOR": {12: [1, 2, 3], 13: [4, 5, 6], 14: [7, 8, 9]},
}
SCHEMES = [("RS", "CAUCHY"), ("RS", "POLY"), ("XOR", "CAUCHY"), ("XOR", "POLY"), ("XOR+", "CAUCHY"),
           ("NONXOR", "CAUCHY"), ("NONXOR", "POLY")]


def unit_form(version, code, u):
    """The two forms of unit u: twenty multipliers each."""
    c = CODES[code]
    zero = [0] * 20
    if u <= 10:
        first, second = zero[:], zero[:]
        first[u - 1] = 1
        second[9 + u] = 1
        return first, second
    l = u - 10
    first, second = zero[:], zero[:]
    for j in range(1, 11):
        first[j - 1] = c(l, j)
        second[9 + j] = c(l, j)
    for j in GROUPS[version].get(u, []):
        second[j - 1] ^= c(2, j) if version == "NONXOR" else 1
    if u == 12 and version in ("XOR+", "NONXOR"):
        first = [x ^ y for x, y in zip(first, second)]
    return first, second


def fetched(version, u, missing):
    """The listed halves for the missing unit u."""
    standing = [v for v in range(1, 15) if v not in missing]
    if version != "RS" and u <= 10 and len(standing) == 13:
        listed = [(v, 2) for v in range(1, 12) if v != u]
        for parity, group in GROUPS[version].items():
            if u in group:
                return listed + [(parity, 2)] + [(v, 1) for v in group if v != u]
        return listed + [(13, 2), (14, 2), (12, 1)]
    if len(standing) < 10:
        return []
    return [(v, h) for v in standing[:10] for h in (1, 2)]


def halves(listed):
    return "".join(f" {u}.{h}" for u, h in listed)


def plate(version, code, u):
    first, second = unit_form(version, code, u)
    listed = fetched(version, u, [u])
    return "\n".join([" ".join(map(str, first)), " ".join(map(str, second)), f"{len(listed)}{halves(listed)}"])


def data_byte(u, half, i):
    """The walkthrough's data: a fixed rule."""
    return (29 * u + 101 * half + 7 * i) % 256


def apply(form, i):
    """The byte at position i that a form gives for the walkthrough's data."""
    data = [data_byte(u, 1, i) for u in range(1, 11)] + [data_byte(u, 2, i) for u in range(1, 11)]
    total = 0
    for c, x in zip(form, data):
        total ^= mul(c, x)
    return total


def bytes_of(forms, half):
    """The bytes of one half of a unit, by the unit's two forms."""
    return [apply(forms[half - 1], i) for i in range(H)]


def cleared(row, pivots):
    """The row, a form and its bytes, without what the pivot rows can take out of it."""
    for place, pivot in pivots:
        factor = row[place]
        row = [x ^ mul(factor, y) for x, y in zip(row, pivot)]
    return row


def eliminated(rows):
    """Pivot rows of the given rows, each with 1 in its own place."""
    pivots = []
    for row in rows:
        row = cleared(row, pivots)
        place = next((k for k in range(20) if row[k]), None)
        if place is not None:
            by = inv(row[place])
            pivots.append((place, [mul(by, x) for x in row]))
    return pivots


def rebuilt_half(version, code, listed, u, half):
    """The bytes of a lost half, from those of the listed halves alone; None where they do not tell them."""
    fetched_rows = []
    for v, h in listed:
        forms = unit_form(version, code, v)
        fetched_rows.append(forms[h - 1] + bytes_of(forms, h))
    left = cleared(unit_form(version, code, u)[half - 1] + [0] * H, eliminated(fetched_rows))
    return None if any(left[:20]) else left[20:]


def losses(version, code, patterns):
    """How many lost units are rebuilt as they were, and how many halves are fetched, over (lost unit, all lost units)."""
    right, count = 0, 0
    for u, missing in patterns:
        listed = fetched(version, u, missing)
        forms = unit_form(version, code, u)
        count += len(listed)
        right += all(rebuilt_half(version, code, listed, u, h) == bytes_of(forms, h) for h in (1, 2))
    return right, count


def walkthrough():
    out = []
    out.append("One set of ten data units, two bytes in each half, encoded under every version and code.")
    out.append("A unit is shown as its first half and its second half; a half to fetch as unit.half.")
    out.append("Worked figures that are proved of the definitions: 11.")
    for version, code in SCHEMES:
        out.append("")
        out.append(f"{version} {code}")
        for u in range(1, 15):
            forms = unit_form(version, code, u)
            first, second = (" ".join(str(apply(f, i)) for i in range(H)) for f in forms)
            out.append(f"unit {u}: {first} | {second}")
        total = 0
        for u in range(1, 15):
            listed = fetched(version, u, [u])
            total += len(listed)
            out.append(f"lost {u}: fetch {len(listed)} halves, {20 - len(listed)} fewer than 20:{halves(listed)}")
        out.append(f"all fourteen units lost in turn: {total} halves, Reed-Solomon 280")
        right, count = losses(version, code, [(u, [u]) for u in range(1, 15)])
        out.append(f"rebuilt {right} of 14 lost units, each the true one; halves fetched: {count}")
        right, count = losses(version, code, [(u, TOGETHER) for u in TOGETHER])
        out.append(f"rebuilt {right} of {len(TOGETHER)} units lost together, each the true one; halves fetched: {count}")
    return "\n".join(out)


if __name__ == "__main__":
    if sys.argv[1] == "walkthrough":
        print(walkthrough())
    else:
        print(plate(sys.argv[2], sys.argv[3], int(sys.argv[4])))
