#!/usr/bin/env python3
"""Makes the tables of this crate from the rule of the plane code.

    python3 crates/zf_planes/tables.py [TABLE]

With the name of a table, such as PAIRS, it prints its rows. Else it compares each table with the one in src/entries.rt, and says which are the same. There
the rule of the entries stands above each.
"""

import pathlib
import re
import sys
import textwrap

HERE = pathlib.Path(__file__).resolve().parent


def digits_of(number, size):
    """The digits of a plane, that of rank 0 first."""
    return [number >> rank & 1 for rank in range(size)]


def number_of(bits):
    return sum(bit << place for place, bit in enumerate(bits))


def reach(digits):
    return max((rank + 1 for rank, digit in enumerate(digits) if digit), default=0)


def run_code(digits):
    """The code from a run on: its digits up to the first one, of which that of the last rank is implied, and all behind it."""
    if len(digits) < 2:
        return []
    if not digits[0]:
        return [0] + run_code(digits[1:])
    return [1] + tail_code(digits[1:])


def tail_code(digits):
    """The code of the digits of ranks that have had no one above."""
    if not digits:
        return []
    return [1] + run_code(digits) if any(digits) else [0]


def plane_code(above, digits):
    """The code of a plane in which the ranks below `above` have had a one above."""
    return digits[:above] + tail_code(digits[above:])


def plane_in(above, bits, size=4):
    """The plane whose code these bits begin with, or none where they are too few."""
    for number in range(2**size):
        digits = digits_of(number, size)
        code = plane_code(above, digits)
        if bits[: len(code)] == code:
            return digits, len(code)
    return None


def in_lanes(planes):
    """The digits of up to four planes in four lanes of four bits, a lane for each rank, those of the last plane lowest."""
    lanes = 0
    for rank in range(4):
        lane = 0
        for digits in planes:
            lane = 2 * lane + digits[rank]
        lanes += lane << 4 * rank
    return lanes


def doubled():
    for number in range(256):
        bits = [bit for digit in digits_of(number, 8) for bit in ([1, 1] if digit else [0])]
        yield number_of(bits) + (len(bits) << 16)


def tail_codes():
    for number in range(256):
        digits = digits_of(number, 9)
        code = tail_code(digits)
        yield number_of(code) - number + (len(code) << 16) + (reach(digits) << 24)


def pairs():
    for above in range(3):
        for number in range(256):
            first, second = digits_of(number % 16, 4), digits_of(number // 16, 4)
            between = max(above, reach(first))
            code = plane_code(above, first) + plane_code(between, second)
            yield number_of(code) + (len(code) << 14) + (max(between, reach(second)) << 18)


def lanes():
    for above in range(3):
        for number in range(256):
            bits, planes, taken, reached = digits_of(number, 8), [], 0, above
            while len(planes) < 4 and (found := plane_in(reached, bits[taken:])):
                planes.append(found[0])
                taken += found[1]
                reached = max(reached, reach(found[0]))
            yield in_lanes(planes) + (taken << 16) + (len(planes) << 20) + (reached << 23)


def spread():
    for number in range(256):
        yield sum((number >> 7 - k & 1) << 4 * k for k in range(8))


def run_begun(bits):
    """Digits whose doubled digits these bits begin with, as many as there are, and how many bits those are."""
    digits, taken = [], 0
    while taken < len(bits):
        if bits[taken] and bits[taken + 1 : taken + 2] != [1]:
            break
        digits.append(bits[taken])
        taken += 1 + bits[taken]
    return digits, taken


def tails():
    for most in range(1, 10):
        for number in range(256):
            bits = [1] + digits_of(number, 8)
            digits, taken = run_begun(bits[1:])
            known = number_of(digits) + (len(digits) << 8) + (96 + taken << 12)
            for value in range(1, min(2**most, 256)):
                digits = digits_of(value, most)
                code = tail_code(digits)
                if bits[: len(code)] == code:
                    known = value + (reach(digits) << 8) + (len(code) << 12)
            yield known


TABLES = {"DOUBLED": doubled, "TAIL_CODES": tail_codes, "PAIRS": pairs, "LANES": lanes, "SPREAD": spread, "TAILS": tails}


def laid_out(entries, indent):
    """Entries as lines of at most 110 columns."""
    return textwrap.fill(" ".join(map(str, entries)), 110, initial_indent=indent, subsequent_indent=indent)


def rows_of(name):
    """The rows of a table as they stand in src/. In that of the tails the first four rows of 256 entries repeat some of them."""
    entries = list(TABLES[name]())
    if name != "TAILS":
        return laid_out(entries, "    ")
    rows = []
    for most in range(1, 5):
        period = 64 if most == 4 else 16
        row = entries[256 * (most - 1) :][:period]
        rows.append(f"    {256 // period} times {{\n{laid_out(row, ' ' * 8)}\n    }}")
    rows.append("    1 time {\n" + laid_out(entries[1024:], " " * 8) + "\n    }")
    return "\n".join(["    []", *rows])


def in_source(name):
    text = (HERE / "src" / "entries.rt").read_text()
    return re.search(rf"static {name}: .*? = table! \{{\n(.*?)\n\}};", text, re.S)[1]


def main():
    if len(sys.argv) > 1:
        print(rows_of(sys.argv[1]))
        return 0
    others = [name for name in TABLES if rows_of(name) != in_source(name)]
    for name in TABLES:
        print(f"{name}: {'another' if name in others else 'the same'}")
    return 1 if others else 0


if __name__ == "__main__":
    sys.exit(main())
