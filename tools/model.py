#!/usr/bin/env python3
"""A model of depthpack: records on standard input, their lines on standard output.

Written from docs/PACKAGE.md and docs/RECORDS.md alone, without the program's sources, as the measure that tools/compare_model
holds the program to. It is exact and slow: whole numbers of any length, and decimal digits as text.
"""

import sys

GREATEST = {1: 2**16 - 1, 2: 2**32 - 1, 3: 2**64 - 1}  # of the types u16, u32, u64
PACKED = 4
PLUS, MINUS, NOT_A_NUMBER, INFINITY, MINUS_INFINITY = 0x0000, 0x4000, 0xC000, 0xD000, 0xF000
GREATEST_PRECISION = 16_383


class Refused(Exception):
    """A number of a record that its type does not take."""


def fours(digits):
    """The digits chopped into fours from the left; the last piece may be shorter."""
    return [digits[i : i + 4] for i in range(0, len(digits), 4)]


def package(weight=0, sign=PLUS, scale=0, groups=()):
    """The bytes of a package: its words, the most significant byte of each first."""
    words = [len(groups), weight % 2**16, sign, scale] + [int(group) for group in groups]
    return b"".join(word.to_bytes(2, "big") for word in words)


def scale_of(n, d, precision):
    """How many decimals n over d is written with. No d below 2^64 has a factor 2^64 or 5^64, so what ends, ends within 63."""
    in_force = min(max(precision, 1), GREATEST_PRECISION)
    return min([in_force] + [s for s in range(64) if n * 10**s % d == 0])


def write(sign, n, d, precision):
    """The package of n over d, d not 0."""
    if n == 0:
        return package()
    scale = scale_of(n, d, precision)
    digits = str(n * 10**scale // d).rjust(scale, "0")
    point = len(digits) - scale
    whole, decimals = digits[:point], digits[point:]
    if whole:
        return write_with_whole_part(sign, whole, decimals)
    return write_without_whole_part(sign, decimals)


def write_with_whole_part(sign, whole, decimals):
    before = fours(whole.rjust((len(whole) + 3) // 4 * 4, "0"))
    groups = before + [piece.ljust(4, "0") for piece in fours(decimals)]
    while not decimals and groups[-1] == "0000":
        groups.pop()
    return package(len(before) - 1, sign, len(decimals), groups)


def write_without_whole_part(sign, decimals):
    weight, pieces = -1, fours(decimals)
    while pieces and int(pieces[0]) == 0:
        if len(pieces.pop(0)) == 4:
            weight -= 1
    return package(weight, sign, len(decimals), [piece.ljust(4, "0") for piece in pieces])


def number(kind, word):
    """The number that eight bytes of a record mean."""
    if kind == PACKED:
        if not word.hex().isdecimal():
            raise Refused(10)
        return int(word.hex())
    if int.from_bytes(word, "big") > GREATEST[kind]:
        raise Refused(11)
    return int.from_bytes(word, "big")


def judge(record):
    """The line of one record."""
    if len(record) < 20:
        return "short record"
    kind, minus, precision = record[0], record[1], int.from_bytes(record[2:4], "big")
    if kind not in (1, 2, 3, PACKED) or minus not in (0, 1):
        return "bad record"
    try:
        n = number(kind, record[4:12])
        d = number(kind, record[12:20])
    except Refused as refused:
        return f"refused {refused}"
    if d == 0 and n == 0:
        return package(sign=NOT_A_NUMBER).hex()
    if d == 0:
        return package(sign=MINUS_INFINITY if minus else INFINITY).hex()
    return write(MINUS if minus else PLUS, n, d, precision).hex()


def main():
    if hasattr(sys, "set_int_max_str_digits"):
        sys.set_int_max_str_digits(0)  # a number may have 16,403 digits
    data = sys.stdin.buffer.read()
    for at in range(0, len(data), 20):
        print(judge(data[at : at + 20]))


if __name__ == "__main__":
    main()
