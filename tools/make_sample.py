#!/usr/bin/env python3
"""Writes the sample that the gate runs depthpack on: crates/depthpack/stdin and crates/depthpack/stdout.

Run it from the repository's root. Each row of the table is one record and the line that it comes to. The lines were worked
out by hand from the writing rule, with a space between words; none is taken from the program. Two slips in them were
found and corrected by comparison with an independent model of the rule.
"""

U16, U32, U64, PACKED = 1, 2, 3, 4
PLUS, MINUS = 0, 1


def digits(n):
    """The word of sixteen packed decimal digits that writes n."""
    return int(str(n), 16)


NOT_DECIMAL = 0x000000000000000A
GREATEST_U64 = 0xFFFFFFFFFFFFFFFF
GREATEST_PACKED = 9_999_999_999_999_999

# type, sign, precision, word of the numerator, word of the denominator, line
RECORDS = [
    # whole numbers, and their trailing zero groups
    (U64, PLUS, 5, 12345, 1, "0002 0001 0000 0000 0001 0929"),
    (U64, PLUS, 5, 250_000_000, 1, "0002 0002 0000 0000 0002 1388"),
    (U16, PLUS, 0, 10_000, 1, "0001 0001 0000 0000 0001"),
    (U16, MINUS, 3, 65_535, 65_535, "0001 0000 4000 0000 0001"),
    # a third, cut
    (U64, PLUS, 4, 1, 3, "0001 ffff 0000 0004 0d05"),
    (U64, PLUS, 0, 1, 3, "0001 ffff 0000 0001 0bb8"),
    (PACKED, PLUS, 4, digits(1), digits(3), "0001 ffff 0000 0004 0d05"),
    (U16, MINUS, 5, 2, 3, "0002 ffff 4000 0005 1a0a 1770"),
    # a hundred-thousandth: in full, and cut to no group at all
    (U64, PLUS, 5, 1, 100_000, "0001 fffe 0000 0005 03e8"),
    (U64, PLUS, 4, 1, 100_000, "0000 fffe 0000 0004"),
    (U64, PLUS, 2, 1, 100_000, "0000 ffff 0000 0002"),
    (U32, MINUS, 4, 1, 100_000, "0000 fffe 4000 0004"),
    # a whole part and a fraction, zero groups among them
    (U64, PLUS, 16_383, 100_001, 10, "0003 0001 0000 0001 0001 0000 03e8"),
    (U32, PLUS, 4, 400_000_001, 400_000, "0002 0000 0000 0004 03e8 0000"),
    (PACKED, MINUS, 9, digits(12_345_678), digits(1_000), "0003 0001 4000 0003 0001 0929 1a7c"),
    # an expansion that ends
    (U64, MINUS, 16_383, 1, 8, "0001 ffff 4000 0003 04e2"),
    (U32, MINUS, 2, 1, 8, "0001 ffff 4000 0002 04b0"),
    (PACKED, MINUS, 65_535, digits(1), digits(8), "0001 ffff 4000 0003 04e2"),
    # the greatest numbers
    (U64, PLUS, 1, GREATEST_U64, 1, "0005 0004 0000 0000 0734 1a58 02e1 03bb 064f"),
    (U64, MINUS, 1, GREATEST_U64, GREATEST_U64, "0001 0000 4000 0000 0001"),
    (U32, PLUS, 1, 0xFFFFFFFF, 1, "0003 0002 0000 0000 002a 2518 1c7f"),
    (PACKED, PLUS, 1, digits(GREATEST_PACKED), digits(1), "0004 0003 0000 0000 270f 270f 270f 270f"),
    # the greatest precision in force: 16,383 digits
    (U16, PLUS, 65_535, 1, 3, "1000 ffff 0000 3fff" + " 0d05" * 4_095 + " 0d02"),
    # zeros of either sign
    (U16, PLUS, 5, 0, 1, "0000 0000 0000 0000"),
    (U32, PLUS, 5, 0, 7, "0000 0000 0000 0000"),
    (U64, MINUS, 5, 0, 1, "0000 0000 0000 0000"),
    (PACKED, MINUS, 0, digits(0), digits(7), "0000 0000 0000 0000"),
    # no number, and the infinities
    (U16, PLUS, 5, 0, 0, "0000 0000 c000 0000"),
    (PACKED, MINUS, 5, digits(0), digits(0), "0000 0000 c000 0000"),
    (U32, PLUS, 5, 1, 0, "0000 0000 d000 0000"),
    (U64, MINUS, 5, GREATEST_U64, 0, "0000 0000 f000 0000"),
    # numbers that are refused
    (PACKED, PLUS, 5, NOT_DECIMAL, digits(1), "refused 10"),
    (PACKED, MINUS, 5, digits(1), NOT_DECIMAL, "refused 10"),
    (PACKED, PLUS, 5, 0xA000000000000000, 0, "refused 10"),
    (PACKED, PLUS, 5, NOT_DECIMAL, NOT_DECIMAL, "refused 10"),
    (U16, PLUS, 5, 65_536, 1, "refused 11"),
    (U16, MINUS, 5, 1, 65_536, "refused 11"),
    (U32, PLUS, 5, 0x100000000, 1, "refused 11"),
    (U32, MINUS, 5, 0, 0x100000000, "refused 11"),
    (U32, PLUS, 5, GREATEST_U64, 0, "refused 11"),
    # another type or another sign, judged before the numbers
    (0, PLUS, 5, 1, 1, "bad record"),
    (5, PLUS, 5, 1, 1, "bad record"),
    (U16, 2, 5, 1, 1, "bad record"),
    (255, PLUS, 5, GREATEST_U64, NOT_DECIMAL, "bad record"),
    (U16, 255, 5, 65_536, 1, "bad record"),
    (PACKED, 2, 5, NOT_DECIMAL, 1, "bad record"),
    (U64, PLUS, 5, 12345, 1, "0002 0001 0000 0000 0001 0929"),
]

# the last record is cut; its first bytes are not looked at
CUT = (bytes([9, 9]) + bytes(17), "short record")


def record(kind, sign, precision, numerator, denominator):
    return bytes([kind, sign]) + precision.to_bytes(2, "big") + numerator.to_bytes(8, "big") + denominator.to_bytes(8, "big")


def line(text):
    return text if text[0] in "brs" else text.replace(" ", "")


def main():
    stdin = b"".join(record(*row[:5]) for row in RECORDS) + CUT[0]
    stdout = "".join(line(row[5]) + "\n" for row in RECORDS) + CUT[1] + "\n"
    with open("crates/depthpack/stdin", "wb") as f:
        f.write(stdin)
    with open("crates/depthpack/stdout", "w") as f:
        f.write(stdout)


if __name__ == "__main__":
    main()
