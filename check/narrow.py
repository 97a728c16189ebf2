#!/usr/bin/env python3
"""Brings every value of 8 and of 16 bits there and back, in each number of dimensions.

    python3 check/narrow.py [PROGRAM] [--seed N] [--quick]
"""

from definition.streams import NARROW
from shared import Check

# Shapes of all values of a type.
SHAPES = {
    8: ("256", "16x16", "4x8x8", "4x4x4x4"),
    16: ("65536", "256x256", "64x32x32", "16x16x16x16"),
}


def main():
    check = Check(__doc__)
    for name, (bits, _) in NARROW.items():
        raw = b"".join(value.to_bytes(bits // 8, "little") for value in range(2**bits))
        for shape in SHAPES[bits]:
            stream = check.run(["compress", name, shape, "reversible"], raw)
            back = check.run(["restore", name], stream.out)
            is_back = stream.code == 0 and back == (0, raw, b"")
            check.expect(is_back, f"{name} {shape}", stream.code, back.code)
    check.end()


if __name__ == "__main__":
    main()
