#!/usr/bin/env python3
"""Flips bits of the sample's streams, one at a time, and counts how many of the damaged streams are restored
with code 0.

    python3 bench/flips.py [PROGRAM]

PROGRAM is the built program, by default crates/zfpi/out/zfpi. Needs nothing else. A stream has no checksum:
this shows what that means. The bits are behind the header, a fixed number of bits apart.
"""

import pathlib
import subprocess
import sys

TOP = pathlib.Path(__file__).resolve().parent.parent
HEADER_BITS = 96
# the mode, and how far apart the flipped bits are
TRIALS = [(("reversible",), 127), (("rate", "64"), 61)]


def ran(program, data, *words):
    return subprocess.run([program, *words], input=data, capture_output=True, check=False)


def flipped(stream, bit):
    damaged = bytearray(stream)
    damaged[bit // 8] ^= 1 << bit % 8
    return bytes(damaged)


def main():
    program = sys.argv[1] if len(sys.argv) > 1 else str(TOP / "crates/zfpi/out/zfpi")
    raw = (TOP / "data/plate.i32").read_bytes()
    for mode, apart in TRIALS:
        stream = ran(program, raw, "compress", "int32", "48x32", *mode).stdout
        whole = ran(program, stream, "restore").stdout
        done = [
            ran(program, flipped(stream, bit), "restore")
            for bit in range(HEADER_BITS, 8 * len(stream), apart)
        ]
        unseen = [one for one in done if one.returncode == 0]
        same = sum(one.stdout == whole for one in unseen)
        print(
            f"{' '.join(mode)}: {len(unseen)} of {len(done)} restored with code 0,"
            f" {same} of them to the same values"
        )


if __name__ == "__main__":
    main()
