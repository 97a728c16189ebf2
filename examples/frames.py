#!/usr/bin/env python3
"""Packs a folder of PGM frames of 16 bits, one stream a frame, and unpacks it again.

    python3 examples/frames.py pack FOLDER MODE..
    python3 examples/frames.py unpack FOLDER

`pack` makes NAME.zfpi beside each NAME.pgm, `unpack` the other way round. A frame gets its name once it is
whole, so a run that was cut off leaves no half of one. Values of PGM stand with their high byte first, and
zfpi reads the low byte first.
"""

import pathlib
import re
import subprocess
import sys

import numpy

from packing import pack, unpack

HEAD = "P5\n{} {}\n65535\n"


def frame_in(data):
    """The values of a PGM frame of 16 bits; its head is four words and one byte of space."""
    head = re.match(rb"P5\s+(\d+)\s+(\d+)\s+(\d+)\s", data)
    if head is None or int(head.group(3)) < 256:
        raise ValueError("no PGM frame of 16 bits")
    width, height = int(head.group(1)), int(head.group(2))
    return numpy.frombuffer(data, dtype=">u2", offset=head.end()).reshape(height, width)


def frame_of(values):
    height, width = values.shape
    return HEAD.format(width, height).encode() + values.astype(">u2").tobytes()


def put(file, data):
    """Makes a file that has its name only once it is whole."""
    part = file.with_name(file.name + ".part")
    try:
        part.write_bytes(data)
        part.replace(file)
    finally:
        part.unlink(missing_ok=True)


def pack_frame(file, mode):
    put(file.with_suffix(".zfpi"), pack(frame_in(file.read_bytes()), *mode))


def unpack_frame(file):
    put(file.with_suffix(".pgm"), frame_of(unpack(file.read_bytes(), "uint16")))


def main():
    if len(sys.argv) < 3 or sys.argv[1] not in ("pack", "unpack"):
        sys.exit(__doc__)
    way, folder, *mode = sys.argv[1:]
    files = sorted(pathlib.Path(folder).glob("*.pgm" if way == "pack" else "*.zfpi"))
    failed = 0 if files else 1
    if failed:
        print(f"{folder}: there are no frames")
    for file in files:
        try:
            pack_frame(file, mode) if way == "pack" else unpack_frame(file)
        except (ValueError, OSError, subprocess.CalledProcessError) as error:
            failed += 1
            print(f"{file}: {error}")
    sys.exit(1 if failed else 0)


if __name__ == "__main__":
    main()
