#!/usr/bin/env python3
"""Compares streams of random arrays with those of zfp 1.0.0, to the bit and in both directions.

    python3 check/peers.py [PROGRAM] [--seed N] [--quick]

Needs the program `zfp` (Debian's package of this name). Fixed rate, fixed precision and the
reversible mode, of int32 and int64 in one and two dimensions: the streams are the same, where those
of zfp are filled with zeros to whole words, and each restores what the other has written. In three
and four dimensions each refuses the other's. Values are below 2^(w-2) in magnitude in the modes
that lose: above that zfp's own sums overflow.
"""

import math
import shutil
import subprocess

from calls import Calls, shape_word
from shared import Check, error_line

ARRAYS, QUICK_ARRAYS = 400, 60
VERSION = "1.0.0"
# How many values the widest arrays have.
MANY, QUICK_MANY = 2**20, 2**14
MODES = ("rate", "precision", "reversible")
# At 64 planes zfp writes the long header of no mode, which is not read here.
MOST_PLANES = 63


class Peers:
    def __init__(self, check):
        self.check, self.random = check, check.random
        self.raw, self.stream, self.back = (check.room / name for name in ("raw", "stream", "back"))

    def zfp(self, *words):
        """Runs zfp. Gives its exit code."""
        command = ["zfp", "-q", "-h", *map(str, words)]
        return subprocess.run(command, capture_output=True, check=False).returncode

    def mode(self, width, dims):
        """The words of a mode for both programs, and whether it loses nothing."""
        mode = self.random.choice(MODES)
        if mode == "reversible":
            return [mode], ["-R"], True
        if mode == "precision":
            planes = self.random.randint(1, MOST_PLANES)
            return [mode, str(planes)], ["-p", planes], False
        bits = self.random.randint(1, 4**dims * self.random.choice((8, width + 1, 150)))
        return [mode, str(bits)], ["-r", repr(bits / 4**dims)], False

    def compare(self, width, shape):
        dims = len(shape)
        ours, theirs, is_exact = self.mode(width, dims)
        raw = self.values(width, math.prod(shape), width - 1 if is_exact else width - 2)
        self.raw.write_bytes(raw)
        what = f"int{width} {shape_word(shape)} {' '.join(ours)}"
        code = self.zfp("-i", self.raw, "-t", f"i{width}", f"-{dims}", *shape, *theirs, "-z", self.stream)
        self.check.expect(code == 0, f"{what}: zfp writes a stream", code)
        if code == 0:
            stream = self.stream.read_bytes()
            self.judge(what, dims, ["compress", *what.split()], raw, stream)

    def judge(self, what, dims, words, raw, stream):
        filled = stream + bytes(-len(stream) % 8)
        made = self.check.run(words, raw)
        if dims > 2:
            back = self.check.run(["restore"], filled)
            is_refused = (back.code, back.line) == (4, error_line("header: order"))
            self.check.expect(is_refused, f"{what}: refused", back)
        else:
            is_same = (made.code, made.out) == (0, filled)
            self.check.expect(is_same, f"{what}: the same stream", made.code, raw)
            self.restores(what, filled, raw)
        self.stream.write_bytes(made.out)
        code = self.zfp("-z", self.stream, "-o", self.back)
        if dims > 2:
            self.check.expect(code != 0, f"{what}: zfp refuses ours", code)
            return
        ours = self.check.run(["restore"], made.out).out
        same = code == 0 and self.back.read_bytes() == ours
        self.check.expect(same, f"{what}: zfp restores ours as we do", code, raw)

    def restores(self, what, filled, raw):
        """Whether we restore zfp's stream as zfp does."""
        code = self.zfp("-z", self.stream, "-o", self.back)
        back = self.check.run(["restore"], filled)
        same = (code, back.code) == (0, 0) and back.out == self.back.read_bytes()
        self.check.expect(same, f"{what}: zfp's stream restored as zfp does", back.code, raw)

    def all_planes(self):
        """At 64 planes zfp's header is refused, and ours is read by zfp."""
        raw = self.values(64, 20, 62)
        self.raw.write_bytes(raw)
        self.zfp("-i", self.raw, "-t", "i64", "-1", 20, "-p", MOST_PLANES + 1, "-z", self.stream)
        stream = self.stream.read_bytes()
        back = self.check.run(["restore"], stream + bytes(-len(stream) % 8))
        self.check.expect(back.line == error_line("header: mode 4095"), "zfp's stream of 64 planes", back)
        made = self.check.run(f"compress int64 20 precision {MOST_PLANES + 1}".split(), raw)
        self.stream.write_bytes(made.out)
        code = self.zfp("-z", self.stream, "-o", self.back)
        same = code == 0 and self.back.read_bytes() == self.check.run(["restore"], made.out).out
        self.check.expect(same, "zfp restores our stream of 64 planes", code)

    def values(self, width, count, bits):
        """Raw values that are below 2^bits in magnitude."""
        half = 1 << bits
        raw = Calls(self.random).raw(width, count)
        size = width // 8
        numbers = (int.from_bytes(raw[at : at + size], "little") for at in range(0, len(raw), size))
        limited = ((number + half) % (2 * half) - half for number in numbers)
        return b"".join(max(number, 1 - half).to_bytes(size, "little", signed=True) for number in limited)


def is_there(check):
    """Whether zfp of the right version is there."""
    if shutil.which("zfp") is None:
        check.skip("there is no zfp")
        return False
    said = subprocess.run(["zfp"], capture_output=True, check=False)
    if f"zfp version {VERSION}".encode() not in said.stdout + said.stderr:
        check.skip(f"zfp is not {VERSION}")
        return False
    return True


def main():
    check = Check(__doc__)
    if is_there(check):
        peers = Peers(check)
        calls = Calls(check.random)
        for _ in range(QUICK_ARRAYS if check.quick else ARRAYS):
            peers.compare(check.random.choice((32, 64)), calls.shape())
        peers.all_planes()
        many = QUICK_MANY if check.quick else MANY
        for width in (32, 64):
            peers.compare(width, (many,))
            peers.compare(width, (1 << many.bit_length() // 2, many >> many.bit_length() // 2))
    check.end()


if __name__ == "__main__":
    main()
