#!/usr/bin/env python3
"""Refuses memory to each of many commands: each allocation alone, and from each one on.

    python3 check/memory.py [PROGRAM] [--seed N] [--quick]

Needs Linux and a C compiler. A run has to end with code 20, and then it wrote nothing and no file
changed; or with `! memory` as the reply to `lines`, `resize` or `split`, behind which the later
lines run on the state before that line; or with a fault of the device that had no memory for
itself; or as without a refusal.
"""

import itertools
import re

from preload import Preload
from shared import Check, error_line, files_of, put_files

ONE = b"zfp\x05\0\0\0\0\0\0\0\x88\x1f\0\0\0\x30\0\0\0\0\0\0\0"
TWO_WAY_SCRIPT = b"set 0 9\nlines 2\nget 0\nstats\nlines 1\nset 0 3\nflush\nget 0\n"
SCRIPT = TWO_WAY_SCRIPT + b"resize 8\nget 0\nlines 1\nset 0 3\nsplit 2 1\n@0 set 0 5\n@1 get 4\n"
TAKES_MEMORY = re.compile(rb"(lines|resize|split) ")


def shape_of(dims, size):
    return "x".join([str(size)] * dims)


def script_of(dims):
    """Lines of all kinds on an array of so many dimensions."""
    one = ",".join(["1"] * dims)
    lines = f"set {one} 5\nfill 3\nview {one} {shape_of(dims, 2)} {one}\nvget {one}\nvsum\nlines 4\n"
    lines += f"resize {shape_of(dims, 6)}\nget {one}\nlines 1\nsum\n"
    return lines.encode()


class Memory:
    def __init__(self, check, preload):
        self.check, self.preload = check, preload

    def run(self, words, data, files, **settings):
        """How a run ends, the files behind it, and how often it asked for memory."""
        folder = self.check.folder()
        put_files(folder, files)
        ended, asked = self.preload.run(words.split(), data, folder, **settings)
        return ended, files_of(folder), asked

    def tries(self, words, data=b"", files=None):
        """Refuses each allocation of a command, alone and with all behind it."""
        files = files or {}
        whole, after, count = self.run(words, data, files)
        self.check.expect(count > 0 and whole.code in (0, 1), f"{words}: asks for memory", whole)
        for number in range(1, count + 1):
            for way in ("REFUSED", "REFUSED_FROM"):
                ended, left, _ = self.run(words, data, files, **{way: number})
                good = (ended, left) == (whole, after) or self.is_good(words, data, files, whole, ended, left)
                self.check.expect(good, f"{words}: {way} {number} of {count}", ended, sorted(left))
        return after

    def is_good(self, words, data, files, whole, ended, left):
        """Whether a run to which memory was refused ended as it may."""
        if ended.code == 20:
            # With no line where it was the words themselves that found none.
            lines = (error_line("out of memory"), b"")
            return ended.line in lines and ended.out == b"" and left == files
        if ended.code == 11:
            is_part = whole.out.startswith(ended.out)
            return ended.line == error_line("write fault") and is_part and left == files
        if ended.code == 12:
            return self.is_fault_of_shelf(words, files, whole, ended, left)
        return ended.code == 1 and self.refused_lines(words, data, files, ended, left)

    def is_fault_of_shelf(self, words, files, whole, ended, left):
        """A load or a save for whose names there was no memory, and which changed nothing."""
        if left != files:
            return False
        if ended.line == error_line("load fault"):
            return words.startswith(("run", "look", "bound")) and ended.out == b""
        is_save = words.startswith(("new", "run")) and ended.line == error_line("save fault")
        return is_save and (ended.out == whole.out or b"! memory\n" in ended.out)

    def refused_lines(self, words, data, files, ended, left):
        """Whether all is as if the lines that were answered by `! memory` were not there."""
        wanting = ended.out.splitlines().count(b"! memory")
        lines = data.splitlines()
        asking = [number for number, line in enumerate(lines) if TAKES_MEMORY.match(line)]
        for gone in itertools.combinations(asking, wanting):
            kept = b"".join(line + b"\n" for number, line in enumerate(lines) if number not in gone)
            other, after, _ = self.run(words, kept, files)
            rest = [reply for reply in ended.out.splitlines() if reply != b"! memory"]
            if wanting and other.out.splitlines() == rest and after == left:
                return True
        return False


def wide(memory, dims):
    """The commands on an array of int64 of so many dimensions."""
    shape = shape_of(dims, 5)
    compress = f"compress int64 {shape} reversible"
    raw = bytes(range(8)) * 5**dims
    memory.tries(compress, raw)
    stream = memory.check.run(compress.split(), raw).out
    memory.tries("restore", stream)
    memory.tries("look a", script_of(dims), {"a": stream})
    array = memory.tries(f"new a int64 {shape} 100")
    memory.tries("run a", script_of(dims), array)
    memory.tries(f"sample int64 {shape} 7 precision 20")


def main():
    check = Check(__doc__)
    preload = Preload(check)
    if preload.is_built():
        memory = Memory(check, preload)
        memory.tries("compress int32 2 reversible", bytes([1, 0, 0, 0, 2, 0, 0, 0]))
        memory.tries("compress int8 2 rate 8", bytes([1, 2]))
        memory.tries("restore", ONE)
        memory.tries("restore uint16", ONE)
        array = memory.tries("new a int32 8 64")
        memory.tries("run a lines 2", SCRIPT, array)
        memory.tries("run a twoway 2", TWO_WAY_SCRIPT, array)
        memory.tries("look a lines 2", b"get 0\nlines 4\nsum\nstats\n", {"a": ONE})
        memory.tries("bound a 100", b"", array)
        memory.tries("sample int32 4x4 1 rate 64")
        for dims in (2,) if check.quick else (1, 2, 3, 4):
            wide(memory, dims)
    check.end()


if __name__ == "__main__":
    main()
