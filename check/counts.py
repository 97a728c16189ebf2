#!/usr/bin/env python3
"""Counts the reads and writes of the commands, and what they take of their input.

    python3 check/counts.py [PROGRAM] [--seed N] [--quick]

Output is handed on in pieces of 64 KiB, and what is read to its end comes in such pieces, so that a
thousand replies take few writes. Files that are compared are read in pieces of 4 KiB. `info` takes the 19
bytes of a header and no more, however many come, and a command that reads nothing takes nothing. Of the reads
of an input one at most finds it at its end, which a terminal would have to give again. Counts need strace;
what is taken does not.
"""

import os
import re
import shutil

from definition.commands import answer
from shared import Check, put_files

PIECE, COMPARED = 65536, 4096
# What a call may ask for beside its pieces: its end, the pages of the system, a folder's names.
ROOM = 12
CALL = re.compile(r"(read|pread64|readv|write|writev)\((\d+),.*= (\d+)$")
VALUES = 50_000
NUMBERS = b"".join((k * k % 1009).to_bytes(4, "little") for k in range(VALUES))
REPLIES = 1000


class Counts:
    def __init__(self, check):
        self.check, self.log = check, check.room / "calls"
        folder = check.folder("made")
        self.stream = check.run(f"compress int32 {VALUES} reversible".split(), NUMBERS).out
        check.run(f"new a int32 {VALUES} 128".split(), folder=folder)
        self.array = (folder / "a").read_bytes()

    def calls(self, words, data, files):
        """How often a command asks the system, by call and number of the file, and how it ended."""
        folder = self.check.folder()
        put_files(folder, files)
        before = ["strace", "-o", str(self.log), "-e", "trace=read,pread64,readv,write,writev"]
        ended = self.check.run(words.split(), data, folder, before)
        counts = {}
        for line in self.log.read_text(errors="replace").splitlines():
            if found := CALL.match(line):
                call = found[1].rstrip("v").removesuffix("64")
                for it in (call, "end") if call == "read" and found[3] == "0" else (call,):
                    key = (it, int(found[2]))
                    counts[key] = counts.get(key, 0) + 1
        return ended, counts

    def few(self, words, data=b"", files=None, codes=(0, 1)):
        """Whether a command makes no more reads and writes than its pieces ask for."""
        files = files or {}
        ended, counts = self.calls(words, data, files)
        what = f"{words}, {len(data)} bytes of input, {len(ended.out)} of output"
        most_read, most_written = pieces(len(data)) + ROOM, pieces(len(ended.out)) + 1
        reads, writes = counts.get(("read", 0), 0), counts.get(("write", 1), 0)
        self.check.expect(ended.code in codes, f"{what}: it is done", ended.code, ended.line)
        self.check.expect(reads <= most_read, f"{what}: {reads} reads of the input, at most {most_read}")
        ends = counts.get(("end", 0), 0)
        self.check.expect(ends <= 1, f"{what}: {ends} reads find the input at its end, at most one")
        self.check.expect(writes <= most_written, f"{what}: {writes} writes, at most {most_written}")
        # A file is read and written in few pieces, and compared in small ones.
        others = sum(count for (call, file), count in counts.items() if file > 2 and call != "end")
        most = 2 * ROOM + 2 * sum(len(file) // COMPARED for file in files.values())
        self.check.expect(others <= most, f"{what}: {others} reads and writes of files, at most {most}")

    def all(self):
        replies = b"get 0\n" * REPLIES
        files = {"a": self.array, "s": self.stream}
        self.few(f"compress int32 {VALUES} reversible", NUMBERS)
        self.few(f"compress uint8 {VALUES} rate 40", NUMBERS[:VALUES])
        self.few("restore", self.stream)
        self.few("restore uint16", self.stream)
        self.few("info", self.stream)
        self.few("run a", replies, files)
        self.few("run a twoway 4", replies + b"set 0 1\n", files)
        self.few("look s", replies, files)
        self.few("run a", b"set 1 7\nget 1\n" * 8 * REPLIES, files)
        self.few("bound a 99", files=files)
        self.few(f"new b int32 {VALUES} 128", files=files)
        # Inputs that end before all of them was asked for.
        stream = self.check.run("compress int32 90 reversible".split(), NUMBERS[:360]).out
        for data in (b"", stream[:15], stream[:-1], stream + b"a"):
            for words in ("info", "restore", "restore uint16", "compress int32 90 rate 64", "run a"):
                self.few(words, data, {}, (answer(words.split(), data, {}).code,))


def pieces(count):
    return -(-count // PIECE)


def taken(check, counts):
    """What each command takes of an input of which it needs little or nothing."""
    files = {"a": counts.array}
    for words, wanted in (("info", 19), ("bound a 9", 0), ("new b int32 4 64", 0), ("look nosuch", 0)):
        for data in (counts.stream, counts.stream[:5000]):
            folder = check.folder()
            put_files(folder, files)
            source = check.room / "input"
            source.write_bytes(data)
            number = os.open(source, os.O_RDONLY)
            ended = check.run(words.split(), folder=folder, stdin=number)
            at = os.lseek(number, 0, os.SEEK_CUR)
            os.close(number)
            told = answer(words.split(), data, files)
            same = (ended.code, ended.out) == (told.code, told.text)
            check.expect(same and at == wanted, f"{words} takes {wanted} of {len(data)} bytes", at, ended)


def main():
    check = Check(__doc__)
    counts = Counts(check)
    taken(check, counts)
    if shutil.which("strace") is None or counts.calls("frob", b"", {})[0].code != 2:
        check.skip("counts of reads and writes, since there is no strace, or it may not trace here")
    else:
        counts.all()
    check.end()


if __name__ == "__main__":
    main()
