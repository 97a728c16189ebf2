#!/usr/bin/env python3
"""Compares random calls of all commands with the definition of the formats in check/definition.

    python3 check/definitions.py [PROGRAM] [--seed N] [--quick]

Of each call: its exit code, what it writes, its error line, and each file of its folder afterwards.
Most arrays have at most some hundred values. Those of large.py have up to 6,000 blocks, in each type, mode
and number of dimensions, for which numpy is needed, and its long scripts run on files of up to 200 KB.
"""

import math

from calls import Calls, shape_word
from definition.commands import WIDTHS, answer
from definition.streams import NARROW
from large import Large
from shared import Check, files_of, put_files

CASES, QUICK_CASES = 8000, 400
# What the calls of a full run have to come to, so that they are known to reach it.
CODES = {0, 1, 2, 3, 4, 5, 6, 7, 8, 13}
REFUSALS = {b"! word", b"! split", b"! size", b"! range", b"! value"}


class Definitions:
    def __init__(self, check):
        self.check, self.random = check, check.random
        self.calls = Calls(check.random)
        self.reached = set()

    def compare(self, words, data=b"", files=None):
        """Runs a call in a folder with these files, and compares it with the definition. Gives its output."""
        files = files or {}
        folder = self.check.folder()
        put_files(folder, files)
        ended = self.check.run(words, data, folder)
        wanted = answer(words, data, files)
        same = ended.out == wanted.text if wanted.whole else wanted.text.startswith(ended.out)
        same = same and (ended.code, ended.line) == (wanted.code, wanted.line)
        same = same and files_of(folder) == {**files, **wanted.files}
        self.check.expect(same, " ".join(words), data, files, ended, wanted)
        self.reached |= {wanted.code, *REFUSALS.intersection(wanted.text.splitlines())}
        return ended.out

    def compress_and_restore(self):
        words, raw = self.calls.array(*WIDTHS, *NARROW)
        if self.random.random() < 0.2:
            raw = self.calls.damaged(raw)
        stream = self.compare(words, raw)
        if self.random.random() < 0.5:
            stream = self.calls.damaged(stream)
        self.compare(["restore"], stream)
        self.compare(["restore", self.random.choice(list(NARROW))], stream)
        self.compare(["info"], stream)

    def made(self):
        """A stream of a random array of a wide type, its shape and its width."""
        words, raw = self.calls.array(*WIDTHS)
        stream = self.check.run(words, raw).out
        return stream, [int(size) for size in words[2].split("x")], WIDTHS[words[1]]

    def look_and_bound(self):
        stream, shape, width = self.made()
        if self.random.random() < 0.25:
            stream = self.calls.damaged(stream)
        lines = self.random.choice(([], ["lines", self.random.choice(("1", "2", "3", "65536"))]))
        self.compare(["look", "a", *lines], self.calls.script(shape, width), {"a": stream, "b": b"other"})
        most = self.random.getrandbits(self.random.randint(1, 64))
        self.compare(["bound", "a", str(most)], files={"a": stream})

    def run(self):
        """An array of zeros or of values, a script, and the same array once more."""
        shape, width = self.calls.shape(), self.random.choice((32, 64))
        rate = str(self.calls.rate(len(shape)))
        self.compare(["new", "a", f"int{width}", shape_word(shape), rate], files={"a": b"old"})
        raw = self.calls.raw(width, math.prod(shape))
        words = ["compress", f"int{width}", shape_word(shape), "rate", rate]
        file = self.check.run(words, raw).out
        if self.random.random() < 0.1:
            file = self.calls.damaged(file)
        way = self.random.choice(([], ["lines"], ["twoway"]))
        lines = [self.random.choice(("1", "2", "3", "4", "16"))] if way else []
        self.compare(["run", "a", *way, *lines], self.calls.script(shape, width), {"a": file, "b": b"other"})

    def words(self):
        """Words of which some are no command."""
        kind = self.random.randrange(4)
        shape, name = shape_word(self.calls.shape()), self.random.choice(("a", "A-b.c_9", "z" * 64))
        if kind == 0:
            words, _ = self.calls.array(*WIDTHS, *NARROW)
        elif kind == 1:
            words = ["new", name, "int32", shape, "64"]
        elif kind == 2:
            words = [*self.random.choice((["run", name, "lines", "4"], ["look", name], ["bound", name, "7"]))]
        else:
            words = ["restore", "int16"]
        self.compare(self.calls.changed_words(words))

    def sample(self):
        shape = self.calls.shape()
        seed = str(self.random.getrandbits(64))
        words = ["sample", self.random.choice(list(WIDTHS)), shape_word(shape), seed]
        self.compare(words + self.calls.mode(len(shape)))

    def all(self, cases):
        kinds = (
            *[self.compress_and_restore] * 3,
            *[self.run] * 4,
            *[self.look_and_bound] * 2,
            *[self.words] * 2,
            self.sample,
        )
        begun = self.check.passed + self.check.failed
        while self.check.passed + self.check.failed < begun + cases:
            self.random.choice(kinds)()


def main():
    check = Check(__doc__)
    definitions = Definitions(check)
    too_long = b"\n" * 16_777_217
    made = check.run(["compress", "int32", "2", "reversible"], bytes(8)).out
    definitions.compare(["look", "a"], too_long, {"a": made})
    definitions.compare(["look", "a"], too_long[1:], {"a": made})
    large = Large(check)
    large.arrays()
    large.long_scripts()
    definitions.all(QUICK_CASES if check.quick else CASES)
    if not check.quick:
        missing = (CODES | REFUSALS) - definitions.reached
        check.expect(not missing, "all codes and refusals are reached", missing)
    check.end()


if __name__ == "__main__":
    main()
