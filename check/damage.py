#!/usr/bin/env python3
"""Damages small streams at every bit and by every cut, under each command that reads one.

    python3 check/damage.py [PROGRAM] [--seed N] [--quick]

Other streams are damaged at random. Exit code, output and error line are compared with the
definition. No run takes long, nor more memory than a slab and a fixed room; memory is measured
where the program `time` is there. The file that was damaged stays as it is, but where `run` ends
well. Quick takes a share of the bits.
"""

import math

from calls import Calls
from definition.commands import answer
from definition.header import LONG_BYTES
from measure import Measure
from shared import Check, files_of, put_files

MOST_SECONDS = 20
# Kilobytes that a run may hold beside its slab.
ROOM = 24_000
QUICK_SHARE = 20
# Of a stream with more bits than this, which is there for its header, behind that only some are tried.
MOST_BITS, TRIED_BEHIND = 800, 200
RANDOM_STREAMS, QUICK_RANDOM_STREAMS = 250, 25
# Streams of each mode, type and number of dimensions, of few bytes.
SMALL = (
    ("compress int32 5 reversible", 5),
    ("compress int64 3 reversible", 3),
    ("compress int32 5x2 precision 6", 10),
    ("compress int64 2x2x2 precision 3", 8),
    ("compress int32 9 rate 17", 9),
    ("compress int64 3x3 rate 50", 9),
    ("compress int32 2x1x2x3 rate 40", 12),
    ("compress int32 4 rate 2050", 4),
)


class Damage:
    def __init__(self, check):
        self.check, self.measure = check, Measure(check)
        self.measure.is_possible()

    def commands(self, stream):
        """Every command that reads a stream, with what it reads: its words, its input and its files."""
        for words in ("restore", "restore int8", "restore uint16", "info"):
            yield words.split(), stream, {}
        for words in ("run a lines 2", "look a"):
            yield words.split(), b"sum\nstats\n", {"a": stream}
        yield "bound a 1000".split(), b"", {"a": stream}

    def tries(self, stream, what):
        """Gives a stream that may be damaged to every command."""
        for words, data, files in self.commands(stream):
            folder = self.check.folder()
            put_files(folder, files)
            ended, held, seconds = self.measure.run(words, data, folder)
            wanted = answer(words, data, files)
            same = ended.out == wanted.text if wanted.whole else wanted.text.startswith(ended.out)
            same = same and (ended.code, ended.line) == (wanted.code, wanted.line)
            same = same and files_of(folder) == {**files, **wanted.files}
            is_bounded = held <= ROOM + slab_of(stream) and seconds < MOST_SECONDS
            shown = f"{' '.join(words)}, {what}: {held} KB, {seconds:.1f} s"
            self.check.expect(same and is_bounded, shown, stream, ended, wanted)

    def every_bit_and_cut(self, stream, words):
        bits = range(8 * len(stream))
        if len(bits) > MOST_BITS:
            header = 8 * LONG_BYTES
            bits = [*bits[:header], *self.check.random.sample(bits[header:], TRIED_BEHIND)]
        cuts = range(len(stream))
        if self.check.quick:
            bits = self.check.random.sample(bits, len(bits) // QUICK_SHARE)
            cuts = self.check.random.sample(cuts, len(cuts) // QUICK_SHARE)
        for bit in bits:
            broken = bytearray(stream)
            broken[bit // 8] ^= 1 << bit % 8
            self.tries(bytes(broken), f"bit {bit} of {words}")
        for cut in cuts:
            self.tries(stream[:cut], f"{cut} bytes of {words}")
        self.tries(stream + bytes(8), f"{words} and a word of zeros")

    def at_random(self, count):
        calls = Calls(self.check.random)
        for number in range(count):
            words, raw = calls.array("int32", "int64")
            stream = answer(words, raw, {}).text
            for _ in range(self.check.random.randint(1, 3)):
                stream = calls.damaged(stream)
            self.tries(stream, f"random stream {number} of {' '.join(words)}")


def slab_of(stream):
    """The kilobytes that a slab of an array takes, values and codes; 0 where the header is not good."""
    said = answer(["info"], stream, {})
    if said.code != 0:
        return 0
    kind, shape, *_ = said.text.decode().split()
    sizes = [int(size) for size in shape.split("x")]
    rows = min(sizes[-1], 4 if len(sizes) > 1 else 4096)
    return rows * math.prod(sizes[:-1]) * (int(kind[3:]) // 8 + 1) // 1024


def main():
    check = Check(__doc__)
    damage = Damage(check)
    for words, count in SMALL:
        width = 4 if "int32" in words else 8
        raw = b"".join((k * k * 77 % 251).to_bytes(width, "little") for k in range(count))
        damage.every_bit_and_cut(answer(words.split(), raw, {}).text, words)
    damage.at_random(QUICK_RANDOM_STREAMS if check.quick else RANDOM_STREAMS)
    check.end()


if __name__ == "__main__":
    main()
