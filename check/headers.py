#!/usr/bin/env python3
"""A header and little behind it take no memory for values that the stream cannot hold, nor does a longer stream of a
large shape, and lines of a cache none beyond the number of blocks. A long file that is no stream is refused by its
first bytes, of which as many are looked at as the longest header has.

    python3 check/headers.py [PROGRAM] [--seed N] [--quick]

Needs the program `time`, for the memory.
"""

from definition.codes import PRECISION, RATE
from definition.commands import answer
from definition.header import Header, header_bits
from definition.planes import bytes_of_bits
from measure import Measure
from shared import Check, error_line, put_files

# kilobytes
ROOM = 16 * 1024

# The most bytes that a file may have.
MAX_FILE = 1_200_000_000


def header_of(words):
    """The header of a stream of these words, by the definition, and not its codes."""
    kind, shape, mode, *number = words.split()
    sizes = tuple(int(size) for size in shape.split("x"))
    header = Header(int(kind[3:]), sizes, mode, int(number[0]) if mode in (RATE, PRECISION) else 0)
    bits = header_bits(header)
    return bytes_of_bits(bits + [0] * (-len(bits) % 8))


WIDEST = (
    "int64 8192x4096x4 reversible",
    "int64 16777216x8 precision 5",
    "int32 16777216x8 rate 1",
    "int64 4096x4096x4x2 rate 32768",
    "int64 65536x2048x1 reversible",
    "int64 134217728 reversible",
)


# Large shapes in one to four dimensions, of which no value takes more bytes than its code: at a rate each has as many,
# and without loss 31 planes or more stand in codes of ones.
LONGER = (
    "int32 134217728 rate 128",
    "int64 134217728 reversible",
    "int32 16777216x8 rate 512",
    "int32 16777216x8 reversible",
    "int64 33554430x4 rate 1024",
    "int64 65536x2048x1 rate 4096",
    "int32 8191x4095x4 reversible",
    "int64 8192x4096x4 reversible",
    "int64 4096x4096x4x2 rate 16384",
    "int32 4095x4095x8x1 reversible",
)
PIECE = 300 * 1024


def peaks(check):
    measure = Measure(check)
    if not measure.is_possible():
        return
    for words in WIDEST:
        commands = [["restore"]] + [["restore", "uint8"]] * words.startswith("int32")
        for behind in (b"", bytes(4), bytes(2000)):
            data = header_of(words) + behind
            for command in commands:
                ended, held, seconds = measure.run(command, data)
                # Each bit can be a block of its own, of at most 256 values of 8 bytes.
                most = ROOM + len(behind) * 8 * 256 * 8 // 1024
                what = f"{' '.join(command)} of {words} and {len(behind)} bytes: {held} KB, {seconds:.2f} s"
                check.expect(ended.code == 5 and held <= most, what, ended)


def longer_peaks(check):
    """What a stream of 300 KiB holds, most of it codes, where its shape is large."""
    measure = Measure(check)
    if not measure.is_possible():
        return
    for words in LONGER:
        data = header_of(words) + b"\xff" * PIECE
        ended, held, seconds = measure.run(["restore"], data)
        # A value without loss has 31 bits or more, and is 4 or 8 bytes.
        most = ROOM + 3 * PIECE // 1024
        what = f"restore of {words} and {PIECE} bytes: {held} KB, {seconds:.2f} s"
        check.expect(ended.code == 5 and held <= most, what, ended)


def lines_beyond(check):
    """Lines of a cache beyond the number of blocks have no values: 16 views of 65536 lines, over 16 blocks."""
    measure = Measure(check)
    if not measure.is_possible():
        return
    folder = check.folder()
    check.run(["new", "a", "int64", "64x4x4x4", "256"], folder=folder)
    for words, script in (
        (["run", "a"], b"split 16 65536\n@0 stats\n"),
        (["run", "a", "lines", "65536"], b"set 0,0,0,0 1\nlines 65536\nresize 60x4x4x4\nstats\n"),
        (["run", "a", "twoway", "65536"], b"set 0,0,0,0 1\nlines 32768\nstats\n"),
        (["look", "a", "lines", "65536"], b"get 0,0,0,0\nlines 32768\nstats\n"),
    ):
        ended, held, seconds = measure.run(words, script, folder)
        what = f"{' '.join(words)}: {held} KB, {seconds:.2f} s"
        check.expect(ended.code == 0 and held <= 2 * ROOM, what, ended)


def files_of_no_stream(check):
    """A long file that is no stream, here a sparse one, is refused by its first bytes."""
    measure = Measure(check)
    if not measure.is_possible():
        return
    folder = check.folder()
    with open(folder / "a", "wb") as file:
        file.truncate(MAX_FILE)
    for words in (["look", "a"], ["run", "a"], ["run", "a", "twoway", "4"], ["bound", "a", "9"]):
        ended, held, seconds = measure.run(words, b"stats\n", folder)
        what = f"{' '.join(words)} of {MAX_FILE} bytes: {held} KB, {seconds:.2f} s"
        fits = held <= ROOM and seconds < 2
        check.expect(fits and ended.code == 4 and ended.line == error_line("header: magic"), what, ended)


# Arrays whose headers have 12 bytes, 19, and 12; of each the command that makes its file.
FRONTS = ("new a int32 9x5 2048", "new a int64 3x2x5 2049", "compress int64 9x5 reversible")
ENDS = (0, 3, 11, 12, 15, 18, 19, 20, 24)


def fronts(check):
    """The look at the first bytes of a file sees all of its header: those of a whole file, and of one that is cut."""
    for words in FRONTS:
        folder = check.folder()
        made = check.run(words.split(), bytes(range(180)) * 2, folder)
        whole = made.out or (folder / "a").read_bytes()
        for data in [whole, *(whole[:end] for end in ENDS)]:
            for command in ("look a", "run a", "bound a 9"):
                put_files(folder, {"a": data})
                ended = check.run(command.split(), b"stats\n", folder)
                told = answer(command.split(), b"stats\n", {"a": data})
                same = (ended.code, ended.out) == (told.code, told.text)
                check.expect(same, f"{command} of {words}, of which there are {len(data)} bytes", ended, told)


def main():
    check = Check(__doc__)
    fronts(check)
    peaks(check)
    longer_peaks(check)
    lines_beyond(check)
    files_of_no_stream(check)
    check.end()


if __name__ == "__main__":
    main()
