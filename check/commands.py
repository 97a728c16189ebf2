#!/usr/bin/env python3
"""Runs a call of each kind of command on real files, and one for each exit code: line, output and files.

    python3 check/commands.py [PROGRAM]

What is expected is computed by hand from docs/FORMAT.md and SCRIPTS.md, and stands here as it is; what
narrow values and the two-way cache answer comes from the definition in Python. So it shows what no clause
says of `main`: that the words, the standard streams, the files of the folder and the exit code are those
of the call.
"""

import contextlib
import os
import resource
from typing import NamedTuple

from definition.commands import answer
from shared import Check, error_line, files_of, put_files


class Row(NamedTuple):
    """A call, and how it ends. `files` are those of the folder before, `changed` what is other behind it."""

    words: str
    data: bytes = b""
    files: dict = {}
    code: int = 0
    out: bytes = b""
    line: str = ""
    changed: dict = {}


class Place(NamedTuple):
    """What else a call finds: an input or an output of this name, a folder, an empty file that is as long as
    this, and at most so many bytes of address space."""

    source: str = ""
    sink: str = ""
    folder: str = ""
    hole: tuple = ()
    room: int = 0


def bits(text):
    """The bytes of a text in hexadecimal, where `00*n` stands for n zero bytes."""
    made = b""
    for part in text.split():
        byte, _, count = part.partition("*")
        made += bytes.fromhex(byte) * int(count or 1)
    return made


def by_definition(words, data=b"", files=None):
    """A call that ends as the definition in Python says."""
    files = files or {}
    told = answer(words.split(), data, files)
    changed = {name: held for name, held in told.files.items() if files.get(name) != held}
    line = told.line.decode().removeprefix("zfpi: ").rstrip("\n")
    return Row(words, data, files, told.code, told.text, line, changed)


ONE = bits("7a 66 70 05 00 00 00 00 00 00 00 88 1f 00 00 00 30 00*7")
TWO = bits("7a 66 70 05 10 00 00 00 00 00 00 88 1f 00 00 00 48 07 00*6")
THREES = bits("7a 66 70 05 34 00 00 30 00 00 f0 07 00 00 00 60 05 00*15")
ZEROS = bits("7a 66 70 05 70 00 00 00 00 00 f0 03 00*20")
SAVED = bits("7a 66 70 05 70 00 00 00 00 00 f0 03 00 00 00 60 27 00*15")
SETS = b"set 0 1\nset 1 2\nset 2 3\nset 3 4\nget 0\nflush\nget 0\nget 1\nget 2\nget 3\n"
LOOKS = b"get 1\nsum\nset 0 1\nlines 2\nview 1 1 1\nvget 0\n"
GRAY = bytes(range(64))

LONG = 1_200_000_001
LITTLE_ROOM = 200_000_000
ALL_REFUSED = b"get 8\nset 0 2147483648\nlines 0\nresize 0\nsplit 1 1\nget 0\n@0 get 0\njoin\nfrob\n"

KINDS = {
    "compress": Row("compress int32 1 reversible", bits("01 00*3"), out=ONE),
    "compress NARROW": by_definition("compress uint8 8x8 reversible", GRAY),
    "restore": Row("restore", THREES, out=bits("03 00*3") * 16),
    "restore NARROW": by_definition(
        "restore uint8", by_definition("compress uint8 8x8 reversible", GRAY).out
    ),
    "info": Row(
        "info",
        bits("7a 66 70 05 30 00 00 00 00 00 10 00 01 00*3"),
        out=b"int32 4 rate 2 blocks 1 header 96\n",
    ),
    "new": Row("new a int32 8 64", changed={"a": ZEROS}),
    "run": Row("run a", SETS, {"a": ZEROS}, out=b"1\n0\n2\n2\n4\n", changed={"a": SAVED}),
    "run lines": Row(
        "run a lines 1",
        b"set 0 1\nget 0\nflush\nget 0\nstats\n",
        {"a": ZEROS},
        out=b"1\n0\nhits 1 misses 2 writes 1\n",
    ),
    "run twoway": by_definition("run a twoway 2", SETS, {"a": ZEROS}),
    "look": Row("look r", LOOKS, {"r": TWO}, 1, b"2\n3\n! word\n2\n", "1 lines refused"),
    "bound": Row("bound a 100", files={"a": ZEROS}, out=b"plane 0 bound 4\n"),
    "sample": Row("sample int32 1 0 reversible", out=b"values 1 blocks 1 bytes 24 changed 0\n"),
}

REFUSALS = {
    "1, lines": Row(
        "run a",
        ALL_REFUSED,
        {"a": ZEROS},
        1,
        b"! range\n! value\n! size\n! size\n! split\n0\n! word\n",
        "6 lines refused",
    ),
    "2, words that are none": Row("frob", code=2, line="usage: word 0"),
    "3, no raw values": Row("compress int32 2 reversible", code=3, line="input ends after 0 bytes"),
    "3, a raw value too many": Row(
        "compress int32 1 reversible", bytes(5), code=3, line="input is longer than the shape"
    ),
    "4, no header": Row("restore", code=4, line="header: short"),
    "5, a code that is cut": Row("restore", THREES[:-8], code=5, line="stream ends in block 0"),
    "5, a fill bit": Row("restore", ONE[:-1] + b"\x80", code=5, line="fill bit is one"),
    "5, a word too many": Row(
        "look r", b"get 0\n", {"r": ONE + bytes(8)}, 5, line="bytes after the stream"
    ),
    "6, no array": Row("run r", b"get 0\n", {"r": ONE}, 6, line="mode 2176 has no cached array"),
    "7, no file": Row("run nosuch", b"get 0\n", code=7, line="no such file"),
    "8, a script that is too long": Row(
        "run a", b"\n" * 16_777_217, {"a": ZEROS}, 8, line="script too long"
    ),
    "9, a file that is too long": Row("look hole", b"get 0\n", code=9, line="file too long"),
    "10, no input": Row("restore", code=10, line="read fault"),
    "10, no script": Row("run a", files={"a": ZEROS}, code=10, line="read fault"),
    "11, no room for output": Row("restore", THREES, code=11, line="write fault"),
    "11, no room for replies": Row("run a", SETS, {"a": ZEROS}, 11, line="write fault"),
    "12, no file to load": Row("run d", b"get 0\n", code=12, line="load fault"),
    "12, no file to save": Row("new d int32 8 64", code=12, line="save fault"),
    "13, a type that is not int32": Row(
        "restore int8",
        bits("7a 66 70 05 45 00 00 60 00 00 00 88 00*4"),
        code=13,
        line="type is not int32",
    ),
    "20, no memory": Row("new a int32 134217728 64", files={"a": ONE}, code=20, line="out of memory"),
    "22, words that are no text": Row("restore \udcff", THREES, code=22),
}



class Script(NamedTuple):
    """A script on so many zeros of int32 in blocks of 64 bits, the words behind the name, and the replies."""

    size: int
    words: str
    lines: str
    replies: str


# What a word of a rule does: counts that a change keeps, numbers of lines that are raised, and which line of
# two is taken. Each reply turns where that rule is another one.
SCRIPTS = (
    Script(8, "lines 2", "set 0 1, resize 4, stats", "hits 0 misses 1 writes 0"),
    Script(8, "lines 2", "set 0 1, set 1 2, set 2 3, set 3 4, split 1 1, @0 get 3", "4"),
    Script(8, "lines 1", "get 0, vsum, stats", "0, 0, hits 7 misses 2 writes 0"),
    Script(8, "lines 1", "split 1 1, join, get 0", "0"),
    Script(16, "lines 3", "get 0, get 12, get 0, stats", "0, 0, 0, hits 1 misses 2 writes 0"),
    Script(16, "lines 1", "lines 3, get 0, get 12, get 0, stats", "0, 0, 0, hits 1 misses 2 writes 0"),
    Script(16, "look lines 3", "get 0, get 12, get 0, stats", "0, 0, 0, hits 1 misses 2 writes 0"),
    Script(16, "twoway 2", "get 0, get 4, get 8, get 0, stats", "0, 0, 0, 0, hits 0 misses 4 writes 0"),
    Script(16, "twoway 2", "get 8, get 0, get 8, stats", "0, 0, 0, hits 0 misses 3 writes 0"),
)

PLACES = {
    "9, a file that is too long": Place(hole=("hole", LONG)),
    "10, no input": Place(source="."),
    "10, no script": Place(source="."),
    "11, no room for output": Place(sink="/dev/full"),
    "11, no room for replies": Place(sink="/dev/full"),
    "12, no file to load": Place(folder="d"),
    "12, no file to save": Place(folder="d"),
    "20, no memory": Place(room=LITTLE_ROOM),
}
# Refused raw values leave a prefix of the stream on the output.
WITH_A_PREFIX = ("3, no raw values", "3, a raw value too many", "5, a code that is cut", "5, a fill bit")
STATUSES = {0, 1, 2, 3, 4, 5, 6, 7, 8, 9, 10, 11, 12, 13, 20, 22}


def limit_of_room(most):
    return lambda: resource.setrlimit(resource.RLIMIT_AS, (most, most))


def ran(check, row, place, folder):
    """Runs a call in its place."""
    how = {"preexec_fn": limit_of_room(place.room)} if place.room else {}
    if place.folder:
        (folder / place.folder).mkdir()
    if place.hole:
        (folder / place.hole[0]).touch()
        os.truncate(folder / place.hole[0], place.hole[1])
    with contextlib.ExitStack() as opened:
        if place.source:
            how["stdin"] = os.open(folder / place.source, os.O_RDONLY)
            opened.callback(os.close, how["stdin"])
        if place.sink:
            how["stdout"] = opened.enter_context(open(place.sink, "wb"))
        return check.run(row.words.split(), row.data, folder, **how)


def judge(check, name, row):
    place, folder = PLACES.get(name, Place()), check.folder()
    put_files(folder, row.files)
    ended = ran(check, row, place, folder)
    if place.hole:
        hole = folder / place.hole[0]
        check.expect(hole.stat().st_size == place.hole[1], f"{name}: the file is as long as before")
        hole.unlink()
    out = ended.out if name in WITH_A_PREFIX else row.out
    expected = (row.code, out, error_line(row.line), row.files | row.changed)
    seen = (ended.code, ended.out, ended.line, files_of(folder))
    check.expect(seen == expected, f"{name}: {row.words!r}", seen, expected)


def judge_script(check, row):
    folder = check.folder()
    check.run(["new", "a", "int32", str(row.size), "64"], folder=folder)
    command = "look a" if row.words.startswith("look") else "run a"
    words = f"{command} {row.words.removeprefix('look ')}"
    ended = check.run(words.split(), lines_in(row.lines), folder)
    expected = (0, lines_in(row.replies), b"")
    check.expect(ended == expected, f"{words} on {row.size} zeros: {row.lines}", ended, expected)


def lines_in(text):
    return text.replace(", ", "\n").encode() + b"\n"


def main():
    check = Check(__doc__)
    for row in SCRIPTS:
        judge_script(check, row)
    rows = KINDS | REFUSALS
    for name, row in rows.items():
        judge(check, name, row)
    check.expect({row.code for row in rows.values()} == STATUSES, "each exit code has a row")
    check.say(f"each kind of command, with its code, output, error line and files: {', '.join(KINDS)}")
    check.say(f"each exit code, with the same: {'; '.join(REFUSALS)}")
    check.end()


if __name__ == "__main__":
    main()
