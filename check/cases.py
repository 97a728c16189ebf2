"""A call of each command, on small inputs, for the checks that disturb each of them."""

from typing import NamedTuple

from definition.commands import answer


class Case(NamedTuple):
    """A call, and the exit code with which it ends undisturbed."""

    name: str
    words: list
    data: bytes = b""
    files: dict = {}
    code: int = 0

    def saves(self):
        """Whether it changes a file."""
        return self.words[0] in ("new", "run")


def made(words, data=b""):
    """What a call writes by the definition."""
    return answer(words.split(), data, {}).text


# The first block is zeros.
SQUARES = [i * i % 1000 if i % 24 > 3 or i > 95 else 0 for i in range(24 * 24)]
RAW = b"".join(value.to_bytes(4, "little") for value in SQUARES)
GRAY = bytes(value % 256 for value in SQUARES)
REVERSIBLE = made("compress int32 24x24 reversible", RAW)
ARRAY = made("compress int32 24x24 rate 256", RAW)
# What a killed save of the file `a` leaves.
LEFT_OVER = ".a.zfpi-0123456789abcdef"
# A power of two among zeros comes back exactly, so that the same script once more changes nothing.
SCRIPT = b"set 0,0 1048576\nget 0,0\nget 5,5\nsum\n"
REFUSED = b"get 24,24\nset 0,0 1048576\nget 9,9\nfrob\n"

COMMANDS = [
    Case("compress", "compress int32 24x24 reversible".split(), RAW),
    Case("compress narrow", "compress uint8 24x24 rate 100".split(), GRAY),
    Case("compress too little", "compress int32 24x24 precision 12".split(), RAW[:-1], code=3),
    Case("restore", ["restore"], REVERSIBLE),
    Case("restore narrow", ["restore", "uint16"], REVERSIBLE),
    Case("restore what is cut", ["restore"], REVERSIBLE[:-8], code=5),
    Case("info", ["info"], REVERSIBLE),
    Case("new", "new a int32 24x24 64".split()),
    Case("new over an old file", "new a int32 24x24 64".split(), files={"a": ARRAY, "b": b"other"}),
    Case("run", ["run", "a"], SCRIPT, {"a": ARRAY, "b": b"other"}),
    Case("run with refused lines", "run a lines 2".split(), REFUSED, {"a": ARRAY}, 1),
    Case("run with a file left over", ["run", "a"], SCRIPT, {"a": ARRAY, LEFT_OVER: ARRAY[:40]}),
    Case("run that changes nothing", "run a twoway 4".split(), b"get 3,3\nsum\n", {"a": ARRAY}),
    Case("look", ["look", "s"], b"get 0,0\nsum\nvsum\nset 0,0 1\n", {"s": REVERSIBLE}, 1),
    Case("bound", ["bound", "a", "1000"], files={"a": ARRAY}),
    Case("sample", "sample int32 24x24 1 reversible".split()),
    Case("words that are none", ["frob"], code=2),
]
