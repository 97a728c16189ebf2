"""Random calls of the program, for the checks that need some."""

import math

from definition.codes import PRECISION, RATE, REVERSIBLE
from definition.commands import WIDTHS
from definition.grammar import COMMANDS
from definition.streams import NARROW

# The most values along an axis, by the number of axes.
MOST_ALONG = {1: 40, 2: 13, 3: 7, 4: 5}
# How likely each number of dimensions is.
DIMENSIONS = (1, 1, 1, 2, 2, 2, 3, 3, 4)


def shape_word(shape):
    return "x".join(map(str, shape))


class Calls:
    """Makes random words and inputs."""

    def __init__(self, random):
        self.random = random

    def shape(self):
        dims = self.random.choice(DIMENSIONS)
        return tuple(self.random.randint(1, MOST_ALONG[dims]) for _ in range(dims))

    def rate(self, dims):
        size = 4**dims
        return self.random.randint(1, self.random.choice((8, 64, size * 8, size * 34, 3000)))

    def mode(self, dims):
        """The words of a mode."""
        mode = self.random.choice((REVERSIBLE, RATE, RATE, PRECISION))
        if mode == REVERSIBLE:
            return [mode]
        if mode == RATE:
            return [mode, str(self.rate(dims))]
        return [mode, str(self.random.randint(1, self.random.choice((12, 36, 128))))]

    def raw(self, width, count):
        """Raw values: noise, few values, small ones, the ends of the type, one value, or a slope."""
        top = 1 << width
        ends = [0, 1, top - 1, top // 2 - 1, top // 2, top // 2 + 1, top // 4, top - top // 4]
        kind = self.random.randrange(6)
        if kind == 0:
            return self.random.randbytes(width // 8 * count)
        if kind == 1:
            few = [self.random.randrange(top) for _ in range(3)]
            values = [self.random.choice(few) for _ in range(count)]
        elif kind == 2:
            most = 1 << self.random.randint(1, width - 2)
            values = [self.random.randint(-most, most) for _ in range(count)]
        elif kind == 3:
            values = [self.random.choice(ends) for _ in range(count)]
        elif kind == 4:
            values = [self.random.getrandbits(self.random.randint(1, width))] * count
            if self.random.random() < 0.3:
                values[self.random.randrange(count)] += 1
        else:
            start, step = self.random.randrange(top), self.random.randint(-9, 99)
            values = [start + step * k for k in range(count)]
        return b"".join((value % top).to_bytes(width // 8, "little") for value in values)

    def array(self, *types):
        """The words of `compress` of a random array, and its raw values."""
        kind = self.random.choice(types)
        shape = self.shape()
        width = WIDTHS[kind] if kind in WIDTHS else NARROW[kind][0]
        words = ["compress", kind, shape_word(shape), *self.mode(len(shape))]
        return words, self.raw(width, math.prod(shape))

    def damaged(self, data):
        """Bytes that are cut, changed, continued, or lack some in the middle."""
        kind = self.random.randrange(5)
        at = self.random.randrange(len(data) + 1)
        if kind == 0 or at == len(data):
            return data[:at] if self.random.random() < 0.5 else data + bytes(self.random.choice((1, 7, 8, 9)))
        if kind == 1:
            return data[:at] + bytes([data[at] ^ 1 << self.random.randrange(8)]) + data[at + 1 :]
        if kind == 2:
            return data + self.random.randbytes(self.random.randint(1, 9))
        if kind == 3:
            return data[:at] + data[at + self.random.randint(1, 9) :]
        return data[:at] + self.random.randbytes(self.random.randint(1, 9)) + data[at:]

    def changed_words(self, words):
        """Words of which one is another, gone, or too many."""
        other = ("", "x", "01", "0", "-1", "4x", "x4", "1x1x1x1x1")
        other += ("rate", "lines", "twoway", "int8", "uint32")
        far = (str(2**64), str(2**64 - 1), f"{2**64}x1", "65537x1x1", "134217729", "32769", "a" * 65)
        words, at = list(words), self.random.randrange(len(words) + 1)
        kind = self.random.randrange(3)
        if kind == 0 or at == len(words):
            words.insert(at, self.random.choice(other + far + tuple(words)))
        elif kind == 1:
            del words[at]
        else:
            words[at] = self.random.choice(other + far)
        return words

    def position(self, sizes):
        """A position, mostly one within these sizes."""
        over = self.random.random() < 0.05
        return ",".join(str(self.random.randrange(size + 2 if over else size)) for size in sizes)

    def value(self, width):
        kind = self.random.randrange(8)
        if kind == 0:
            ends = (1 << width - 1, (1 << width - 1) - 1, -(1 << width - 1), -(1 << width - 1) - 1, 2**64 - 1)
            return str(self.random.choice(ends))
        return str(self.random.randint(-(10**kind), 10**kind))

    def number(self):
        return str(self.random.choice((0, 1, 1, 2, 2, 3, 4, 5, 8, 16, 17, 65536, 65537, 2**64 - 1)))

    def line(self, shape, width):
        """A line of a script on an array, mostly one that is accepted."""
        name = self.random.choice(("get", "get", "set", "set", "set", "add", *COMMANDS))
        words = [name] + [self.word(kind, name, shape, width) for kind in COMMANDS[name]]
        if name == "resize" and self.random.random() < 0.7:
            words[1] = shape_word([self.random.randint(1, MOST_ALONG[len(shape)]) for _ in shape])
        if self.random.random() < 0.25:
            words.insert(0, f"@{self.random.choice((0, 0, 1, 1, 2, 3, 16, 2**64 - 1))}")
        line = " ".join(words)
        return self.broken(line) if self.random.random() < 0.05 else line

    def word(self, kind, name, shape, width):
        if kind == "position":
            return self.position([3] * len(shape) if name in ("vget", "vset") else shape)
        if kind == "value":
            return self.value(width)
        if kind == "sizes":
            return shape_word([self.random.randint(1, max(1, size // 2)) for size in shape])
        if kind == "any sizes":
            return self.random.choice(("0", "1x2x3x4", "4x4", "65536x65536", "134217729", "9x9x9"))
        if name == "slice":
            return str(self.random.randrange(3))
        return self.number()

    def broken(self, line):
        """A line that is mostly none."""
        at = self.random.randrange(len(line) + 1)
        more = self.random.choice((" ", "0", "x", ",", "-", "@", "\r", "\t", "\0", "é", ""))
        return line[:at] + more + line[at + self.random.randrange(2) :]

    def script(self, shape, width):
        lines = [self.line(shape, width) for _ in range(self.random.choice((0, 3, 12, 30)))]
        if self.random.random() < 0.4:
            at = self.random.randrange(len(lines) + 1)
            lines.insert(at, f"split {self.random.choice((1, 2, 2, 3))} {self.random.choice((1, 2, 4))}")
        text = "\n".join(lines).encode("utf-8")
        return text + b"\n" * self.random.randrange(3)
