"""Arrays of up to 6,000 blocks in every type, mode and number of dimensions, and scripts on large files.

They are part of the check `definitions`. What is expected comes from the definition: of arrays by numpy,
which tells all blocks at once (definition/many.py), of scripts by a session over those codes of a file that
are asked for.
"""

import itertools
import math
from types import SimpleNamespace

from calls import Calls, shape_word
from definition.arrays import Cache, Codes, CodesOfFile, ConstantBlocks, TwoWayCache, default_lines
from definition.blocks import SIDE, block_count
from definition.bounds import error
from definition.codes import PRECISION, RATE, REVERSIBLE
from definition.commands import WIDTHS, replied
from definition.grammar import IN_A_LOOK, IN_A_RUN, IN_A_TWO_WAY_RUN
from definition.header import Header, header_bits, rate_bytes, read_header
from definition.planes import bytes_of_bits
from definition.scripts import Session
from definition.streams import NARROW, stream_of_codes
from shared import error_line, files_of, put_files

try:
    import numpy
    from definition import many
except ImportError:
    numpy = None

MOST_BLOCKS, QUICK_MOST_BLOCKS = 6000, 700
TYPES = (*WIDTHS, *NARROW)
MODES = (REVERSIBLE, RATE, PRECISION)
LINES, QUICK_LINES = 150, 40
# Lines that ask for all values, where an array has more than this, take the definition too long.
MOST_VALUES_FOR_ALL = 20_000
ASK_ALL = ("sum", "vsum", "fill", "resize", "split")
# Arrays of a fixed rate for long scripts, all of which have files above 64 KiB.
LONG = (
    ("int32", (20_003,), 128),
    ("int64", (237, 202), 520),
    ("int32", (63, 41, 38), 640),
    ("int64", (30, 22, 17, 11), 2100),
    ("int64", (9_999,), 257),
    ("int32", (130, 190), 700),
    ("int64", (50, 30, 29), 1300),
    ("int32", (21, 21, 21, 21), 900),
)
LONG_LINES, QUICK_LONG_LINES = 12_000, 6_000
QUICK_LONG = 3
# So many lines of a long script follow one another within few blocks.
TOGETHER = 25


def run_answer(file, script, way="lines", lines=None):
    """How `run a` ends on a file of a fixed rate."""
    header = read_header(file)
    kind, known = (TwoWayCache, IN_A_TWO_WAY_RUN) if way == "twoway" else (Cache, IN_A_RUN)
    codes = Codes(header, CodesOfFile(header, file))
    session = Session(header, kind(codes, lines or default_lines(block_count(header.shape))), known)
    replies, refused = session.run(script)
    session.end()
    codes = session.cache.backing.codes
    saved = codes.file() if isinstance(codes, CodesOfFile) else stream_of_codes(session.header, codes)
    return replied(replies, refused, {"a": saved})


def look_answer(header, blocks, script, lines=None):
    """How `look a` ends on a stream of these blocks."""
    backing = ConstantBlocks(SimpleNamespace(header=header, blocks=blocks))
    cache = Cache(backing, lines or default_lines(len(blocks)))
    return replied(*Session(header, cache, IN_A_LOOK).run(script), {})


def zeros(header):
    """The file of an array of zeros, whose codes are zeros."""
    bits = header_bits(header)
    head = bytes_of_bits(bits + [0] * (-len(bits) % 8))
    return head + bytes(rate_bytes(header) - len(head))


class Large:
    def __init__(self, check):
        self.check, self.random, self.calls = check, check.random, Calls(check.random)

    def expect(self, what, ended, code, out, line=b"", is_whole=True):
        same = ended.out == out if is_whole else out.startswith(ended.out)
        same = same and (ended.code, ended.line) == (code, line)
        seen = (ended.code, ended.line, len(ended.out), first_other(ended.out, out))
        self.check.expect(same, what, seen, (code, line, len(out)))

    def ran(self, words, data=b"", files=None):
        folder = self.check.folder()
        put_files(folder, files or {})
        return self.check.run(words, data, folder), files_of(folder)

    def judge(self, what, words, script, file, wanted):
        """Whether a call on the file `a` answers as wanted, and leaves that file."""
        ended, files = self.ran(words, script, {"a": file, "b": b"other"})
        self.expect(what, ended, wanted.code, wanted.text, wanted.line)
        left = wanted.files.get("a", file)
        same = files == {"a": left, "b": b"other"}
        self.check.expect(same, f"{what}: the files", sorted(files), first_other(files.get("a", b""), left))

    # Arrays

    def shape(self, dims, most):
        """A shape of some number of blocks up to this one; each power of two is as likely."""
        left = round(math.exp(self.random.uniform(0, math.log(most))))
        along = []
        for axis in range(dims, 0, -1):
            usual = max(1, round(left ** (1 / axis)))
            along.append(left if axis == 1 else self.random.randint(max(1, usual // 2), min(left, 2 * usual)))
            left = max(1, left // along[-1])
        self.random.shuffle(along)
        return tuple(SIDE * blocks - self.random.randrange(SIDE) for blocks in along)

    def numbers(self, bits, count):
        """Values of a type: noise, slopes with noise, few ones among zeros, or one value."""
        rng = numpy.random.default_rng(self.random.getrandbits(64))
        half, kind = 1 << bits - 1, self.random.randrange(5)
        if kind == 0:
            return rng.integers(-half, half - 1, count, endpoint=True)
        if kind == 1:
            return numpy.full(count, self.random.randrange(-half, half))
        most = 1 << self.random.randint(1, bits - 1)
        steps = rng.integers(-most, most - 1, count, endpoint=True)
        if kind == 2:
            return numpy.where(rng.random(count) < 0.05, steps, 0)
        return steps if kind == 3 else numpy.cumsum(steps >> self.random.randrange(bits))

    def arrays(self):
        """An array of each type, number of dimensions and mode."""
        if numpy is None:
            self.check.skip("arrays of more than a hundred blocks, since there is no numpy")
            return
        kinds = [*itertools.product(TYPES, (1, 2, 3, 4), MODES)]
        most = QUICK_MOST_BLOCKS if self.check.quick else MOST_BLOCKS
        if self.check.quick:
            kinds = [it for it in kinds if it[0] in WIDTHS] + self.random.sample(kinds, 6)
        for kind, dims, mode in kinds:
            self.array(kind, self.shape(dims, most), mode)
        # One of each wide type and number of dimensions has as many blocks as may be.
        for kind, dims in itertools.product(WIDTHS, (1, 2, 3, 4)):
            along = round((most if self.check.quick else MOST_BLOCKS) ** (1 / dims))
            self.array(kind, (SIDE * along,) * (dims - 1) + (SIDE * along - 1,), self.random.choice(MODES))

    def array(self, kind, shape, mode):
        """Makes, restores, cuts, looks into and bounds the stream of one array, and runs on it."""
        bits, signed = NARROW.get(kind, (WIDTHS.get(kind), True))
        numbers = self.numbers(bits, math.prod(shape))
        raw = numbers.astype(f"<u{bits // 8}").tobytes()
        values = numpy.frombuffer(raw, f"<{'i' if signed else 'u'}{bits // 8}").astype(numpy.int64)
        if kind in NARROW:
            values = values - (0 if signed else 1 << bits - 1) << 31 - bits
        words = ["compress", kind, shape_word(shape), mode, *self.number(mode, len(shape))]
        header = Header(WIDTHS.get(kind, 32), shape, mode, int(words[4]) if len(words) > 4 else 0)
        made = many.made(header, values)
        what = " ".join(words)
        self.expect(what, self.check.run(words, raw), 0, made.stream)
        self.restored(what, kind, header, made)
        self.scripts(what, header, made)

    def number(self, mode, dims):
        if mode == REVERSIBLE:
            return []
        at_a_rate, planes = (8, 32, 72), (12, 36, 70)
        most = 4**dims * self.random.choice(at_a_rate) if mode == RATE else self.random.choice(planes)
        return [str(self.random.randint(1, min(most, 6000)))]

    def restored(self, what, kind, header, made):
        text = made.values.astype(f"<i{header.width // 8}").tobytes()
        self.expect(f"{what}: restore", self.check.run(["restore"], made.stream), 0, text)
        if kind in NARROW:
            ended = self.check.run(["restore", kind], made.stream)
            self.expect(f"{what}: restore {kind}", ended, 0, demoted(made, kind))
        cut = self.random.randrange(len(header_bits(header)) // 8 + 1, len(made.stream))
        lost = int(numpy.searchsorted(made.ends, 8 * cut, side="right"))
        line = error_line(f"stream ends in block {lost}")
        ended = self.check.run(["restore"], made.stream[:cut])
        self.expect(f"{what}: restore of {cut} bytes", ended, 5, text, line, is_whole=False)

    def scripts(self, what, header, made):
        shape, file = header.shape, made.stream
        script = self.script(shape, header.width, QUICK_LINES if self.check.quick else LINES)
        lines = self.random.choice((None, None, 1, 3, 4096))
        words = [] if lines is None else ["lines", str(lines)]
        wanted = look_answer(header, made.blocks.tolist(), script, lines)
        self.judge(f"{what}: look", ["look", "a", *words], script, file, wanted)
        if header.mode != RATE:
            return
        way = self.random.choice(("lines", "lines", "twoway"))
        lines = self.random.choice((1, 3, 256)) if way == "twoway" else lines
        words = [] if lines is None else [way, str(lines)]
        wanted = run_answer(file, script, way, lines)
        self.judge(f"{what}: run", ["run", "a", *words], script, file, wanted)
        most = self.random.getrandbits(self.random.randint(1, header.width))
        bound = error(len(shape), made.plane)
        holds = 8 * (most + bound + 17) < 2 ** (header.width - 1)
        said = f"bound {bound}" if holds else "no bound"
        ended, _ = self.ran(["bound", "a", str(most)], files={"a": file})
        self.expect(f"{what}: bound {most}", ended, 0, f"plane {made.plane} {said}\n".encode())

    def script(self, shape, width, count):
        """Lines on an array, of which the first change its last values and the last tell what was counted."""
        last = ",".join(str(size - 1) for size in shape)
        asks_all = math.prod(shape) <= MOST_VALUES_FOR_ALL
        lines = [f"set {last} {self.calls.value(width)}", f"get {last}"] + ["sum", "vsum"] * asks_all
        for _ in range(count):
            line = self.calls.line(shape, width)
            if not any(word in line for word in ASK_ALL):
                lines.append(line)
        return "\n".join([*lines, "stats", ""]).encode()

    # Scripts

    def long_scripts(self):
        """Long scripts, with long answers, on files above 64 KiB that `new` has made."""
        for kind, shape, bits in LONG[: QUICK_LONG if self.check.quick else None]:
            header = Header(WIDTHS[kind], shape, RATE, bits)
            what, file = f"{kind} {shape_word(shape)} rate {bits}", zeros(header)
            words = ["new", "a", kind, shape_word(shape), str(bits)]
            self.judge(f"{what}: new", words, b"", b"old", replied([], 0, {"a": file}))
            script = self.long_script(shape, header.width)
            wanted = run_answer(file, script)
            self.judge(f"{what}: {len(script)} bytes of script", ["run", "a"], script, file, wanted)
            way = self.random.choice((["lines", "7"], ["twoway", "64"]))
            again = self.long_script(shape, header.width)
            file = wanted.files["a"]
            wanted = run_answer(file, again, way[0], int(way[1]))
            self.judge(f"{what}: {way}", ["run", "a", *way], again, file, wanted)

    def long_script(self, shape, width):
        count = QUICK_LONG_LINES if self.check.quick else LONG_LINES
        lines = []
        while len(lines) < count:
            origin = [self.random.randrange(size) for size in shape]
            lines += [self.near(shape, origin, width) for _ in range(TOGETHER)]
            if self.random.random() < 0.02:
                lines.append(self.random.choice(("stats", "flush", "discard", "lines 32", "lines 100")))
        last = ",".join(str(size - 1) for size in shape)
        return "\n".join([*lines, f"set {last} 1048576", "stats", ""]).encode()

    def near(self, shape, origin, width):
        """A line on a value near to a position."""
        at = ",".join(str(min(size - 1, o + self.random.randrange(6))) for o, size in zip(origin, shape))
        name = self.random.choice(("get", "get", "get", "set", "add"))
        value = self.random.randrange(-1 << width - 3, 1 << width - 3)
        return f"{name} {at}" if name == "get" else f"{name} {at} {value}"


def demoted(made, kind):
    """The raw narrow values that int32 values stand for."""
    bits, signed = NARROW[kind]
    half = 1 << bits - 1
    nearest = numpy.clip(made.values.astype(numpy.int64) >> 31 - bits, -half, half - 1)
    return (nearest if signed else nearest + half).astype(f"<u{bits // 8}").tobytes()


def first_other(seen, wanted):
    """Where two texts differ first."""
    if seen == wanted:
        return "the same"
    pairs = enumerate(zip(seen, wanted))
    at = next((at for at, (one, other) in pairs if one != other), min(len(seen), len(wanted)))
    return f"they differ at byte {at}"
