#!/usr/bin/env python3
"""Compares zfpi with other ways to compress integers: on a smooth field, an image and noisy frames, which are made here,
and on an elevation model and a slice of an MRI, which Debian's python-matplotlib-data has.

    python3 bench/compare.py [PROGRAM] [--speed | --picture]

PROGRAM is the built program, by default crates/zfpi/out/zfpi. Needs Debian's zfp, zstd, python3-numpy and
python3-blosc, and python3-matplotlib for the picture.

With no word it prints three tables: bits a value without loss of zfpi and of four others, the greatest error
of zfpi at three rates, and the same image in three types. With `--speed` it prints how many megabytes of raw
values a second each way takes and gives back, by processor time, the best of nine runs: plain numbers of one
machine. With `--picture` it draws error against bits a value into docs/errors.svg.

The fields that are made come of whole-number arithmetic, so they are the same on every machine; without Debian's package
the tables lack the two others. zfp has no values of 16
bits: it is given the int32 values that stand for them (docs/FORMAT.md, section 2).
"""

import gzip
import pathlib
import resource
import subprocess
import sys
from typing import NamedTuple

import blosc
import numpy

from fields import words_of

TOP = pathlib.Path(__file__).resolve().parent.parent
SAMPLES = pathlib.Path("/usr/share/matplotlib/mpl-data/sample_data")
RATES = (4, 8, 12)
RUNS = 9


class Field(NamedTuple):
    """An array, with its name in the tables."""

    name: str
    values: numpy.ndarray

    def shape(self):
        return "x".join(str(size) for size in self.values.shape[::-1])

    def word(self):
        return self.values.dtype.name

    def title(self):
        return f"{self.name}, {self.word()} {self.shape()}"

    def narrow_words(self):
        return [] if self.word() == "int32" else [self.word()]

    def promoted(self):
        """The values as int32: those of 16 bits lie evenly around zero, as in zfpi and zfp's library."""
        if self.word() == "int32":
            return self.values
        middle = 32768 if self.word() == "uint16" else 0
        return ((self.values.astype(numpy.int64) - middle) << 15).astype("<i4")


def noise(count, bits, number):
    """Whole numbers around zero whose histogram is a bell: the sum of four even ones."""
    word = words_of(number, count)
    parts = [(word >> numpy.uint64(16 * part)).astype(numpy.int64) & ((1 << bits) - 1) for part in range(4)]
    return sum(parts) - 2 * ((1 << bits) - 1)


def wave_at(place, length, height):
    """Parabolas of this length and height, above and below zero by turns, at these places."""
    t = place % length
    sign = 1 - 2 * (place // length % 2)
    return sign * (4 * t * (length - t) * height // (length * length))


def smooth():
    """Waves that run through the volume at several angles, as in a simulation: no row is like another one."""
    side = 128
    z, y, x = numpy.mgrid[0:side, 0:side, 0:side].astype(numpy.int64)
    total = numpy.zeros((side, side, side), dtype=numpy.int64)
    for length, height, along_x, along_y, along_z in (
        (1900, 20, 23, 11, 7),
        (1500, 19, -9, 17, 13),
        (700, 16, 8, -5, 19),
    ):
        total += wave_at(along_x * x + along_y * y + along_z * z, length, 1 << height)
    return Field("smooth field", total.astype("<i4"))


def image():
    """A scene of twelve bits: a bright ground, dark discs, and the noise of a camera."""
    side = 2048
    y, x = numpy.mgrid[0:side, 0:side].astype(numpy.int64)
    light = 1200 + x // 4 + wave_at(y + 40, 300, 500)
    for place, word in enumerate(words_of(5, 160)):
        left, top, radius = (
            int(word) % side,
            int(word >> numpy.uint64(20)) % side,
            10 + int(word >> numpy.uint64(40)) % 60,
        )
        inside = (x - left) ** 2 + (y - top) ** 2 < radius**2
        light = numpy.where(inside, 200 + 60 * (place % 30), light)
    grain = noise(side * side, 4, 77).reshape(side, side)
    return Field("image of 12 bits", numpy.clip(light + grain, 0, 4095).astype("<u2"))


def frames():
    """Dark frames of a camera: a small offset, and noise that no two values share."""
    sizes = (64, 256, 256)
    return Field("noisy frames", (500 + noise(64 * 256 * 256, 6, 99).reshape(sizes)).astype("<u2"))


def elevation():
    """Heights around the fault of Jacksboro."""
    heights = numpy.load(SAMPLES / "jacksboro_fault_dem.npz")["elevation"]
    return Field("elevation model", heights.astype("<i2"))


def slice_of_a_head():
    """A slice of an MRI scan: values of 16 bits that the file has high byte first."""
    values = numpy.frombuffer(gzip.decompress((SAMPLES / "s1045.ima.gz").read_bytes()), dtype=">u2")
    return Field("MRI slice", values.reshape(256, 256).astype("<u2"))


def real_fields():
    return [elevation(), slice_of_a_head()] if SAMPLES.exists() else []


def processor_time():
    """Seconds of processor time of this process and of those that it started and that have ended."""
    used = [resource.getrusage(who) for who in (resource.RUSAGE_SELF, resource.RUSAGE_CHILDREN)]
    return sum(it.ru_utime + it.ru_stime for it in used)


def ran(words, data):
    """What a program writes for this input."""
    return subprocess.run(words, input=data, capture_output=True, check=True).stdout


def zfpi_ways(program, field):
    raw = field.values.tobytes()
    stream = ran([program, "compress", field.word(), field.shape(), "reversible"], raw)
    there = lambda: ran([program, "compress", field.word(), field.shape(), "reversible"], raw)
    back = lambda: ran([program, "restore", *field.narrow_words()], stream)
    return len(stream), there, back


def zfp_ways(field):
    raw = field.promoted().tobytes()
    sizes = [str(size) for size in field.values.shape[::-1]]
    words = ["zfp", "-q", "-t", "i32", f"-{len(sizes)}", *sizes, "-R"]
    stream = ran([*words, "-i", "-", "-z", "-"], raw)
    return (
        len(stream),
        lambda: ran([*words, "-i", "-", "-z", "-"], raw),
        lambda: ran([*words, "-z", "-", "-o", "-"], stream),
    )


def zstd_ways(field):
    raw = field.values.tobytes()
    words = ["zstd", "-q", "-3", "--single-thread", "-c"]
    stream = ran(words, raw)
    return len(stream), lambda: ran(words, raw), lambda: ran([*words, "-d"], stream)


def shuffled_ways(field, codec, level, with_delta):
    """Bits of one digit beside one another, and then a codec; before that, maybe, differences along x."""
    width = field.values.itemsize
    blosc.set_nthreads(1)

    def there():
        values = numpy.diff(field.values, prepend=field.values.dtype.type(0)) if with_delta else field.values
        return blosc.compress(
            values.tobytes(), typesize=width, clevel=level, shuffle=blosc.BITSHUFFLE, cname=codec
        )

    stream = there()

    def back():
        values = numpy.frombuffer(blosc.decompress(stream), dtype=field.values.dtype).reshape(
            field.values.shape
        )
        return numpy.cumsum(values, axis=-1, dtype=values.dtype) if with_delta else values

    if not numpy.array_equal(back(), field.values):
        sys.exit("the values did not come back")
    return len(stream), there, back


def all_ways(program, field):
    """Of each way: how long its stream is, and one call there and one back."""
    return {
        "zfpi": zfpi_ways(program, field),
        "zfp": zfp_ways(field),
        "zstd -3": zstd_ways(field),
        "bitshuffle, lz4": shuffled_ways(field, "lz4", 5, False),
        "delta, bitshuffle, zstd": shuffled_ways(field, "zstd", 3, True),
    }


def error(program, field, rate):
    """How far values are from what they were, at most, at so many bits a value."""
    words = [field.word(), field.shape(), "rate", str(rate * 4**field.values.ndim)]
    stream = ran([program, "compress", *words], field.values.tobytes())
    raw = ran([program, "restore", *field.narrow_words()], stream)
    back = numpy.frombuffer(raw, dtype=field.values.dtype).reshape(field.values.shape)
    return int(abs(back.astype(numpy.int64) - field.values.astype(numpy.int64)).max())


def print_rows(head, rows):
    print("| " + " | ".join(head) + " |")
    print("|" + "---|" * len(head))
    for row in rows:
        print("| " + " | ".join(row) + " |")


def print_sizes(program, fields):
    rows = []
    for field in fields:
        sizes = {
            name: f"{8 * way[0] / field.values.size:.1f}" for name, way in all_ways(program, field).items()
        }
        rows.append([field.title(), *sizes.values()])
    print_rows(["Bits a value, no loss", *sizes], rows)


def print_errors(program, fields):
    rows = []
    for field in fields:
        span = f"{field.values.min()} to {field.values.max()}"
        rows.append([field.name, span, *(str(error(program, field, rate)) for rate in RATES)])
    print_rows(["Greatest error of zfpi", "Values", *(f"{rate} bits a value" for rate in RATES)], rows)


def print_types(program, field):
    """The same image in wider and in fuller types, at 8 bits a value: errors in its own units."""
    values = field.values.astype(numpy.int64)
    kinds = [("int32", "<i4", 0), ("uint16", "<u2", 0), ("uint16, shifted up by 4", "<u2", 4)]
    errors = [
        error(program, Field(name, (values << shift).astype(kind)), 8) / 2**shift
        for name, kind, shift in kinds
    ]
    print_rows(
        ["Image at 8 bits a value, as", *(name for name, _, _ in kinds)],
        [["greatest error", *(f"{it:.0f}" for it in errors)]],
    )


def speed(call, size):
    """Megabytes of raw values a second, by processor time, the best of some runs."""
    times = []
    for _ in range(RUNS):
        start = processor_time()
        call()
        times.append(processor_time() - start)
    return size / min(times) / 1e6


def print_speeds(program, fields):
    rows = []
    for field in fields:
        ways = all_ways(program, field)
        speeds = [
            f"{speed(there, field.values.nbytes):.0f} / {speed(back, field.values.nbytes):.0f}"
            for _, there, back in ways.values()
        ]
        rows.append([field.title(), *speeds])
    print_rows(["MB a second, there / back", *ways], rows)


def draw(program, fields, file):
    import matplotlib

    matplotlib.use("svg")
    matplotlib.rcParams["svg.hashsalt"] = "zfpi"
    from matplotlib import pyplot

    figure, place = pyplot.subplots(figsize=(7.5, 4.2), layout="constrained")
    for field, mark in zip(fields, "os^"):
        span = int(field.values.max()) - int(field.values.min())
        rates = [1, 2, 3, 4, 6, 8, 10, 12, 14, 16]
        parts = [max(error(program, field, rate), 0.5) / span for rate in rates]
        place.semilogy(rates, parts, marker=mark, label=field.title())
    place.set_xlabel("bits a value")
    place.set_ylabel("greatest error, as a part of the field's range")
    place.set_title("What a fixed rate loses")
    place.set_xticks([1, *range(2, 17, 2)])
    place.grid(True, which="major", alpha=0.4)
    place.legend()
    figure.savefig(file, metadata={"Date": None})


def main():
    words = [word for word in sys.argv[1:] if not word.startswith("--")]
    program = words[0] if words else str(TOP / "crates/zfpi/out/zfpi")
    fields = [smooth(), image(), frames()]
    if "--speed" in sys.argv:
        print_speeds(program, fields)
    elif "--picture" in sys.argv:
        draw(program, fields, TOP / "docs/errors.svg")
    else:
        print_sizes(program, fields + real_fields())
        print()
        print_errors(program, fields + real_fields())
        print()
        print_types(program, fields[1])


if __name__ == "__main__":
    main()
