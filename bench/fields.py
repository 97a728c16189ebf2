#!/usr/bin/env python3
"""Makes the raw values of an array from a number, and writes them to a file.

    python3 bench/fields.py FIELD WIDTH SHAPE NUMBER FILE

FIELD is waves, sparse, constant, noise or sample, WIDTH 32 or 64, SHAPE one to four sizes joined by x, x first, NUMBER below 2^64. Needs numpy.

waves looks like what a simulation puts out: along each axis two waves of parabolas, a long high one and a short low one, which begin where the
number says, and some noise; all by whole-number arithmetic. sample is what `zfpi sample` makes of the number (docs/FORMAT.md): no two values have to
do with one another. sparse is zero but for one value in 256, of those of sample. constant is one value everywhere. noise fills the type up to a quarter of
its range, no two values of which have to do with one another.
"""

import math
import sys

import numpy

RISE = 0x9E3779B97F4A7C15


def near_cube(values, dims):
    """The sizes of an array of about so many values, nearly a cube, in whole blocks: each a multiple of four."""
    sizes = []
    left = values
    for axes in range(dims, 0, -1):
        sizes.append(max(4, 4 * round(left ** (1 / axes) / 4)))
        left /= sizes[-1]
    return sizes


def words_of(number, count):
    """The words of SplitMix64, begun with the number."""
    state = numpy.arange(1, count + 1, dtype=numpy.uint64) * numpy.uint64(RISE) + numpy.uint64(number)
    word = (state ^ (state >> numpy.uint64(30))) * numpy.uint64(0xBF58476D1CE4E5B9)
    word = (word ^ (word >> numpy.uint64(27))) * numpy.uint64(0x94D049BB133111EB)
    return word ^ (word >> numpy.uint64(31))


def sample(width, sizes, number):
    word = words_of(number, math.prod(sizes))
    if width == 32:
        return word.astype(numpy.uint32).astype(numpy.int32) >> 16
    return word.astype(numpy.int64) >> 32


def sparse(width, sizes, number):
    marks = words_of(number + 1, math.prod(sizes))
    return numpy.where(marks % 256 == 0, sample(width, sizes, number), 0)


def constant(width, sizes, number):
    return numpy.full(math.prod(sizes), sample(width, [1], number)[0])


def noise(width, sizes, number):
    word = words_of(number, math.prod(sizes))
    if width == 32:
        return word.astype(numpy.uint32).astype(numpy.int32) >> 2
    return word.astype(numpy.int64) >> 2


def wave(size, length, height, start):
    """Parabolas of this length and height, above and below zero by turns."""
    at = numpy.arange(size, dtype=numpy.int64) + start
    t = at % length
    sign = 1 - 2 * (at // length % 2)
    return sign * (4 * t * (length - t) * height // (length * length))


def waves(width, sizes, number):
    dims = len(sizes)
    total = numpy.zeros(sizes[::-1], dtype=numpy.int64)
    starts = words_of(number, 2 * dims) if number else numpy.zeros(2 * dims, dtype=numpy.uint64)
    for axis, size in enumerate(sizes):
        shape = [1] * dims
        shape[dims - 1 - axis] = size
        for k, (length, height) in enumerate(((max(size // 3, 4), 1 << 20), (max(size // 17, 4), 1 << 15))):
            start = int(starts[2 * axis + k]) % (2 * length)
            total += wave(size, length, height, start).reshape(shape)
    noise = numpy.arange(total.size, dtype=numpy.uint64) * numpy.uint64(RISE)
    noise = ((noise ^ (noise >> numpy.uint64(29))) * numpy.uint64(0xBF58476D1CE4E5B9)) >> numpy.uint64(58)
    noise = noise.astype(numpy.int64).reshape(total.shape)
    total += noise
    if width == 64:
        total = total * (1 << 24) + noise * 12345
    return total


FIELDS = {"waves": waves, "sparse": sparse, "constant": constant, "noise": noise, "sample": sample}


def main():
    name, width, shape, number, path = sys.argv[1:]
    values = FIELDS[name](int(width), [int(size) for size in shape.split("x")], int(number))
    values.astype("<i%d" % (int(width) // 8)).tofile(path)


if __name__ == "__main__":
    main()
