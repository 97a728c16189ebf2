"""The streams of arrays of many blocks, by numpy (FORMAT, sections 4 to 11).

The rules of `blocks`, `transforms`, `planes` and `codes` stand here once more, each over all blocks at once.
Blocks are rows of 4^d values. Sums wrap by themselves, since numpy's do. What a code of a fixed rate means
is told from the digits that were written and from the places at which they stand; nothing is read here.
"""

import math
from typing import NamedTuple

import numpy

from definition.blocks import PADDED_FROM, SIDE, block_size, grid, places_by_rank
from definition.codes import PRECISION, RATE, REVERSIBLE, field_bits
from definition.header import header_bits
from definition.transforms import negabinary_mask

# So many bits are looked at at once.
BITS_AT_ONCE = 1 << 22


class Made(NamedTuple):
    """A stream, and what is read of it: the values of its blocks, and those in raster order. `ends` are the
    bits before which the codes of the blocks end. At a rate all planes are whole from `plane` on."""

    stream: bytes
    blocks: object
    values: object
    ends: object
    plane: int


class Codes(NamedTuple):
    """The bits of the codes of some blocks, the length of each, the values that are read, and the plane."""

    bits: object
    lengths: object
    values: object
    plane: int = 0


def types_of(width):
    """The signed and the unsigned type of this width."""
    return (numpy.int32, numpy.uint32) if width == 32 else (numpy.int64, numpy.uint64)


def padded_places(size):
    """The coordinates along an axis that its blocks hold, those of the padding among them."""
    starts = range(0, size, SIDE)
    return [start + place for start in starts for place in PADDED_FROM[min(SIDE, size - start)]]


def by_blocks(shape, values):
    """The padded blocks of an array in raster order."""
    array = values.reshape(shape[::-1])[numpy.ix_(*(padded_places(size) for size in reversed(shape)))]
    return split_axes(shape, array).reshape(-1, block_size(len(shape)))


def split_axes(shape, array):
    """An array over whole blocks, with the axes of the blocks before those within a block."""
    dims = len(shape)
    parts = [part for along in reversed(grid(shape)) for part in (along, SIDE)]
    return array.reshape(parts).transpose([*range(0, 2 * dims, 2), *range(1, 2 * dims, 2)])


def by_raster(shape, blocks):
    """The values in raster order of an array of these blocks."""
    dims = len(shape)
    parts = blocks.reshape([*reversed(grid(shape)), *[SIDE] * dims])
    mixed = parts.transpose([axis for pair in zip(range(dims), range(dims, 2 * dims)) for axis in pair])
    whole = mixed.reshape([SIDE * along for along in reversed(grid(shape))])
    return whole[tuple(slice(size) for size in reversed(shape))].reshape(-1)


def lift(x, y, z, w):
    x = x + w >> 1
    w = w - x
    z = z + y >> 1
    y = y - z
    x = x + z >> 1
    z = z - x
    w = w + y >> 1
    y = y - w
    w = w + (y >> 1)
    y = y - (w >> 1)
    return x, y, z, w


def inverse_lift(x, y, z, w):
    y = y + (w >> 1)
    w = w - (y >> 1)
    y = y + w
    w = 2 * w - y
    z = z + x
    x = 2 * x - z
    y = y + z
    z = 2 * z - y
    w = w + x
    x = 2 * x - w
    return x, y, z, w


def differences(x, y, z, w):
    return x, y - x, z - 2 * y + x, w - 3 * z + 3 * y - x


def along_axes(blocks, axes, transform):
    """Blocks after a transform of each line along each of these axes, one axis after another."""
    dims = int(math.log(blocks.shape[1], SIDE) + 0.5)
    parts = blocks.reshape([-1, *[SIDE] * dims])
    for axis in axes:
        lines = numpy.moveaxis(parts, dims - axis, 0)
        parts = numpy.moveaxis(numpy.stack(transform(*lines)), 0, dims - axis)
    return parts.reshape(blocks.shape)


def ranked_digits(blocks, transform, dims, width):
    """The digits by rank of padded blocks, as numbers without sign."""
    unsigned = types_of(width)[1]
    mask = unsigned(negabinary_mask(width))
    coefficients = along_axes(blocks, range(dims), transform).astype(unsigned)
    return ((coefficients + mask) ^ mask)[:, places_by_rank(dims)]


def values_of(ranked, dims, width):
    """What digits by rank mean that were made by `lift`."""
    signed, unsigned = types_of(width)
    mask = unsigned(negabinary_mask(width))
    coefficients = numpy.empty_like(ranked)
    coefficients[:, places_by_rank(dims)] = ranked
    numbers = ((coefficients ^ mask) - mask).astype(signed)
    return along_axes(numbers, reversed(range(dims)), inverse_lift)


class Plane(NamedTuple):
    """The code of one plane of all blocks: at a rank may stand a bit that tells of a run, and a digit."""

    digits: object
    # Where a run begins, which ranks lie in one, and whose digit is written.
    begins: object
    in_run: object
    is_written: object
    # Whether a bit says that no more ones come, and the new number of known ranks.
    is_ended: object
    known: object


def plane_code(digits, known):
    """The code of one plane, from the digits of each block and the number of its known ranks."""
    size = digits.shape[1]
    ranks = numpy.arange(size)
    behind = ranks >= known[:, None]
    ones = digits & behind
    last = numpy.where(ones.any(1), size - 1 - ones[:, ::-1].argmax(1), known - 1)
    in_run = behind & (ranks <= last[:, None])
    after_one = numpy.zeros_like(digits)
    after_one[:, 1:] = digits[:, :-1]
    begins = in_run & ((ranks == known[:, None]) | after_one)
    # The one of the last rank is implied.
    is_written = ~behind | in_run & (ranks < size - 1)
    known = numpy.maximum(known, last + 1)
    return Plane(digits, begins, in_run, is_written, known < size, known)


def planes_of(ranked, width, lowest):
    """The codes of the planes from the greatest down. Of each block those from its lowest on are written."""
    known = numpy.zeros(len(ranked), numpy.int64)
    for plane in reversed(range(width)):
        code = plane_code((ranked >> ranked.dtype.type(plane) & ranked.dtype.type(1)).astype(bool), known)
        is_kept = plane >= lowest
        yield plane, code, is_kept
        known = numpy.where(is_kept, code.known, known)


def laid_out(planes):
    """The bits of planes, for each block a row, and which of them are written."""
    bits, masks = [], []
    for _, code, is_kept in planes:
        count, size = code.digits.shape
        row, mask = numpy.zeros((2, count, 2 * size + 1), bool)
        row[:, 0:-1:2], row[:, 1:-1:2] = True, code.digits
        mask[:, 0:-1:2], mask[:, 1:-1:2], mask[:, -1] = code.begins, code.is_written, code.is_ended
        bits.append(row)
        masks.append(mask & is_kept[:, None])
    return numpy.concatenate(bits, 1), numpy.concatenate(masks, 1)


def lowest_planes(ranked, width):
    """The lowest plane of each block that has a one, or the greatest plane where none has."""
    all_digits = numpy.bitwise_or.reduce(ranked, axis=1)
    lowest = numpy.full(len(ranked), width - 1)
    for plane in reversed(range(width)):
        lowest[(all_digits >> ranked.dtype.type(plane) & ranked.dtype.type(1)).astype(bool)] = plane
    return lowest


def reversible_codes(blocks, dims, width):
    ranked = ranked_digits(blocks, differences, dims, width)
    lowest = lowest_planes(ranked, width)
    bits, mask = laid_out(planes_of(ranked, width, lowest))
    fields = (width - lowest - 1)[:, None] >> numpy.arange(field_bits(width)) & 1
    bits = numpy.concatenate([fields.astype(bool), bits], 1)
    mask = numpy.concatenate([numpy.ones(fields.shape, bool), mask], 1)
    return Codes(bits[mask], mask.sum(1), blocks)


def precision_codes(blocks, dims, width, precision):
    ranked = ranked_digits(blocks, lift, dims, width)
    lowest = max(0, width - precision)
    bits, mask = laid_out(planes_of(ranked, width, numpy.full(len(ranked), lowest)))
    kept = ranked >> ranked.dtype.type(lowest) << ranked.dtype.type(lowest)
    return Codes(bits[mask], mask.sum(1), values_of(kept, dims, width))


def rate_codes(blocks, dims, width, budget):
    ranked = ranked_digits(blocks, lift, dims, width)
    planes = list(planes_of(ranked, width, numpy.zeros(len(ranked), int)))
    bits, mask = laid_out(planes)
    places = numpy.cumsum(mask, 1, dtype=numpy.int32) - mask
    rows, at = numpy.nonzero(mask & (places < budget))
    codes = numpy.zeros((len(blocks), budget), bool)
    codes[rows, places[rows, at]] = bits[rows, at]
    kept = digits_within(planes, places.reshape(len(blocks), width, -1), budget, ranked.dtype.type)
    ends = (places + mask).reshape(len(blocks), width, -1)[:, :, -1]
    plane = width - int((ends <= budget).sum(1).min())
    return Codes(codes.reshape(-1), numpy.full(len(blocks), budget), values_of(kept, dims, width), plane)


def digits_within(planes, places, budget, unsigned):
    """The digits that the first bits of codes tell, as many as the budget. In a run a one stands behind them."""
    kept = numpy.zeros(planes[0][1].digits.shape, unsigned)
    for number, (plane, code, _) in enumerate(planes):
        of_begin, of_digit = places[:, number, 0:-1:2], places[:, number, 1:-1:2]
        begun = numpy.maximum.accumulate(numpy.where(code.begins, of_begin, -1), axis=1) < budget
        is_cut_there = code.in_run & (of_digit == budget)
        told = (code.digits & (of_digit < budget) | is_cut_there) & (begun | ~code.in_run)
        kept |= told.astype(unsigned) << unsigned(plane)
    return kept


def codes_of(blocks, header):
    dims, width = len(header.shape), header.width
    if header.mode == REVERSIBLE:
        return reversible_codes(blocks, dims, width)
    if header.mode == RATE:
        return rate_codes(blocks, dims, width, header.number)
    assert header.mode == PRECISION
    return precision_codes(blocks, dims, width, header.number)


def made(header, values):
    """The stream of an array of these values in raster order, and what is read of it."""
    blocks = by_blocks(header.shape, values.astype(types_of(header.width)[0]))
    some = max(1, BITS_AT_ONCE // (header.width * (2 * blocks.shape[1] + 1)))
    parts = [codes_of(blocks[at : at + some], header) for at in range(0, len(blocks), some)]
    bits = numpy.concatenate([numpy.array(header_bits(header), bool), *(part.bits for part in parts)])
    back = numpy.concatenate([part.values for part in parts])
    ends = len(header_bits(header)) + numpy.cumsum(numpy.concatenate([part.lengths for part in parts]))
    fill = numpy.zeros(-len(bits) % 64, bool)
    stream = numpy.packbits(numpy.concatenate([bits, fill]), bitorder="little").tobytes()
    return Made(stream, back, by_raster(header.shape, back), ends, max(part.plane for part in parts))
