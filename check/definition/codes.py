"""The codes of a block in the three modes (FORMAT, section 10)."""

from definition.blocks import block_size, padded, places_by_rank
from definition.planes import BudgetReader, bits_of_number, planes_code, read_planes
from definition.transforms import (
    back,
    differences,
    forward,
    from_digits,
    inverse_lift,
    lift,
    sums,
    to_digits,
)

REVERSIBLE, RATE, PRECISION = "reversible", "rate", "precision"


def ranked_digits(block, extents, transform, width):
    """The digits by rank of a block that is padded and transformed."""
    dims = len(extents)
    coefficients = forward(transform, padded(block, extents), dims, width)
    return [to_digits(coefficients[place], width) for place in places_by_rank(dims)]


def values_of(ranked, dims, transform, width):
    coefficients = [0] * block_size(dims)
    for place, digits in zip(places_by_rank(dims), ranked):
        coefficients[place] = from_digits(digits, width)
    return back(transform, coefficients, dims, width)


def field_bits(width):
    """The length of the field in which a reversible code says its number of planes."""
    return 5 if width == 32 else 6


def reversible_code(block, extents, width):
    ranked = ranked_digits(block, extents, differences, width)
    lowest = min([width - 1] + [(digits & -digits).bit_length() - 1 for digits in ranked if digits])
    field = bits_of_number(width - lowest - 1, field_bits(width))
    return field + planes_code(ranked, range(lowest, width))


def read_reversible(reader, dims, width):
    count = reader.field(field_bits(width)) + 1
    ranked = read_planes(reader, block_size(dims), range(width - count, width))
    return values_of(ranked, dims, sums, width)


def rate_code(block, extents, width, budget):
    code = planes_code(ranked_digits(block, extents, lift, width), range(width))[:budget]
    return code + [0] * (budget - len(code))


def read_rate(code, dims, width):
    ranked = read_planes(BudgetReader(code), block_size(dims), range(width))
    return values_of(ranked, dims, inverse_lift, width)


def kept_planes(width, precision):
    return range(width - min(width, precision), width)


def precision_code(block, extents, width, precision):
    return planes_code(ranked_digits(block, extents, lift, width), kept_planes(width, precision))


def read_precision(reader, dims, width, precision):
    ranked = read_planes(reader, block_size(dims), kept_planes(width, precision))
    return values_of(ranked, dims, inverse_lift, width)


def block_code(block, extents, header):
    """The code of a block in a stream with this header."""
    if header.mode == REVERSIBLE:
        return reversible_code(block, extents, header.width)
    if header.mode == RATE:
        return rate_code(block, extents, header.width, header.number)
    return precision_code(block, extents, header.width, header.number)


def read_block(reader, header):
    """The values of the next block."""
    dims = len(header.shape)
    if header.mode == REVERSIBLE:
        return read_reversible(reader, dims, header.width)
    if header.mode == RATE:
        return read_rate([reader.bit() for _ in range(header.number)], dims, header.width)
    return read_precision(reader, dims, header.width, header.number)
