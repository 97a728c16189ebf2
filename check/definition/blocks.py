"""Blocks of an array, their padding and the order of their coefficients (FORMAT, sections 4, 5 and 7)."""

import functools
import math

SIDE = 4
# The existing value that each of the four values of a line repeats, by how many of them exist.
PADDED_FROM = {1: (0, 0, 0, 0), 2: (0, 1, 1, 0), 3: (0, 1, 2, 0), 4: (0, 1, 2, 3)}


def grid(shape):
    """How many blocks there are along each axis."""
    return [-(-size // SIDE) for size in shape]


def block_count(shape):
    return math.prod(grid(shape))


def block_size(dims):
    return SIDE**dims


def block_of(shape, position):
    """The number of the block in which a position lies."""
    number = 0
    for along, coordinate in zip(reversed(grid(shape)), reversed(position)):
        number = number * along + coordinate // SIDE
    return number


def place_of(position):
    """The place of a position in its block."""
    return sum(coordinate % SIDE * SIDE**axis for axis, coordinate in enumerate(position))


def indices_of(place, dims):
    return [place // SIDE**axis % SIDE for axis in range(dims)]


def coordinates_of(shape, number):
    """The coordinates of a block in the grid of blocks."""
    coordinates = []
    for along in grid(shape):
        coordinates.append(number % along)
        number //= along
    return coordinates


def extents(shape, number):
    """How many values of a block exist along each axis."""
    pairs = zip(shape, coordinates_of(shape, number))
    return tuple(min(SIDE, size - SIDE * coordinate) for size, coordinate in pairs)


@functools.lru_cache(maxsize=None)
def existing_places(extents_of_block):
    dims = len(extents_of_block)

    def exists(place):
        return all(i < n for i, n in zip(indices_of(place, dims), extents_of_block))

    return [place for place in range(block_size(dims)) if exists(place)]


def only_existing(block, extents_of_block):
    """A block with 0 at each place that does not exist."""
    kept = [0] * len(block)
    for place in existing_places(extents_of_block):
        kept[place] = block[place]
    return kept


def padded(block, extents_of_block):
    dims = len(extents_of_block)

    def source(place):
        pairs = zip(indices_of(place, dims), extents_of_block)
        return place_of([PADDED_FROM[n][i] for i, n in pairs])

    return [block[source(place)] for place in range(len(block))]


@functools.lru_cache(maxsize=None)
def places_by_rank(dims):
    """The least sum of indices comes first, then the least sum of their squares, then the greater index."""

    def key(place):
        indices = indices_of(place, dims)
        return sum(indices), sum(i * i for i in indices), [-i for i in indices]

    return sorted(range(block_size(dims)), key=key)


def positions(shape):
    """All positions of an array in raster order, x fastest."""
    for number in range(math.prod(shape)):
        position = []
        for size in shape:
            position.append(number % size)
            number //= size
        yield position


def cut(shape, values):
    """The blocks of an array that is given as its values in raster order."""
    blocks = [[0] * block_size(len(shape)) for _ in range(block_count(shape))]
    for position, value in zip(positions(shape), values):
        blocks[block_of(shape, position)][place_of(position)] = value
    return blocks


def joined(shape, blocks):
    """The values in raster order of an array of these blocks, up to the first whose block is not there."""
    values = []
    for position in positions(shape):
        block = block_of(shape, position)
        if block >= len(blocks):
            break
        values.append(blocks[block][place_of(position)])
    return values
