"""The transforms of a block and its digits (FORMAT, sections 1, 6 and 8)."""

from definition.blocks import SIDE


def wrap(value, width):
    """The number of the type that differs from this one by a multiple of 2^width."""
    half = 1 << width - 1
    return (value + half) % (1 << width) - half


def lift(line, width):
    x, y, z, w = line
    x = wrap(x + w, width) >> 1
    w = wrap(w - x, width)
    z = wrap(z + y, width) >> 1
    y = wrap(y - z, width)
    x = wrap(x + z, width) >> 1
    z = wrap(z - x, width)
    w = wrap(w + y, width) >> 1
    y = wrap(y - w, width)
    w = wrap(w + (y >> 1), width)
    y = wrap(y - (w >> 1), width)
    return x, y, z, w


def inverse_lift(line, width):
    x, y, z, w = line
    y = wrap(y + (w >> 1), width)
    w = wrap(w - (y >> 1), width)
    y = wrap(y + w, width)
    w = wrap(wrap(2 * w, width) - y, width)
    z = wrap(z + x, width)
    x = wrap(wrap(2 * x, width) - z, width)
    y = wrap(y + z, width)
    z = wrap(wrap(2 * z, width) - y, width)
    w = wrap(w + x, width)
    x = wrap(wrap(2 * x, width) - w, width)
    return x, y, z, w


def differences(line, width):
    x, y, z, w = line
    rows = (x, y - x, z - 2 * y + x, w - 3 * z + 3 * y - x)
    return tuple(wrap(row, width) for row in rows)


def sums(line, width):
    x, y, z, w = line
    rows = (x, x + y, x + 2 * y + z, x + 3 * y + 3 * z + w)
    return tuple(wrap(row, width) for row in rows)


def along_axes(block, axes, transform, width):
    """A block after a transform of each line along each of these axes, one axis after another."""
    block = list(block)
    for axis in axes:
        step = SIDE**axis
        for start in range(len(block)):
            if start // step % SIDE == 0:
                line = slice(start, start + SIDE * step, step)
                block[line] = transform(block[line], width)
    return block


def forward(transform, block, dims, width):
    return along_axes(block, range(dims), transform, width)


def back(transform, block, dims, width):
    """The way back begins with the last axis."""
    return along_axes(block, reversed(range(dims)), transform, width)


def negabinary_mask(width):
    return int("a" * (width // 4), 16)


def to_digits(value, width):
    """The negabinary digits of a value, as the bits of a number."""
    mask = negabinary_mask(width)
    return (value + mask) % (1 << width) ^ mask


def from_digits(digits, width):
    mask = negabinary_mask(width)
    return wrap((digits ^ mask) - mask, width)
