"""The header of a stream, both ways (FORMAT, section 3), and the line of `info` (section 13)."""

import math
from typing import NamedTuple

from definition.blocks import block_count
from definition.codes import PRECISION, RATE, REVERSIBLE
from definition.faults import HeaderFault
from definition.planes import bits_of_bytes, bits_of_number, number_of_bits

MAGIC = b"zfp"
SHORT_BYTES, LONG_BYTES = 12, 19
SIZE_BITS = {1: 48, 2: 24, 3: 16, 4: 12}
MOST_VALUES = 2**27
MOST_FILE_BYTES = 1_200_000_000
MOST_RATE, MOST_SHORT_RATE = 32768, 2048
MOST_PRECISION = 128
FIRST_PRECISION_MODE, REVERSIBLE_MODE, LONG_MODE = 2048, 2176, 4095
LONG_PLANES, LONG_EXPONENT = 63, 15421


class Header(NamedTuple):
    """What a header says. `number` is the bits of a block, or the number of planes, by the mode."""

    width: int
    shape: tuple
    mode: str
    number: int = 0


def codec(dims):
    return 5 if dims <= 2 else 69


def is_shape(sizes):
    """Whether these are the sizes of an array."""
    if not 1 <= len(sizes) <= 4 or not all(1 <= size <= 2 ** SIZE_BITS[len(sizes)] for size in sizes):
        return False
    return math.prod(sizes) <= MOST_VALUES


def mode_number(header):
    if header.mode == REVERSIBLE:
        return REVERSIBLE_MODE
    if header.mode == PRECISION:
        return FIRST_PRECISION_MODE + header.number - 1
    return header.number - 1 if header.number <= MOST_SHORT_RATE else LONG_MODE


def header_bits(header):
    dims = len(header.shape)
    bits = bits_of_bytes(MAGIC + bytes([codec(dims)]))
    bits += bits_of_number(header.width // 64, 2) + bits_of_number(dims - 1, 2)
    for size in header.shape:
        bits += bits_of_number(size - 1, SIZE_BITS[dims])
    bits += bits_of_number(mode_number(header), 12)
    if mode_number(header) == LONG_MODE:
        rate = bits_of_number(header.number - 1, 15)
        bits += rate + rate + bits_of_number(LONG_PLANES, 7) + bits_of_number(LONG_EXPONENT, 15)
    return bits


def rate_bytes(header):
    """The length of a stream of a fixed rate."""
    bits = len(header_bits(header)) + block_count(header.shape) * header.number
    return 8 * -(-bits // 64)


def read_header(data):
    """The header with which these bytes begin, or its first fault."""
    if len(data) < SHORT_BYTES:
        raise HeaderFault("short")
    if data[:3] != MAGIC:
        raise HeaderFault("magic")
    if data[3] not in (5, 69):
        raise HeaderFault("codec")
    bits = bits_of_bytes(data[:LONG_BYTES])
    kind, dims = number_of_bits(bits[32:34]), number_of_bits(bits[34:36]) + 1
    if kind > 1:
        raise HeaderFault("type")
    if data[3] != codec(dims):
        raise HeaderFault("order")
    wide = SIZE_BITS[dims]
    shape = tuple(number_of_bits(bits[36 + wide * axis : 36 + wide * (axis + 1)]) + 1 for axis in range(dims))
    if math.prod(shape) > MOST_VALUES:
        raise HeaderFault("too large")
    return Header((32, 64)[kind], shape, *read_mode(number_of_bits(bits[84:96]), bits[96:]))


def read_mode(number, behind):
    """The mode of this number, with what is behind a short header."""
    if number < FIRST_PRECISION_MODE:
        return RATE, number + 1
    if number < REVERSIBLE_MODE:
        return PRECISION, number - FIRST_PRECISION_MODE + 1
    if number == REVERSIBLE_MODE:
        return REVERSIBLE, 0
    if number < LONG_MODE:
        raise HeaderFault(f"mode {number}")
    if len(behind) < 8 * (LONG_BYTES - SHORT_BYTES):
        raise HeaderFault("short")
    least, most = number_of_bits(behind[:15]), number_of_bits(behind[15:30])
    planes, exponent = number_of_bits(behind[30:37]), number_of_bits(behind[37:52])
    if least != most or least < MOST_SHORT_RATE or (planes, exponent) != (LONG_PLANES, LONG_EXPONENT):
        raise HeaderFault(f"mode {LONG_MODE}")
    return RATE, least + 1


def mode_text(header):
    return header.mode if header.mode == REVERSIBLE else f"{header.mode} {header.number}"


def info_line(header):
    shape = "x".join(map(str, header.shape))
    bits = len(header_bits(header))
    return f"int{header.width} {shape} {mode_text(header)} blocks {block_count(header.shape)} header {bits}\n"
