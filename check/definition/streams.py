"""Raw values and whole streams, both ways (FORMAT, sections 2, 11, 12 and 14)."""

import math

from definition import faults
from definition.blocks import block_count, cut, extents, joined
from definition.codes import block_code, read_block
from definition.header import header_bits, read_header
from definition.planes import Reader, bits_of_bytes, bytes_of_bits
from definition.transforms import wrap

WORD_BITS = 64
# The bits of a narrow value, whether it has a sign, and the bits that stand below it in an int32 value.
NARROW = {"int8": (8, True), "uint8": (8, False), "int16": (16, True), "uint16": (16, False)}


def raw_values(data, width, signed=True):
    size = width // 8
    pieces = (data[at : at + size] for at in range(0, len(data), size))
    return [int.from_bytes(piece, "little", signed=signed) for piece in pieces]


def raw_bytes(values, width, signed=True):
    return b"".join(value.to_bytes(width // 8, "little", signed=signed) for value in values)


def promote(value, narrow):
    bits, signed = NARROW[narrow]
    middle = 0 if signed else 1 << bits - 1
    return (value - middle) << 31 - bits


def demote(value, narrow):
    """The nearest number of the narrow type to what an int32 value stands for, rounded down."""
    bits, signed = NARROW[narrow]
    half = 1 << bits - 1
    nearest = max(-half, min(half - 1, value >> 31 - bits))
    return nearest if signed else nearest + half


def with_fill(bits):
    return bits + [0] * (-len(bits) % WORD_BITS)


def stream_of_codes(header, codes):
    return bytes_of_bits(with_fill(header_bits(header) + [bit for code in codes for bit in code]))


def stream_of_values(header, values):
    shape = header.shape
    codes = [block_code(block, extents(shape, b), header) for b, block in enumerate(cut(shape, values))]
    return stream_of_codes(header, codes)


def raw_fault(data, wanted):
    """What is wrong with the number of raw bytes; none where it is the wanted one."""
    if len(data) < wanted:
        return faults.raw_ends(len(data))
    return faults.raw_is_long() if len(data) > wanted else None


def compress(header, data, narrow=None):
    """The stream of raw values, and the fault. Missing bytes count as zeros, those too many are cut."""
    bits, signed = NARROW[narrow] if narrow else (header.width, True)
    count = math.prod(header.shape)
    wanted = count * bits // 8
    fault = raw_fault(data, wanted)
    data = data[:wanted]
    if narrow:
        # Only whole narrow values stand for int32 values. Those that are missing are zeros of int32.
        whole = raw_values(data[: len(data) - len(data) % (bits // 8)], bits, signed)
        values = [promote(value, narrow) for value in whole]
        values += [0] * (count - len(values))
    else:
        values = raw_values(data + bytes(wanted - len(data)), bits)
    return stream_of_values(header, values), fault


class Opened:
    """A stream with a good header: its first fault, and the spans and values of the blocks before that."""

    def __init__(self, data):
        self.header = read_header(data)
        self.bits = bits_of_bytes(data)
        self.spans, self.blocks, self.fault = [], [], None
        reader = Reader(self.bits, len(header_bits(self.header)))
        for number in range(block_count(self.header.shape)):
            begin = reader.at
            block = read_block(reader, self.header)
            if reader.lacks():
                self.fault = faults.ends_in_block(number)
                return
            self.blocks.append(block)
            self.spans.append((begin, reader.at - begin))
        self.fault = self.fill_fault(reader.at)

    def fill_fault(self, at):
        end = at + -at % WORD_BITS
        if len(self.bits) < end:
            return faults.ends_in_block(len(self.blocks))
        if 1 in self.bits[at:end]:
            return faults.fill_bit()
        return faults.bytes_follow() if len(self.bits) > end else None

    def codes(self):
        """The codes of the blocks, of a stream with no fault."""
        return [self.bits[at : at + length] for at, length in self.spans]

    def values(self):
        """The values in raster order, up to the first whose block is not there."""
        return joined(self.header.shape, self.blocks)


def restore(data, narrow=None):
    """The raw values of a stream, up to the first whose code is not there, and the fault."""
    opened = Opened(data)
    if narrow is None:
        return raw_bytes(opened.values(), opened.header.width), opened.fault
    bits, signed = NARROW[narrow]
    return raw_bytes([demote(value, narrow) for value in opened.values()], bits, signed), opened.fault


def made_values(width, count, seed):
    """The values of an array that is made from a number."""
    mask, state, values = 2**64 - 1, seed, []
    for _ in range(count):
        state = state + 0x9E3779B97F4A7C15 & mask
        y = (state ^ state >> 30) * 0xBF58476D1CE4E5B9 & mask
        z = (y ^ y >> 27) * 0x94D049BB133111EB & mask
        values.append(wrap(z ^ z >> 31, width) >> width // 2)
    return values


def sample_line(header, seed):
    values = made_values(header.width, math.prod(header.shape), seed)
    stream = stream_of_values(header, values)
    changed = sum(a != b for a, b in zip(values, Opened(stream).values()))
    counts = f"values {len(values)} blocks {block_count(header.shape)} bytes {len(stream)}"
    return f"{counts} changed {changed}\n"
