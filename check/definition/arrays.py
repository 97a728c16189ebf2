"""Codes of blocks, and caches of blocks over them (SCRIPTS, sections 1 to 4, 8 and 10)."""

from definition.blocks import block_count, extents, only_existing
from definition.codes import rate_code, read_rate
from definition.header import header_bits
from definition.planes import bits_of_number, number_of_bits


def power_of_two_from(number):
    """The least power of two that is at least this number."""
    power = 1
    while power < number:
        power *= 2
    return power


def default_lines(blocks):
    """The least power of two whose square is at least the number of blocks."""
    lines = 1
    while lines * lines < blocks:
        lines *= 2
    return lines


class ConstantBlocks:
    """The blocks of a stream that is only read."""

    def __init__(self, opened):
        self.shape, self.blocks = opened.header.shape, opened.blocks

    def meaning(self, block):
        return only_existing(self.blocks[block], extents(self.shape, block))


class Codes:
    """The codes of an array of a fixed rate."""

    def __init__(self, header, codes=None):
        self.header = header
        if codes is None:
            codes = [[0] * header.number for _ in range(block_count(header.shape))]
        self.codes = codes

    def meaning(self, block):
        """The values that a block's code means; 0 at places that do not exist."""
        header = self.header
        values = read_rate(self.codes[block], len(header.shape), header.width)
        return only_existing(values, extents(header.shape, block))

    def store(self, block, values):
        header = self.header
        self.codes[block] = rate_code(values, extents(header.shape, block), header.width, header.number)


class CodesOfFile:
    """The codes in a file of a fixed rate, by number, each of which is taken out where it is asked for."""

    def __init__(self, header, file):
        self.begin, self.length = len(header_bits(header)), header.number
        self.bits, self.bytes = int.from_bytes(file, "little"), len(file)

    def __getitem__(self, block):
        code = self.bits >> self.begin + block * self.length & (1 << self.length) - 1
        return bits_of_number(code, self.length)

    def __setitem__(self, block, code):
        changed = number_of_bits(self[block]) ^ number_of_bits(code)
        self.bits ^= changed << self.begin + block * self.length

    def file(self):
        return self.bits.to_bytes(self.bytes, "little")


class Cache:
    """A cache in which each block has one line."""

    def __init__(self, backing, lines):
        self.backing, self.lines = backing, power_of_two_from(lines)
        self.hits = self.misses = self.writes = 0
        self.empty()

    def empty(self):
        # The block in each line that holds one, and the values of these blocks.
        self.held, self.values, self.dirty = {}, {}, set()

    def line_for(self, block):
        """The line that a block goes into that is in none."""
        return block % self.lines

    def touch(self, block):
        """The values of a block, which are in the cache then."""
        if block in self.values:
            self.hits += 1
            return self.values[block]
        self.misses += 1
        line = self.line_for(block)
        if line in self.held:
            self.write_back(self.held[line])
            del self.values[self.held[line]]
        self.held[line] = block
        self.values[block] = self.backing.meaning(block)
        return self.values[block]

    def touch_for_writing(self, block):
        values = self.touch(block)
        self.dirty.add(block)
        return values

    def write_back(self, block):
        """Writes a block back, where it is dirty."""
        if block in self.dirty:
            self.dirty.remove(block)
            self.backing.store(block, self.values[block])
            self.writes += 1

    def flush(self):
        for _, block in sorted(self.held.items()):
            self.write_back(block)
        self.empty()

    def set_lines(self, lines):
        self.flush()
        self.lines = power_of_two_from(lines)

    def counts(self):
        return f"hits {self.hits} misses {self.misses} writes {self.writes}"


class TwoWayCache(Cache):
    """A cache in which each block has a first and a second line."""

    def line_for(self, block):
        first = block % self.lines
        second = (block ^ block // self.lines) % self.lines
        for line in (first, second):
            if line not in self.held:
                return line
        for line in (first, second):
            if self.held[line] not in self.dirty:
                return line
        return first
