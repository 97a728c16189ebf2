#!/usr/bin/env python3
"""Hits, misses and write-backs of the two caches on the same walks, by their definitions.

    python3 bench/misses.py

The array is two-dimensional, its blocks are 4x4 values, numbered with x fastest.  A walk touches each value of a part of the array once,
row by row or column by column.  In the cache with one line a block, block b is in line b mod L.  In the two-way cache it is in that or in
line (b xor b // L) mod L, and comes into the first of these: an empty one, a clean one, the first.  No program is run: what
docs/SCRIPTS.md says of them (section 10) can be computed again without one.
"""


class OneLine:
    """A cache in which each block has one line."""

    def __init__(self, lines):
        self.held = [None] * lines
        self.dirty = [False] * lines
        self.hits = self.misses = self.writes = 0

    def lines_of(self, b):
        return (b % len(self.held),)

    def taking(self, lines):
        """The line that takes a block in, of those that it may be in."""
        for line in lines:
            if self.held[line] is None:
                return line
        for line in lines:
            if not self.dirty[line]:
                return line
        return lines[0]

    def touch(self, b, times, writes):
        """So many touches of block b, one after the other."""
        lines = self.lines_of(b)
        here = [line for line in lines if self.held[line] == b]
        if here:
            line = here[0]
            self.hits += times
        else:
            line = self.taking(lines)
            self.misses += 1
            self.hits += times - 1
            self.writes += self.dirty[line]
            self.held[line], self.dirty[line] = b, False
        self.dirty[line] |= writes

    def flush(self):
        self.writes += sum(self.dirty)


class TwoWay(OneLine):
    """A cache in which each block has a first and a second line."""

    def lines_of(self, b):
        lines = len(self.held)
        return b % lines, (b ^ b // lines) % lines


def rows(width, height, across, writes):
    """Row by row over a part of an array that is `across` blocks wide: which block is touched, how often in turn, and whether for writing."""
    for y in range(height):
        for x in range(0, width, 4):
            yield x // 4 + across * (y // 4), 4, writes


def columns(width, height, across, writes):
    """Column by column."""
    for x in range(width):
        for y in range(0, height, 4):
            yield x // 4 + across * (y // 4), 4, writes


def sums(width, height, across):
    """Column by column: each value is read, and the first of its column is written."""
    for x in range(width):
        for y in range(height):
            yield x // 4 + across * (y // 4), 1, False
            yield x // 4, 1, True


def main():
    side, lines = 1024, 64
    across = side // 4
    walks = [
        ('row by row, read', lambda: rows(side, side, across, False)),
        ('row by row, written', lambda: rows(side, side, across, True)),
        ('column by column, read', lambda: columns(side, side, across, False)),
        ('column by column, written', lambda: columns(side, side, across, True)),
        ('columns read, and added up in their first value', lambda: sums(side, side, across)),
    ]
    print(f'{side}x{side} values, {lines} lines')
    for name, walk in walks:
        for cache in (OneLine(lines), TwoWay(lines)):
            for b, times, writes in walk():
                cache.touch(b, times, writes)
            cache.flush()
            print(f'{name:50} {type(cache).__name__:8} hits {cache.hits:8} misses {cache.misses:8} writes {cache.writes:8}')


if __name__ == '__main__':
    main()
