#!/usr/bin/env python3
"""Restores random blocks, and checks that no value is further off than the certified bound allows.

    python3 check/bound.py [PROGRAM] [--seed N] [--quick]

The blocks are of both types and of one to four dimensions, of all kinds: smooth, noise, of few
values, with peaks; of small magnitudes, and of the greatest for which the bound still holds. Many
blocks make one array, which goes through `compress` and `restore` at some rate. The bound of each
block is by the definition, that of the array is what `bound` says. How near the worst error came is
printed: plain numbers, nothing is claimed of them.
"""

import math

from calls import shape_word
from definition.blocks import cut, indices_of
from definition.bounds import bound_line, error, plane_of_code
from definition.codes import ranked_digits
from definition.planes import planes_code
from definition.streams import Opened, raw_bytes, raw_values
from definition.transforms import lift
from shared import Check

# By the number of dimensions: how many blocks are wanted, and how many make one array.
BLOCKS = {1: 20_000, 2: 12_000, 3: 4_000, 4: 1_000}
TOGETHER = {1: 200, 2: 100, 3: 40, 4: 12}
QUICK_SHARE = 10


def edge(width, dims, plane):
    """The greatest magnitude for which the bound holds, or less than 0."""
    return (2 ** (width - 1) - 1) // 8 - 17 - error(dims, plane)


def slope(rng, dims, most, place):
    """A value of a smooth block with a little noise."""
    steps = [most * (axis + 1) // (9 * dims) for axis in range(dims)]
    value = sum(step * i for step, i in zip(steps, indices_of(place, dims)))
    return max(-most, min(most, value + rng.randint(-1 - most // 1000, 1 + most // 1000)))


def block_values(rng, dims, most):
    """A random block of magnitudes up to `most`."""
    places = range(4**dims)
    kind = rng.randrange(5)
    if kind == 0:
        return [rng.randint(-most, most) for _ in places]
    if kind == 1:
        return [rng.choice((-most, most)) for _ in places]
    if kind == 2:
        few = [rng.randint(-most, most) for _ in range(3)]
        return [rng.choice(few) for _ in places]
    if kind == 3:
        return [slope(rng, dims, most, place) for place in places]
    peaks = {rng.choice(places): rng.randint(-most, most) for _ in range(3)}
    return [peaks.get(place, 0) for place in places]


class Bounds:
    def __init__(self, check):
        self.check, self.rng = check, check.random
        self.worst = dict.fromkeys(BLOCKS, (0, 1, 0))
        self.held = dict.fromkeys(BLOCKS, 0)

    def most(self, width, dims):
        """The magnitude of an array: small, or at the edge of the premise."""
        aim = edge(width, dims, self.rng.choice((0, 0, 1, 2, 4, width // 4)))
        if self.rng.random() < 0.3 and aim > 0:
            return aim
        return min(2 ** self.rng.randint(0, width - 6), edge(width, dims, 0))

    def rate(self, width, dims, block):
        """Some rate, often one at which this block is whole from a low plane on."""
        if self.rng.random() < 0.3:
            return self.rng.randint(1, 4**dims * (width + 2))
        ranked = ranked_digits(block, (4,) * dims, lift, width)
        return max(1, len(planes_code(ranked, range(self.rng.randint(0, 6), width))))

    def array(self, width, dims):
        """One array at one rate: its blocks beside their bounds, and the line about it."""
        count = TOGETHER[dims]
        shape = (4 * count,) + (4,) * (dims - 1)
        most = self.most(width, dims)
        blocks = [block_values(self.rng, dims, most) for _ in range(count)]
        values = [0] * math.prod(shape)
        for number, block in enumerate(blocks):
            for place, value in enumerate(block):
                x, row = 4 * number + place % 4, place // 4
                values[x + shape[0] * row] = value
        rate = self.rate(width, dims, self.rng.choice(blocks))
        words = ["compress", f"int{width}", shape_word(shape), "rate", str(rate)]
        stream = self.check.run(words, raw_bytes(values, width)).out
        self.judge(" ".join(words), width, dims, stream, (values, blocks))

    def judge(self, what, width, dims, stream, stored):
        values, blocks = stored
        opened = Opened(stream)
        back = cut(opened.header.shape, raw_values(self.check.run(["restore"], stream).out, width))
        for block, code, got in zip(blocks, opened.codes(), back):
            plane = plane_of_code(code, dims, width)
            if max(map(abs, block)) <= edge(width, dims, plane):
                self.compare(what, dims, plane, max(abs(a - b) for a, b in zip(block, got)))
        folder = self.check.folder()
        (folder / "r").write_bytes(stream)
        greatest = max(map(abs, values))
        said = self.check.run(["bound", "r", str(greatest)], b"", folder)
        wanted = bound_line(opened.header, opened.codes(), greatest).encode()
        self.check.expect((said.code, said.out) == (0, wanted), f"{what}: bound {greatest}", said, wanted)

    def compare(self, what, dims, plane, found):
        limit = error(dims, plane)
        self.held[dims] += 1
        self.check.expect(found <= limit, f"{what}: off by {found}, where {limit} is certified")
        if found * self.worst[dims][1] > self.worst[dims][0] * limit:
            self.worst[dims] = found, limit, plane


def main():
    check = Check(__doc__)
    bounds = Bounds(check)
    for dims, wanted in BLOCKS.items():
        while bounds.held[dims] < wanted // (QUICK_SHARE if check.quick else 1) and check.failed == 0:
            bounds.array(check.random.choice((32, 64)), dims)
        found, limit, plane = bounds.worst[dims]
        share = 100 * found / limit
        worst = f"the worst is {found} of {limit}, {share:.1f} %, at plane {plane}"
        check.say(f"{dims}-D: {bounds.held[dims]} blocks, {worst}")
    check.end()


if __name__ == "__main__":
    main()
