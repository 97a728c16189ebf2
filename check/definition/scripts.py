"""The run of a script (SCRIPTS, sections 4 to 8)."""

from definition.arrays import Cache, Codes
from definition.blocks import block_count, block_of, existing_places, extents, place_of, positions
from definition.grammar import lines_of, read_line
from definition.header import MOST_FILE_BYTES, is_shape, rate_bytes
from definition.transforms import wrap

MOST_LINES = 65536
MOST_VIEWS = 16


class Refused(Exception):
    """A line is refused; the text is the word of the refusal."""


def refuse_unless(condition, word):
    if not condition:
        raise Refused(word)


def lies_in(position, sizes):
    return all(coordinate < size for coordinate, size in zip(position, sizes))


class Session:
    """An array, its window and its private views, while a script runs."""

    def __init__(self, header, cache, known):
        self.header, self.cache, self.known = header, cache, known
        self.views = []
        self.window_on_all()

    def window_on_all(self):
        dims = len(self.header.shape)
        self.origin, self.sizes, self.steps = [0] * dims, list(self.header.shape), [1] * dims

    def run(self, script):
        """The replies to the lines of a script, and how many lines were refused."""
        replies = []
        for line in lines_of(script):
            try:
                reply = self.answer(line)
            except Refused as refusal:
                reply = f"! {refusal}"
            if reply is not None:
                replies.append(str(reply))
        return replies, sum(reply.startswith("! ") for reply in replies)

    def answer(self, line):
        command = read_line(line, len(self.header.shape), self.known)
        refuse_unless(command is not None, "word")
        is_for_a_split = command.view is not None or command.name == "join"
        refuse_unless(is_for_a_split == bool(self.views), "split")
        if command.view is not None:
            return self.answer_on_view(command)
        return getattr(self, "do_" + command.name)(*command.numbers)

    def answer_on_view(self, command):
        refuse_unless(command.view < len(self.views), "range")
        view, owned = self.views[command.view]
        if command.name == "flush":
            return view.flush()
        if command.name == "discard":
            return view.empty()
        if command.name == "stats":
            return view.counts()
        position = command.numbers[0]
        refuse_unless(lies_in(position, self.header.shape), "range")
        refuse_unless(block_of(self.header.shape, position) in owned, "range")
        return self.access(view, command.name, position, *command.numbers[1:])

    def check_value(self, value):
        refuse_unless(value == wrap(value, self.header.width), "value")

    def access(self, cache, name, position, value=None):
        """A `get`, `set` or `add` at a position of the array."""
        block, place = block_of(self.header.shape, position), place_of(position)
        if name == "get":
            return cache.touch(block)[place]
        self.check_value(value)
        values = cache.touch_for_writing(block)
        values[place] = value if name == "set" else wrap(values[place] + value, self.header.width)
        return None

    def do_get(self, position):
        refuse_unless(lies_in(position, self.header.shape), "range")
        return self.access(self.cache, "get", position)

    def do_set(self, position, value):
        refuse_unless(lies_in(position, self.header.shape), "range")
        return self.access(self.cache, "set", position, value)

    def do_add(self, position, value):
        refuse_unless(lies_in(position, self.header.shape), "range")
        return self.access(self.cache, "add", position, value)

    def existing(self, block):
        return existing_places(extents(self.header.shape, block))

    def do_fill(self, value):
        self.check_value(value)
        for block in range(block_count(self.header.shape)):
            values = self.cache.touch_for_writing(block)
            for place in self.existing(block):
                values[place] = value

    def do_sum(self):
        total = 0
        for block in range(block_count(self.header.shape)):
            values = self.cache.touch(block)
            total += sum(values[place] for place in self.existing(block))
        return total

    def do_view(self, origin, sizes, steps):
        refuse_unless(0 not in sizes and 0 not in steps, "size")
        last = [o + (s - 1) * t for o, s, t in zip(origin, sizes, steps)]
        refuse_unless(lies_in(last, self.header.shape), "size")
        self.origin, self.sizes, self.steps = list(origin), list(sizes), list(steps)

    def do_slice(self, axis, place):
        refuse_unless(axis < len(self.sizes) and place < self.sizes[axis], "range")
        self.origin[axis] += place * self.steps[axis]
        self.sizes[axis] = 1

    def in_window(self, position):
        """The position of the array for one of the window."""
        return [o + p * t for o, p, t in zip(self.origin, position, self.steps)]

    def do_vget(self, position):
        refuse_unless(lies_in(position, self.sizes), "range")
        return self.access(self.cache, "get", self.in_window(position))

    def do_vset(self, position, value):
        refuse_unless(lies_in(position, self.sizes), "range")
        return self.access(self.cache, "set", self.in_window(position), value)

    def do_vsum(self):
        return sum(self.do_vget(position) for position in positions(self.sizes))

    def do_flush(self):
        self.cache.flush()

    def do_discard(self):
        self.cache.empty()

    def do_lines(self, lines):
        refuse_unless(1 <= lines <= MOST_LINES, "size")
        self.cache.set_lines(lines)

    def do_resize(self, sizes):
        refuse_unless(len(sizes) == len(self.header.shape) and is_shape(sizes), "size")
        header = self.header._replace(shape=tuple(sizes))
        refuse_unless(rate_bytes(header) <= MOST_FILE_BYTES, "size")
        self.header = header
        self.cache.empty()
        self.cache.backing = Codes(header)
        self.window_on_all()

    def do_stats(self):
        return self.cache.counts()

    def do_split(self, count, lines):
        blocks = block_count(self.header.shape)
        refuse_unless(1 <= count <= min(MOST_VIEWS, blocks) and 1 <= lines <= MOST_LINES, "size")
        self.cache.flush()
        for k in range(count):
            owned = range(k * blocks // count, (k + 1) * blocks // count)
            self.views.append((Cache(self.cache.backing, lines), owned))

    def do_join(self):
        for view, _ in self.views:
            view.flush()
        self.views = []

    def end(self):
        """What the end of a script does in a run."""
        self.do_join()
        self.do_flush()
