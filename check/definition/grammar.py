"""Which lines of a script are which command (SCRIPTS, sections 5 and 7)."""

import re
from typing import NamedTuple

MOST_NUMBER = 2**64 - 1
# The words behind the first one, by kind.
COMMANDS = {
    "get": ("position",),
    "set": ("position", "value"),
    "add": ("position", "value"),
    "fill": ("value",),
    "sum": (),
    "view": ("position", "sizes", "position"),
    "slice": ("number", "number"),
    "vget": ("position",),
    "vset": ("position", "value"),
    "vsum": (),
    "flush": (),
    "discard": (),
    "lines": ("number",),
    "resize": ("any sizes",),
    "stats": (),
    "split": ("number", "number"),
    "join": (),
}
ON_A_VIEW = ("get", "set", "add", "flush", "discard", "stats")
IN_A_RUN = tuple(COMMANDS)
IN_A_TWO_WAY_RUN = ("get", "set", "add", "fill", "sum", "flush", "discard", "lines", "stats")
IN_A_LOOK = ("get", "sum", "view", "slice", "vget", "vsum", "lines", "stats")


class Command(NamedTuple):
    """A line that is a command. `view` is the number of the view that it is on, if it is on one."""

    view: int | None
    name: str
    numbers: tuple


def read_number(text):
    """A number, or none where the text has not its one spelling."""
    if not re.fullmatch("0|[1-9][0-9]*", text) or int(text) > MOST_NUMBER:
        return None
    return int(text)


def read_value(text):
    if not text.startswith("-"):
        return read_number(text)
    number = read_number(text[1:])
    return -number if number else None


def read_list(text, separator, most):
    numbers = [read_number(word) for word in text.split(separator)]
    return None if None in numbers or len(numbers) > most else numbers


def read_word(kind, text, dims):
    """What a word of this kind stands for, or none."""
    if kind == "number":
        return read_number(text)
    if kind == "value":
        return read_value(text)
    if kind == "any sizes":
        return read_list(text, "x", 4)
    numbers = read_list(text, "," if kind == "position" else "x", dims)
    return numbers if numbers and len(numbers) == dims else None


def read_line(line, dims, known):
    """The command that a line is in so many dimensions, or none. `known` are the names that there are."""
    words = line.decode("latin-1").split(" ")
    view = None
    if words[0].startswith("@") and known == IN_A_RUN:
        view = read_number(words[0][1:])
        words, known = words[1:], ON_A_VIEW
        if view is None or not words:
            return None
    if words[0] not in known or len(words) != 1 + len(COMMANDS[words[0]]):
        return None
    numbers = tuple(read_word(kind, word, dims) for kind, word in zip(COMMANDS[words[0]], words[1:]))
    return None if None in numbers else Command(view, words[0], numbers)


def lines_of(script):
    """The lines of a script that are not empty."""
    return [line for line in script.split(b"\n") if line]
