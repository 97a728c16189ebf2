"""The words of a call, and the answer of each command (FORMAT, section 13)."""

import re
from typing import NamedTuple

from definition import faults
from definition.arrays import Cache, Codes, ConstantBlocks, TwoWayCache, default_lines
from definition.blocks import block_count
from definition.bounds import bound_line
from definition.codes import PRECISION, RATE, REVERSIBLE
from definition.grammar import IN_A_LOOK, IN_A_RUN, IN_A_TWO_WAY_RUN, read_list, read_number
from definition.header import (
    LONG_BYTES,
    MOST_FILE_BYTES,
    MOST_PRECISION,
    MOST_RATE,
    Header,
    info_line,
    is_shape,
    mode_number,
    rate_bytes,
    read_header,
)
from definition.scripts import MOST_LINES, Session
from definition.streams import NARROW, Opened, compress, restore, sample_line, stream_of_codes

MOST_SCRIPT_BYTES = 16_777_216
WIDTHS = {"int32": 32, "int64": 64}


class Answer(NamedTuple):
    """How a call ends. Where it is not `whole`, what it writes is some prefix of `text`."""

    code: int
    text: bytes
    whole: bool
    line: bytes
    files: dict


class Words:
    """The words of a call, which are taken one after another."""

    def __init__(self, words):
        self.words, self.at = words, 0

    def take(self, read):
        """What the next word stands for. Where it stands for nothing, so many words begin a command."""
        found = read(self.words[self.at]) if self.at < len(self.words) else None
        if found is None:
            raise faults.usage(self.at)
        self.at += 1
        return found

    def one_of(self, *known):
        return self.take(lambda word: word if word in known else None)

    def are_left(self):
        return self.at < len(self.words)


def read_shape(word):
    sizes = read_list(word, "x", 4)
    return tuple(sizes) if sizes and is_shape(sizes) else None


def read_name(word):
    return word if re.fullmatch("[a-zA-Z0-9][a-zA-Z0-9_.-]{0,63}", word) else None


def number_within(most):
    """Reads a number from 1 up to this one."""

    def read(word):
        number = read_number(word)
        return number if number and number <= most else None

    return read


def rate_for(width, shape):
    """Reads a rate of which the stream is not too long."""

    def read(word):
        rate = number_within(MOST_RATE)(word)
        return rate if rate and rate_bytes(Header(width, shape, RATE, rate)) <= MOST_FILE_BYTES else None

    return read


def take_header(words, width, shape):
    """The header that a mode gives an array."""
    mode = words.one_of(REVERSIBLE, RATE, PRECISION)
    if mode == REVERSIBLE:
        return Header(width, shape, mode)
    read = rate_for(width, shape) if mode == RATE else number_within(MOST_PRECISION)
    return Header(width, shape, mode, words.take(read))


def ended(words, answer):
    """The answer, where no word is left."""
    if words.are_left():
        raise faults.usage(words.at)
    return answer


def done(text=b"", files=None):
    return Answer(0, text, True, b"", files or {})


def stopped(fault, text=b"", whole=True):
    return Answer(fault.code, text, whole, f"zfpi: {fault.line}\n".encode(), {})


def part_or_whole(text, fault):
    return stopped(fault, text, whole=False) if fault else done(text)


def answer_compress(words, data, _):
    kind = words.one_of(*WIDTHS, *NARROW)
    shape = words.take(read_shape)
    header = take_header(words, WIDTHS.get(kind, 32), shape)
    narrow = kind if kind in NARROW else None
    return ended(words, lambda: part_or_whole(*compress(header, data, narrow)))


def answer_restore(words, data, _):
    narrow = words.one_of(*NARROW) if words.are_left() else None

    def answer():
        if narrow and read_header(data).width != 32:
            raise faults.not_narrow()
        return part_or_whole(*restore(data, narrow))

    return ended(words, answer)


def answer_info(words, data, _):
    return ended(words, lambda: done(info_line(read_header(data[:LONG_BYTES])).encode()))


def answer_new(words, _, __):
    name = words.take(read_name)
    width = WIDTHS[words.one_of(*WIDTHS)]
    shape = words.take(read_shape)
    header = Header(width, shape, RATE, words.take(rate_for(width, shape)))
    return ended(words, lambda: done(files={name: stream_of_codes(header, Codes(header).codes)}))


def opened_file(files, name, rate_only):
    """The stream that a file is."""
    if name not in files:
        raise faults.no_file()
    if len(files[name]) > MOST_FILE_BYTES:
        raise faults.file_is_long()
    header = read_header(files[name])
    if rate_only and header.mode != RATE:
        raise faults.no_array(mode_number(header))
    opened = Opened(files[name])
    if opened.fault:
        raise opened.fault
    return opened


def check_script(script):
    if len(script) > MOST_SCRIPT_BYTES:
        raise faults.script_is_long()


def replied(replies, refused, files):
    text = "".join(reply + "\n" for reply in replies).encode()
    if refused:
        return Answer(1, text, True, f"zfpi: {refused} lines refused\n".encode(), files)
    return done(text, files)


def answer_run(words, script, files):
    name = words.take(read_name)
    way = words.one_of("lines", "twoway") if words.are_left() else None
    lines = words.take(number_within(MOST_LINES)) if way else None

    def answer():
        opened = opened_file(files, name, rate_only=True)
        check_script(script)
        cache = TwoWayCache if way == "twoway" else Cache
        known = IN_A_TWO_WAY_RUN if way == "twoway" else IN_A_RUN
        codes = Codes(opened.header, opened.codes())
        session = Session(opened.header, cache(codes, lines or default_lines(len(opened.blocks))), known)
        replies, refused = session.run(script)
        session.end()
        file = stream_of_codes(session.header, session.cache.backing.codes)
        return replied(replies, refused, {name: file})

    return ended(words, answer)


def answer_look(words, script, files):
    name = words.take(read_name)
    lines = words.take(number_within(MOST_LINES)) if words.are_left() and words.one_of("lines") else None

    def answer():
        opened = opened_file(files, name, rate_only=False)
        check_script(script)
        cache = Cache(ConstantBlocks(opened), lines or default_lines(block_count(opened.header.shape)))
        return replied(*Session(opened.header, cache, IN_A_LOOK).run(script), {})

    return ended(words, answer)


def answer_bound(words, _, files):
    name = words.take(read_name)
    most = words.take(read_number)

    def answer():
        opened = opened_file(files, name, rate_only=True)
        return done(bound_line(opened.header, opened.codes(), most).encode())

    return ended(words, answer)


def answer_sample(words, _, __):
    width = WIDTHS[words.one_of(*WIDTHS)]
    shape = words.take(read_shape)
    seed = words.take(read_number)
    header = take_header(words, width, shape)
    return ended(words, lambda: done(sample_line(header, seed).encode()))


ANSWERS = {
    "compress": answer_compress,
    "restore": answer_restore,
    "info": answer_info,
    "new": answer_new,
    "run": answer_run,
    "look": answer_look,
    "bound": answer_bound,
    "sample": answer_sample,
}


def answer(words, data, files):
    """How a call of these words ends, with this input and these files of the current folder.

    `files` of the answer are those that it saves.
    """
    words = Words(words)
    try:
        call = ANSWERS[words.one_of(*ANSWERS)](words, data, files)
        return call()
    except faults.Fault as fault:
        return stopped(fault)
