"""The endings that are not good, with their lines and exit codes (FORMAT, sections 3 and 12; GUIDE)."""


class Fault(Exception):
    """An ending: its exit code, and its line without the program's name."""

    def __init__(self, code, line):
        super().__init__(line)
        self.code, self.line = code, line


class HeaderFault(Fault):
    def __init__(self, name):
        super().__init__(4, f"header: {name}")


def usage(words):
    return Fault(2, f"usage: word {words}")


def raw_ends(count):
    return Fault(3, f"input ends after {count} bytes")


def raw_is_long():
    return Fault(3, "input is longer than the shape")


def ends_in_block(number):
    return Fault(5, f"stream ends in block {number}")


def fill_bit():
    return Fault(5, "fill bit is one")


def bytes_follow():
    return Fault(5, "bytes after the stream")


def no_array(mode):
    return Fault(6, f"mode {mode} has no cached array")


def no_file():
    return Fault(7, "no such file")


def script_is_long():
    return Fault(8, "script too long")


def file_is_long():
    return Fault(9, "file too long")


def not_narrow():
    return Fault(13, "type is not int32")
