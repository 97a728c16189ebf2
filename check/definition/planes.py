"""Bits, and the code of bit planes (FORMAT, sections 1 and 9)."""


def bits_of_number(number, count):
    """A field: its least significant bit comes first."""
    return [number >> i & 1 for i in range(count)]


def number_of_bits(bits):
    return sum(bit << i for i, bit in enumerate(bits))


def bits_of_bytes(data):
    return [byte >> i & 1 for byte in data for i in range(8)]


def bytes_of_bits(bits):
    """These bits, of which there is a multiple of 8."""
    return bytes(number_of_bits(bits[at : at + 8]) for at in range(0, len(bits), 8))


class Reader:
    """Reads bits one after another. Behind their end all are 0; `lacks` says if one of those was read."""

    def __init__(self, bits, at=0):
        self.bits, self.at = bits, at

    def bit(self, beyond=0):
        """The next bit. `beyond`, the one that a budget's end asks for, is for other readers."""
        del beyond
        self.at += 1
        return self.bits[self.at - 1] if self.at <= len(self.bits) else 0

    def field(self, count):
        return number_of_bits([self.bit() for _ in range(count)])

    def lacks(self):
        return self.at > len(self.bits)


class BudgetReader(Reader):
    """Reads the bits of a code with a budget. Behind them comes what the rule of that asks for."""

    def bit(self, beyond=0):
        self.at += 1
        return self.bits[self.at - 1] if self.at <= len(self.bits) else beyond


def plane_code(digits, known):
    """The code of one plane, and the new number of ranks that are known to have a one in some plane."""
    size = len(digits)
    code = digits[:known]
    while known < size:
        if 1 not in digits[known:]:
            return code + [0], known
        code = code + [1]
        found = digits.index(1, known)
        # The one of the last rank is implied.
        code = code + digits[known : min(found + 1, size - 1)]
        known = found + 1
    return code, known


def planes_code(ranked, planes):
    """The code of these planes, from the greatest down, of digits by rank."""
    code, known = [], 0
    for plane in reversed(planes):
        more, known = plane_code([digits >> plane & 1 for digits in ranked], known)
        code += more
    return code


def read_plane(reader, size, known):
    """The digits of one plane, and the new number of known ranks."""
    digits = [0] * size
    for rank in range(known):
        digits[rank] = reader.bit()
    while known < size and reader.bit():
        # Where a budget ends here, a one is put at the rank where the reader stands.
        while known < size - 1 and not reader.bit(beyond=1):
            known += 1
        digits[known] = 1
        known += 1
    return digits, known


def read_planes(reader, size, planes):
    """Digits by rank, of which only those of these planes are not zero."""
    ranked, known = [0] * size, 0
    for plane in reversed(planes):
        digits, known = read_plane(reader, size, known)
        ranked = [all_digits | digit << plane for all_digits, digit in zip(ranked, digits)]
    return ranked
