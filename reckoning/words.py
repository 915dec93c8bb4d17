"""Words as texts of four hexadecimal characters, read and written character by character (docs/blocks.md)."""

LARGEST = 19_999_999
DECIMAL = "0123456789"


class Refused(Exception):
    """A no: the number of the question, the axis and the word that it names."""

    def __init__(self, question, axis, word):
        super().__init__(question, axis, word)
        self.numbers = (question, axis, word)

    def __str__(self):
        return "refused %d %d %d" % self.numbers


def bits(character):
    """The four bits of a hexadecimal character as a text, the most significant first."""
    return format(int(character, 16), "04b")


def need_digits(text, axis, word):
    if any(character not in DECIMAL for character in text):
        raise Refused(5, axis, word)


def read_number(text, axis, word):
    need_digits(text, axis, word)
    return int(text, 10)


def split_first(text, fixed, axis, word):
    """The four leading bits of a first word and its three digits; `fixed` has an x where a bit has to be off."""
    lead = bits(text[0])
    if any(must == "x" and bit == "1" for must, bit in zip(fixed, lead)):
        raise Refused(5, axis, word)
    need_digits(text[1:], axis, word)
    return lead, text[1:]


def read_signed(first, second, fixed, axis, word):
    lead, upper = split_first(first, fixed, axis, word)
    need_digits(second, axis, word + 1)
    size = int(("1" if lead[3] == "1" else "0") + upper + second, 10)
    return lead, -size if lead[0] == "1" else size


def read_position(first, second, axis, word):
    """A position in a place without an incremental mark."""
    return read_signed(first, second, "-xx-", axis, word)[1]


def read_target(first, second, axis, word):
    """A position of a move: whether it is incremental, and its counts."""
    lead, counts = read_signed(first, second, "-x--", axis, word)
    return lead[2] == "1", counts


def read_dwell(first, second, axis, word):
    upper = split_first(first, "xxxx", axis, word)[1]
    need_digits(second, axis, word + 1)
    return int(upper + second, 10)


def write_position(counts):
    """The two words, or None for a number that they cannot hold."""
    if abs(counts) > LARGEST:
        return None
    text = "%08d" % abs(counts)
    lead = {("+", "0"): "0", ("+", "1"): "1", ("-", "0"): "8", ("-", "1"): "9"}
    return lead["-" if counts < 0 else "+", text[0]] + text[1:4], text[4:]
