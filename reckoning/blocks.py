"""Blocks and movesets: each tabulated block with what its reader has to answer (docs/blocks.md, docs/refusals.md).

Without arguments: a line for each case. With the argument `table`: the cases alone, as a Rattle file.
"""

import sys

from words import LARGEST, Refused, read_dwell, read_number, read_position, read_target, write_position

KINDS = {"parameters": ("0001", 17), "command": ("0003", 3), "preset": ("0004", 3)}
RATES = {9: 7_996, 10: 9_999, 11: 9_999, 12: 7_996, 13: 7_996, 14: 7_996}


# The rules of docs/, on words as texts.

def directory(kind, words):
    """The records of a block as (axis, index of the first word), once its outer form is right."""
    number, length = KINDS[kind]
    if len(words) < 2 or words[0] != number:
        raise Refused(1, 0, 0)
    if words[1] not in ("0001", "0002", "0003"):
        raise Refused(2, 0, 1)
    count = int(words[1])
    if len(words) < 2 + 2 * count:
        raise Refused(2, 0, 0)
    due = 2 + 2 * count
    for pair in range(count):
        for index, value in ((2 + 2 * pair, due), (3 + 2 * pair, length)):
            if words[index] != "%04X" % value:
                raise Refused(3, 0, index)
        due += length
    if len(words) != due:
        raise Refused(3, 0, 0)
    records = []
    for start in range(2 + 2 * count, due, length):
        axis = int(words[start], 16)
        if axis not in (1, 2, 3) or (records and axis <= records[-1][0]):
            raise Refused(4, 0, start)
        records.append((axis, start))
    return records


def read_presets(words):
    return [(axis, start, read_position(words[start + 1], words[start + 2], axis, start + 1))
            for axis, start in directory("preset", words)]


def read_commands(words):
    written = [(axis, start, [read_number(words[start + k], axis, start + k) for k in (1, 2)])
               for axis, start in directory("command", words)]
    for axis, start, (code, argument) in written:
        if code not in range(1, 9):
            raise Refused(6, axis, start + 1)
        if argument > (127 if code == 8 else 0):
            raise Refused(6, axis, start + 2)
    return written


def read_parameters(words, reaches):
    written = []
    for axis, start in directory("parameters", words):
        positions = [read_position(words[start + k], words[start + k + 1], axis, start + k) for k in (1, 3, 5, 7)]
        numbers = [read_number(words[start + k], axis, start + k) for k in range(9, 17)]
        written.append((axis, start, positions + numbers))
    for axis, start, values in written:
        low, high, home, _, _, _, deceleration, _, home_rate, creep, band, following = values
        reach = reaches[axis - 1]
        if not (low <= home <= high and abs(low) <= reach and abs(high) <= reach
                and creep <= min(home_rate, deceleration) and band <= following):
            raise Refused(6, axis, start)
        for index, most in RATES.items():
            if not 1 <= values[index - 5] <= most:
                raise Refused(6, axis, start + index)
    return written


def read_moveset(axis, words):
    if not words or not 513 <= int(words[0], 16) <= 533:
        raise Refused(1, axis, 0)
    moves, at = [], 1
    for _ in range(int(words[0], 16) - 512):
        if at >= len(words):
            raise Refused(15, axis, 0)
        control = words[at]
        lead, kind = int(control[0], 16), control[1]
        local = lead & 2 == 2
        if lead & 1 or kind not in "CDEF" or control[2:] != "00" or (local and kind in "EF"):
            raise Refused(14, axis, at)
        if len(words) < at + (4 if local else 3):
            raise Refused(15, axis, 0)
        pair = words[at + 1], words[at + 2]
        if kind in "CD":
            incremental, counts = read_target(*pair, axis, at + 1)
            text = ("offset move " if kind == "D" else "move ") + ("by %d" if incremental else "to %d") % counts
        elif kind == "E":
            text = "preset %d" % read_position(*pair, axis, at + 1)
        else:
            time = read_dwell(*pair, axis, at + 1)
            text = "dwell %d" % time
        if local:
            feedrate = read_number(words[at + 3], axis, at + 3)
            text += " at %d" % feedrate
        if kind == "F" and not 20 <= time <= 9_999_990:
            raise Refused(6, axis, at + 1)
        if local and not 1 <= feedrate <= 7_996:
            raise Refused(6, axis, at + 3)
        moves.append(text + (" halt" if lead & 4 else "") + (" continuous" if lead & 8 else ""))
        at += 4 if local else 3
    if len(words) > at:
        raise Refused(15, axis, at)
    if len(words) > 64:
        raise Refused(15, axis, 64)
    return moves


# The cases.

def number(value):
    return "%04d" % value


def block(kind, *records):
    """A block with a right directory."""
    first, length = KINDS[kind]
    starts = [2 + 2 * len(records) + length * k for k in range(len(records))]
    pairs = [text for start in starts for text in ("%04X" % start, "%04X" % length)]
    return [first, "%04X" % len(records)] + pairs + [word for record in records for word in record]


def changed(words, **new):
    """The words with others in place of some; w5="000A" is word 5."""
    words = list(words)
    for place, word in new.items():
        words[int(place[1:])] = word
    return words


ONE = "0001 8005 0000 1000 0000 8001 2345 0000 0250 4000 0050 0040 0400 0300 0020 0005 2000".split()
THREE = "0003 0000 0000 1999 9999 0000 0000 8000 0040 7996 9999 9999 7996 1000 0001 0000 9999".split()
TWO = ["0002"] + ONE[1:]
FULL = (LARGEST, LARGEST, LARGEST)


def outer(kind, good, length):
    """Cases of the outer form, around records that are right."""
    one, two, three = good
    yield []
    yield [KINDS[kind][0]]
    for wrong in "0000", "0002", "0005", "FFFF", "0201", {"0001": "0003", "0003": "0004", "0004": "0001"}[KINDS[kind][0]]:
        yield changed(block(kind, one), w0=wrong)
    for wrong in "0000", "0004", "FFFF":
        yield changed(block(kind, one), w1=wrong)
    yield [KINDS[kind][0], "0004"]
    yield block(kind, one)[:2]
    yield block(kind, one)[:3]
    yield block(kind, one, two, three)[:7]
    yield changed(block(kind, one), w1="0002")
    for index in 2, 3, 4, 5, 6, 7:
        yield changed(block(kind, one, two, three), **{"w%d" % index: "0005"})
    yield changed(block(kind, one, three), w4="000A", w5="0004")
    yield block(kind, one)[:4]
    yield block(kind, one)[:-1]
    yield block(kind, one) + ["0000"]
    yield block(kind, one, two, three) + ["0001"]
    yield block(kind, one, two)[:-length]
    start = 6
    for wrong in "0000", "0004", "FFFF":
        yield changed(block(kind, one), w4=wrong)
        yield changed(block(kind, one, three), **{"w%d" % (start + length): wrong})
    yield block(kind, one, one)
    yield block(kind, three, one)
    yield block(kind, one, three, two)
    for records in (one,), (two,), (three,), (one, two), (one, three), (two, three), (one, two, three):
        yield block(kind, *records)


def presets():
    good = [["0001", "8001", "2345"], ["0002", "0000", "0000"], ["0003", "0010", "0000"]]
    yield from outer("preset", good, 3)
    for first, second in (("2000", "0250"), ("4000", "0000"), ("A000", "000A"), ("000A", "0000"), ("0001", "23A5"),
                          ("0A00", "0000"), ("00A0", "0000"), ("0000", "A000"), ("0000", "000F"), ("8000", "0000"),
                          ("1999", "9999"), ("9999", "9999"), ("1999", "999A")):
        yield block("preset", ["0002", first, second])
    yield block("preset", ["0001", "0001", "000A"], ["0002", "4000", "0000"])
    yield block("preset", ["0001", "0001", "0000"], ["0003", "4000", "0000"])
    yield block("preset", ["0001", "000A", "0000"], ["0001", "0000", "0000"])


def commands():
    good = [["0001", "0007", "0000"], ["0002", "0008", "0127"], ["0003", "0003", "0000"]]
    yield from outer("command", good, 3)
    for code in range(10):
        yield block("command", ["0001", number(code), "0000"])
        yield block("command", ["0002", number(code), "0001"])
    for code, argument in (("0008", "0128"), ("0008", "0000"), ("000A", "0000"), ("0001", "000A"), ("0010", "0000"),
                           ("1008", "0000"), ("A001", "0000"), ("0008", "F000"), ("0009", "0128"), ("9999", "9999")):
        yield block("command", ["0003", code, argument])
    yield block("command", ["0001", "0009", "0000"], ["0003", "0007", "00A0"])
    yield block("command", ["0001", "000A", "0000"], ["0001", "0007", "0000"])
    yield block("command", ["0001", "0009", "0000"], ["0002", "0009", "0000"])
    yield block("command", ["0001", "0001", "0001"], ["0002", "0009", "0000"])


def parameters():
    for words in outer("parameters", [ONE, TWO, THREE], 17):
        yield FULL, words
    one = block("parameters", ONE)
    for index in range(5, 21):
        yield FULL, changed(one, **{"w%d" % index: "000A"})
        yield FULL, changed(one, **{"w%d" % index: "A000"})
    for index in 5, 7, 9, 11:
        yield FULL, changed(one, **{"w%d" % index: "4000"})
    for index in range(13, 21):
        for value in 0, 1, 7_996, 7_997, 9_999:
            yield FULL, changed(one, **{"w%d" % index: number(value)})
    yield FULL, changed(one, w15="0000", w18="0000")
    yield FULL, changed(one, w18="0040")
    yield FULL, changed(one, w18="0041")
    yield FULL, changed(one, w17="0020")
    yield FULL, changed(one, w17="0019")
    yield FULL, changed(one, w19="2000")
    yield FULL, changed(one, w19="2001")
    yield FULL, changed(one, w9="8005", w10="0000")
    yield FULL, changed(one, w9="8005", w10="0001")
    yield FULL, changed(one, w9="1000", w10="0000")
    yield FULL, changed(one, w9="1000", w10="0001", w13="0000")
    yield FULL, changed(one, w5="C005", w13="400F")
    yield FULL, changed(one, w5="0000", w6="0000", w7="0000", w8="0000", w9="8000", w10="0000")
    for reach in 10_000_000, 9_999_999, 0, -1, -10_000_000, 2**31 - 1, -(2**31):
        yield (reach, LARGEST, LARGEST), one
    limits = block("parameters", changed(ONE, w3="0000", w4="0000"))
    for reach in 50_000, 49_999, 12_345:
        yield (reach, LARGEST, LARGEST), limits
    yield (LARGEST, 0, LARGEST), one
    yield (LARGEST, 0, LARGEST), block("parameters", ONE, TWO)
    yield (0, LARGEST, LARGEST), block("parameters", TWO, THREE)
    yield (LARGEST, LARGEST, 19_999_998), block("parameters", ONE, THREE)
    pair = block("parameters", ONE, THREE)
    yield FULL, changed(pair, w15="0000", w24="0000", w25="0001")
    yield FULL, changed(pair, w15="0000", w24="000A")
    yield FULL, changed(pair, w7="8009", w24="4000")


def movesets():
    yield 1, []
    for first in "0000", "0001", "0200", "0201", "0215", "0216", "FFFF":
        yield 2, [first]
        yield 1, [first, "0C00", "0000", "0001"]
    for bit in range(16):
        yield 3, ["0201", "%04X" % (0x0C00 ^ 1 << bit), "0000", "0020"]
        yield 3, ["0201", "%04X" % (0x0F00 ^ 1 << bit), "0000", "0020"]
    for lead in "02468ACE":
        for kind in "CDEF":
            yield 1, ["0201", lead + kind + "00", "0001", "2345", "0300"]
            yield 1, ["0201", lead + kind + "00", "0001", "2345"]
    for pair in ("2000 0250", "A000 0000", "8000 0000", "4000 0000", "C000 0000", "1000 0020", "0000 000A", "000A 0000",
                 "1999 9999", "9999 9999", "0999 9990", "0999 9991", "0000 0019", "0000 0020", "0000 0000", "000A 000A"):
        for kind in "CDEF":
            yield 2, ["0201", "0" + kind + "00"] + pair.split()
    for rate in "0000", "0001", "7996", "7997", "9999", "000A", "A000":
        yield 3, ["0201", "2C00", "0000", "0001", rate]
    yield 1, "0201 2C00 0000 00A1 0000".split()
    yield 1, "0201 0F00 1000 0019".split()
    yield 1, "0201 0C00".split()
    yield 1, "0201 0C00 0000".split()
    yield 1, "0201 2C00 0000 0001".split()
    yield 1, "0201 0C00 0000 0001 0000".split()
    yield 1, "0201 0C00 0000 0001 0000 0000".split()
    yield 1, "0202 0C00 0000 0001".split()
    yield 1, "0202 0C00 0000 000A 0000 0000 0000".split()
    yield 1, "0202 0C00 0000 0001 0000 0000 0000".split()
    yield 1, "0202 2C00 0000 0001 0500 2D00 2000 0002 0600".split()
    yield 1, "0202 2C00 0000 0001 0500 2D00 2000 0002 000A".split()
    yield 1, "0202 2C00 0000 0001 0500 2D00 2000 0002".split()
    yield 3, "0204 AC00 0015 0000 1200 0D00 2000 2500 4F00 0000 1500 0E00 8001 2345".split()
    yield 2, ["0215"] + ["0C00", "0000", "0001"] * 21
    yield 2, ["0215"] + ["0C00", "0000", "0001"] * 21 + ["0000"]
    yield 2, ["0215"] + ["0C00", "0000", "0001"] * 20 + ["2C00", "0000", "0001", "0001"]
    yield 2, ["0210"] + ["2C00", "0000", "0001", "0001"] * 16
    yield 1, ["0215"] + ["2C00", "0000", "0001", "0001"] * 21
    yield 1, ["0215"] + ["2C00", "0000", "0001", "0001"] * 21 + ["0000"]
    yield 1, ["0215"] + ["2C00", "0000", "0001", "0001"] * 20 + ["2C00", "0000", "000A", "0001"]


def cases():
    """Each case as its call, in words, its block, and how to read it."""
    for words in presets():
        yield "preset", words, lambda words=words: records(read_presets(words))
    for words in commands():
        yield "command", words, lambda words=words: records(read_commands(words))
    for reaches, words in parameters():
        yield "parameters %d %d %d" % reaches, words, lambda words=words, reaches=reaches: records(read_parameters(words, reaches))
    for axis, words in movesets():
        yield "moveset %d" % axis, words, lambda words=words, axis=axis: "; ".join(read_moveset(axis, words))


def records(read):
    return "; ".join("axis %d at %d = %s" % (axis, start, " ".join(map(str, value)) if isinstance(value, list) else value)
                     for axis, start, value in read)


def answer(read):
    try:
        return read()
    except Refused as refused:
        return str(refused)


def lines():
    for call, words, read in cases():
        print("%s:%s: %s" % (call, "".join(" " + word for word in words), answer(read)))


# The cases as a Rattle file, in the order of the lines.

AXES = {1: "One", 2: "Two", 3: "Three"}

# The memory that the check takes grows with the square of a table's length.
ROWS = 40


def calls():
    """Each case as what stands before its words in the table, and the words."""
    for words in presets():
        yield "Presets(", words
    for words in commands():
        yield "Commands(", words
    for reaches, words in parameters():
        limits = "FULL" if reaches == FULL else "Reaches { one: %d, two: %d, three: %d }" % reaches
        yield "Parameters(%s, " % limits, words
    for axis, words in movesets():
        yield "Moveset(AxisId::%s, " % AXES[axis], words


def table():
    rows = list(calls())
    parts = [rows[start : start + ROWS] for start in range(0, len(rows), ROWS)]
    print("// Written by reckoning/blocks.py, in the order of its lines. The cases stand in parts, since the memory that the check takes grows")
    print("// with the square of a table's length.")
    print("use crate::case::Case;")
    print("use blocks::Reaches;")
    print("use words::AxisId;")
    print("\npub const TABLES: [&[Case]; %d] = [" % len(parts))
    for part in range(len(parts)):
        print("    CASES_%d," % (part + 1))
    print("];")
    print("\n// The reach of a drive that reaches every position.")
    print("const FULL: Reaches = Reaches { one: %d, two: %d, three: %d };" % FULL)
    for part, some in enumerate(parts):
        print("\nconst CASES_%d: &[Case] = &[" % (part + 1))
        for call, words in some:
            print("    Case::%s&[%s])," % (call, ", ".join("0x" + word for word in words)))
        print("];")


if __name__ == "__main__":
    table() if sys.argv[1:] == ["table"] else lines()
