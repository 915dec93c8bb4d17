"""Prints what the program `vectors` has to print, from a list of the cases of its own."""

from drives import Analog, Reversed
from motion import braking_distance, planned_speed
from words import Refused, read_dwell, read_number, read_position, read_target, write_position

QUESTIONS = {
    1: "kind", 2: "directory", 3: "pairs", 4: "axis", 5: "digits", 6: "range", 7: "parameters", 8: "mode", 9: "homed",
    10: "held", 11: "at rest", 12: "shown", 13: "ticket", 14: "control", 15: "length", 16: "moveset", 23: "buffer",
}

NUMBERS = """
0000 0001 0010 0100 1000 1234 5678 9876 0127 7996 9090 9999
000A 00A0 0A00 A000 000F 00F0 0F00 F000 9BC9 FFFF
"""

POSITIONS = """
0000 0000, 8000 0000
0000 0001, 0000 0010, 0000 0100, 0000 1000, 0001 0000, 0010 0000, 0100 0000, 1000 0000
8000 0001, 9000 0000, 8001 2345, 1234 5678, 9876 5432
0999 9999, 8999 9999, 1999 9999, 9999 9999
2000 0000, 4000 0000, 6000 0000, A000 0250, C001 2345, F999 9999
0A00 0000, 00A0 0000, 000A 0000, 0F00 0000, 00F0 0000, 000F 0000
0000 A000, 0000 0A00, 0000 00A0, 0000 000A, 0000 F000, 0000 0F00, 0000 00F0, 0000 000F
1999 999A, 8001 23F5
A000 000A, 4000 FFFF, 000B B000, FFFF FFFF
"""

WRITTEN = [
    0, 1, -1, 9, -10, 9999, 10000, -10000, -12345, 250, 999999, 1000000, 9999999, 10000000, -10000000, 12345678, -19876543,
    19999999, -19999999, 20000000, -20000000, 2**31 - 1, -(2**31),
]

TARGETS = """
0000 0000, 2000 0000, 8000 0000, A000 0000
0000 0250, 2000 0250, 8000 0250, A000 0250
1234 5678, 3234 5678, 9234 5678, B234 5678
3999 9999, B999 9999
4000 0000, 6000 0250, C000 0250, E000 0000
2A00 0000, 20A0 0000, 200A 0000, 0F00 0000, 00F0 0000, 000F 0000
2000 A000, 2000 0A00, 2000 00A0, 2000 000A, A999 999F
6000 000A, 200F F000, FFFF FFFF
"""

DWELLS = """
0000 0000, 0000 0019, 0000 0020, 0000 0024, 0000 0025, 0000 1500
0001 0000, 0010 0000, 0100 0000, 0123 4567, 0999 9990, 0999 9999
1000 0020, 2000 0020, 4000 0020, 8000 0020, F000 0020
0A00 0020, 00A0 0020, 000A 0020, 0F00 0020, 00F0 0020, 000F 0020
0000 A000, 0000 0A00, 0000 00A0, 0000 000A, 0999 F990, 0999 999F
1000 000A, 8000 A000, 0B00 00B0, FFFF FFFF
"""

# speed, deceleration
DISTANCES = [
    (0, 1), (0, 9999), (1, 1), (8, 1), (4, 2), (5, 2), (7, 3), (8, 3), (9, 3), (6, 6), (7, 6), (5, 9999), (4, 0), (7996, 1),
    (7996, 40), (10154, 9999), (65535, 1), (65535, 65535),
]

# feedrate, acceleration, deceleration, speed, room
PLANS = [
    (4, 2, 2, 0, 10), (4, 2, 2, 2, 8), (4, 2, 2, 4, 4), (4, 2, 2, 3, 1), (4, 2, 2, 1, 0),
    (4, 2, 2, 0, 1),
    (4, 2, 2, 0, 0), (4, 2, 2, 4, 40000000),
    (1, 2, 2, 4, 100), (0, 2, 2, 4, 100), (0, 2, 2, 1, 100),
    (4, 0, 2, 3, 100), (7996, 9999, 9999, 0, 40000000),
    (10, 10, 3, 0, 22), (10, 10, 3, 0, 21), (100, 5, 1, 40, 1035), (100, 5, 1, 40, 1034), (100, 5, 1, 40, 820), (100, 5, 1, 40, 819),
    (10, 1, 3, 50, 1000), (7996, 50, 40, 7990, 40000000), (7996, 50, 40, 7996, 803200), (7996, 50, 40, 7996, 803198),
    (10154, 9999, 9999, 10154, 10000),
    (65535, 65535, 1, 65535, 2147450880), (65535, 1, 65535, 65535, 1000),
]

# speed, deceleration
SLOWED = [(5, 2), (3, 2), (1, 2), (0, 2), (7996, 40), (40, 9999)]

# place and gap before the call, awake or asleep; the call
DRIVES = """
0 0 asleep step 5
19999999 0 asleep step 1
19999999 0 awake step 1
-19999999 0 awake step -1
19999990 3 awake step 9
19999990 3 awake step 10
-19999990 -3 awake step -9
5 -2 awake step -7
7 0 asleep step 0
7 0 awake step 0
-19999999 0 awake step 39999998
-19999999 0 awake step 39999999
0 0 awake step 2147483647
0 0 awake step -2147483648
0 999999 awake step 4
0 -999999 awake step -4
0 10 awake feel 4 ready
0 -10 awake feel -32768 ready
0 -999990 awake feel 32767 ready
0 1000000 awake feel 4 ready
0 0 awake feel -2147483648 ready
0 0 awake feel 2147483647 ready
100 7 awake feel 2 not ready
100 7 asleep feel 2 ready
5 -2 asleep name -20000000
5 -2 asleep name -19999999
5 -2 awake name 20000000
5 -2 awake name 19999999
5 -2 awake name -2147483648
-40 700 awake wake
-40 700 asleep wake
-40 700 awake sleep
-40 700 asleep sleep
"""

# k1, k2, gap, latest step; a step farther than the reach starts from its lower end, where the gap is held
OUTPUTS = [
    (1000, 0, 12, 4), (0, 1000, 12, 4), (250, 500, 100, 4),
    (250, 500, 101, 4), (250, 500, -101, -4), (250, 500, 3, -4), (333, 0, -3, 0), (333, 0, 3, 0), (1, 2, -999, -999),
    (1000, 0, 32000, 0), (1000, 0, 32001, 0), (1000, 0, -32001, 0),
    (9999, 9999, 1000000, 7996), (9999, 9999, -1000000, -7996), (9999, 9999, 1000000, 39999998), (0, 0, 1000000, 39999998),
    (-5, 1000, 10, 10), (1000, -5, 10, 10), (12000, 0, 2, 0), (0, 12000, 2, 2),
]

AFTER_A_STEP = """
step -3
step 0
step 20000000
feel 8 ready
feel 8 not ready
name 5
name 20000000
wake
sleep
name -19999999
"""


def lines(text):
    return [line for line in text.splitlines() if line]


def pairs(text):
    return [pair.split() for line in lines(text) for pair in line.split(",")]


def answered(read, *arguments):
    """What a reader answers, as a line says it."""
    try:
        value = read(*arguments)
    except Refused as no:
        return str(no)
    if isinstance(value, tuple):
        incremental, counts = value
        return "= %d%s" % (counts, " incremental" if incremental else "")
    return "= %d" % value


def make(call, drive):
    """Makes the call that the text says; how the answer reads."""
    name, _, rest = call.partition(" ")
    if name == "feel":
        counts, _, ready = rest.partition(" ")
        refusal = drive.feel(int(counts), ready == "ready")
    else:
        refusal = getattr(drive, name)(*map(int, rest.split()))
    return "taken" if refusal is None else "refused %d" % refusal


def values(drive):
    return "place %d gap %d %s" % (drive.place, drive.gap, "awake" if drive.awake else "asleep")


def standing(drive, place, gap, wakefulness):
    """Brings a new drive to these values."""
    drive.name(place)
    drive.wake()
    drive.feel(-gap, True)
    if wakefulness == "asleep":
        drive.sleep()
    return drive


def output(drive):
    return "gap %d latest step %d = %d" % (drive.gap, drive.latest, drive.output())


def print_words():
    for number, name in QUESTIONS.items():
        print("question %s = %d" % (name, number))
    for number, name in enumerate(("one", "two", "three"), 1):
        print("axis %s = %d" % (name, number))
    for word in NUMBERS.split():
        print("number", word, answered(read_number, word, 1, 9))
    for first, second in pairs(POSITIONS):
        print("position", first, second, answered(read_position, first, second, 2, 3))
    for counts in WRITTEN:
        print("written", counts, "=", " ".join(write_position(counts) or ["none"]))
    for first, second in pairs(TARGETS):
        print("target", first, second, answered(read_target, first, second, 3, 2))
    for first, second in pairs(DWELLS):
        print("dwell", first, second, answered(read_dwell, first, second, 1, 60))


def print_planning():
    for speed, deceleration in DISTANCES:
        print("braking distance", speed, "at", deceleration, "=", braking_distance(speed, deceleration))
    for feedrate, acceleration, deceleration, speed, room in PLANS:
        planned = planned_speed(speed, feedrate, acceleration, deceleration, room)
        print("plan", feedrate, acceleration, deceleration, "from", speed, "in", room, "=", planned)
    for speed, deceleration in SLOWED:
        print("slowed", speed, "at", deceleration, "=", max(speed - deceleration, 0))


def print_drives():
    for line in lines(DRIVES):
        place, gap, wakefulness, call = line.split(" ", 3)
        start = int(place), int(gap), wakefulness
        drive = standing(Analog(0, 0), *start)
        print("analog %s, %s %s, %s" % (values(drive), call, make(call, drive), values(drive)))
        mount = standing(Reversed(Analog(0, 0)), *start)
        answer = "reversed %s, %s %s, %s" % (values(mount), call, make(call, mount), values(mount))
        print("%s, below %s" % (answer, values(mount.below)))
    for k1, k2, gap, step in OUTPUTS:
        drive = Analog(k1, k2)
        drive.name(-19999999 if step > 19999999 else 0)
        drive.wake()
        drive.step(step)
        drive.feel(drive.gap - gap, True)
        print("output of gains %d %d at %s" % (k1, k2, output(drive)))
    for call in lines(AFTER_A_STEP):
        drive = Analog(1000, 1000)
        drive.wake()
        drive.step(8)
        print("after a step of 8 %s %s, %s" % (call, make(call, drive), output(drive)))


print_words()
print_planning()
print_drives()
