"""Prints what the program `winder` has to print. Without arguments: for the words in crates/winder/args, 0000 0010."""

import sys

import axis as one
from axis import Axis, Move, Parameters
from drives import Analog, Reversed
from motion import planned_speed
from words import Refused, read_position

FEEDRATE, ACCELERATION, DECELERATION = 4, 2, 2
K1, K2 = 1_000, 500

# The axis that winds, and what it is told: the home switch is on from tick 6 on, the marker comes with every fifth tick.
AXIS_K1, AXIS_K2 = 1_000, 2_000
PARAMETERS = Parameters(
    low=-100, high=200, home=20, offset=3, feedrate=4, acceleration=2, deceleration=2, jog_rate=4, home_rate=4, creep_rate=1,
    band=1, following_limit=20,
)
MOVESET = [
    Move("move", 51, continuous=True),
    Move("move", 73),
    Move("offset", 16, incremental=True),
    Move("dwell", 20),
    Move("move", 70, feedrate=3, halt=True),
    Move("preset", 0),
    Move("move", 30),
]


def shown(drive):
    return "place %d, gap %d, output %d" % (drive.place, drive.gap, drive.output())


def wind(counts):
    analog, mount = Analog(K1, K2), Reversed(Analog(K1, K2))
    analog.wake()
    mount.wake()
    sign = -1 if counts < 0 else 1
    left, speed, tick, step = abs(counts), 0, 0, 0
    while True:
        tick += 1
        for drive in analog, mount:
            drive.feel(step, True)
        speed = planned_speed(speed, FEEDRATE, ACCELERATION, DECELERATION, left)
        left -= speed
        step = sign * speed
        for drive in analog, mount:
            assert drive.step(step) is None
        print("tick %d: step %d; analog %s; reversed %s" % (tick, step, shown(analog), shown(mount)))
        if left == 0 and speed == 0 and analog.gap == 0 and mount.gap == 0:
            break
    print("arrived in %d ticks: analog place %d, reversed place %d" % (tick, analog.place, mount.place))


def give_order(axis):
    """What is due before a tick, in words; None where nothing is."""
    if axis.mode == one.UNSET:
        axis.set_parameters(PARAMETERS)
        return "parameters"
    if axis.mode == one.DOWN:
        axis.reset()
        return "command 7, reset"
    if axis.mode == one.REST and not axis.homed:
        axis.search_home()
        return "command 4, search home"
    if axis.mode == one.REST and axis.moves is None:
        axis.set_moveset(MOVESET)
        axis.begin()
        return "moveset of %d moves; command 1, begin" % len(MOVESET)
    if axis.mode == one.WAITING:
        axis.start()
        return "command 2, start"
    return None


def wind_axis():
    drive = Analog(AXIS_K1, AXIS_K2)
    axis = Axis(drive)
    print("axis 1 winds; gains %d and %d" % (AXIS_K1, AXIS_K2))
    tick, counts = 0, 0
    while not (axis.mode == one.REST and axis.homed and axis.moves is not None):
        order = give_order(axis)
        if order is not None:
            print(order)
        tick += 1
        step = axis.tick(counts, tick >= 6, tick % 5 == 0)
        assert axis.noted == 0
        counts = 0 if step is None else step
        given = "no step" if step is None else "step %d" % step
        fields = (tick, axis.mode, given, drive.place, drive.gap, drive.output(), drive.place - axis.base, axis.noted)
        print("tick %d: mode %d, %s; place %d, gap %d, output %d; shown %d, noted %d" % fields)
    print("wound in %d ticks: last endpoint %d, place %d" % (tick, axis.last_endpoint, drive.place))


def main(first="0000", second="0010"):
    first, second = first.upper().zfill(4), second.upper().zfill(4)
    try:
        counts = read_position(first, second, 1, 0)
    except Refused as no:
        print("position %s %s refused: question %d, axis %d, word %d" % ((first, second) + no.numbers))
        return
    print("position %s %s: %d counts" % (first, second, counts))
    print("feedrate %d, acceleration %d, deceleration %d; gains %d and %d" % (FEEDRATE, ACCELERATION, DECELERATION, K1, K2))
    wind(counts)
    wind_axis()


main(*sys.argv[1:])
