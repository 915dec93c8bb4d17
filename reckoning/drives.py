"""Drives by their four values, the analog drive's output, and the reversed mount (docs/drives.md)."""

from fractions import Fraction

ASLEEP = 1
BEYOND = 2
REACH = 19_999_999


def hold(number, low, high):
    return low if number < low else high if number > high else number


class Analog:
    """`step` and `name` answer None when taken, else the number of the refusal."""

    def __init__(self, k1, k2):
        self.k1 = hold(k1, 0, 9_999)
        self.k2 = hold(k2, 0, 9_999)
        self.place = 0
        self.gap = 0
        self.awake = False
        self.latest = 0

    def hold_gap(self, gap):
        self.gap = hold(gap, -1_000_000, 1_000_000)

    def step(self, counts):
        if not self.awake:
            return ASLEEP
        if abs(self.place + counts) > REACH:
            return BEYOND
        self.place += counts
        self.hold_gap(self.gap + counts)
        self.latest = counts
        return None

    def feel(self, counts, ready):
        self.hold_gap(self.gap - counts)
        if not ready:
            self.sleep()

    def name(self, place):
        if abs(place) > REACH:
            return BEYOND
        self.place = place
        self.latest = 0
        return None

    def wake(self):
        self.awake = True
        self.gap = 0
        self.latest = 0

    def sleep(self):
        self.awake = False
        self.latest = 0

    def output(self):
        exact = Fraction(self.k1 * self.gap + self.k2 * self.latest, 1_000)
        return hold(int(exact), -32_000, 32_000)  # int() drops the fraction


class Reversed:
    """Over another drive, with the sign of every number changed."""

    def __init__(self, below):
        self.below = below

    @property
    def place(self):
        return -self.below.place

    @property
    def gap(self):
        return -self.below.gap

    @property
    def awake(self):
        return self.below.awake

    def step(self, counts):
        return self.below.step(-counts)

    def feel(self, counts, ready):
        self.below.feel(-counts, ready)

    def name(self, place):
        return self.below.name(-place)

    def wake(self):
        self.below.wake()

    def sleep(self):
        self.below.sleep()

    def output(self):
        return self.below.output()
