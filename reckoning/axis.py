"""One axis over the analog drive, straight from the rules (docs/card.md). Only what `winder` makes it do: no jogs, no slide
stops, no override, no held presets, no axis taken down."""

from drives import Analog
from motion import planned_speed

UNSET, DOWN, REST, MOVING, SETTLING, DWELLING, WAITING, STOPPING, JOGGING, HOMING, CREEPING = range(11)
LARGEST = 19_999_999


class Parameters:
    def __init__(self, **values):
        self.__dict__.update(values)


class Move:
    """`kind` is "move", "offset", "preset" or "dwell"; `value` a position, counts or milliseconds."""

    def __init__(self, kind, value, incremental=False, feedrate=None, halt=False, continuous=False):
        self.kind, self.value, self.incremental = kind, value, incremental
        self.feedrate, self.halt, self.continuous = feedrate, halt, continuous


class Axis:
    def __init__(self, drive):
        self.drive = drive
        self.mode = UNSET
        self.base = self.accumulator = self.last_endpoint = 0
        self.speed = self.noted = 0
        self.sign = 1
        self.homed = False
        self.parameters = self.moves = None
        self.current = self.target = 0
        self.left = self.length = self.ticks_left = 0

    # Calls and commands.

    def lose_home(self):
        self.homed = False
        self.base = self.accumulator = 0
        self.last_endpoint = self.drive.place

    def set_parameters(self, parameters):
        self.drive.sleep()
        self.drive.name(0)
        self.parameters = parameters
        self.lose_home()
        self.mode, self.moves, self.noted = DOWN, None, 0

    def set_moveset(self, moves):
        self.moves = moves

    def reset(self):
        self.noted = 0
        self.drive.wake()
        self.mode = REST

    def search_home(self):
        self.noted = 0
        self.lose_home()
        self.sign = -1
        self.mode = HOMING

    def begin(self):
        self.noted = 0
        self.set_up(0)

    def start(self):
        self.set_up(self.current + 1)

    # Moves.

    def set_up(self, index):
        self.current = index
        move = self.moves[index]
        if move.kind == "dwell":
            self.target = self.last_endpoint
            self.ticks_left = -(-5 * move.value // 12)  # rounded up
            self.mode = DWELLING
        elif move.kind == "preset":
            self.set_up_preset(move.value)
        else:
            self.set_up_travel(move)

    def set_up_preset(self, position):
        base = self.drive.place - position
        if any(abs(limit - base) > LARGEST for limit in (self.parameters.low, self.parameters.high)):
            self.noted, self.mode = 18, REST
            return
        self.base, self.accumulator, self.target, self.mode = base, 0, position, SETTLING

    def destination(self, move, start, accumulator):
        """The note, the target, the new accumulator and the endpoint of a move that counts from `start`."""
        target = start + move.value if move.incremental else move.value
        if move.kind == "offset":
            accumulator += self.parameters.offset
        endpoint = target + self.base + accumulator
        if abs(accumulator) > LARGEST:
            note = 18
        elif not self.parameters.low <= endpoint <= self.parameters.high:
            note = 17
        else:
            note = 0
        return note, target, accumulator, endpoint

    def set_up_travel(self, move):
        note, target, accumulator, endpoint = self.destination(move, self.last_endpoint, self.accumulator)
        if note:
            self.noted, self.mode = note, REST
            return
        self.target, self.accumulator = target, accumulator
        length = endpoint - self.drive.place
        if length == 0:
            self.mode = SETTLING
            return
        self.sign = 1 if length > 0 else -1
        self.left = self.length = abs(length)
        self.mode = MOVING

    def complete(self):
        self.last_endpoint = self.target
        if self.current == len(self.moves) - 1:
            self.mode = REST
        elif self.moves[self.current].halt:
            self.mode = WAITING
        else:
            self.set_up(self.current + 1)

    def partner(self):
        """The partner's length, target and accumulator, or None."""
        move = self.moves[self.current]
        if not move.continuous or move.halt or self.length == 0 or self.current == len(self.moves) - 1:
            return None
        behind = self.moves[self.current + 1]
        if behind.kind not in ("move", "offset"):
            return None
        note, target, accumulator, endpoint = self.destination(behind, self.target, self.accumulator)
        length = (endpoint - (self.target + self.base + self.accumulator)) * self.sign
        if note or length <= 0:
            return None
        return length, target, accumulator

    # A tick: the step that the drive was given, or None where it was given none.

    def tick(self, counts, switch, marker):
        self.drive.feel(counts, True)
        if self.mode in (UNSET, DOWN):
            return None
        assert self.drive.awake and abs(self.drive.gap) <= self.parameters.following_limit
        if self.mode in (HOMING, CREEPING):
            return self.tick_home(switch, marker)
        if self.mode == MOVING:
            return self.tick_move()
        step = self.step(0)
        if self.mode == DWELLING:
            self.ticks_left -= 1
            if self.ticks_left == 0:
                self.complete()
        elif self.mode == SETTLING and abs(self.drive.gap) <= self.parameters.band:
            self.complete()
        return step

    def step(self, speed):
        self.speed = speed
        assert self.drive.step(self.sign * speed) is None
        return self.sign * speed

    def plan(self, feedrate, room):
        return planned_speed(self.speed, feedrate, self.parameters.acceleration, self.parameters.deceleration, room)

    def tick_home(self, switch, marker):
        if switch:
            self.mode = CREEPING
        if self.mode == CREEPING and marker and self.speed <= self.parameters.creep_rate:
            self.drive.name(self.parameters.home)
            self.last_endpoint, self.homed, self.mode = self.parameters.home, True, REST
            return self.step(0)
        rate = self.parameters.creep_rate if self.mode == CREEPING else self.parameters.home_rate
        step = self.step(self.plan(rate, self.drive.place + LARGEST))
        assert self.drive.place > -LARGEST
        return step

    def tick_move(self):
        own = self.moves[self.current].feedrate
        partner = self.partner()
        room = self.left + (partner[0] if partner else 0)
        speed = self.plan(self.parameters.feedrate if own is None else own, room)
        step = self.step(speed)
        if partner and speed >= self.left:
            self.last_endpoint = self.target
            self.current += 1
            self.length, self.target, self.accumulator = partner
            self.left = room - speed
        else:
            self.left -= speed
        if self.left == 0 and self.partner() is None:
            self.mode = SETTLING
        return step
