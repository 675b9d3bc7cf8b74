"""Makes a lattice for a scenario: headings of the way, speeds of a car, and maneuvers between them."""

from __future__ import annotations

import itertools
import math
from dataclasses import dataclass, field
from typing import Iterator

from .lattice import Class, Lattice, Maneuver, Spot, Step, TooManyStates, meets, reached
from .program import Fault
from .route import Way, find_way, wrapped
from .scenario import Goal, Problem, Scenario

MOST_CLASSES, MOST_CHOICES, MOST_MANEUVERS, MOST_STEPS, MOST_HORIZON = 64, 32, 2048, 50, 1000
STRAIGHT = math.radians(2)  # headings that are so near count as one where the way is straight
APART = math.radians(4)  # headings of classes are at least so far apart
MOST_STATES = 20_000
LEAST_RADIUS = 5.0  # metres, of a passenger car's turn


@dataclass(frozen=True)
class Car:
    """What the vehicle can do, in metres and seconds."""

    length: float = 4.5
    width: float = 1.8
    accelerate: float = 3.0
    brake: float = 8.0
    sideways: float = 4.0
    top: float | None = None  # where it isn't given: the signs', or 13.9


@dataclass(frozen=True)
class Grain:
    """How fine a lattice is: the seconds of a maneuver, metres per second between speeds, degrees between headings."""

    seconds: float
    speeds: float
    degrees: float
    wide: bool = True  # turns of two durations
    nudges: bool = True  # shifts by less than a lane
    sharp: bool = True  # turns by two headings, braking by more than one speed

    def __str__(self) -> str:
        wide = ", turns of one duration" if not self.wide else ""
        nudges = ", no shifts inside a lane" if not self.nudges else ""
        apart = f"speeds about {self.speeds:g} m/s apart, headings at most {self.degrees:g} degrees"
        return f"maneuvers of {self.seconds:g} s, {apart}{wide}{nudges}"


# From fine to coarse; the first is taken whose states are few enough and with which a goal is reached.
GRAINS = (
    Grain(1.0, 2.5, 15),
    Grain(1.0, 2.5, 15, wide=False),
    Grain(1.0, 4.0, 16),
    Grain(1.0, 4.0, 16, wide=False),
    Grain(1.0, 8.0, 16),
    Grain(1.0, 5.0, 22.5),
    Grain(1.0, 5.0, 30, wide=False),
    Grain(1.5, 3.5, 22.5),
    Grain(1.5, 5.0, 30, wide=False),
    Grain(2.0, 5.0, 30),
    Grain(2.0, 5.0, 30, wide=False, nudges=False),
    Grain(2.0, 7.5, 45, wide=False, nudges=False, sharp=False),
    Grain(3.0, 7.5, 45, wide=False, nudges=False, sharp=False),
    Grain(4.0, 10.0, 45, wide=False, nudges=False, sharp=False),
)


@dataclass
class Made:
    """A lattice, and what was chosen on the way."""

    lattice: Lattice
    grain: Grain
    way: Way
    goal: Goal
    ticks: int  # of a maneuver
    states: int
    reaches: bool
    notes: list[str] = field(default_factory=list)


def straight_headings(way: Way) -> list[float]:
    """The headings of the way's stretches that are straight for 8 m."""
    marks = way.headings
    ends = [a for a, _ in marks[1:]] + [marks[-1][0] + 5.0]
    found, run = [], [0]
    for k in range(1, len(marks) + 1):
        if k < len(marks) and abs(marks[k][1] - marks[run[0]][1]) < STRAIGHT:
            run.append(k)
            continue
        length = ends[run[-1]] - marks[run[0]][0]
        if length >= 8:
            found.append(sum(marks[j][1] * (ends[j] - marks[j][0]) for j in run) / length)
        run = [k]
    return found


def key_headings(way: Way, goal: Goal, problem: Problem, degrees: float) -> list[float]:
    """The headings of straight stretches, the least and the greatest, those between by at most so many degrees, and 0."""
    turned = [h for _, h in way.headings]
    found = [*straight_headings(way), min(turned), max(turned), turned[-1]]
    found += _goal_heading(found, goal, problem)
    return _filled(_apart(found), math.radians(degrees))


def turns_of(way: Way, headings: list[float]) -> set[tuple[int, int]]:
    """The pairs of neighbouring headings between which the way turns, or has to turn to end with the goal's heading."""
    passed = [0.0, *(h for _, h in way.headings)]
    turns = set()
    for i, (low, high) in enumerate(zip(headings, headings[1:])):
        middle = (low + high) / 2
        for before, after in zip(passed, passed[1:]):
            if before < middle <= after:
                turns.add((i, i + 1))
            if after < middle <= before:
                turns.add((i + 1, i))
        if not min(passed) < middle <= max(passed):
            turns |= {(i, i + 1), (i + 1, i)}
    return turns


def _goal_heading(found: list[float], goal: Goal, problem: Problem) -> list[float]:
    """The middle of the goal's headings, where none that was found lies well among them."""
    if goal.heading is None:
        return []
    start, low, high = problem.start.heading / 1e6, goal.heading.low / 1e6, goal.heading.high / 1e6
    center, half = (low + high) / 2, (high - low) / 2
    if any(abs(wrapped(start + one - center)) <= 0.9 * half for one in (*found, 0.0)):
        return []
    last = found[-1]
    return [last + wrapped(center - start - last)]


def _apart(found: list[float]) -> list[float]:
    kept = [0.0]
    for one in sorted(found, key=abs):
        if all(abs(one - other) >= APART for other in kept):
            kept.append(one)
    return sorted(kept)


def _filled(kept: list[float], most: float) -> list[float]:
    filled = [kept[0]]
    for one, other in zip(kept, kept[1:]):
        number = math.ceil((other - one) / most - 1e-9)
        filled += [one + (other - one) * k / number for k in range(1, number + 1)]
    return [0.0 if abs(one) < 1e-9 else one for one in filled]


def key_speeds(problem: Problem, goal: Goal, way: Way, car: Car, apart: float) -> tuple[list[int], int]:
    """Speeds in mm/s: even ones from standing, of which the start's is one, and one of the goal's; and how far apart they are."""
    start = problem.start.speed or 0
    number = round(start / 1000 / apart)
    unit = round(start / number) if number else round(apart * 1000)
    top = 1000 * (car.top or way.limit or 13.9)
    horizon = (goal.ticks.high - problem.start.tick) or 1
    top = max(start, top, goal.speed.low if goal.speed else 0)
    count = min(max(number, 1, min(int(top / unit + 0.05), number + horizon)), MOST_CLASSES)
    speeds = [unit * k for k in range(count + 1)]
    if goal.speed and not any(goal.speed.holds(one) for one in speeds):
        middle = (goal.speed.low + goal.speed.high) // 2
        speeds.append(goal.speed.low if goal.speed.high - goal.speed.low > 2 * unit else middle)
    return sorted(set(speeds)), unit


def maneuver_ticks(scenario: Scenario, problem: Problem, goal: Goal, seconds: float) -> tuple[int, int]:
    """The ticks of a maneuver, of which some multiple is a time of the goal; or else the ticks that are left over."""
    wanted = max(1, round(seconds / scenario.seconds))
    low, high = max(0, goal.ticks.low - problem.start.tick), goal.ticks.high - problem.start.tick
    for ticks in sorted(range(max(1, round(wanted * 0.7)), min(MOST_STEPS, round(wanted * 1.4)) + 1), key=lambda t: abs(t - wanted)):
        if high // ticks * ticks >= low:
            return ticks, 0
    return min(wanted, MOST_STEPS), low % min(wanted, MOST_STEPS)


class _Maker:
    """Puts maneuvers together. Lengths are in 0.1 mm, angles in radians, speeds in mm/s."""

    def __init__(
        self, scenario: Scenario, car: Car, grain: Grain, way: Way, headings: list[float], speeds: list[int], unit: int, ticks: int
    ) -> None:
        self.scenario, self.car, self.grain = scenario, car, grain
        self.allowed = turns_of(way, headings)
        straight = [0.0, *straight_headings(way)]
        self.straights = {i for i, one in enumerate(headings) if any(abs(one - other) < APART for other in straight)}
        self.headings, self.speeds, self.unit, self.ticks = headings, speeds, unit, ticks
        # The length of the unit of speed in half a maneuver: ends that are whole multiples of it come together again.
        self.length = round(unit * scenario.seconds * 10 * ticks / 2)
        self.lattice = Lattice(0, round(car.length * 1e4), round(car.width * 1e4), 0)
        self.names = {(i, j): self._name(i, j) for i in range(len(headings)) for j in range(len(speeds))}

    def _name(self, i: int, j: int) -> str:
        degrees = round(math.degrees(self.headings[i]))
        turned = f"_{'l' if degrees > 0 else 'r'}{abs(degrees)}" if degrees else ""
        metres = round(self.speeds[j] / 1000)
        return (f"v{metres}" if j else "stop") + turned

    def seconds(self, ticks: int) -> float:
        return ticks * self.scenario.seconds

    def micro(self, i: int) -> int:
        return round(self.headings[i] * 1e6)

    def classes(self) -> None:
        for (i, j), name in self.names.items():
            self.lattice.classes.append(Class(name, self.micro(i), self.speeds[j]))

    def end(self, i: int, j: int, k: int, ticks: int) -> tuple[int, int]:
        """How far a maneuver straight along a heading leads, from one speed to another."""
        total = self.speeds[j] + self.speeds[k]
        c, s = math.cos(self.headings[i]), math.sin(self.headings[i])
        if total % self.unit == 0 and ticks % self.ticks == 0:
            number = total // self.unit * (ticks // self.ticks)
            return number * round(self.length * c), number * round(self.length * s)
        length = total / 2 * self.seconds(ticks) * 10
        return round(length * c), round(length * s)

    def straight(self, name: str, i: int, j: int, k: int, ticks: int) -> None:
        forward, left = self.end(i, j, k, ticks)
        first, last, accel = self.speeds[j], self.speeds[k], round((self.speeds[k] - self.speeds[j]) / self.seconds(ticks))
        steps: list[Step] = []
        for n in range(1, ticks + 1):
            t = n / ticks
            part = (first * t + (last - first) * t * t / 2) / ((first + last) / 2) if first + last else 0.0
            steps.append((round(forward * part), round(left * part), self.micro(i), round(first + (last - first) * t), accel, 0))
        self.add(name, i, j, i, k, steps)

    def turn(self, name: str, i: int, m: int, j: int, ticks: int) -> None:
        """An arc of a circle from one heading to another at one speed."""
        speed, seconds = self.speeds[j], self.seconds(ticks)
        first, last = self.headings[i], self.headings[m]
        radius = speed * seconds * 10 / (last - first)
        rate = round((last - first) / seconds * 1e6)
        steps: list[Step] = []
        for n in range(1, ticks + 1):
            now = first + (last - first) * n / ticks
            x, y = radius * (math.sin(now) - math.sin(first)), radius * (math.cos(first) - math.cos(now))
            steps.append((round(x), round(y), self.micro(m) if n == ticks else round(now * 1e6), speed, 0, rate))
        self.add(name, i, j, m, j, steps)

    def shift(self, name: str, i: int, j: int, metres: float, ticks: int) -> None:
        """To the side by so many metres, at one speed, ending with the heading that it began with."""
        forward, ahead = self.end(i, j, j, ticks)
        c, s = math.cos(self.headings[i]), math.sin(self.headings[i])
        side = -round(metres * 1e4 * s), round(metres * 1e4 * c)
        length = math.hypot(forward, ahead)
        steps: list[Step] = []
        before = 0.0
        for n in range(1, ticks + 1):
            t = n / ticks
            part = t - math.sin(2 * math.pi * t) / (2 * math.pi)
            bend = 0.0 if n == ticks else math.atan2(metres * 1e4 * (1 - math.cos(2 * math.pi * t)), length)
            rate, before = round((bend - before) / self.scenario.seconds * 1e6), bend
            x, y = forward * t + side[0] * part, ahead * t + side[1] * part
            steps.append((round(x), round(y), self.micro(i) + round(bend * 1e6), self.speeds[j], 0, rate))
        self.add(name, i, j, i, j, steps)

    def add(self, name: str, i: int, j: int, m: int, k: int, steps: list[Step]) -> None:
        begins = self.names[i, j]
        if sum(one.begins == begins for one in self.lattice.maneuvers) < MOST_CHOICES and len(steps) <= MOST_STEPS:
            self.lattice.maneuvers.append(Maneuver(f"{name}_{begins}", begins, self.names[m, k], tuple(steps)))

    # ---- which maneuvers there are

    def speeding(self, i: int, j: int, rest: int) -> None:
        self.straight("wait" if not j else "keep", i, j, j, self.ticks)
        if rest:
            self.straight("rest", i, j, j, rest)
        if j + 1 < len(self.speeds):
            self.straight("faster", i, j, j + 1, self.enough(self.speeds[j + 1] - self.speeds[j], self.car.accelerate))
        for name, k in zip(("slower", "brake", "full_brake"), (j - 1, j - 2, j - 3)):
            if k < 0 or (name != "slower" and not self.grain.sharp):
                break
            ticks = self.enough(self.speeds[j] - self.speeds[k], self.car.brake)
            if name == "slower" or ticks == self.ticks:
                self.straight(name, i, j, k, ticks)

    def enough(self, change: int, most: float) -> int:
        """The ticks, in whole maneuvers, in which the speed changes so much by at most this acceleration."""
        return self.ticks * math.ceil(change / 1000 / most / self.seconds(self.ticks) - 1e-9)

    def turning(self, i: int, j: int) -> None:
        if self.speeds[j] == 0:
            return
        for by, side in ((1, "left"), (-1, "right")):
            made = 0
            for number in range(1, 5):
                if (i, i + by) in self.allowed and self.turns(i, i + by, j, number) and made < (2 if self.grain.wide else 1):
                    self.turn(f"{('bear', 'wide')[made]}_{side}", i, i + by, j, number * self.ticks)
                    made += 1
            both = {(i, i + by), (i + by, i + 2 * by)} <= self.allowed
            if self.grain.sharp and both and self.turns(i, i + 2 * by, j, 1):
                self.turn(f"sharp_{side}", i, i + 2 * by, j, self.ticks)

    def turns(self, i: int, m: int, j: int, number: int) -> bool:
        """Whether the car can turn so at this speed."""
        rate = abs(self.headings[m] - self.headings[i]) / self.seconds(number * self.ticks)
        speed = self.speeds[j] / 1000
        return speed * rate <= self.car.sideways and speed / rate >= LEAST_RADIUS and number * self.ticks <= MOST_STEPS

    def shifting(self, i: int, j: int, shifts: list[tuple[str, float]]) -> None:
        speed = self.speeds[j] / 1000
        for name, metres in shifts if speed > 0 and i in self.straights else ():
            for number in range(1, 6):
                seconds = self.seconds(number * self.ticks)
                gentle = 2 * math.pi * abs(metres) / seconds**2 <= 0.75 * self.car.sideways
                if gentle and 2 * abs(metres) / seconds <= 0.5 * speed and number * self.ticks <= MOST_STEPS:
                    self.shift(name, i, j, metres, number * self.ticks)
                    break


def shifts_of(way: Way, nudges: bool) -> list[tuple[str, float]]:
    """To the lanes beside the way, and inside the lane to its middle, or by a third of its width."""
    shifts = []
    if way.left:
        shifts.append(("lane_left", way.left))
    if way.right:
        shifts.append(("lane_right", -way.right))
    inside = round(abs(way.offset) if 0.3 <= abs(way.offset) <= way.width / 2 else way.width / 3, 2)
    if nudges:
        shifts += [("nudge_left", inside), ("nudge_right", -inside)]
    return shifts


def _one(scenario: Scenario, problem: Problem, goal: Goal, way: Way, car: Car, grain: Grain, horizon: int) -> tuple[Lattice, int] | None:
    """The lattice of this grain; None where it has more classes or maneuvers than may be."""
    ticks, rest = maneuver_ticks(scenario, problem, goal, grain.seconds)
    headings = key_headings(way, goal, problem, grain.degrees)
    speeds, unit = key_speeds(problem, goal, way, car, grain.speeds)
    if len(headings) * len(speeds) > MOST_CLASSES:
        return None
    maker = _Maker(scenario, car, grain, way, headings, speeds, unit, ticks)
    maker.classes()
    shifts = shifts_of(way, grain.nudges)
    for i, j in itertools.product(range(len(headings)), range(len(speeds))):
        maker.speeding(i, j, rest)
        maker.turning(i, j)
        maker.shifting(i, j, shifts)
    start = problem.start.speed or 0
    lattice = maker.lattice
    lattice.horizon = min(horizon, MOST_HORIZON)
    lattice.tolerance = max(100, start // 10, min(abs(start - one) for one in speeds))
    return (lattice, ticks) if len(lattice.maneuvers) <= MOST_MANEUVERS else None


def _horizons(goal: Goal, problem: Problem) -> Iterator[int]:
    """The goal's last tick, and where there are too many states until then, earlier ones down to its first."""
    low, high = max(0, goal.ticks.low - problem.start.tick), goal.ticks.high - problem.start.tick
    if high < 0:
        raise Fault("the goal's time is over before the start's")
    yield min(high, MOST_HORIZON)
    for part in (0.75, 0.5, 0.25, 0.0):
        if high > low:
            yield min(low + round((high - low) * part), MOST_HORIZON)


def _finest_first(horizons: list[int], grains: tuple[Grain, ...]) -> list[tuple[int, Grain]]:
    """A horizon that is a quarter of the goal's time earlier counts as much as a grain that is two steps coarser."""
    pairs = itertools.product(enumerate(horizons), enumerate(grains))
    return [(horizon, grain) for (_, horizon), (_, grain) in sorted(pairs, key=lambda pair: 2 * pair[0][0] + pair[1][0])]


def make(
    scenario: Scenario, problem: Problem, car: Car = Car(), most_states: int = MOST_STATES, grains: tuple[Grain, ...] = GRAINS
) -> Made:
    """The finest lattice that reaches a goal and has few enough states; else the finest with few enough states."""
    if not problem.goals:
        raise Fault("the problem has no goal")
    left_over: Made | None = None
    for goal in problem.goals:
        seconds = max(1, goal.ticks.high - problem.start.tick) * scenario.seconds
        metres = max((problem.start.speed or 0) / 1000, 14.0) * min(seconds, 30.0)
        way = find_way(scenario, problem, goal, metres)
        for horizon, grain in _finest_first(list(_horizons(goal, problem)), grains):
            found = _one(scenario, problem, goal, way, car, grain, horizon)
            if found is None:
                continue
            made = _measured(problem, goal, way, grain, *found, most_states)
            if made is not None and made.reaches:
                return made
            left_over = left_over or made
    if left_over is None:
        raise Fault(f"no lattice has fewer than {most_states:,} states: allow more of them by --states")
    return left_over


def _measured(problem: Problem, goal: Goal, way: Way, grain: Grain, lattice: Lattice, ticks: int, most_states: int) -> Made | None:
    try:
        found = reached(lattice, problem, most_states)
    except TooManyStates:
        return None
    reaches = any(_arrives(goal, problem, lattice, spot) for spot in found)
    return Made(lattice, grain, way, goal, ticks, len(found), reaches, list(way.notes))


def _arrives(goal: Goal, problem: Problem, lattice: Lattice, spot: Spot) -> bool:
    return goal.ticks.holds(problem.start.tick + spot.tick) and meets(goal, problem, lattice, spot)


def comment_of(made: Made, scenario: Scenario, problem: Problem, name: str) -> str:
    """What was chosen, as the comment at the top of the file."""
    lattice, way = made.lattice, made.way
    headings = ", ".join(f"{math.degrees(one / 1e6):.1f}" for one in sorted({one.heading for one in lattice.classes}))
    speeds = ", ".join(f"{one / 1000:g}" for one in sorted({one.speed for one in lattice.classes}))
    limit = f"{way.limit:g} m/s by signs" if way.limit else "none by signs"
    lanes = "along the lanelets " + " ".join(str(one) for one in way.lanelets[:12]) + (" .." if len(way.lanelets) > 12 else "")
    reach = "a goal is reached" if made.reaches else "NO goal is reached: see tools/explain"
    lines = [
        f"Made by tools/lattice for {name}, problem {problem.id}, and for its time step of {scenario.seconds:g} s alone.",
        f"The way: {lanes if way.lanelets else 'no lanelets'}; the greatest speed there: {limit}.",
        *made.notes,
        f"Grain: {made.grain}.",
        f"Headings from the start's, degrees: {headings}.",
        f"Speeds, m/s: {speeds}; the start's is {(problem.start.speed or 0) / 1000:g}.",
        f"A maneuver takes {made.ticks} ticks or a multiple. "
        f"Goal: ticks {made.goal.ticks.low} to {made.goal.ticks.high}, start: tick {problem.start.tick}.",
        f"{len(lattice.classes)} classes, {len(lattice.maneuvers)} maneuvers, {made.states:,} states within the horizon; {reach}.",
    ]
    return "\n".join(lines)
