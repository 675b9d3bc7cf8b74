"""A lattice of maneuvers: read, written, and driven."""

from __future__ import annotations

import os
import tomllib
from collections import defaultdict
from dataclasses import dataclass, field
from pathlib import Path
from typing import Iterator

from .exact import TURN, Point, inside, rotate
from .program import Fault
from .scenario import Goal, Problem, State

Step = tuple[int, int, int, int, int, int]  # forward, left, heading, speed, acceleration, turn


@dataclass(frozen=True)
class Class:
    name: str
    heading: int
    speed: int


@dataclass(frozen=True)
class Maneuver:
    name: str
    begins: str  # names of classes
    ends: str
    steps: tuple[Step, ...]


@dataclass
class Lattice:
    horizon: int
    length: int
    width: int
    tolerance: int
    classes: list[Class] = field(default_factory=list)
    maneuvers: list[Maneuver] = field(default_factory=list)

    def class_of(self, name: str) -> Class:
        return next(one for one in self.classes if one.name == name)

    def maneuver(self, name: str) -> Maneuver:
        found = next((one for one in self.maneuvers if one.name == name), None)
        if found is None:
            raise Fault(f"no maneuver {name} in the lattice")
        return found

    def start_class(self, problem: Problem) -> Class | None:
        """The class with heading 0 whose speed is nearest to the problem's and within the tolerance; the first on a tie."""
        speed = problem.start.speed or 0

        def away(one: Class) -> int:
            return abs(one.speed - speed)

        near = [one for one in self.classes if one.heading == 0 and away(one) <= self.tolerance]
        return min(near, key=away) if near else None


@dataclass(frozen=True)
class Spot:
    """A state of a drive: ticks from the start, how far forward and left of it, and the class."""

    tick: int
    forward: int
    left: int
    class_name: str


def point_of(problem: Problem, spot: Spot) -> Point:
    x, y = rotate((spot.forward, spot.left), problem.start.heading)
    return problem.start.x + x, problem.start.y + y


def meets(goal: Goal, problem: Problem, lattice: Lattice, spot: Spot) -> bool:
    """Whether a state meets a goal, as the program asks it."""
    here = lattice.class_of(spot.class_name)
    if not goal.ticks.holds(problem.start.tick + spot.tick) or (goal.speed and not goal.speed.holds(here.speed)):
        return False
    if goal.heading and not heading_fits(goal, problem, here):
        return False
    return goal.regions is None or any(inside(region, point_of(problem, spot)) for region in goal.regions)


def heading_fits(goal: Goal, problem: Problem, here: Class) -> bool:
    if goal.heading is None:
        return True
    heading = problem.start.heading + here.heading
    return goal.heading.low + (heading - goal.heading.low) % TURN <= goal.heading.high


class TooManyStates(Fault):
    """More states can be reached than were allowed."""


def reached(lattice: Lattice, problem: Problem, most: int = 200_000) -> dict[Spot, tuple[Spot, str] | None]:
    """Each state that some list of maneuvers reaches, with the one before it and the maneuver between; in the order of ticks."""
    start = lattice.start_class(problem)
    if start is None:
        return {}
    leaving: dict[str, list[tuple[str, str, int, int, int]]] = defaultdict(list)
    for one in lattice.maneuvers:
        leaving[one.begins].append((one.name, one.ends, len(one.steps), one.steps[-1][0], one.steps[-1][1]))
    first = Spot(0, 0, 0, start.name)
    found: dict[Spot, tuple[Spot, str] | None] = {first: None}
    waiting: list[list[Spot]] = [[] for _ in range(lattice.horizon + 1)]
    waiting[0].append(first)
    for tick, spots in enumerate(waiting):
        for spot in spots:
            for name, ends, ticks, forward, left in leaving[spot.class_name]:
                if tick + ticks > lattice.horizon:
                    continue
                after = Spot(tick + ticks, spot.forward + forward, spot.left + left, ends)
                if after not in found:
                    found[after] = (spot, name)
                    waiting[after.tick].append(after)
            if len(found) > most:
                raise TooManyStates(f"more than {most:,} states are reached")
    return found


def list_to(found: dict[Spot, tuple[Spot, str] | None], spot: Spot) -> list[str]:
    names = []
    while (before := found[spot]) is not None:
        spot, name = before
        names.append(name)
    return names[::-1]


@dataclass(frozen=True)
class Driven:
    """A step of a drive in the scenario's frame, and the maneuver that it belongs to, if any."""

    state: State
    accel: int
    turn: int
    maneuver: str


def drive(lattice: Lattice, problem: Problem, names: list[str] | tuple[str, ...]) -> list[Driven]:
    """The start's step and those of the maneuvers, as the program measures them."""
    start = problem.start
    begins = lattice.start_class(problem)
    speed = begins.speed if begins else start.speed or 0
    steps = [Driven(State(start.tick, start.x, start.y, start.heading, speed), 0, 0, "")]
    forward = left = 0
    for name in names:
        for one in lattice.maneuver(name).steps:
            x, y = rotate((forward + one[0], left + one[1]), start.heading)
            state = State(start.tick + len(steps), start.x + x, start.y + y, start.heading + one[2], one[3])
            steps.append(Driven(state, one[4], one[5], name))
        forward, left = forward + lattice.maneuver(name).steps[-1][0], left + lattice.maneuver(name).steps[-1][1]
    return steps


def _step(told: list[int]) -> Step:
    forward, left, heading, speed, accel, turn = told
    return forward, left, heading, speed, accel, turn


def read_lattice(path: str | os.PathLike[str]) -> Lattice:
    """The lattice of a file that the program reads. Raises `Fault` where a key that is needed is missing."""
    try:
        told = tomllib.loads(Path(path).read_bytes().decode())
        classes = [Class(one["name"], one["heading"], one["speed"]) for one in told["class"]]
        maneuvers = [
            Maneuver(one["name"], one["from"], one["to"], tuple(_step(step) for step in one["steps"])) for one in told["maneuver"]
        ]
        return Lattice(told["horizon"], told["length"], told["width"], told["tolerance"], classes, maneuvers)
    except (tomllib.TOMLDecodeError, UnicodeDecodeError) as fault:
        raise Fault(f"{os.fspath(path)}: {fault}") from None
    except KeyError as fault:
        raise Fault(f"{os.fspath(path)}: no {fault}") from None
    except (TypeError, ValueError):
        raise Fault(f"{os.fspath(path)}: not written as a lattice; tools/explain walk .. says where") from None


def written(lattice: Lattice, comment: str = "") -> Iterator[str]:
    """The lines of the lattice's file, below a comment."""
    yield from (f"# {line}".rstrip() for line in comment.splitlines())
    for key in ("horizon", "length", "width", "tolerance"):
        yield f"{key} = {getattr(lattice, key)}"
    for known in lattice.classes:
        yield from ("", "[[class]]", f'name = "{known.name}"', f"heading = {known.heading}", f"speed = {known.speed}")
    for one in lattice.maneuvers:
        yield from ("", "[[maneuver]]", f'name = "{one.name}"', f'from = "{one.begins}"', f'to = "{one.ends}"', "steps = [")
        yield from (f"  {list(step)}," for step in one.steps)
        yield "]"
