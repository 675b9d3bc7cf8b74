"""A scenario in whole units: what the program reads of a document that it reads, and signs, which it skips."""

from __future__ import annotations

import os
import xml.etree.ElementTree as ElementTree
from dataclasses import dataclass, field
from pathlib import Path
from typing import Iterator

from .exact import Point, circle, rectangle, rotate, whole
from .program import Fault

Xml = ElementTree.Element


@dataclass(frozen=True)
class Span:
    low: int
    high: int

    def holds(self, value: int) -> bool:
        return self.low <= value <= self.high


@dataclass(frozen=True)
class State:
    """Where something is at a tick: 0.1 mm, microradians, mm/s. The speed is None where the document has none."""

    tick: int
    x: int
    y: int
    heading: int
    speed: int | None

    @property
    def point(self) -> Point:
        return self.x, self.y


@dataclass
class Lanelet:
    id: int
    left: list[Point]
    right: list[Point]
    successors: list[int]
    predecessors: list[int]
    beside_left: int | None
    beside_right: int | None
    same_left: bool
    same_right: bool
    signs: list[int]

    @property
    def corners(self) -> list[Point]:
        return self.left + self.right[::-1]


@dataclass(frozen=True)
class Shape:
    """A rectangle, a circle or a polygon in its own frame; `heading` is a rectangle's."""

    kind: str
    center: Point
    heading: int = 0
    length: int = 0  # a circle's radius
    width: int = 0
    points: tuple[Point, ...] = ()

    def placed(self, at: Point, heading: int) -> list[Point]:
        if self.kind == "polygon":
            return [_moved(at, rotate(point, heading)) for point in self.points]
        center = _moved(at, rotate(self.center, heading))
        if self.kind == "circle":
            return circle(center, self.length)
        return rectangle(center, self.heading + heading, self.length, self.width)


@dataclass
class Obstacle:
    id: int
    moving: bool
    shapes: list[Shape]
    states: list[State]

    def at(self, tick: int) -> State | None:
        if not self.moving:
            return self.states[0]
        return next((state for state in self.states if state.tick == tick), None)


@dataclass
class Goal:
    ticks: Span
    regions: list[list[Point]] | None  # None: any place will do
    heading: Span | None
    speed: Span | None
    lanelets: list[int] = field(default_factory=list)


@dataclass
class Problem:
    id: int
    start: State
    goals: list[Goal]


@dataclass
class Scenario:
    step: int  # microseconds
    lanelets: dict[int, Lanelet]
    obstacles: list[Obstacle]
    problems: list[Problem]
    limits: dict[int, int]  # of a sign, in mm/s

    @property
    def seconds(self) -> float:
        return self.step / 1e6


def _moved(a: Point, b: Point) -> Point:
    return a[0] + b[0], a[1] + b[1]


def _number(element: Xml, path: str, places: int, default: int | None = None) -> int:
    found = element.find(path)
    if found is None or found.text is None:
        if default is None:
            raise Fault(f"<{element.tag}> has no {path}")
        return default
    return whole(found.text, places)


def _point(element: Xml) -> Point:
    return _number(element, "x", 4), _number(element, "y", 4)


def _id(element: Xml, name: str = "id") -> int:
    word = (element.get(name) or "").strip()
    if not word.isdigit():
        raise Fault(f"<{element.tag}> has no {name} in digits")
    return int(word)


def _shapes(element: Xml) -> Iterator[Shape]:
    for shape in element:
        found = shape.find("center")
        center = (0, 0) if found is None else _point(found)
        if shape.tag == "rectangle":
            heading = _number(shape, "orientation", 6, 0)
            yield Shape("rectangle", center, heading, _number(shape, "length", 4), _number(shape, "width", 4))
        elif shape.tag == "circle":
            yield Shape("circle", center, length=_number(shape, "radius", 4))
        elif shape.tag == "polygon":
            yield Shape("polygon", (0, 0), points=tuple(_point(point) for point in shape.findall("point")))


def _state(element: Xml, tick: int | None) -> State:
    place = element.find("position/point")
    if place is None:
        raise Fault(f"<{element.tag}> has no position/point")
    speed = _number(element, "velocity/exact", 3) if element.find("velocity/exact") is not None else None
    heading = _number(element, "orientation/exact", 6, 0)
    return State(_number(element, "time/exact", 0, tick), *_point(place), heading, speed)


def _bound(element: Xml, name: str) -> list[Point]:
    return [_point(point) for point in element.findall(f"{name}/point")]


def _lanelet(element: Xml) -> Lanelet:
    beside, same = {}, {}
    for name in ("adjacentLeft", "adjacentRight"):
        found = element.find(name)
        beside[name] = None if found is None else _id(found, "ref")
        same[name] = found is not None and found.get("drivingDir", "same") == "same"
    left, right = _bound(element, "leftBound"), _bound(element, "rightBound")
    if len(left) < 2 or len(right) < 2:
        raise Fault(f"lanelet {element.get('id')} has a bound of fewer than two points")
    return Lanelet(
        _id(element),
        left,
        right,
        [_id(one, "ref") for one in element.findall("successor")],
        [_id(one, "ref") for one in element.findall("predecessor")],
        beside["adjacentLeft"],
        beside["adjacentRight"],
        same["adjacentLeft"],
        same["adjacentRight"],
        [_id(one, "ref") for one in element.findall("trafficSignRef")],
    )


def _obstacle(element: Xml) -> Obstacle:
    shape, start = element.find("shape"), element.find("initialState")
    if shape is None or start is None:
        raise Fault(f"obstacle {element.get('id')} has no <shape> or no <initialState>")
    role = element.findtext("role", "static" if element.tag == "staticObstacle" else "dynamic").strip()
    moving = role != "static"
    states = [_state(start, None if moving else 0)]
    if moving:
        states += [_state(state, None) for state in element.findall("trajectory/state")]
    return Obstacle(_id(element), moving, list(_shapes(shape)), states)


def _span(element: Xml | None, places: int) -> Span | None:
    if element is None:
        return None
    if element.find("exact") is not None:
        return Span(_number(element, "exact", places), _number(element, "exact", places))
    return Span(_number(element, "intervalStart", places), _number(element, "intervalEnd", places))


def _goal(element: Xml, lanelets: dict[int, Lanelet]) -> Goal:
    ticks = _span(element.find("time"), 0)
    if ticks is None:
        raise Fault("a <goalState> has no <time>")
    position, regions, ids = element.find("position"), None, []
    if position is not None:
        regions = [shape.placed((0, 0), 0) for shape in _shapes(position)]
        ids = [_id(one, "ref") for one in position.findall("lanelet")]
        regions += [lanelets[one].corners for one in ids if one in lanelets]
    return Goal(ticks, regions, _span(element.find("orientation"), 6), _span(element.find("velocity"), 3), ids)


def _limits(root: Xml) -> dict[int, int]:
    """Of each sign that sets a greatest speed: numbers 274 and R2-1, with metres per second."""
    limits = {}
    for sign in root.findall("trafficSign"):
        for element in sign.findall("trafficSignElement"):
            word = element.findtext("trafficSignID", "").strip()
            try:
                if word.split(".")[0] in ("274", "R2-1"):
                    limits[_id(sign)] = whole(element.findtext("additionalValue", ""), 3)
            except Fault:
                continue
    return limits


def read_scenario(path: str | os.PathLike[str]) -> Scenario:
    try:
        root = ElementTree.fromstring(Path(path).read_bytes())
    except ElementTree.ParseError as fault:
        raise Fault(f"{os.fspath(path)}: {fault}") from None
    try:
        lanelets = {one.id: one for one in map(_lanelet, root.findall("lanelet"))}
        tags = ("staticObstacle", "dynamicObstacle", *(["obstacle"] if root.get("commonRoadVersion") == "2018b" else []))
        obstacles = [_obstacle(element) for element in root if element.tag in tags]
        problems = []
        for element in root.findall("planningProblem"):
            start = element.find("initialState")
            if start is None:
                raise Fault("a <planningProblem> has no <initialState>")
            problems.append(Problem(_id(element), _state(start, 0), [_goal(one, lanelets) for one in element.findall("goalState")]))
        if not problems:
            raise Fault("the document has no <planningProblem>")
        step = whole(root.get("timeStepSize") or "", 6)
        if not 1 <= step <= 10**9:
            raise Fault("timeStepSize is out of its range")
        return Scenario(step, lanelets, obstacles, problems, _limits(root))
    except Fault as fault:
        raise Fault(f"{os.fspath(path)}: {fault}") from None
