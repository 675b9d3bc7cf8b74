"""All that a page shows, as plain numbers in metres."""

from __future__ import annotations

import csv
import os
from dataclasses import dataclass, field
from pathlib import Path
from typing import Any

from ..exact import Point, rectangle, whole
from ..lattice import Driven, Lattice, drive
from ..printed import NotPrinted, read_front, read_judgement
from ..program import Fault
from ..scenario import Obstacle, Problem, Scenario, State
from ..values import Vector
from .curves import Added

METRE = 10_000
LETTERS = "ABCDEFGHIJKLMNOPQRSTUVWXYZ"
MOST_DRIVES = len(LETTERS)
FAR = 1000  # metres: a start that is farther from the origin moves it
NEAR = 30  # metres: so far from what is driven are obstacles and goals shown
# Colours that colour-blind people tell apart (Okabe and Ito), each with a dash of its own for print in black and white.
STROKES = [("#0072b2", ""), ("#d55e00", "9 4"), ("#009e73", "3 3"), ("#cc79a7", "12 3 3 3"), ("#56b4e9", "6 6"), ("#e69f00", "1 4")]


@dataclass
class Drive:
    """An answer or a recording: what it violates, what stands in its row of the table, and its steps."""

    vector: Vector
    names: list[str]
    steps: list[Driven]
    layer: int | None = None
    added: Added | None = None


@dataclass
class Printed:
    """What was printed: the rules, and a drive for each answer or recording."""

    rules: list[str]
    drives: list[Drive]
    judged: bool = False
    verdicts: list[str] = field(default_factory=list)


def _steps_of_records(path: Path) -> dict[str, list[Driven]]:
    """The steps of each recording of a file that the program reads."""
    found: dict[str, list[Driven]] = {}
    with path.open(newline="", encoding="utf-8") as rows:
        for row in list(csv.reader(rows))[1:]:
            if len(row) != 9:
                raise Fault(f"{path}: a row has not nine fields")
            try:
                tick, x, y, heading, speed, accel, turn = (whole(one, places) for one, places in zip(row[1:8], (0, 4, 4, 6, 3, 3, 6)))
            except Fault as fault:
                raise Fault(f"{path}: {fault}") from None
            found.setdefault(row[0], []).append(Driven(State(tick, x, y, heading, speed), accel, turn, row[8]))
    return found


def read_printed(path: str | os.PathLike[str], lattice: Lattice, problem: Problem, records: Path | None) -> Printed:
    """What plan, check or judge printed; of judge's the recordings are wanted too."""
    text = Path(path).read_text(encoding="utf-8")
    try:
        if records is None:
            front = read_front(text)
            drives = [Drive(one.vector, list(one.maneuvers), drive(lattice, problem, one.maneuvers)) for one in front.answers]
            return Printed(list(front.rules), drives)
        judged = read_judgement(text)
    except NotPrinted as fault:
        what = "judge prints" if records else "plan or check prints (what judge prints needs --records)"
        raise Fault(f"{os.fspath(path)}: not what {what}: {fault}") from None
    steps = _steps_of_records(records)
    missing = [one.name for one in judged.recordings if one.name not in steps]
    if missing:
        raise Fault(f"{records}: no recording {missing[0]}")
    drives = [Drive(one.vector, [one.name], steps[one.name], one.layer) for one in judged.recordings]
    verdicts = [" ".join((one.first, one.second, one.standing.value, *one.rules)) for one in judged.verdicts]
    return Printed(list(judged.rules), drives, True, verdicts)


@dataclass(frozen=True)
class Frame:
    """Metres from an origin near what is shown: browsers draw in single precision, which is half a metre at 5,000 km."""

    x: int
    y: int

    @classmethod
    def near(cls, point: Point) -> Frame:
        far = max(abs(point[0]), abs(point[1])) > FAR * METRE
        return cls(*(round(one, -5) for one in point)) if far else cls(0, 0)

    def metres(self, corners: list[Point]) -> list[list[float]]:
        return [[round((x - self.x) / METRE, 3), round((y - self.y) / METRE, 3)] for x, y in corners]

    def corners(self, corners: list[Point]) -> list[list[float]]:
        """A rectangle from its front right corner on."""
        return self.metres(corners[1:] + corners[:1] if len(corners) == 4 else corners)


def _drives(printed: Printed, lattice: Lattice, first: int, frame: Frame) -> list[dict[str, Any]]:
    drives: list[dict[str, Any]] = []
    for letter, one in zip(LETTERS, printed.drives):
        bodies = [frame.corners(rectangle(step.state.point, step.state.heading, lattice.length, lattice.width)) for step in one.steps]
        drives.append({
            "letter": letter,
            "stroke": STROKES[len(drives) % len(STROKES)],
            "vector": list(one.vector),
            "names": one.names,
            "layer": one.layer,
            "begin": one.steps[0].state.tick - first,
            "bodies": bodies,
            "path": frame.metres([step.state.point for step in one.steps]),
            "added": one.added.sums if one.added else None,
            "speeds": [round((step.state.speed or 0) / 1000, 2) for step in one.steps],
        })
    return drives


def _places(obstacle: Obstacle, first: int, last: int, frame: Frame) -> list[list[list[list[float]]]]:
    states: dict[int, State] = {}
    for state in obstacle.states:
        states.setdefault(state.tick, state)
    places = []
    for tick in range(first, first + last + 1):
        here = states.get(tick) if obstacle.moving else obstacle.states[0]
        places.append([] if here is None else [frame.corners(shape.placed(here.point, here.heading)) for shape in obstacle.shapes])
    return places


def scene_of(scenario: Scenario, lattice: Lattice, printed: Printed) -> dict[str, Any]:
    problem = scenario.problems[0]
    driven = printed.drives[:MOST_DRIVES]
    first = min([one.steps[0].state.tick for one in driven], default=problem.start.tick)
    frame = Frame.near(problem.start.point)
    drives = _drives(printed, lattice, first, frame)
    last = max([one["begin"] + len(one["path"]) - 1 for one in drives], default=0)
    scene = {
        "first": first,
        "last": last,
        "step": scenario.seconds,
        "rules": printed.rules,
        "judged": printed.judged,
        "origin": [frame.x / METRE, frame.y / METRE],
        "lanelets": [{"id": one.id, "corners": frame.metres(one.corners)} for one in scenario.lanelets.values()],
        "goals": [frame.corners(region) for goal in problem.goals for region in goal.regions or []],
        "obstacles": [{"id": one.id, "moving": one.moving, "places": _places(one, first, last, frame)} for one in scenario.obstacles],
        "drives": drives,
    }
    scene["view"] = _view(scene)
    return _cut(scene)


def _box(points: list[list[float]]) -> tuple[float, float, float, float]:
    xs, ys = [p[0] for p in points], [p[1] for p in points]
    return min(xs), min(ys), max(xs), max(ys)


def _view(scene: dict[str, Any]) -> tuple[float, float, float, float]:
    """The box that is shown: all that is driven, and what of obstacles and goals is near it, with a margin; low corner and size."""
    goals = [p for g in scene["goals"] for p in g]
    others = goals + [p for o in scene["obstacles"] for places in o["places"] for s in places for p in s]
    driven = [p for d in scene["drives"] for b in d["bodies"] for p in b]
    driven = driven or goals or [p for e in scene["lanelets"] for p in e["corners"]] or [[0, 0]]
    left, low, right, high = _box(driven)
    near = [p for p in others if left - NEAR <= p[0] <= right + NEAR and low - NEAR <= p[1] <= high + NEAR]
    left, low, right, high = _box(driven + near)
    margin = max(4.0, 0.05 * (right - left), 0.05 * (high - low))
    return left - margin, low - margin, right - left + 2 * margin, high - low + 2 * margin


def _cut(scene: dict[str, Any]) -> dict[str, Any]:
    """Without the lanelets and obstacles that the box doesn't show."""
    x, y, width, height = scene["view"]

    def shown(points: list[list[float]]) -> bool:
        if not points:
            return False
        left, low, right, high = _box(points)
        return bool(left <= x + width and right >= x and low <= y + height and high >= y)

    scene["lanelets"] = [one for one in scene["lanelets"] if shown(one["corners"])]
    scene["obstacles"] = [one for one in scene["obstacles"] if shown([p for places in one["places"] for s in places for p in s])]
    return scene
