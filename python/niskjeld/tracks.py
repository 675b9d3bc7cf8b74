"""Tracks of obstacles as recordings, with accelerations and turns by differences."""

from __future__ import annotations

import math
import re
from dataclasses import dataclass
from typing import Iterable, Iterator

from .markup import read_markup
from .program import Fault
from .scenario import Obstacle, Scenario, State
from .telling.others import COLUMNS

MOST_RECORDINGS, MOST_STEPS, MOST_OBSTACLES = 200, 1001, 500


@dataclass(frozen=True)
class Record:
    """A row: metres, radians and seconds."""

    name: str
    tick: int
    x: float
    y: float
    heading: float
    speed: float
    accel: float
    turn: float
    maneuver: str = ""

    def row(self) -> str:
        numbers = (f"{self.x:.4f}", f"{self.y:.4f}", f"{self.heading:.6f}", f"{self.speed:.3f}", f"{self.accel:.3f}", f"{self.turn:.6f}")
        return ",".join((self.name, str(self.tick), *(_short(one) for one in numbers), self.maneuver))


def _short(number: str) -> str:
    """Without zeros behind the last digit that says something."""
    short = number.rstrip("0").rstrip(".")
    return "0" if short in ("-0", "") else short


def pieces(obstacle: Obstacle) -> Iterator[list[State]]:
    """The states by ticks, the first of a tick alone, cut where a tick is missing or after 1,001 of them."""
    states: dict[int, State] = {}
    for state in obstacle.states:
        states.setdefault(state.tick, state)
    piece: list[State] = []
    for tick in sorted(states):
        if piece and (tick != piece[-1].tick + 1 or len(piece) == MOST_STEPS):
            yield piece
            piece = []
        piece.append(states[tick])
    if piece:
        yield piece


def _speeds(states: list[State], seconds: float) -> list[float]:
    """Those of the document, or else by the way to the next place, or from the one before; ahead or backwards by the heading."""
    speeds = []
    for k, state in enumerate(states):
        if state.speed is not None:
            speeds.append(state.speed / 1000)
            continue
        a, b = (state, states[k + 1]) if k + 1 < len(states) else (states[max(0, k - 1)], state)
        dx, dy = (b.x - a.x) / 1e4, (b.y - a.y) / 1e4
        ahead = dx * math.cos(state.heading / 1e6) + dy * math.sin(state.heading / 1e6)
        speeds.append(math.copysign(math.hypot(dx, dy) / seconds, ahead))
    return speeds


def track(name: str, states: list[State], seconds: float) -> list[Record]:
    """A recording: what is driven at a tick is the difference to the tick before, and 0 at the first."""
    speeds = _speeds(states, seconds)
    records = []
    for k, state in enumerate(states):
        accel = (speeds[k] - speeds[k - 1]) / seconds if k else 0.0
        turned = (state.heading - states[k - 1].heading) / 1e6 if k else 0.0
        turn = (turned - 2 * math.pi * round(turned / (2 * math.pi))) / seconds
        records.append(Record(name, state.tick, state.x / 1e4, state.y / 1e4, state.heading / 1e6, speeds[k], accel, turn))
    return records


def name_of(obstacle: Obstacle, piece: int) -> str:
    return f"o{obstacle.id}" + (f"_{piece}" if piece > 1 else "")


def tracks_of(scenario: Scenario, ids: Iterable[int]) -> list[list[Record]]:
    """A recording for each obstacle, in the order of the ids; several where its track has gaps."""
    known = {one.id: one for one in scenario.obstacles}
    found = []
    for wanted in ids:
        if wanted not in known:
            moving = [str(one.id) for one in scenario.obstacles if one.moving]
            shown = ", ".join(moving[:10]) + (" .." if len(moving) > 10 else "")
            raise Fault(f"no obstacle has the id {wanted}; those that move are {shown or 'none'}")
        if not known[wanted].moving:
            raise Fault(f"obstacle {wanted} stands, and has no track")
        for number, states in enumerate(pieces(known[wanted]), 1):
            found.append(track(name_of(known[wanted], number), states, scenario.seconds))
    if len(found) > MOST_RECORDINGS:
        raise Fault(f"there are {len(found)} recordings, and a file has at most {MOST_RECORDINGS}: name fewer obstacles")
    return found


def text_of(recordings: Iterable[Iterable[Record]]) -> str:
    """The file, with its header."""
    return "".join(f"{line}\n" for line in (",".join(COLUMNS), *(one.row() for records in recordings for one in records)))


def numbers(words: Iterable[str]) -> list[int]:
    """Ids, as `7` or `7-9`."""
    found: list[int] = []
    for word in words:
        match = re.fullmatch(r"(\d{1,18})(?:-(\d{1,18}))?", word)
        if match is None:
            raise Fault(f"an id is digits, or two with `-` between, not {word}")
        first, last = int(match[1]), int(match[2] or match[1])
        if last - first >= MOST_OBSTACLES:
            raise Fault(f"{word} names more obstacles than the {MOST_OBSTACLES} that a scenario may have")
        found += range(first, last + 1)
    return found


def without(document: bytes, ids: Iterable[int]) -> bytes:
    """The document without the obstacles of these ids, so that a recorded driver doesn't meet itself."""
    left = set(ids)
    cuts = [
        (child.at, child.end)
        for root in read_markup(document).children
        for child in root.children
        if child.name in ("staticObstacle", "dynamicObstacle", "obstacle")
        and child.attributes.get("id", "").isdigit()
        and int(child.attributes["id"]) in left
    ]
    for start, end in reversed(cuts):
        document = document[:start] + document[end:]
    return document
