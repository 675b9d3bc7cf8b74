"""What each rule has added up to each tick, as the program measures it: each step is judged as a recording of its own."""

from __future__ import annotations

import itertools
import tempfile
from dataclasses import dataclass
from pathlib import Path

from ..book import lines_of
from ..commands import judge
from ..lattice import Driven
from ..telling.others import COLUMNS
from ..tracks import MOST_RECORDINGS
from ..values import Vector


@dataclass
class Added:
    """For each rule, the sum of its parts at the steps up to each; what its final parts add comes on top at the end."""

    sums: list[list[int]]


def without_finals(book: str) -> str:
    """The book in which each final part counts nothing at each step instead."""
    lines = book.split("\n")
    for line in lines_of(book):
        if line.words[0].text == "final":
            lines[line.number - 1] = f"part {line.words[1].text} 1 0"
    return "\n".join(lines)


def _decimal(value: int, places: int) -> str:
    sign, size = "-" if value < 0 else "", abs(value)
    return f"{sign}{size // 10**places}.{size % 10**places:0{places}}"


def _row(name: str, step: Driven) -> str:
    state = step.state
    numbers = ((state.x, 4), (state.y, 4), (state.heading, 6), (state.speed or 0, 3), (step.accel, 3), (step.turn, 6))
    return ",".join((name, str(state.tick), *(_decimal(*one) for one in numbers), step.maneuver))


def added(scenario: Path, book: Path, lattice: Path, drives: list[list[Driven]]) -> list[Added]:
    """For each list of steps, in which each rule's sum grows."""
    steps = [step for one in drives for step in one]
    found: list[Vector] = []
    with tempfile.TemporaryDirectory() as made:
        folder = Path(made)
        (folder / "book").write_text(without_finals(book.read_text(encoding="utf-8")), encoding="utf-8")
        for at in range(0, len(steps), MOST_RECORDINGS):
            rows = [_row(f"s{number}", step) for number, step in enumerate(steps[at : at + MOST_RECORDINGS])]
            (folder / "records").write_text("\n".join((",".join(COLUMNS), *rows, "")), encoding="utf-8")
            found += [one.vector for one in judge(scenario, folder / "book", lattice, folder / "records").recordings]
    sums, at = [], 0
    for one in drives:
        columns = zip(*found[at : at + len(one)])
        sums.append(Added([list(itertools.accumulate(column)) for column in columns]))
        at += len(one)
    return sums
