"""What is done with one scenario: a lattice, a plan and a check by each book, and what differs between them.

A job needs the program and the files that it names, and gives back plain values: it may run in another process, or on another
machine that has both at the same places.
"""

from __future__ import annotations

import hashlib
import tempfile
import time
from dataclasses import dataclass
from pathlib import Path
from typing import Any

from ..commands import check, compare, plan, show, walk
from ..lattice import written
from ..making import comment_of, make
from ..program import Fault
from ..scenario import read_scenario
from ..values import Front, Standing, Vector

MOST_COMPARED = 200  # answers of a book that are held against the other


@dataclass(frozen=True)
class Job:
    """A scenario, its books, and its lattice where there is one; otherwise one is made."""

    name: str
    scenario: str
    books: tuple[str, ...]
    lattice: str | None
    program: str
    seconds: float
    states: int

    def digest(self) -> str:
        """Of all that the result depends on."""
        sum_ = hashlib.sha256(f"{self.seconds} {self.states} {len(self.books)} {self.lattice is None}".encode())
        for file in (self.scenario, *self.books, *([self.lattice] if self.lattice else []), self.program):
            sum_.update(hashlib.sha256(Path(file).read_bytes()).digest())
        return sum_.hexdigest()


def front_of(told: dict[str, Any]) -> Front:
    from ..values import Answer

    return Front(tuple(told["rules"]), tuple(Answer(tuple(vector), tuple(names)) for vector, names in told["answers"]))


def _planned(job: Job, book: str, lattice: Path, folder: Path) -> dict[str, Any]:
    """By one book: the answers, and how long it took; or why there are none."""
    saved, program = folder / "saved.certificate", Path(job.program)
    told: dict[str, Any] = {"fault": None, "rules": [], "answers": [], "labels": 0, "plan": 0.0, "check": 0.0}
    try:
        began = time.monotonic()
        front = plan(job.scenario, book, lattice, saved, program=program, seconds=job.seconds)
        told["plan"] = time.monotonic() - began
        told["labels"] = int(saved.read_text(encoding="ascii").split("\n", 2)[1].split()[1])
        began = time.monotonic()
        shown = check(job.scenario, book, lattice, saved, program=program, seconds=job.seconds)
        told["check"] = time.monotonic() - began
        if shown != front:
            raise Fault("the certificate shows another front than the one that was planned")
        told["rules"] = list(front.rules)
        told["answers"] = [[list(one.vector), list(one.maneuvers)] for one in front.answers]
    except Fault as fault:
        told["fault"] = str(fault)
    return told


def _lattice(job: Job, folder: Path) -> tuple[Path, str | None]:
    """The lattice's file, and its text where it was made."""
    if job.lattice is not None:
        return Path(job.lattice), None
    show(job.scenario, program=Path(job.program), seconds=job.seconds)
    scenario = read_scenario(job.scenario)
    made = make(scenario, scenario.problems[0], most_states=job.states)
    comment = comment_of(made, scenario, scenario.problems[0], Path(job.scenario).name)
    text = "".join(f"{line}\n" for line in written(made.lattice, comment))
    path = folder / f"{job.name}.lattice"
    path.write_text(text, encoding="utf-8")
    return path, text


def _table(rows: list[tuple[str, Vector]]) -> str:
    return "".join(f"{name} {' '.join(str(one) for one in vector)}\n" for name, vector in rows)


def missed(job: Job, book: str, lattice: Path, folder: Path, mine: Front, others: Front) -> list[dict[str, Any]]:
    """Of the other book's answers those that are none by this book, with the rule by which each loses and the answer that beats it."""
    rows = [(f"m{number}", one.vector) for number, one in enumerate(mine.answers[:MOST_COMPARED])]
    for number, one in enumerate(others.answers[:MOST_COMPARED]):
        walked = walk(job.scenario, book, lattice, one.maneuvers, program=Path(job.program), seconds=job.seconds)
        rows.append((f"o{number}", walked.vector))
    (folder / "t.table").write_text(_table(rows), encoding="ascii")
    kept: set[str] = set()
    beaten: dict[str, dict[str, Any]] = {}
    for verdict in compare(book, folder / "t.table", program=Path(job.program), seconds=job.seconds):
        if verdict.first[0] != "m" or verdict.second[0] != "o":
            continue
        if verdict.standing == Standing.EQUAL:
            kept.add(verdict.second)
        if verdict.standing == Standing.FIRST and verdict.second not in beaten:
            by = list(mine.answers[int(verdict.first[1:])].maneuvers)
            beaten[verdict.second] = {"rule": verdict.rules[0], "by": by}
    vectors = dict(rows)
    return [
        {"maneuvers": list(others.answers[int(name[1:])].maneuvers), "vector": list(vectors[name]), **told}
        for name, told in beaten.items()
        if name not in kept
    ]


def run(job: Job) -> dict[str, Any]:
    """The result of a job. A fault of the scenario or of a book is a part of it, and none is raised."""
    told: dict[str, Any] = {"name": job.name, "scenario": job.scenario, "books": [], "lattice": job.lattice, "made": None, "fault": None}
    told["went"], told["came"] = [], []
    with tempfile.TemporaryDirectory() as made:
        folder = Path(made)
        try:
            lattice, told["made"] = _lattice(job, folder)
            told["books"] = [_planned(job, book, lattice, folder) for book in job.books]
            if len(job.books) == 2 and not any(one["fault"] for one in told["books"]):
                first, second = (front_of(one) for one in told["books"])
                told["went"] = missed(job, job.books[1], lattice, folder, second, first)
                told["came"] = missed(job, job.books[0], lattice, folder, first, second)
        except (Fault, OSError, UnicodeDecodeError) as fault:
            told["fault"] = str(fault)
    return told
