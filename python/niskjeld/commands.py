"""The commands of the program as functions: words in, values out, refusals raised."""

from __future__ import annotations

import os
import tempfile
from pathlib import Path
from typing import Iterable

from . import printed
from .program import Call, Status, as_word, call
from .refusals import raised
from .values import Derivation, Front, Judgement, Row, Shown, Verdict, Walk

File = str | os.PathLike[str]


def done(*words: File, program: Path | None = None, seconds: float | None = None) -> str:
    """What a call prints that ends as Done. Raises `NotDone` where it ends otherwise, `TooSlow` where its time was up."""
    ended: Call = call(words[0], *(as_word(word) for word in words[1:]), program=program, seconds=seconds)
    if ended.status != Status.DONE:
        raise raised(ended)
    return ended.printed


def plan(
    scenario: File, book: File, lattice: File, certificate: File | None = None, *, program: Path | None = None, seconds: float | None = None
) -> Front:
    """The violation vectors that no trajectory to the goal beats. Saves the certificate where a name is given for it."""
    if certificate is not None:
        return printed.read_front(done("plan", scenario, book, lattice, certificate, program=program, seconds=seconds))
    with tempfile.TemporaryDirectory() as folder:
        saved = Path(folder) / "saved.certificate"
        return printed.read_front(done("plan", scenario, book, lattice, saved, program=program, seconds=seconds))


def check(
    scenario: File, book: File, lattice: File, certificate: File, *, program: Path | None = None, seconds: float | None = None
) -> Front:
    """What a certificate shows. Raises `Rejected` where it shows nothing."""
    return printed.read_front(done("check", scenario, book, lattice, certificate, program=program, seconds=seconds))


def walk(
    scenario: File, book: File, lattice: File, maneuvers: Iterable[str], *, program: Path | None = None, seconds: float | None = None
) -> Walk:
    """What a list of maneuvers violates, and whether it ends at a goal."""
    return printed.read_walk(done("walk", scenario, book, lattice, ",".join(maneuvers) or ".", program=program, seconds=seconds))


def judge(
    scenario: File, book: File, lattice: File, records: File, *, program: Path | None = None, seconds: float | None = None
) -> Judgement:
    """How much recorded trajectories violate each rule, and how they stand to one another."""
    return printed.read_judgement(done("judge", scenario, book, lattice, records, program=program, seconds=seconds))


def show(scenario: File, *, program: Path | None = None, seconds: float | None = None) -> Shown:
    """What a scenario says."""
    return printed.read_shown(done("show", scenario, program=program, seconds=seconds))


def pick(book: File, table: File, *, program: Path | None = None, seconds: float | None = None) -> tuple[Row, ...]:
    """The rows of a table that no row beats."""
    return printed.read_picked(done("pick", book, table, program=program, seconds=seconds))


def compare(book: File, table: File, *, program: Path | None = None, seconds: float | None = None) -> tuple[Verdict, ...]:
    """How each row of a table stands to each later one."""
    return printed.read_verdicts(done("compare", book, table, program=program, seconds=seconds))


def accept(parent: File, child: File, *, program: Path | None = None, seconds: float | None = None) -> Derivation:
    """Which step a child book is from its parent. Raises `Refused` where it is none."""
    return Derivation(done("accept", parent, child, program=program, seconds=seconds).strip())


def derive(parent: File, script: File, *, program: Path | None = None, seconds: float | None = None) -> str:
    """The text of the book that a script derives from its parent."""
    return done("derive", parent, script, program=program, seconds=seconds)
