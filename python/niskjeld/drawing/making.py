"""Makes the page of a scenario from its files."""

from __future__ import annotations

from pathlib import Path

from ..book import read_book
from ..lattice import read_lattice
from ..scenario import read_scenario
from .curves import added
from .page import page
from .scene import MOST_DRIVES, read_printed, scene_of


def page_of(scenario: Path, lattice: Path, printed: Path, book: Path | None = None, records: Path | None = None) -> tuple[str, int]:
    """The page, and how many answers or recordings it leaves out. With a book it has its diagram and the curves."""
    scene, maneuvers = read_scenario(scenario), read_lattice(lattice)
    told = read_printed(printed, maneuvers, scene.problems[0], records)
    left_out = max(0, len(told.drives) - MOST_DRIVES)
    told.drives = told.drives[:MOST_DRIVES]
    rules = None
    if book is not None:
        rules = read_book(book.read_text(encoding="utf-8"))
        for drive, one in zip(told.drives, added(scenario, book, lattice, [drive.steps for drive in told.drives])):
            drive.added = one
    text = page(scene_of(scene, maneuvers, told), scenario.stem.replace("_", " "), rules, told.verdicts)
    return text, left_out
