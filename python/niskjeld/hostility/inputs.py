"""The calls that are changed: those of examples/, each with the files that it names."""

from __future__ import annotations

from dataclasses import dataclass
from pathlib import Path

from ..program import TOP

MOST_BYTES = 8_000  # of an example's scenario: larger ones take longer and show no more


@dataclass(frozen=True)
class Trial:
    """The words of a call, and the bytes of the files that they name. `saves` is the word of a file that is written."""

    words: tuple[str, ...]
    files: dict[str, bytes]
    saves: str | None = None


def _scene(folder: Path) -> dict[str, bytes]:
    return {ending: (folder / f"{folder.name}.{ending}").read_bytes() for ending in ("xml", "book", "lattice")}


def _of_scene(folder: Path) -> list[Trial]:
    """The calls over a folder's scene."""
    files = {f"s.{ending}": text for ending, text in _scene(folder).items()}
    three = ("s.xml", "s.book", "s.lattice")
    trials = [Trial(("plan", *three, "saved"), files, "saved"), Trial(("show", "s.xml"), {"s.xml": files["s.xml"]})]
    for path in sorted(folder.glob("*.certificate")):
        trials.append(Trial(("check", *three, "c"), {**files, "c": path.read_bytes()}))
    for path in sorted(folder.glob("*.records")):
        trials.append(Trial(("judge", *three, "r"), {**files, "r": path.read_bytes()}))
    for path in sorted(folder.glob("*.walk")):
        names = "." if path.stem == "none" else path.stem
        trials.append(Trial(("walk", *three, names), files))
    return trials


def _of_books(folder: Path) -> list[Trial]:
    """The calls over a folder's parent, and its children and scripts."""
    parent = (folder / f"{folder.name}.book").read_bytes()
    trials = []
    for path in sorted(folder.glob("*.book")):
        trials.append(Trial(("accept", "p.book", "c.book"), {"p.book": parent, "c.book": path.read_bytes()}))
    for path in sorted(folder.glob("*.script")):
        trials.append(Trial(("derive", "p.book", "s.script"), {"p.book": parent, "s.script": path.read_bytes()}))
    return trials


def trials() -> list[Trial]:
    found: list[Trial] = []
    for folder in sorted(path for path in (TOP / "examples").iterdir() if path.is_dir()):
        scene = folder / f"{folder.name}.xml"
        if scene.is_file() and scene.stat().st_size <= MOST_BYTES:
            found += _of_scene(folder)
        if (folder / f"{folder.name}.book").is_file():
            found += _of_books(folder)
    for table in sorted((TOP / "examples").glob("*.table")):
        files = {"b.book": table.with_suffix(".book").read_bytes(), "t.table": table.read_bytes()}
        found += [Trial((command, "b.book", "t.table"), files) for command in ("pick", "compare")]
    return found
