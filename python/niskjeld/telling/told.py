"""A refusal in a sentence, with its place."""

from __future__ import annotations

import tomllib
from dataclasses import dataclass
from functools import cached_property
from pathlib import Path

from ..place import Place, place_at_byte, place_in_line
from ..program import Call


@dataclass(frozen=True)
class Told:
    place: Place
    sentence: str

    def __str__(self) -> str:
        return f"{self.place}: {self.sentence}"


@dataclass(frozen=True)
class Source:
    """The file that was refused, and the call that was refused for it."""

    call: Call
    role: str
    file: str
    folder: Path

    @cached_property
    def content(self) -> bytes:
        return self.other(self.role)

    def other(self, role: str) -> bytes:
        """What the file of another role of the call holds; nothing where it can't be read."""
        word = self.call.word(role)
        try:
            return (self.folder / word).read_bytes() if word else b""
        except OSError:
            return b""

    def whole(self, sentence: str) -> Told:
        """Of the file, with no line."""
        return Told(Place(self.file), sentence)

    def at_byte(self, at: int, sentence: str, length: int = 1) -> Told:
        return Told(place_at_byte(self.file, self.content, at, length), sentence)

    def in_line(self, line: int, sentence: str, column: int | None = None, length: int = 1) -> Told:
        return Told(place_in_line(self.file, self.content, line, column, length), sentence)


TOO_LONG = "the file has more than 16,777,216 bytes"


def number(text: str | int) -> str:
    """A number with commas between its thousands."""
    return f"{int(text):,}"


def ordinal(text: str | int) -> str:
    value = int(text)
    ending = "th" if 10 <= value % 100 <= 20 else {1: "st", 2: "nd", 3: "rd"}.get(value % 10, "th")
    return f"{value}{ending}"


def maneuver_names(lattice: bytes) -> list[str]:
    """The names of the maneuvers of a lattice's file; none where it is no document."""
    try:
        maneuvers = tomllib.loads(lattice.decode()).get("maneuver", [])
    except (UnicodeDecodeError, tomllib.TOMLDecodeError):
        return []
    return [one["name"] for one in maneuvers if isinstance(one, dict) and isinstance(one.get("name"), str)]
