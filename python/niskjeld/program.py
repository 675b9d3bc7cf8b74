"""Finds the program, calls it, and says what it ended with."""

from __future__ import annotations

import enum
import functools
import os
import subprocess
from dataclasses import dataclass
from pathlib import Path

TOP = Path(__file__).resolve().parents[2]
BUILT = TOP / "crates" / "rulebook_program" / "out" / "rulebook_program"
SHIPPED = TOP / "bin" / "rulebook-x86_64-linux"

# The roles of the files and lists that a command is given, in the order of its words. A command joins with a line here, a
# function in `commands` and, where it prints something new, a reader in `printed`.
ROLES: dict[str, tuple[str, ...]] = {
    "pick": ("book", "table"),
    "compare": ("book", "table"),
    "show": ("scenario",),
    "plan": ("scenario", "book", "lattice", "certificate"),
    "check": ("scenario", "book", "lattice", "certificate"),
    "walk": ("scenario", "book", "lattice", "list"),
    "accept": ("parent", "child"),
    "derive": ("parent", "script"),
    "judge": ("scenario", "book", "lattice", "records"),
    "sample": ("number",),
}


class Status(enum.IntEnum):
    """What the program ends with."""

    DONE = 0
    REFUSED = 1
    USAGE = 2
    READ_FAULT = 3
    WRITE_FAULT = 4
    NO_MEMORY = 5
    REJECTED = 6
    TOO_MANY_LABELS = 7
    NO_WORDS = 8


class Fault(Exception):
    """What is wrong, in one line."""


class NoProgram(Fault):
    """There is no program that this machine can run."""


class TooSlow(Fault):
    """The program was ended, since its time was up."""


@dataclass(frozen=True)
class Call:
    """A call of the program, with what it printed and ended with."""

    words: tuple[str, ...]
    status: int
    printed: str

    @property
    def command(self) -> str:
        return self.words[0] if self.words else ""

    def word(self, role: str) -> str | None:
        """The word of the call that has this role: a file's name, or a list of maneuvers."""
        return dict(zip(ROLES.get(self.command, ()), self.words[1:])).get(role)


def _runs(program: Path) -> bool:
    """Whether this machine can run it. With no words the program prints its usage."""
    if not os.access(program, os.X_OK):
        return False
    try:
        subprocess.run([program], stdin=subprocess.DEVNULL, capture_output=True, check=False)
    except OSError:
        return False
    return True


@functools.cache
def find_program() -> Path:
    """The program that was built here, or else the shipped one, as the script `rulebook` at the top takes them."""
    for program in (BUILT, SHIPPED):
        if _runs(program):
            return program
    raise NoProgram(f"no program at hand runs on this machine; {TOP / 'rulebook'} --build proves and builds one")


def as_word(word: str | os.PathLike[str]) -> str:
    """A file's name as a word of a call: one that begins with `-` would be refused as it stands."""
    text = os.fspath(word)
    return f"./{text}" if text.startswith("-") else text


def call(
    *words: str | os.PathLike[str], program: Path | None = None, seconds: float | None = None, folder: Path | None = None
) -> Call:
    """Calls the program with these words. Raises `TooSlow` where it takes longer than these seconds."""
    texts = tuple(os.fspath(word) for word in words)
    try:
        done = subprocess.run(
            [program or find_program(), *texts], stdin=subprocess.DEVNULL, capture_output=True, timeout=seconds, cwd=folder, check=False
        )
    except subprocess.TimeoutExpired:
        raise TooSlow(f"{texts[0] if texts else 'the program'} was ended after {seconds:g} s") from None
    return Call(texts, done.returncode, done.stdout.decode(errors="replace"))
