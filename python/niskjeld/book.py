"""A book as far as tools need it: its rules, their parts, and which rule is above which."""

from __future__ import annotations

import re
from dataclasses import dataclass, field
from typing import Iterator

MOST_BYTES = 1024
NAME = re.compile(r"[A-Za-z_][A-Za-z_0-9]{0,23}")


@dataclass(frozen=True)
class Word:
    text: str
    at: int  # of its first character in the line


@dataclass(frozen=True)
class Line:
    """A line that isn't blank, without its comment. Numbers count from 1."""

    number: int
    text: str
    words: tuple[Word, ...]

    def rest(self, number: int) -> Word:
        """What stands from this word on."""
        at = self.words[number].at if number < len(self.words) else len(self.text.rstrip(" \t"))
        return Word(self.text[at:], at)


@dataclass(frozen=True)
class Part:
    rule: str
    weight: int
    text: str
    final: bool
    line: int
    at: int


@dataclass
class Book:
    """The rules in their order, their parts, and the statements `(A, B)`: A is at least B."""

    rules: list[str] = field(default_factory=list)
    parts: list[Part] = field(default_factory=list)
    statements: list[tuple[str, str]] = field(default_factory=list)
    lines: dict[str, Line] = field(default_factory=dict)  # of each rule

    def parts_of(self, rule: str) -> list[Part]:
        return [part for part in self.parts if part.rule == rule]

    def at_least(self) -> set[tuple[str, str]]:
        """The pairs that a chain of statements leads from and to, each rule with itself among them."""
        reached = {(rule, rule) for rule in self.rules} | set(self.statements)
        for middle in self.rules:
            above = [one for one, other in reached if other == middle]
            below = [other for one, other in reached if one == middle]
            reached |= {(one, other) for one in above for other in below}
        return reached

    def ranks(self) -> list[tuple[str, ...]]:
        """The rules of one rank together, in the order of the first of each."""
        reached = self.at_least()
        ranks: list[tuple[str, ...]] = []
        for rule in self.rules:
            if not any(rule in rank for rank in ranks):
                ranks.append(tuple(other for other in self.rules if (rule, other) in reached and (other, rule) in reached))
        return ranks

    def covers(self) -> list[tuple[int, int]]:
        """The lines of the Hasse diagram, by the places of ranks: the first is above the second, and none is between."""
        reached, ranks = self.at_least(), self.ranks()
        above = {
            (i, j) for i, one in enumerate(ranks) for j, other in enumerate(ranks) if i != j and (one[0], other[0]) in reached
        }
        return sorted(
            (i, j) for i, j in above if not any((i, k) in above and (k, j) in above for k in range(len(ranks)) if k not in (i, j))
        )


def lines_of(text: str) -> Iterator[Line]:
    """The lines of a book, a table or a script that have a word."""
    for number, line in enumerate(text.split("\n"), 1):
        bare = line.removesuffix("\r").split("#", 1)[0]
        words = tuple(Word(found.group(), found.start()) for found in re.finditer(r"[^ \t]+", bare))
        if words:
            yield Line(number, bare, words)


def read_book(text: str) -> Book:
    """The book of a text, as far as its lines are lines of a book; others are passed over."""
    book = Book()
    for line in lines_of(text):
        match [word.text for word in line.words]:
            case ["rule", name] if name not in book.rules:
                book.rules.append(name)
                book.lines[name] = line
            case ["part" | "final" as kind, name, weight, _, *_] if name in book.rules and weight.isdigit():
                rest = line.rest(3)
                book.parts.append(Part(name, int(weight), rest.text.rstrip(), kind == "final", line.number, rest.at))
            case ["above", one, other] if one in book.rules and other in book.rules:
                book.statements.append((one, other))
            case ["same", one, other] if one in book.rules and other in book.rules:
                book.statements += [(one, other), (other, one)]
    return book
