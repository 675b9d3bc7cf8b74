"""Where an expression of a book is no expression, and which features it names."""

from __future__ import annotations

import re
from dataclasses import dataclass

from .program import Fault

_TOKEN = re.compile(r"[ \t]*(?:(\d+)|([A-Za-z_][A-Za-z_0-9]*)|([-+*(),]))")
_WANTED = {"abs": 1, "min": 2, "max": 2, "if": 3, "div": 2}
MOST_BRACKETS = 32


class NoExpression(Fault):
    """Why a text is no expression, and at which of its characters."""

    def __init__(self, at: int, said: str) -> None:
        super().__init__(said)
        self.at = at


@dataclass(frozen=True)
class Feature:
    """A feature as an expression names it, with the place of its first character."""

    name: str
    argument: str | None
    at: int

    def __str__(self) -> str:
        return self.name if self.argument is None else f"{self.name}({self.argument})"


class _Reader:
    def __init__(self, text: str) -> None:
        self.text = text
        self.tokens: list[tuple[str, int]] = []
        self.features: list[Feature] = []
        self.next = 0
        at = 0
        while text[at:].strip(" \t"):
            found = _TOKEN.match(text, at)
            if found is None:
                at += len(text[at:]) - len(text[at:].lstrip(" \t"))
                raise NoExpression(at, f"`{text[at]}` has no meaning in an expression")
            self.tokens.append((found.group(found.lastindex or 0), found.start(found.lastindex or 0)))
            at = found.end()

    def peek(self) -> tuple[str, int]:
        return self.tokens[self.next] if self.next < len(self.tokens) else ("", len(self.text.rstrip(" \t")))

    def take(self) -> tuple[str, int]:
        token = self.peek()
        self.next += 1
        return token

    def want(self, sign: str, depth: int) -> None:
        token, at = self.take()
        if token != sign:
            raise NoExpression(at, f"`{sign}` is wanted here, not {f'`{token}`' if token else 'the end'}")
        if sign == "(" and depth >= MOST_BRACKETS:
            raise NoExpression(at, f"more than {MOST_BRACKETS} brackets stand inside each other")

    def expression(self, depth: int) -> None:
        self.factor(depth)
        while self.peek()[0] in ("+", "-", "*"):
            self.take()
            self.factor(depth)

    def factor(self, depth: int) -> None:
        token, at = self.take()
        if token == "-":
            self.factor(depth)
        elif token == "(":
            self.next -= 1
            self.want("(", depth)
            self.expression(depth + 1)
            self.want(")", depth)
        elif token.isdigit():
            if int(token) > 10**12:
                raise NoExpression(at, "a number is at most 1,000,000,000,000")
        elif token in _WANTED:
            self.called(token, depth)
        elif token and (token[0].isalpha() or token[0] == "_"):
            self.feature(token, at, depth)
        else:
            raise NoExpression(at, f"a number, a feature or a bracket is wanted here, not {f'`{token}`' if token else 'the end'}")

    def called(self, name: str, depth: int) -> None:
        self.want("(", depth)
        for number in range(_WANTED[name]):
            if number:
                self.want(",", depth)
            if name == "div" and number:
                token, at = self.take()
                if not token.isdigit() or not 1 <= int(token) <= 10**9:
                    raise NoExpression(at, "div divides by a number from 1 to 1,000,000,000")
            else:
                self.expression(depth + 1)
        self.want(")", depth)

    def feature(self, name: str, at: int, depth: int) -> None:
        argument = None
        if self.peek()[0] == "(":
            self.want("(", depth)
            argument, place = self.take()
            if not re.fullmatch(r"\d{1,18}|[A-Za-z_]\w{0,23}", argument):
                raise NoExpression(place, "a name, or 1 to 18 digits, stands in the brackets of a feature")
            self.want(")", depth)
        self.features.append(Feature(name, argument, at))


def features_of(text: str) -> list[Feature]:
    """The features that an expression names, in its order. Raises `NoExpression` where the text is none."""
    reader = _Reader(text)
    reader.expression(0)
    token, at = reader.peek()
    if token:
        raise NoExpression(at, f"the expression is whole before `{token}`")
    return reader.features
