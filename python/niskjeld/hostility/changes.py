"""Changes of a file's bytes: a byte, a digit, a line, a cut, a doubled stretch."""

from __future__ import annotations

import random
import re
from typing import Callable

Change = Callable[[bytes, random.Random], bytes]
# Bytes that mean something in one of the formats, or are no text.
TELLING = b"<>/\"'=#,.-+eE()[]{} \t\r\n\x00\xff\xc3\xa9_09Zz"
NUMBERS = [b"0", b"-1", b"1e18", b"-1e9", b"1e-400", b"1e400", b"9" * 19, b"9" * 65, b"18446744073709551616"]
NUMBERS += [b"0.00005", b"+.5", b"00", b"5."]


def a_byte(text: bytes, dice: random.Random) -> bytes:
    """One byte more, less or other."""
    at = dice.randrange(len(text) + 1)
    new = bytes([dice.choice(TELLING) if dice.random() < 0.7 else dice.randrange(256)])
    return text[:at] + dice.choice([new, new, b""]) + text[at + dice.randrange(2) :]


def a_digit(text: bytes, dice: random.Random) -> bytes:
    places = [found.start() for found in re.finditer(rb"\d", text)]
    if not places:
        return a_byte(text, dice)
    at = dice.choice(places)
    return text[:at] + b"%d" % dice.randrange(10) + text[at + 1 :]


def a_number(text: bytes, dice: random.Random) -> bytes:
    places = [found.span() for found in re.finditer(rb"[-+]?\d[\d.]*(?:[eE][-+]?\d+)?", text)]
    if not places:
        return a_byte(text, dice)
    start, end = dice.choice(places)
    return text[:start] + dice.choice(NUMBERS) + text[end:]


def a_line(text: bytes, dice: random.Random) -> bytes:
    """A line left out, doubled, or put elsewhere."""
    lines = text.splitlines(keepends=True)
    if len(lines) < 2:
        return a_byte(text, dice)
    at, to = dice.randrange(len(lines)), dice.randrange(len(lines))
    line = lines[at]
    match dice.randrange(3):
        case 0:
            del lines[at]
        case 1:
            lines.insert(to, line)
        case _:
            lines[at], lines[to] = lines[to], lines[at]
    return b"".join(lines)


def a_cut(text: bytes, dice: random.Random) -> bytes:
    """The front of the file alone, or without its front, or without a stretch."""
    start, end = sorted((dice.randrange(len(text) + 1), dice.randrange(len(text) + 1)))
    return dice.choice([text[:start], text[start:], text[:start] + text[end:]])


def doubled(text: bytes, dice: random.Random) -> bytes:
    start = dice.randrange(len(text) + 1)
    stretch = text[start : start + dice.choice([1, 8, 60, 400])]
    return text[:start] + stretch * dice.choice([2, 3, 40]) + text[start + len(stretch) :]


def a_word(text: bytes, dice: random.Random) -> bytes:
    """A word in the place of another one of the file."""
    places = [found.span() for found in re.finditer(rb"[A-Za-z_]\w*", text)]
    if len(places) < 2:
        return a_byte(text, dice)
    (start, end), (a, b) = dice.choice(places), dice.choice(places)
    return text[:start] + text[a:b] + text[end:]


CHANGES: list[Change] = [a_byte, a_byte, a_digit, a_digit, a_number, a_line, a_cut, doubled, a_word]


def changed(text: bytes, dice: random.Random) -> bytes:
    """One to three changes, and a file that is no longer than it may be."""
    for _ in range(dice.choice([1, 1, 1, 2, 3])):
        text = dice.choice(CHANGES)(text, dice)
    return text[: 1 << 20]
