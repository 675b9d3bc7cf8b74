"""Reads what the program prints."""

from __future__ import annotations

from .program import Fault
from .values import (
    Answer,
    Front,
    Judgement,
    Recording,
    Row,
    Shown,
    ShownLanelet,
    ShownObstacle,
    ShownProblem,
    Standing,
    Vector,
    Verdict,
    Walk,
)


class NotPrinted(Fault):
    """The text isn't one that the command prints."""


def _rules(line: str) -> tuple[str, ...]:
    word, *rules = line.split() or [""]
    if word != "rules" or not rules:
        raise NotPrinted(f"`rules ..` is wanted first, not: {line or 'nothing'}")
    return tuple(rules)


def _vector(words: list[str], width: int, line: str) -> Vector:
    if len(words) != width or not all(word.isdigit() for word in words):
        raise NotPrinted(f"not {width} numbers: {line}")
    return tuple(int(word) for word in words)


def read_front(text: str) -> Front:
    """What `plan` prints, or `check` of a certificate that it accepts."""
    lines = text.splitlines()
    if lines[:1] == ["accepted"]:
        lines = lines[1:]
    rules = _rules(lines[0] if lines else "")
    if lines[1:] == ["none"]:
        return Front(rules, ())
    answers = []
    for line in lines[2:]:
        numbers, found, names = line.partition(" :")
        if not found:
            raise NotPrinted(f"no answer of {len(rules)} rules: {line}")
        answers.append(Answer(_vector(numbers.split(), len(rules), line), tuple(names.split())))
    if len(lines) < 2 or lines[1] != f"front {len(answers)}":
        raise NotPrinted(f"{lines[1] if len(lines) > 1 else 'no front'}, and {len(answers)} answers")
    return Front(rules, tuple(answers))


def read_walk(text: str) -> Walk:
    lines = text.splitlines()
    if len(lines) != 3 or not lines[1].startswith("vector ") or lines[2] not in ("goal yes", "goal no"):
        raise NotPrinted("not what walk prints")
    rules = _rules(lines[0])
    return Walk(rules, _vector(lines[1].split()[1:], len(rules), lines[1]), lines[2] == "goal yes")


def read_verdict(line: str) -> Verdict:
    words = line.split()
    wanted = {"equal": 3, "first": 4, "second": 4, "neither": 5}
    if len(words) < 3 or wanted.get(words[2]) != len(words):
        raise NotPrinted(f"no verdict: {line}")
    return Verdict(words[0], words[1], Standing(words[2]), tuple(words[3:]))


def read_verdicts(text: str) -> tuple[Verdict, ...]:
    """What `compare` prints."""
    return tuple(read_verdict(line) for line in text.splitlines())


def read_picked(text: str) -> tuple[Row, ...]:
    """What `pick` prints."""
    if text == "none\n":
        return ()
    rows = []
    for line in text.splitlines():
        name, *numbers = line.split()
        rows.append(Row(name, _vector(numbers, len(numbers), line)))
    return tuple(rows)


def read_judgement(text: str) -> Judgement:
    """What `judge` prints: a line for each recording, then one for each pair."""
    lines = text.splitlines()
    rules = _rules(lines[0] if lines else "")
    recordings: list[Recording] = []
    for line in lines[1:]:
        words = line.split()
        if len(words) != len(rules) + 2 or not words[1].isdigit():
            break
        recordings.append(Recording(words[0], int(words[1]), _vector(words[2:], len(rules), line)))
    verdicts = tuple(read_verdict(line) for line in lines[1 + len(recordings) :])
    if not recordings or 2 * len(verdicts) != len(recordings) * (len(recordings) - 1):
        raise NotPrinted(f"{len(recordings)} recordings and {len(verdicts)} pairs")
    return Judgement(rules, tuple(recordings), verdicts)


def read_shown(text: str) -> Shown:
    version, step = "", 0
    lanelets: list[ShownLanelet] = []
    obstacles: list[ShownObstacle] = []
    problems: list[ShownProblem] = []
    for line in text.splitlines():
        match line.split():
            case ["version", word]:
                version = word
            case ["step", word]:
                step = int(word)
            case ["lanelet", one, "points", points, "successors", _, *ids]:
                lanelets.append(ShownLanelet(int(one), int(points), tuple(int(word) for word in ids)))
            case ["obstacle", one, kind, "states", states, "shapes", shapes]:
                obstacles.append(ShownObstacle(int(one), kind == "moving", int(states), int(shapes)))
            case ["problem", one, *rest] if rest[::2] == ["x", "y", "heading", "speed", "tick", "goals"]:
                problems.append(ShownProblem(int(one), *(int(word) for word in rest[1::2])))
            case ["lanelets" | "obstacles" | "problems", _]:
                pass
            case _:
                raise NotPrinted(f"not what show prints: {line}")
    return Shown(version, step, tuple(lanelets), tuple(obstacles), tuple(problems))
