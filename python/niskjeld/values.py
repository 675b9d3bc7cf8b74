"""What the commands give back."""

from __future__ import annotations

import enum
from dataclasses import dataclass

Vector = tuple[int, ...]


@dataclass(frozen=True)
class Row:
    """A row of a table: a behaviour with a number for each rule."""

    name: str
    vector: Vector


@dataclass(frozen=True)
class Answer:
    """A violation vector that no trajectory to the goal beats, and the maneuvers of a trajectory that has it."""

    vector: Vector
    maneuvers: tuple[str, ...]


@dataclass(frozen=True)
class Front:
    """What `plan` and `check` print: the rules, and an answer for each vector that no other beats."""

    rules: tuple[str, ...]
    answers: tuple[Answer, ...]

    def __bool__(self) -> bool:
        """Whether some trajectory reaches the goal."""
        return bool(self.answers)


@dataclass(frozen=True)
class Walk:
    """What a list of maneuvers violates, and whether it ends at a goal."""

    rules: tuple[str, ...]
    vector: Vector
    goal: bool


class Standing(enum.Enum):
    """How two behaviours stand."""

    EQUAL = "equal"
    FIRST = "first"
    SECOND = "second"
    NEITHER = "neither"


@dataclass(frozen=True)
class Verdict:
    """How two behaviours stand, and by which rule one is worse with no excuse: the loser's, or first the first's."""

    first: str
    second: str
    standing: Standing
    rules: tuple[str, ...]


@dataclass(frozen=True)
class Recording:
    """A recording by a book: its vector, and how long a chain of recordings beats it."""

    name: str
    layer: int
    vector: Vector


@dataclass(frozen=True)
class Judgement:
    """What `judge` prints."""

    rules: tuple[str, ...]
    recordings: tuple[Recording, ...]
    verdicts: tuple[Verdict, ...]

    def layer(self, number: int) -> tuple[Recording, ...]:
        """The recordings of this layer; layer 0 are those that none beats."""
        return tuple(one for one in self.recordings if one.layer == number)


class Derivation(enum.Enum):
    """Which step a child book is from its parent."""

    REFINEMENT = "refinement"
    AGGREGATION = "aggregation"
    AUGMENTATION = "augmentation"


@dataclass(frozen=True)
class ShownLanelet:
    id: int
    points: int  # of both bounds
    successors: tuple[int, ...]


@dataclass(frozen=True)
class ShownObstacle:
    id: int
    moving: bool
    states: int
    shapes: int


@dataclass(frozen=True)
class ShownProblem:
    """A planning problem's start, in 0.1 mm, microradians, mm/s and ticks, and how many goals it has."""

    id: int
    x: int
    y: int
    heading: int
    speed: int
    tick: int
    goals: int


@dataclass(frozen=True)
class Shown:
    """What `show` prints of a scenario."""

    version: str
    step: int  # microseconds
    lanelets: tuple[ShownLanelet, ...]
    obstacles: tuple[ShownObstacle, ...]
    problems: tuple[ShownProblem, ...]
