"""What a call that didn't end as Done raises."""

from __future__ import annotations

from dataclasses import dataclass

from .place import Place
from .program import Call, Fault, Status
from .telling import Told, tell, tell_rejection


class NotDone(Fault):
    """A call that didn't end as Done. `call` has its words, its status and what it printed."""

    def __init__(self, call: Call, said: str) -> None:
        super().__init__(said)
        self.call = call


@dataclass(frozen=True)
class Refusal:
    """A refusal as it is printed: `refused ROLE FAULT`, where FAULT is a word and what it is about."""

    role: str
    fault: str
    about: tuple[str, ...]

    @classmethod
    def read(cls, printed: str) -> Refusal | None:
        match printed.split():
            case ["refused", role, fault, *about]:
                return cls(role, fault, tuple(about))
        return None

    @property
    def words(self) -> str:
        return " ".join((self.fault, *self.about))


class Refused(NotDone):
    """A file or a list was refused. `file`, `line` and `column` say where, `words` is the fault as it was printed."""

    def __init__(self, call: Call, refusal: Refusal) -> None:
        self.refusal = refusal
        self.told: Told = tell(call, refusal.role, refusal.fault, refusal.about)
        super().__init__(call, str(self.told))

    @property
    def words(self) -> str:
        return self.refusal.words

    @property
    def place(self) -> Place:
        return self.told.place

    @property
    def sentence(self) -> str:
        return self.told.sentence

    @property
    def file(self) -> str:
        return self.place.file

    @property
    def line(self) -> int | None:
        return self.place.line

    @property
    def column(self) -> int | None:
        return self.place.column


class Rejected(NotDone):
    """A certificate fails a condition: `condition` and `label` are the numbers that are printed."""

    def __init__(self, call: Call, condition: int, label: int) -> None:
        self.condition, self.label = condition, label
        super().__init__(call, f"{call.word('certificate')}: {tell_rejection(condition, label)}")


class CannotRead(NotDone):
    """A file couldn't be read. `file` is its name."""

    def __init__(self, call: Call, role: str) -> None:
        self.role, self.file = role, call.word(role) or role
        super().__init__(call, f"{self.file}: the {role} can't be read")


class TooManyLabels(NotDone):
    """There are more than 50,000 undominated pairs of a state and a vector."""


class WriteFault(NotDone):
    """The certificate couldn't be saved."""


class NoMemory(NotDone):
    """Memory ran out; nothing was printed or saved."""


class Usage(NotDone):
    """The words ask for nothing that there is."""


# What a status means that says nothing of a file.
_PLAIN = {
    Status.USAGE: (Usage, "the program has no such command, or not with these words: rulebook --help lists them"),
    Status.WRITE_FAULT: (WriteFault, "the certificate can't be saved"),
    Status.NO_MEMORY: (NoMemory, "memory ran out; nothing was printed or saved"),
    Status.TOO_MANY_LABELS: (
        TooManyLabels,
        "there are more than 50,000 undominated pairs of a state and a vector: take a lattice with fewer maneuvers or a shorter "
        "horizon, or a book that leaves less open",
    ),
}


def raised(call: Call) -> NotDone:
    """The exception for a call that didn't end as Done."""
    match call.status, call.printed.split():
        case Status.REFUSED, _ if (refusal := Refusal.read(call.printed)) is not None:
            return Refused(call, refusal)
        case Status.REJECTED, ["rejected", condition, label]:
            return Rejected(call, int(condition), int(label))
        case Status.READ_FAULT, ["cannot", "read", role]:
            return CannotRead(call, role)
        case Status.WRITE_FAULT, _ if call.word("certificate"):
            return WriteFault(call, f"{call.word('certificate')}: the certificate can't be saved")
        case status, _ if status in _PLAIN:
            kind, said = _PLAIN[Status(status)]
            return kind(call, said)
    return NotDone(call, f"the program ended with {call.status}, which it says nothing of")
