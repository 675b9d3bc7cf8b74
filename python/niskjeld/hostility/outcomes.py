"""What a run of the program may end with, and what it prints then."""

from __future__ import annotations

import re

from ..program import Status

_ROLE = r"(book|table|scenario|lattice|list|certificate|parent|child|script|records)"
_FORMS: dict[int, str] = {
    Status.REFUSED: rf"refused {_ROLE} [a-z0-9-]+( [^\n ]+)*\n",
    Status.USAGE: r"usage: see --help\n",
    Status.READ_FAULT: rf"cannot read {_ROLE}\n",
    Status.WRITE_FAULT: r"[^\x00]*",
    Status.NO_MEMORY: r"",
    Status.REJECTED: r"rejected [1-8] \d+\n",
    Status.TOO_MANY_LABELS: r"too many labels\n",
    Status.NO_WORDS: r"",
}
_FRONT = r"rules( \w+)+\n(none\n|front \d+\n(\d+( \d+)* :( \w+(/\w+)?)*\n)+)"
_DONE: dict[str, str] = {
    "plan": _FRONT,
    "joint": _FRONT,
    "check": f"accepted\n{_FRONT}",
    "joint-check": f"accepted\n{_FRONT}",
    "walk": r"rules( \w+)+\nvector( \d+)+\ngoal (yes|no)\n",
    "judge": r"rules( \w+)+\n(\w+ \d+( \d+)+\n)+(\w+ \w+ (equal|first \w+|second \w+|neither \w+ \w+)\n)*",
    "pick": r"none\n|(\w+( \d+)+\n)+",
    "compare": r"(\w+ \w+ (equal|first \w+|second \w+|neither \w+ \w+)\n)*",
    "accept": r"(refinement|aggregation|augmentation)\n",
    "derive": r"(rule \w+\n((part|final) \w+ \d+ [^\n]+\n)*)+(above \w+ \w+\n)*",
    "show": r"version (2020a|2018b)\nstep \d+\nlanelets \d+\n(lanelet [^\n]+\n)*"
    r"obstacles \d+\n(obstacle [^\n]+\n)*problems \d+\n(problem [^\n]+\n)+",
}


def wrong_with(command: str, status: int, printed: bytes, said: bytes) -> str | None:
    """What is wrong with an end, or None."""
    if status < 0:
        return f"it was ended by signal {-status}"
    if status != Status.DONE and status not in _FORMS:
        return f"it ended with {status}"
    if said:
        return f"it said on standard error: {said[:200]!r}"
    form = _DONE.get(command, r"[^\x00]*") if status == Status.DONE else _FORMS[status]
    if not re.fullmatch(form.encode(), printed):
        return f"with status {status} it printed {printed[:200]!r}"
    return None
