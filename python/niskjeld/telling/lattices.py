"""The faults of a lattice."""

from __future__ import annotations

import re
import tomllib
from dataclasses import dataclass, field
from typing import Any

from ..book import NAME
from .told import TOO_LONG, Source, Told, ordinal

_HEADER = re.compile(r"\s*\[\[\s*(\w+)\s*\]\]")
_KEY = re.compile(r"\s*\"?([\w-]+)\"?\s*=")
_RANGES = {
    "horizon": (0, 1000),
    "length": (1, 10**7),
    "width": (1, 10**7),
    "tolerance": (0, 10**6),
    "heading": (-(10**7), 10**7),
    "speed": (-(10**6), 10**6),
}
_STEP = (10**7, 10**7, 10**7, 10**6, 10**6, 10**7)
_STEP_NAMES = ("forward", "left", "heading", "speed", "acceleration", "turn")
_WHAT = {"class": "classes, and a lattice has at most 64", "maneuver": "maneuvers, and a lattice has at most 2,048"}


@dataclass
class _Table:
    """A table of the file: its line, and the line and column of each of its keys."""

    line: int
    keys: dict[str, tuple[int, int]] = field(default_factory=dict)


def _scan(text: str) -> tuple[_Table, dict[str, list[_Table]]]:
    """The keys at the top, and the tables of each array of tables."""
    top = _Table(1)
    arrays: dict[str, list[_Table]] = {}
    now = top
    for number, line in enumerate(text.split("\n"), 1):
        if header := _HEADER.match(line):
            now = _Table(number)
            arrays.setdefault(header.group(1), []).append(now)
        elif key := _KEY.match(line):
            now.keys.setdefault(key.group(1), (number, key.start(1) + 1))
    return top, arrays


def _whole(value: Any, low: int, high: int) -> bool:
    return isinstance(value, int) and not isinstance(value, bool) and low <= value <= high


def _is_step(value: Any) -> bool:
    return isinstance(value, list) and len(value) == 6 and all(_whole(one, -most, most) for one, most in zip(value, _STEP))


def _good(key: str, value: Any) -> bool:
    if key in _RANGES:
        return _whole(value, *_RANGES[key])
    if key in ("name", "from", "to"):
        return isinstance(value, str) and NAME.fullmatch(value) is not None
    if key == "steps":
        return isinstance(value, list) and bool(value) and all(_is_step(step) for step in value)
    return isinstance(value, list) and all(isinstance(one, dict) for one in value)


def _wanted(key: str, value: Any) -> str:
    if key in _RANGES:
        low, high = _RANGES[key]
        return f"`{key}` is {value!r}, and has to be a whole number from {low:,} to {high:,}"
    if key in ("name", "from", "to"):
        return f"`{key}` is {value!r}, and has to be a name of 1 to 24 letters, digits or `_` that does not begin with a digit"
    if key == "steps":
        return _wanted_steps(value)
    return f"`{key}` has to be an array of tables: [[{key}]]"


def _wanted_steps(value: Any) -> str:
    if not isinstance(value, list) or not value:
        return "`steps` has to be an array of at least one step"
    for number, step in enumerate(value, 1):
        if not isinstance(step, list) or len(step) != 6:
            return f"the {ordinal(number)} step has to be an array of six whole numbers"
        for name, one, most in zip(_STEP_NAMES, step, _STEP):
            if not _whole(one, -most, most):
                return f"the {name} of the {ordinal(number)} step is {one!r}, and has to be a whole number of at most {most:,} in size"
    return "a step has to be an array of six whole numbers"


class _Lattice:
    """The file, and where in it a table or a key stands."""

    def __init__(self, source: Source) -> None:
        self.source = source
        text = source.content.decode(errors="replace")
        self.value: dict[str, Any] = {}
        try:
            self.value = tomllib.loads(text)
        except tomllib.TOMLDecodeError:
            pass
        self.top, self.arrays = _scan(text)

    def tables(self, kind: str) -> list[dict[str, Any]]:
        value = self.value.get(kind)
        return [one for one in value if isinstance(one, dict)] if isinstance(value, list) else []

    def at(self, kind: str | None, index: int, key: str | None, sentence: str) -> Told:
        """Of a key of the table at this place, or of the table where it lacks the key."""
        if kind is None:
            table = self.top
        elif index < len(self.arrays.get(kind, [])):
            table = self.arrays[kind][index]
        else:
            table, key = self.top, kind
        if key is not None and key in table.keys:
            line, column = table.keys[key]
            return self.source.in_line(line, sentence, column, len(key))
        return self.source.in_line(table.line, sentence)

    def whose(self, kind: str, index: int) -> str:
        name = self.tables(kind)[index].get("name")
        return f"the {kind} `{name}`" if isinstance(name, str) else f"the {ordinal(index + 1)} {kind}"

    def missing(self, key: str) -> Told:
        if key in ("class", "maneuver") or key not in self.value and key in ("horizon", "length", "width", "tolerance"):
            form = f": [[{key}]], or `{key} = []`" if key in ("class", "maneuver") else ""
            return self.at(None, 0, None, f"the lattice has no `{key}`{form}")
        for kind in ("class", "maneuver"):
            for index, table in enumerate(self.tables(kind)):
                if key not in table and key in (("name", "heading", "speed") if kind == "class" else ("name", "from", "to", "steps")):
                    return self.at(kind, index, None, f"{self.whose(kind, index)} has no `{key}`")
        return self.source.whole(f"a table lacks `{key}`")

    def bad_value(self, key: str) -> Told:
        if key in self.value and not _good(key, self.value[key]):
            return self.at(None, 0, key, _wanted(key, self.value[key]))
        for kind in ("class", "maneuver"):
            for index, table in enumerate(self.tables(kind)):
                if key in table and not _good(key, table[key]):
                    return self.at(kind, index, key, f"{self.whose(kind, index)}: {_wanted(key, table[key])}")
        return self.source.whole(f"`{key}` has not its form")

    def too_many(self, what: str) -> Told:
        if what in _WHAT:
            most = 64 if what == "class" else 2048
            return self.at(what, most, None, f"there are {len(self.tables(what)):,} {_WHAT[what]}")
        left: dict[str, int] = {}
        for index, table in enumerate(self.tables("maneuver")):
            steps = table.get("steps")
            if what == "step" and isinstance(steps, list) and len(steps) > 50:
                return self.at("maneuver", index, "steps", f"{self.whose('maneuver', index)} has {len(steps)} steps, and may have 50")
            begins = str(table.get("from"))
            left[begins] = left.get(begins, 0) + 1
            if what == "choice" and left[begins] > 32:
                said = f"{self.whose('maneuver', index)} is the 33rd from `{begins}`, and 32 are allowed"
                return self.at("maneuver", index, "from", said)
        return self.source.whole(f"too many of {what}")

    def duplicate(self, name: str) -> Told:
        for kind in ("class", "maneuver"):
            same = [index for index, table in enumerate(self.tables(kind)) if table.get("name") == name]
            if len(same) > 1:
                return self.at(kind, same[1], "name", f"an earlier {kind} has the name `{name}`")
        return self.source.whole(f"two have the name `{name}`")

    def of_class(self, name: str, sentence: str) -> Told:
        index = next((index for index, table in enumerate(self.tables("class")) if table.get("name") == name), 0)
        return self.at("class", index, "name", sentence)

    def unknown_class(self, name: str) -> Told:
        names = {table.get("name") for table in self.tables("class")}
        for index, table in enumerate(self.tables("maneuver")):
            for key in ("from", "to"):
                if table.get(key) == name and name not in names:
                    return self.at("maneuver", index, key, f"{self.whose('maneuver', index)}: there is no class `{name}`")
        return self.source.whole(f"there is no class `{name}`")

    def end_mismatch(self, name: str) -> Told:
        classes = {table.get("name"): table for table in self.tables("class")}
        for index, table in enumerate(self.tables("maneuver")):
            end = classes.get(table.get("to"))
            if table.get("name") != name or end is None or not _good("steps", table.get("steps")):
                continue
            last = table["steps"][-1]
            for place, key in ((2, "heading"), (3, "speed")):
                if last[place] != end.get(key):
                    said = f"`{name}` ends with {key} {last[place]}, and its class `{table['to']}` has {key} {end.get(key)}"
                    return self.at("maneuver", index, "steps", said)
        return self.source.whole(f"the last step of `{name}` has not the heading or the speed of its class")


def _no_start(lattice: _Lattice, source: Source) -> Told:
    from .starts import start_speed

    ahead = [table for table in lattice.tables("class") if table.get("heading") == 0]
    known = sorted({table["speed"] for table in ahead if isinstance(table.get("speed"), int)})
    speeds = ", ".join(f"{speed / 1000:g}" for speed in known[:12]) + (" .." if len(known) > 12 else "")
    start = start_speed(source.other("scenario"))
    tolerance = lattice.value.get("tolerance")
    within = f" within {tolerance / 1000:g} m/s" if isinstance(tolerance, int) else ""
    said = f"no class with heading 0 has a speed{within} of the problem's"
    if start is not None:
        said += f", which is {start / 1000:g} m/s"
    return lattice.at(None, 0, "tolerance", f"{said}; {f'there are {speeds} m/s' if speeds else 'no class has heading 0'}")


def tell(source: Source, fault: str, about: tuple[str, ...]) -> Told:
    lattice = _Lattice(source)
    match fault, about:
        case "too-long", ():
            return source.whole(TOO_LONG)
        case "toml", ():
            return _markup(source)
        case "missing", (key,):
            return lattice.missing(key)
        case "bad-value", (key,):
            return lattice.bad_value(key)
        case "too-many", (what,):
            return lattice.too_many(what)
        case "duplicate-name", (name,):
            return lattice.duplicate(name)
        case "unknown-class", (name,):
            return lattice.unknown_class(name)
        case "end-mismatch", (name,):
            return lattice.end_mismatch(name)
        case "no-start-class", ():
            return _no_start(lattice, source)
        case "too-many-pairs", (one, other):
            said = f"more than 32 pairs of a maneuver from `{one}` and one from `{other}` have the same number of steps"
            return lattice.of_class(one, said)
    return source.whole(" ".join((fault, *about)))


def _markup(source: Source) -> Told:
    try:
        tomllib.loads(source.content.decode())
    except UnicodeDecodeError as fault:
        return source.at_byte(fault.start, "this byte is not UTF-8")
    except tomllib.TOMLDecodeError as fault:
        said = str(fault)
        if found := re.search(r" \(at line (\d+), column (\d+)\)", said):
            return source.in_line(int(found[1]), f"no TOML: {said[: found.start()].lower()}", int(found[2]))
        lines = source.content.count(b"\n") + 1
        return source.in_line(lines, f"no TOML: {said.removesuffix(' (at end of document)').lower()}")
    for digits in re.finditer(rb"\d{19,}", source.content):
        if int(digits.group()) > 2**63 - 1:
            return source.at_byte(digits.start(), "no TOML: this number passes 64 bits", len(digits.group()))
    return source.whole("no TOML document as the program reads it")
