"""The faults of tables, recordings, certificates and lists."""

from __future__ import annotations

import csv
import difflib
import io
import re

from ..book import Line, lines_of, read_book
from ..place import Place
from .books import not_utf8
from .told import TOO_LONG, Source, Told, maneuver_names, ordinal

COLUMNS = ("name", "tick", "x", "y", "heading", "speed", "accel", "turn", "maneuver")
_LIMITS = {
    "tick": (1_000_000, "a whole tick from 0 to 1,000,000"),
    "x": (10**7, "metres, at most 10,000,000 in size"),
    "y": (10**7, "metres, at most 10,000,000 in size"),
    "heading": (1000, "radians, at most 1,000 in size"),
    "speed": (1000, "metres per second, at most 1,000 in size"),
    "accel": (1000, "metres per second each second, at most 1,000 in size"),
    "turn": (10, "radians per second, at most 10 in size"),
}
_DECIMAL = re.compile(r"[+-]?(\d+\.?\d*|\.\d+)([eE][+-]?\d+)?")
CONDITIONS = {
    1: "there is no label 0",
    2: "label {0} has a parent that is not a label before it",
    3: "label {0} has a choice that its parent's state has not",
    4: "label {0} lacks a link for one of its choices to a label of the state reached that is no worse",
    5: "label {0} is listed as a final, and is not at the goal",
    6: "goal label {0} has no link to a listed final that is no worse",
    7: "final {0} is no worse than another final, or another no worse than it: one of them is too many",
    8: "label {0} has more links than choices, or there are more goal links than goal labels",
}


def _table_line(source: Source, number: int) -> Line | None:
    return next((line for line in lines_of(source.content.decode(errors="replace")) if line.number == number), None)


def _word(source: Source, line: Line | None, place: int, sentence: str, number: int) -> Told:
    if line is None:
        return source.in_line(number, sentence)
    word = line.words[place] if place < len(line.words) else line.rest(place)
    return source.in_line(line.number, sentence, word.at + 1, max(1, len(word.text)))


def _table_row(source: Source, fault: str, number: int) -> Told:
    line = _table_line(source, number)
    words = [word.text for word in line.words] if line else []
    rules = read_book(source.other("book").decode(errors="replace")).rules
    if fault == "syntax":
        if line is None or len(source.content.split(b"\n")[number - 1]) > 1024:
            return source.in_line(number, "the line has more than 1,024 bytes", 1)
        return _word(source, line, 0, f"`{words[0]}` is no name: a row begins with 1 to 24 letters, digits or `_`", number)
    if fault == "wrong-width":
        said = f"the row has {len(words) - 1} numbers, and the book has {len(rules)} rules: {', '.join(rules)}"
        return _word(source, line, min(len(words), len(rules) + 1), said, number)
    if fault == "bad-number":
        for place, word in enumerate(words[1:], 1):
            if not (word.isascii() and word.isdigit()) or int(word) > 10**18:
                rule = rules[place - 1] if place <= len(rules) else "a rule"
                return _word(source, line, place, f"`{word}` for `{rule}` is no number: digits alone, at most 10^18", number)
    if fault == "duplicate-name":
        return _word(source, line, 0, f"an earlier row has the name `{words[0] if words else ''}`", number)
    return source.in_line(number, "a table has at most 2,000 rows, and 2,000 stand before this one")


def tell_table(source: Source, fault: str, about: tuple[str, ...]) -> Told | None:
    match fault, about:
        case "too-long", ():
            return source.whole(TOO_LONG)
        case "not-utf8", ():
            return not_utf8(source)
        case ("syntax" | "wrong-width" | "bad-number" | "duplicate-name" | "too-many-rows"), (number,):
            return _table_row(source, fault, int(number))
    return None


class _Rows:
    """The rows of a file of recordings, with the line in which each begins."""

    def __init__(self, source: Source) -> None:
        self.source = source
        text = source.content.decode(errors="replace").removeprefix("\ufeff")
        reader = csv.reader(io.StringIO(text, newline=""))
        self.rows: list[tuple[int, list[str]]] = []
        line = 1
        try:
            for fields in reader:
                if fields:
                    self.rows.append((line, fields))
                line = reader.line_num + 1
        except csv.Error:
            pass

    def row(self, number: int) -> tuple[int, list[str]]:
        return self.rows[number] if number < len(self.rows) else (1, [])

    def at(self, number: int, field: int | None, sentence: str) -> Told:
        line, fields = self.row(number)
        if field is None or field >= len(fields) or '"' in ",".join(fields):
            return self.source.in_line(line, sentence)
        column = sum(len(one) + 1 for one in fields[:field]) + 1
        return self.source.in_line(line, sentence, column, max(1, len(fields[field])))


def _bad_field(rows: _Rows, number: int) -> Told:
    _, fields = rows.row(number)
    for place, name in enumerate(COLUMNS):
        if name not in _LIMITS or place >= len(fields):
            continue
        most, form = _LIMITS[name]
        value = fields[place]
        good = _DECIMAL.fullmatch(value) and len(value) <= 64 and (-0.5 if name == "tick" else -most) <= float(value) <= most
        if not good:
            return rows.at(number, place, f"`{value}` is no {name}: {form}")
    return rows.at(number, None, "one of the numbers of the row is none, or out of its limits")


def tell_records(source: Source, fault: str, about: tuple[str, ...]) -> Told | None:
    rows = _Rows(source)
    number = int(about[0]) if about and about[0].isdigit() else 0
    _, fields = rows.row(number)
    name = fields[0] if fields else ""
    match fault:
        case "too-long":
            return source.whole(TOO_LONG)
        case "wrong-header":
            return source.in_line(1, f"the first line has to be {','.join(COLUMNS)}")
        case "csv":
            return rows.at(number, None, f"the row has {len(fields)} fields, and has to have nine: {','.join(COLUMNS)}")
        case "bad-name":
            return rows.at(number, 0, f"`{name}` is no name: 1 to 24 letters, digits or `_`, and no digit first")
        case "bad-number":
            return _bad_field(rows, number)
        case "unknown-maneuver":
            wanted = fields[8] if len(fields) == 9 else ""
            near = difflib.get_close_matches(wanted, maneuver_names(source.other("lattice")), 1)
            hint = f"; is it `{near[0]}`?" if near else "; leave the field empty where none was driven"
            return rows.at(number, 8, f"the lattice has no maneuver `{wanted}`{hint}")
        case "tick-gap":
            now, before = ((one[1:2] or [""])[0] for one in (fields, rows.row(number - 1)[1]))
            return rows.at(number, 1, f"the tick is {now}, and follows {before}: ticks of `{name}` rise by one")
        case "duplicate-name":
            return rows.at(number, 0, f"the recording `{name}` has ended before: its rows have to follow one another")
        case "too-many":
            return rows.at(number, 0, "a file has at most 200 recordings, and a recording at most 1,001 steps")
        case "empty":
            return source.whole("no row follows the header")
    return None


def tell_certificate(source: Source, fault: str, about: tuple[str, ...]) -> Told | None:
    lines = source.content.split(b"\n")
    match fault, about:
        case "too-long", ():
            return source.whole(TOO_LONG)
        case "truncated", ():
            return source.in_line(len(lines), "the certificate ends here, before its line `end` or a line feed", len(lines[-1]) + 1)
        case "syntax", (number,):
            return source.in_line(int(number), f"a certificate has {_wanted_line(lines, int(number))} here")
        case "too-many-labels", ():
            return source.in_line(_first(lines, b"labels ", 2), "a certificate has at most 50,000 labels, finals and goal links")
        case "too-many-links", ():
            return source.in_line(_passed(lines), "the links pass 1,600,000 in this line")
        case "trailing-bytes", ():
            end = next((number for number, line in enumerate(lines, 1) if line == b"end"), len(lines))
            return source.in_line(end + 1, "nothing may follow the line `end`", 1)
    return None


def _first(lines: list[bytes], word: bytes, number: int) -> int:
    for word in (b"labels ", b"finals", b"goals"):
        for place, line in enumerate(lines, 1):
            words = line.split()[1:]
            labels = word == b"labels " and words[:1] and words[0].isdigit()
            if line.startswith(word) and (int(words[0]) if labels else len(words)) > 50_000:
                return place
    return number


def _passed(lines: list[bytes]) -> int:
    begun, total = False, 0
    for number, line in enumerate(lines, 1):
        if begun:
            total += len(line.split())
            if total > 1_600_000:
                return number
        begun = begun or line == b"links"
    return len(lines)


def _wanted_line(lines: list[bytes], number: int) -> str:
    if number == 1:
        return "`rulebook certificate 1`"
    if number == 2:
        return "`labels N`, with N from 0 to 50,000 and no leading zero"
    count = lines[1].split()[-1] if len(lines) > 1 and lines[1].split() else b"0"
    labels = int(count) if count.isdigit() else 0
    links = 3 + max(0, labels - 1)
    if number < links:
        return "the number of a label and that of a choice, `PARENT CHOICE`,"
    if number == links:
        return "the line `links`"
    if number <= links + labels:
        return "numbers of labels, one space apart, or an empty line"
    return {1: "`finals F F ..`", 2: "`goals F F ..`", 3: "the line `end`"}.get(number - links - labels, "another line")


def tell_list(source: Source, fault: str, about: tuple[str, ...]) -> Told | None:
    if fault != "no-such-move" or len(about) != 1:
        return None
    word, number = source.call.word("list") or "", int(about[0])
    names = word.split(",")
    name = names[number - 1] if number <= len(names) else ""
    before = names[number - 2] if number > 1 else None
    known = maneuver_names(source.other("lattice"))
    near = difflib.get_close_matches(name, known, 1)
    where = f"after `{before}`" if before else "from the start"
    why = "its class or the horizon does not allow it" if name in known else "the lattice has no such maneuver"
    hint = f"; is it `{near[0]}`?" if near and name not in known else ""
    column = sum(len(one) + 1 for one in names[: number - 1]) + 1
    place = Place("LIST", 1, column, word, max(1, len(name)))
    return Told(place, f"the {ordinal(number)} name, `{name}`, can't be driven {where}: {why}{hint}")
