"""The faults of books and of scripts: of their lines, of binding, and of the tests of a step."""

from __future__ import annotations

import difflib
import tempfile
from pathlib import Path

from ..book import MOST_BYTES, NAME, Book, Line, lines_of, read_book
from ..expressions import Feature, NoExpression, features_of
from ..markup import read_markup
from ..program import Status, call
from .told import TOO_LONG, Source, Told, maneuver_names

PLAIN = ("overlaps", "off_road", "lanes", "wrong_way", "speed", "accel", "turn", "tick", "gap", "headway")
CALLED = ("in_lanelet", "maneuver")
_FORMS = {
    "rule": "rule NAME",
    "part": "part NAME WEIGHT EXPR",
    "final": "final NAME WEIGHT EXPR",
    "above": "above A B",
    "same": "same A B",
}
_SCRIPT_FORMS = {
    "refine": "refine above A B, or refine same A B",
    "merge": "merge NEW W1 A1 W2 A2 .., with two rules or more, each once",
    "augment": "augment NEW WEIGHT EXPR",
}
_NAME_FORM = "a name has 1 to 24 letters, digits or `_`, and begins with no digit"


def _line(source: Source, number: int) -> Line | None:
    return next((line for line in lines_of(source.content.decode(errors="replace")) if line.number == number), None)


def _word(source: Source, line: Line, place: int, sentence: str) -> Told:
    word = line.words[place] if place < len(line.words) else line.rest(place)
    return source.in_line(line.number, sentence, word.at + 1, max(1, len(word.text)))


def _expression(source: Source, line: Line, place: int) -> Told:
    rest = line.rest(place)
    try:
        features_of(rest.text)
    except NoExpression as fault:
        return source.in_line(line.number, str(fault), rest.at + fault.at + 1)
    return source.in_line(line.number, "the part does not fit a line of 1,024 bytes and 32 brackets in its written form", rest.at + 1)


def _syntax(source: Source, number: int, forms: dict[str, str]) -> Told:
    raw = source.content.split(b"\n")
    if number <= len(raw) and len(raw[number - 1].removesuffix(b"\r")) > MOST_BYTES:
        return source.in_line(number, f"the line has {len(raw[number - 1]):,} bytes, and a line has at most {MOST_BYTES:,}", 1)
    line = _line(source, number)
    if line is None:
        return source.in_line(number, "the line is none of a book")
    first = line.words[0].text
    if first not in forms:
        near = difflib.get_close_matches(first, forms, 1)
        hint = f"; is it `{near[0]}`?" if near else ""
        return _word(source, line, 0, f"no line begins with `{first}`: they begin with {', '.join(forms)}{hint}")
    return _shape(source, line, first, forms[first])


def _shape(source: Source, line: Line, first: str, form: str) -> Told:
    counts = {"rule": 2, "above": 3, "same": 3, "refine": 4}
    least = {"part": 4, "final": 4, "augment": 4, "merge": 6}
    if counts.get(first, len(line.words)) != len(line.words) or len(line.words) < least.get(first, 0):
        at = min(counts.get(first, len(line.words)), len(line.words))
        return _word(source, line, at, f"the line has to be `{form}`")
    if first == "refine" and line.words[1].text not in ("above", "same"):
        return _word(source, line, 1, f"the line has to be `{form}`")
    return _words_of(source, line, first, form)


def _words_of(source: Source, line: Line, first: str, form: str) -> Told:
    names = {"rule": [1], "part": [1], "final": [1], "augment": [1], "above": [1, 2], "same": [1, 2], "refine": [2, 3]}
    names["merge"] = [1, *range(3, len(line.words), 2)]
    for place in names[first]:
        if not NAME.fullmatch(line.words[place].text):
            return _word(source, line, place, f"`{line.words[place].text}` is no name: {_NAME_FORM}")
    weights = {"part": [2], "final": [2], "augment": [2], "merge": list(range(2, len(line.words), 2))}
    for place in weights.get(first, []):
        if not line.words[place].text.isdigit():
            return _word(source, line, place, f"`{line.words[place].text}` is no weight: a weight is digits alone")
    if first == "merge":
        return _word(source, line, len(line.words) - 1, f"the line has to be `{form}`")
    return _expression(source, line, 3)


def _named(source: Source, number: int) -> list[int]:
    """The places of the words of a line that name rules which have to stand before it."""
    line = _line(source, number)
    if line is None:
        return []
    match line.words[0].text:
        case "part" | "final":
            return [1]
        case "above" | "same":
            return [1, 2]
        case "refine":
            return [2, 3]
        case "merge":
            return list(range(3, len(line.words), 2))
    return []


def _unknown(source: Source, number: int, known: list[str], where: str) -> Told:
    line = _line(source, number)
    for place in _named(source, number):
        if line is not None and place < len(line.words) and line.words[place].text not in known:
            name = line.words[place].text
            near = difflib.get_close_matches(name, known, 1)
            hint = f"; is it `{near[0]}`?" if near else ""
            return _word(source, line, place, f"no rule of {where} has the name `{name}`{hint}")
    return source.in_line(number, f"a name is that of no rule of {where}")


def _before(source: Source, number: int) -> Book:
    text = source.content.decode(errors="replace")
    return read_book("\n".join(text.split("\n")[: number - 1]))


def _weight(source: Source, number: int) -> Told:
    line = _line(source, number)
    said = "a weight is 1 to 1,000,000"
    if line is None:
        return source.in_line(number, said)
    places = list(range(2, len(line.words), 2)) if line.words[0].text == "merge" else [2]
    for place in places:
        if place < len(line.words) and line.words[place].text.isdigit() and not 1 <= int(line.words[place].text) <= 10**6:
            return _word(source, line, place, f"the weight is {line.words[place].text}; {said}")
    return source.in_line(number, f"{said}, also where it is multiplied by the weight of a part")


def not_utf8(source: Source) -> Told:
    try:
        source.content.decode()
    except UnicodeDecodeError as fault:
        return source.at_byte(fault.start, "this byte is not UTF-8")
    return source.whole("the file is not UTF-8")


def tell_lines(source: Source, fault: str, about: tuple[str, ...]) -> Told | None:
    """The faults of the lines of a book."""
    match fault, about:
        case "too-long", ():
            return source.whole(TOO_LONG)
        case "not-utf8", ():
            return not_utf8(source)
        case "syntax", (number,):
            return _syntax(source, int(number), _FORMS)
        case "unknown-name", (number,):
            return _unknown(source, int(number), _before(source, int(number)).rules, "an earlier line")
        case "duplicate-name", (number,):
            return _duplicate(source, int(number), _before(source, int(number)))
        case "bad-weight", (number,):
            return _weight(source, int(number))
        case "too-many-rules", (number,):
            return source.in_line(int(number), "a book has at most 32 rules, and 32 stand before this one")
        case "too-many-parts", (number,):
            return source.in_line(int(number), "a rule has at most 8 parts, and this one has 8 already")
        case "no-rules", ():
            return source.whole("the book has no rule")
    return None


def _duplicate(source: Source, number: int, before: Book) -> Told:
    line = _line(source, number)
    if line is None or len(line.words) < 2:
        return source.in_line(number, "the name is taken")
    name = line.words[1].text
    earlier = f" in line {before.lines[name].number}" if name in before.lines else ""
    return _word(source, line, 1, f"there is a rule `{name}` already{earlier}")


def _rule_line(source: Source, book: Book, rule: str, sentence: str) -> Told:
    line = book.lines.get(rule)
    return source.whole(sentence) if line is None else _word(source, line, 1, sentence)


def _known_arguments(source: Source, feature: Feature) -> list[str]:
    if feature.name == "maneuver":
        return maneuver_names(source.other("lattice"))
    top = read_markup(source.other("scenario"))
    return [element.attributes.get("id", "") for root in top.children for element in root.all("lanelet")]


def _is_known(source: Source, feature: Feature) -> bool:
    if feature.argument is None:
        return feature.name in PLAIN
    return feature.name in CALLED and feature.argument in _known_arguments(source, feature)


def _unknown_and_near(source: Source, feature: Feature) -> str:
    """What there is none of, and what is near it."""
    if feature.name not in CALLED or feature.argument is None:
        near = difflib.get_close_matches(feature.name, [*PLAIN, *CALLED], 2)
        form = {"in_lanelet": "in_lanelet(ID)", "maneuver": "maneuver(NAME)"}
        hint = f"; is it {' or '.join(f'`{form.get(one, one)}`' for one in near)}?" if near else ""
        return f"there is no such feature{hint}"
    known = _known_arguments(source, feature)
    near = difflib.get_close_matches(feature.argument, known, 2)
    which = "the scenario has no such lanelet" if feature.name == "in_lanelet" else "the lattice has no such maneuver"
    if near:
        return f"{which}; is it {' or '.join(f'`{one}`' for one in near)}?"
    return f"{which}; it has {', '.join(known[:6])}{' ..' if len(known) > 6 else ''}" if known else f"{which}, and none at all"


def _unknown_feature(source: Source, book: Book, rule: str) -> Told:
    for part in book.parts_of(rule):
        try:
            features = features_of(part.text)
        except NoExpression:
            continue
        for feature in features:
            if not _is_known(source, feature):
                said = f"`{rule}` measures `{feature}`, and {_unknown_and_near(source, feature)}"
                return source.in_line(part.line, said, part.at + feature.at + 1, len(str(feature)))
    return _rule_line(source, book, rule, f"a part of `{rule}` measures a feature, a lanelet or a maneuver that there is none of")


def tell_binding(source: Source, fault: str, about: tuple[str, ...]) -> Told | None:
    """The faults of a book over a scene."""
    book = read_book(source.content.decode(errors="replace"))
    match fault, about:
        case "bare-rule", (rule,):
            return _rule_line(source, book, rule, f"`{rule}` has no part, so it measures nothing: give it a line `part {rule} 1 EXPR`")
        case "unknown-feature", (rule,):
            return _unknown_feature(source, book, rule)
        case "range-too-large", (rule,):
            said = f"by the bounds of its features an expression in a part of `{rule}` may pass 10^18 in size: divide, or take `min`"
            return _rule_line(source, book, rule, said)
    return None


def _vectors(one: str, other: str) -> str:
    return f"({one.replace(',', ', ')}) and ({other.replace(',', ', ')})"


def tell_test(source: Source, fault: str, about: tuple[str, ...]) -> Told | None:
    """The faults of a book that is no step from another, or of the line of a script that would make such a book."""
    match fault, about:
        case "rules-differ", (rule,):
            said = f"the rules of the child are not those that a step makes of the parent's: `{rule}` is the first that differs"
        case "not-one-class", (one, other):
            said = f"`{one}` and `{other}` are merged, and they are not of one rank: a line `same {one} {other}` comes first"
            about = ()
        case "not-a-sum", (rule,):
            said = f"the parts of `{rule}` are not those of the merged rules, in order, each rule's times one whole number"
        case "strict-lost", (one, other, first, second):
            said = f"`{one}` is above `{other}` in the parent and no longer: of {_vectors(first, second)} the first beat the second"
            about = (one, other)
        case "not-lowest", (new, old, first, second):
            said = f"`{old}` is not above the added rule `{new}`: the vectors {_vectors(first, second)} show it"
            about = (new,)
        case _:
            return None
    if source.role == "script":
        number = _refused_line(source)
        return source.in_line(number, said) if number else source.whole(said)
    book = read_book(source.content.decode(errors="replace"))
    parent = read_book(source.other("parent").decode(errors="replace"))
    added = [rule for rule in book.rules if rule not in parent.rules]
    return _rule_line(source, book, next((name for name in (*about, *added, *book.rules) if name in book.lines), ""), said)


def _refused_line(source: Source) -> int | None:
    """The first line of a script up to which the program refuses it: a test's own refusal doesn't tell its line."""
    lines = source.content.split(b"\n")
    with tempfile.TemporaryDirectory() as made:
        folder = Path(made)
        (folder / "parent").write_bytes(source.other("parent"))
        for number in range(1, len(lines) + 1):
            (folder / "script").write_bytes(b"\n".join(lines[:number]))
            if call("derive", "parent", "script", folder=folder).status != Status.DONE:
                return number
    return None


def tell_script(source: Source, fault: str, about: tuple[str, ...]) -> Told | None:
    match fault, about:
        case "too-long", ():
            return source.whole(TOO_LONG)
        case "syntax", ("1",) if b"\xff" in source.content or not _decodes(source.content):
            return not_utf8(source)
        case "syntax", (number,):
            return _syntax(source, int(number), _SCRIPT_FORMS)
        case "unknown-rule", (number,):
            return _unknown(source, int(number), _rules_before(source, int(number)), "the book")
        case "duplicate-name", (number,):
            return _duplicate(source, int(number), Book())
        case "bad-weight", (number,):
            return _weight(source, int(number))
        case "too-many-rules", (number,):
            return source.in_line(int(number), "a book has at most 32 rules, and it has 32 already")
        case "too-many-parts", (number,):
            return source.in_line(int(number), "the rule would have more than 8 parts")
    return tell_test(source, fault, about)


def _decodes(content: bytes) -> bool:
    try:
        content.decode()
    except UnicodeDecodeError:
        return False
    return True


def _rules_before(source: Source, number: int) -> list[str]:
    """The rules of the book that the lines before this one derive."""
    rules = list(read_book(source.other("parent").decode(errors="replace")).rules)
    for line in lines_of(source.content.decode(errors="replace")):
        words = [word.text for word in line.words]
        if line.number < number and words[0] == "merge":
            rules = [rule for rule in rules if rule not in words[3::2]] + [words[1]]
        elif line.number < number and words[0] == "augment":
            rules.append(words[1])
    return rules
