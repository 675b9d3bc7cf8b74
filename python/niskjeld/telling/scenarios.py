"""The faults of a scenario."""

from __future__ import annotations

import re

from ..markup import Element, element_at, read_markup
from .told import TOO_LONG, Source, Told, number

_ATTRIBUTES = {"id", "ref", "commonRoadVersion", "timeStepSize"}
_GROUPS = {
    "lanelet": ("lanelet",),
    "obstacle": ("staticObstacle", "dynamicObstacle", "obstacle"),
    "problem": ("planningProblem",),
}
_MOST = {"lanelet": 4000, "obstacle": 500, "problem": 64, "goal": 64, "region": 64}
_REGIONS = {"rectangle", "circle", "polygon", "lanelet"}
_DECIMAL = re.compile(r"[+-]?(\d+\.?\d*|\.\d+)([eE][+-]?\d+)?")


def _root(top: Element) -> Element | None:
    return top.children[0] if top.children else None


def _children(top: Element, kind: str) -> list[Element]:
    root = _root(top)
    return [] if root is None else [child for child in root.children if child.name in _GROUPS[kind]]


def _tag(source: Source, element: Element | None, sentence: str) -> Told:
    if element is None:
        return source.whole(sentence)
    return source.at_byte(element.at, sentence, len(element.name) + 1)


def _markup(source: Source, fault: str, at: int) -> Told:
    rest = source.content[at : at + 9]
    match fault:
        case "malformed" if rest.startswith(b"</"):
            said = "an end tag that has not its form, or that ends another element than the innermost one that is open"
        case "malformed" if rest.startswith(b"<"):
            said = "a tag that has not its form, or a second root: a name, attributes with quoted values, and each attribute once"
        case "malformed":
            said = "text outside the root element"
        case "truncated" if at >= len(source.content):
            said = "the file ends before its root element does"
        case "truncated":
            said = "what begins here has no end"
        case "too-deep":
            said = "this element stands inside 32 others, and a document has at most 32 elements inside one another"
        case "too-many":
            said = "this is the 2,000,001st element, and a document has at most 2,000,000"
        case _:
            said = "neither a document type declaration nor a CDATA section is read"
    return source.at_byte(at, said)


def _unsupported(source: Source, at: int) -> Told:
    element = element_at(read_markup(source.content), at)
    if element is None:
        return _markup(source, "unsupported", at)
    if element.name == "occupancySet":
        return _tag(source, element, "an <occupancySet> is refused, since skipping it would hide where the obstacle may be")
    return _tag(source, element, f"the role is `static` or `dynamic`, not `{element.text}`: skipping the obstacle would hide it")


def _missing(source: Source, name: str, at: int) -> Told:
    element = element_at(read_markup(source.content), at)
    tag = f"<{element.name}>" if element else "the element"
    if name in _ATTRIBUTES:
        return _tag(source, element, f"{tag} has no attribute `{name}`")
    said = f"{tag} has no <{name}>"
    if name == "exact" and element is not None and element.first("intervalStart"):
        said += ": an interval stands where one number is wanted; only a goal may have intervals"
    if name == "position" and element is not None and element.first("position"):
        said = "the <position> of this goal has no <rectangle>, <circle>, <polygon> or <lanelet>"
    if name == "shape" and element is not None and element.first("shape"):
        said = "the <shape> has no <rectangle>, <circle> or <polygon>"
    return _tag(source, element, said)


def _bad_number(source: Source, at: int) -> Told:
    element = element_at(read_markup(source.content), at)
    if element is None:
        return source.at_byte(at, "no number, or one out of its range")
    if element.name == "commonRoad":
        step = element.attributes.get("timeStepSize", "")
        return _tag(source, element, f"timeStepSize is `{step}`, and has to be seconds, from a microsecond to 1,000 s")
    for name in ("id", "ref"):
        if name in element.attributes or (name == "id" and any(element.name in group for group in _GROUPS.values())):
            value = element.attributes.get(name, "")
            return _tag(source, element, f"the {name} of <{element.name}> is `{value}`, and has to be 1 to 18 digits")
    if element.cut:
        return _tag(source, element, f"a comment or an element stands in <{element.name}>, where the number has to be alone")
    if not element.text:
        return _tag(source, element, f"<{element.name}> is empty, and a number is wanted")
    if _DECIMAL.fullmatch(element.text):
        return _tag(source, element, f"`{element.text}` is out of the range of <{element.name}>")
    return _tag(source, element, f"`{element.text[:40]}` in <{element.name}> is no number: digits, a point and an exponent, with no unit")


def _duplicate(source: Source, wanted: str) -> Told:
    top = read_markup(source.content)
    for kind in _GROUPS:
        same = [child for child in _children(top, kind) if child.attributes.get("id", "").lstrip("0") == wanted.lstrip("0")]
        if len(same) > 1:
            line = source.content.count(b"\n", 0, same[0].at) + 1
            return _tag(source, same[1], f"the id {wanted} is that of the {kind} in line {number(line)}")
    return source.whole(f"two elements of one group have the id {wanted}")


def _of_id(source: Source, kinds: tuple[str, ...], wanted: str, sentence: str) -> Told:
    top = read_markup(source.content)
    for kind in kinds:
        for child in _children(top, kind):
            if child.attributes.get("id", "").lstrip("0") == wanted.lstrip("0"):
                return _tag(source, child, sentence.replace("KIND", kind))
    return source.whole(sentence.replace("KIND", kinds[0]))


def _problem(source: Source, number: int, sentence: str) -> Told:
    found = _children(read_markup(source.content), "problem")
    return _tag(source, found[number] if number < len(found) else None, sentence)


def _too_many(source: Source, kind: str) -> Told:
    top, most = read_markup(source.content), _MOST[kind]
    whose = {"goal": "a problem", "region": "a goal"}.get(kind, "a scenario")
    said = f"this {kind} is one too many: {whose} has at most {most:,} {kind}s"
    if kind in _GROUPS:
        found = _children(top, kind)
        return _tag(source, found[most] if len(found) > most else None, said)
    for problem in _children(top, "problem"):
        goals = list(problem.all("goalState"))
        if kind == "goal" and len(goals) > most:
            return _tag(source, goals[most], said)
        for goal in goals if kind == "region" else []:
            position = goal.first("position")
            regions = [child for child in position.children if child.name in _REGIONS] if position else []
            if len(regions) > most:
                return _tag(source, regions[most], said)
    return source.whole(said)


def _unknown_reference(source: Source, wanted: str) -> Told:
    said = f"the goal's region names lanelet {wanted}, which the document lacks"
    for problem in _children(read_markup(source.content), "problem"):
        for element in problem.within():
            if element.name == "lanelet" and element.attributes.get("ref", "").lstrip("0") == wanted.lstrip("0"):
                return _tag(source, element, said)
    return source.whole(said)


def tell(source: Source, fault: str, about: tuple[str, ...]) -> Told:
    match fault, about:
        case "too-long", ():
            return source.whole(TOO_LONG)
        case "unsupported", (at,):
            return _unsupported(source, int(at))
        case "malformed" | "truncated" | "too-deep", (at,):
            return _markup(source, fault, int(at))
        case "too-many", (what,):
            return _markup(source, fault, int(what)) if what.isdigit() else _too_many(source, what)
        case "wrong-root", ():
            root = _root(read_markup(source.content))
            return _tag(source, root, f"the root element is <{root.name if root else ''}>, and has to be <commonRoad>")
        case "wrong-version", ():
            root = _root(read_markup(source.content))
            version = root.attributes.get("commonRoadVersion", "") if root else ""
            return _tag(source, root, f"commonRoadVersion is `{version}`, and 2020a and 2018b are read")
        case "missing", (name, at):
            return _missing(source, name, int(at))
        case "bad-number", (at,):
            return _bad_number(source, int(at))
        case "duplicate-id", (one,):
            return _duplicate(source, one)
        case "bad-bound", (one,):
            return _of_id(source, ("lanelet",), one, f"each bound of lanelet {one} has to have 2 to 2,048 points")
        case "bad-shape", (one,):
            limits = "sides and radii are 0.1 mm to 1 km, a polygon has 3 to 256 corners, and an obstacle at most 256 in all"
            return _of_id(source, ("obstacle", "problem"), one, f"a shape of KIND {one} is out of its limits: {limits}")
        case "unknown-ref", (one,):
            return _unknown_reference(source, one)
        case "no-problem", ():
            return _tag(source, _root(read_markup(source.content)), "the document has no <planningProblem>, so nothing says where to start")
        case "one-problem", ():
            return _problem(source, 0, "two vehicles need two planning problems, and the document has one")
        case "start-ticks-differ", (one, other):
            return _problem(source, 1, f"the second problem starts at tick {other}, and the first at tick {one}: both have to start at one")
    return source.whole(" ".join((fault, *about)))
