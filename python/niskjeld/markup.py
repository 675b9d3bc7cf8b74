"""The elements of a markup document with their places, also of one that is broken further on."""

from __future__ import annotations

import re
from dataclasses import dataclass, field
from typing import Iterator

_TOKEN = re.compile(rb"<!--.*?-->|<\?.*?\?>|<(/?)([^\s/>!?]+)((?:[^>\"']|\"[^\"]*\"|'[^']*')*?)(/?)>", re.S)
_ATTRIBUTE = re.compile(rb"([^\s=]+)\s*=\s*(?:\"([^\"]*)\"|'([^']*)')")


@dataclass(eq=False)
class Element:
    """An element with the place of its `<`, counted in bytes, and the text up to its first child or its end."""

    name: str
    at: int
    attributes: dict[str, str]
    parent: Element | None
    children: list[Element] = field(default_factory=list)
    text: str = ""
    cut: bool = False  # something other than its end tag follows the text
    end: int = 0  # the place behind its last byte; 0 where it has no end

    def all(self, name: str) -> Iterator[Element]:
        return (child for child in self.children if child.name == name)

    def first(self, name: str) -> Element | None:
        return next(self.all(name), None)

    def within(self) -> Iterator[Element]:
        yield self
        for child in self.children:
            yield from child.within()


def _attributes(told: bytes) -> dict[str, str]:
    return {
        name.decode(errors="replace"): (one or other).decode(errors="replace") for name, one, other in _ATTRIBUTE.findall(told)
    }


def read_markup(document: bytes) -> Element:
    """The document as an element without a name, whose children are those at the top."""
    top = Element("", 0, {}, None)
    inside = top
    for token in _TOKEN.finditer(document):
        name = token.group(2)
        if name is None:
            continue
        if token.group(1):
            if inside.parent is not None:
                inside.end = token.end()
                inside = inside.parent
            continue
        element = Element(name.decode(errors="replace"), token.start(), _attributes(token.group(3)), inside)
        inside.children.append(element)
        if token.group(4):
            element.end = token.end()
        else:
            end = document.find(b"<", token.end())
            element.text = document[token.end() : end if end >= 0 else len(document)].decode(errors="replace").strip()
            element.cut = document[end : end + 2] != b"</"
            inside = element
    return top


def element_at(top: Element, at: int) -> Element | None:
    return next((element for element in top.within() if element.at == at and element.name), None)
