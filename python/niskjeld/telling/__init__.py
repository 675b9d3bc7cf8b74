"""What a refusal means, in a sentence with its place. Every fault that the program prints has its sentence here."""

from __future__ import annotations

from pathlib import Path

from ..program import Call
from . import books, lattices, others, scenarios
from .told import Source, Told

__all__ = ["Told", "tell", "tell_rejection"]


def tell(call: Call, role: str, fault: str, about: tuple[str, ...], folder: Path | None = None) -> Told:
    """Of `refused ROLE FAULT ABOUT ..`. The words of the call name files in this folder, or in the current one."""
    source = Source(call, role, call.word(role) or role, folder or Path())
    match role:
        case "scenario":
            return scenarios.tell(source, fault, about)
        case "lattice":
            return lattices.tell(source, fault, about)
        case "book" | "parent" | "child":
            told = books.tell_lines(source, fault, about) or books.tell_binding(source, fault, about)
            told = told or books.tell_test(source, fault, about)
        case "script":
            told = books.tell_script(source, fault, about)
        case "table":
            told = others.tell_table(source, fault, about)
        case "records":
            told = others.tell_records(source, fault, about)
        case "certificate":
            told = others.tell_certificate(source, fault, about)
        case "list":
            told = others.tell_list(source, fault, about)
        case _:
            told = None
    return told or source.whole(" ".join((fault, *about)))


def tell_rejection(condition: int, label: int) -> str:
    """Of `rejected CONDITION LABEL`."""
    said = others.CONDITIONS.get(condition, "a condition fails").format(label)
    return f"the certificate fails condition {condition}: {said}"
