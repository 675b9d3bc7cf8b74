"""The speed at which a scenario's first problem starts."""

from __future__ import annotations

from ..markup import read_markup


def start_speed(document: bytes) -> int | None:
    """In mm/s; None where the document doesn't say."""
    for element in read_markup(document).within():
        if element.name == "planningProblem":
            start = element.first("initialState")
            velocity = start.first("velocity") if start else None
            exact = velocity.first("exact") if velocity else None
            try:
                return round(float(exact.text) * 1000) if exact else 0
            except ValueError:
                return None
    return None
