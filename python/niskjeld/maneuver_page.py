"""A page that shows the maneuvers of a lattice: a picture for each heading, with a line for each maneuver from there."""

from __future__ import annotations

import html
import math

from .lattice import Class, Lattice, Maneuver

METRE = 10_000
COLOURS = ("#0072b2", "#d55e00", "#009e73", "#cc79a7", "#e69f00", "#56b4e9")
STYLE = """body{font:15px sans-serif;margin:1em;color:#111;background:#fff}
section{display:inline-block;vertical-align:top;margin:0 1em 1em 0}
svg{width:min(92vw,420px);height:min(92vw,420px);border:1px solid #444;background:#fafafa}
polyline{fill:none;stroke-width:2;vector-effect:non-scaling-stroke}
circle{stroke:none}table{border-collapse:collapse}td,th{border:1px solid #888;padding:.1em .5em;text-align:right}h2{font-size:1.1em}"""


def _points(one: Maneuver) -> list[tuple[float, float]]:
    return [(0.0, 0.0)] + [(step[0] / METRE, step[1] / METRE) for step in one.steps]


def _picture(lattice: Lattice, heading: int) -> str:
    begins = {one.name: one for one in lattice.classes if one.heading == heading}
    leaving = [one for one in lattice.maneuvers if one.begins in begins]
    speeds = sorted({one.speed for one in lattice.classes})
    points = [point for one in leaving for point in _points(one)] or [(0.0, 0.0)]
    low_x, high_x = min(x for x, _ in points), max(x for x, _ in points)
    low_y, high_y = min(y for _, y in points), max(y for _, y in points)
    size = max(high_x - low_x, high_y - low_y, 4.0) * 1.1
    left, top = (low_x + high_x - size) / 2, (-low_y - high_y - size) / 2
    lines = []
    for one in leaving:
        colour = COLOURS[speeds.index(begins[one.begins].speed) % len(COLOURS)]
        path = " ".join(f"{x:.2f},{-y:.2f}" for x, y in _points(one))
        x, y = _points(one)[-1]
        told = f"{one.name}: {one.begins} to {one.ends}, {len(one.steps)} ticks"
        lines.append(
            f'<g><title>{html.escape(told)}</title><polyline points="{path}" stroke="{colour}"/>'
            f'<circle cx="{x:.2f}" cy="{-y:.2f}" r="{size / 120:.3f}" fill="{colour}"/></g>'
        )
    degrees = math.degrees(heading / 1e6)
    return (
        f"<section><h2>heading {degrees:.1f} degrees: {len(leaving)} maneuvers</h2>"
        f'<svg viewBox="{left:.2f} {top:.2f} {size:.2f} {size:.2f}" role="img">{"".join(lines)}</svg></section>'
    )


def _row(lattice: Lattice, one: Class) -> str:
    number = sum(maneuver.begins == one.name for maneuver in lattice.maneuvers)
    cells = (html.escape(one.name), f"{math.degrees(one.heading / 1e6):.1f}", f"{one.speed / 1000:g}", str(number))
    return f"<tr>{''.join(f'<td>{cell}</td>' for cell in cells)}</tr>"


def page_of(lattice: Lattice, title: str) -> str:
    pictures = "".join(_picture(lattice, heading) for heading in sorted({one.heading for one in lattice.classes}))
    rows = "".join(_row(lattice, one) for one in lattice.classes)
    return (
        f'<!DOCTYPE html>\n<html lang="en"><head><meta charset="utf-8"><meta name="viewport" content="width=device-width">'
        f"<title>{html.escape(title)}: maneuvers</title><style>{STYLE}</style></head><body><h1>{html.escape(title)}: maneuvers</h1>"
        "<p>Forward is to the right, left is up. A colour is the speed at which a maneuver begins; "
        "a line's name shows under the pointer.</p>"
        f"{pictures}<table><tr><th>class</th><th>degrees</th><th>m/s</th><th>maneuvers</th></tr>{rows}</table></body></html>\n"
    )
