"""A scene as one page that needs no network."""

from __future__ import annotations

import html
import json
from pathlib import Path
from typing import Any

from ..book import Book
from .diagram import diagram

HERE = Path(__file__).resolve().parent
HATCH = (
    '<defs><pattern id="hatch" width="0.6" height="0.6" patternUnits="userSpaceOnUse" patternTransform="rotate(45)">'
    '<rect width="0.6" height="0.6" fill="#fff"/><rect width="0.25" height="0.6" fill="#555"/></pattern></defs>'
)


def _key(drive: dict[str, Any]) -> str:
    colour, dash = drive["stroke"]
    return f'<svg class="key" viewBox="0 0 40 8"><line x2="40" y1="4" y2="4" stroke="{colour}" stroke-dasharray="{dash}"/></svg>'


def _row(scene: dict[str, Any], number: int, differ: list[bool]) -> str:
    drive = scene["drives"][number]
    cells = "".join(f"<td{' class=differ' if d else ''}>{v}</td>" for v, d in zip(drive["vector"], differ))
    names = html.escape(" ".join(drive["names"])) or "(the empty list)"
    box = f'<input type="checkbox" checked data-drive="{number}">'
    layer = f"<td>{drive['layer']}</td>" if scene["judged"] else ""
    return f'<tr><td><label>{box} <b>{drive["letter"]}</b> {_key(drive)}</label></td>{layer}{cells}<td class=names>{names}</td></tr>'


def legend(scene: dict[str, Any]) -> str:
    """A table: a row for each answer or recording, with the rules on which they differ marked."""
    drives, rules = scene["drives"], scene["rules"]
    if not drives:
        return "<p>No trajectory reaches the goal: <code>none</code>.</p>"
    differ = [len({drive["vector"][i] for drive in drives}) > 1 for i in range(len(rules))]
    heads = "".join(f"<th{' class=differ' if d else ''}>{html.escape(r)}{' ≠' if d else ''}</th>" for r, d in zip(rules, differ))
    rows = "".join(_row(scene, number, differ) for number in range(len(drives)))
    what = "recordings" if scene["judged"] else "answers"
    note = f"Rules marked ≠ are those on which the {what} differ." if any(differ) else f"The {what} differ on no rule."
    layer, last = ("<th>layer</th>", "recording") if scene["judged"] else ("", "maneuvers")
    return f'<div class="wide"><table><tr><th></th>{layer}{heads}<th>{last}</th></tr>{rows}</table></div><p>{note}</p>'


def curves(scene: dict[str, Any]) -> str:
    """A line for each rule, drawn by the page for the drive that is chosen."""
    if not scene["drives"] or any(drive["added"] is None for drive in scene["drives"]):
        return ""
    options = "".join(f'<option value="{number}">{drive["letter"]}</option>' for number, drive in enumerate(scene["drives"]))
    rows = "".join(
        f'<div class="curve"><span title="{html.escape(rule)}">{html.escape(rule)}</span>'
        f'<svg viewBox="0 0 100 32" preserveAspectRatio="none" aria-hidden="true"><polyline/><line y1="0" y2="32"/></svg>'
        f'<span class="so-far"></span></div>'
        for rule in scene["rules"]
    )
    what = "recording" if scene["judged"] else "answer"
    return (
        f'<section><h2>What each rule has added so far</h2><p><label>by the {what} <select id="chosen">{options}</select></label>; '
        f"each line is scaled by the most that any has. A jump at the end is what final parts add.</p>{rows}</section>"
    )


def order(book: Book | None) -> str:
    if book is None:
        return ""
    note = "A line leads down from a rule to one below it. Rules in one box are of one rank."
    return f"<section><h2>Which rule is above which</h2>{diagram(book)}<p>{note}</p></section>"


def verdicts(lines: list[str]) -> str:
    if not lines:
        return ""
    items = "".join(f"<li><code>{html.escape(line)}</code></li>" for line in lines)
    return f"<details><summary>How each pair compares</summary><ul>{items}</ul></details>"


def page(scene: dict[str, Any], title: str, book: Book | None = None, pairs: list[str] | None = None) -> str:
    x, y, width, height = scene["view"]
    data = json.dumps(scene, separators=(",", ":")).replace("</", "<\\/")
    style, script = ((HERE / name).read_text(encoding="utf-8") for name in ("page.css", "page.js"))
    parts, last = curves(scene) + order(book), scene["last"]
    what = "recording" if scene["judged"] else "answer"
    box = f"{x:.3f} {-y - height:.3f} {width:.3f} {height:.3f}"
    return f"""<!DOCTYPE html>
<html lang="en"><head><meta charset="utf-8"><meta name="viewport" content="width=device-width">
<title>{html.escape(title)}</title><style>{style}</style></head><body>
<h1>{html.escape(title)}</h1>
<svg viewBox="{box}" id="map" role="img" aria-label="the scene at the tick of the slider">{HATCH}</svg>
<div class="controls"><button id="play" type="button">Play</button>
<input type="range" id="slider" min="0" max="{last}" value="{last}" aria-label="tick"> <b id="tick"></b></div>
{legend(scene)}
<p>Hatched: obstacles, with their ids. Dotted: the goal's regions. A letter is the vehicle along that {what}.</p>
{verdicts(pairs or [])}
<div class="parts">{parts}</div>
<script type="application/json" id="scene">{data}</script><script>{script}</script></body></html>
"""
