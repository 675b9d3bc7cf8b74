"""The pages of a report: a table of scenarios, and of each scenario the picture."""

from __future__ import annotations

import html
import tempfile
from pathlib import Path
from typing import Any

from ..drawing.making import page_of
from ..program import Fault
from .job import Job

STYLE = """body{font:15px sans-serif;margin:1em;color:#111;background:#fff}table{border-collapse:collapse}
td,th{border:1px solid #888;padding:.2em .6em;text-align:right;vertical-align:top}td.left,th.left{text-align:left}
.wide{overflow-x:auto}.fault{background:#fbe9e7;max-width:40em}summary{cursor:pointer}ul{margin:.2em 0;padding-left:1.2em}
details{min-width:14em}
:focus-visible{outline:3px solid #d55e00;outline-offset:2px}"""


def _printed(told: dict[str, Any]) -> str:
    """What plan printed."""
    lines = [f"rules {' '.join(told['rules'])}"]
    lines += [f"front {len(told['answers'])}"] if told["answers"] else ["none"]
    for vector, names in told["answers"]:
        lines.append(f"{' '.join(str(one) for one in vector)} :{''.join(f' {name}' for name in names)}")
    return "\n".join(lines) + "\n"


def draw(job: Job, told: dict[str, Any], folder: Path) -> None:
    """The pictures of a scenario, one for each book."""
    lattice = Path(job.lattice) if job.lattice else folder / f"{job.name}.lattice"
    if told["made"] is not None:
        lattice.write_text(told["made"], encoding="utf-8")
    for number, (book, one) in enumerate(zip(job.books, told["books"])):
        page = folder / page_name(job.name, number)
        if one["fault"]:
            continue
        with tempfile.TemporaryDirectory() as made:
            printed = Path(made) / "printed"
            printed.write_text(_printed(one), encoding="utf-8")
            try:
                text, _ = page_of(Path(job.scenario), lattice, printed, Path(book))
            except (Fault, OSError, UnicodeDecodeError) as fault:
                text = f"<!DOCTYPE html>\n<title>{html.escape(job.name)}</title><p>It could not be drawn: {html.escape(str(fault))}</p>\n"
        page.write_text(text, encoding="utf-8")


def page_name(name: str, number: int) -> str:
    return f"{name}.html" if number == 0 else f"{name}.against.html"


def _book_cells(name: str, number: int, told: dict[str, Any]) -> str:
    if told["fault"]:
        return f'<td class="left fault" colspan="4">{html.escape(told["fault"])}</td>'
    count = len(told["answers"])
    link = f'<a href="{html.escape(page_name(name, number))}">{count or "none"}</a>'
    return f"<td>{link}</td><td>{told['labels']:,}</td><td>{told['plan']:.2f}</td><td>{told['check']:.2f}</td>"


def _change(one: dict[str, Any]) -> str:
    names, by = (html.escape(" ".join(words)) or "(the empty list)" for words in (one["maneuvers"], one["by"]))
    return f"<li><code>{names}</code>: loses by <b>{html.escape(one['rule'])}</b> to <code>{by}</code></li>"


def _changes(told: dict[str, Any]) -> str:
    if not told["went"] and not told["came"]:
        return "<td class=left>nothing</td>"
    rules = sorted({one["rule"] for one in (*told["went"], *told["came"])})
    said = f"{len(told['went'])} went, {len(told['came'])} came; by {', '.join(rules)}"
    went = f"Went, by the second book:<ul>{''.join(map(_change, told['went']))}</ul>" if told["went"] else ""
    came = f"Came, by the first book:<ul>{''.join(map(_change, told['came']))}</ul>" if told["came"] else ""
    return f"<td class=left><details><summary>{html.escape(said)}</summary>{went}{came}</details></td>"


def _row(told: dict[str, Any], books: int) -> str:
    name = html.escape(told["name"])
    if told["fault"]:
        width = 4 * books + (books == 2)
        return f'<tr><td class="left">{name}</td><td class="left fault" colspan="{width}">{html.escape(told["fault"])}</td></tr>'
    cells = "".join(_book_cells(told["name"], number, one) for number, one in enumerate(told["books"]))
    changes = ""
    if books == 2:
        changes = "<td class=left>not compared</td>" if any(one["fault"] for one in told["books"]) else _changes(told)
    return f'<tr><td class="left">{name}</td>{cells}{changes}</tr>'


def summary(results: list[dict[str, Any]]) -> str:
    """A line on all of them."""
    refused = sum(bool(told["fault"] or any(one["fault"] for one in told["books"])) for told in results)
    answered = sum(all(one["answers"] for one in told["books"]) and bool(told["books"]) for told in results)
    changed = sum(bool(told["went"] or told["came"]) for told in results)
    none = len(results) - answered - refused
    said = f"{len(results)} scenarios: {answered} with answers, each checked; {none} with none; {refused} refused"
    return said + (f"; {changed} changed" if any(len(told["books"]) == 2 for told in results) else "")


def index(results: list[dict[str, Any]], books: list[str]) -> str:
    """The table of scenarios."""
    heads = "".join(f'<th colspan="4">{html.escape(Path(book).name)}</th>' for book in books)
    columns = "<th>answers</th><th>labels</th><th>plan, s</th><th>check, s</th>" * len(books)
    changed = '<th rowspan="2" class="left">what changed</th>' if len(books) == 2 else ""
    rows = "".join(_row(told, len(books)) for told in results)
    title = " against ".join(Path(book).stem for book in books)
    columns = f"<tr>{columns}</tr>"
    return f"""<!DOCTYPE html>
<html lang="en"><head><meta charset="utf-8"><meta name="viewport" content="width=device-width">
<title>{html.escape(title)}</title><style>{STYLE}</style></head><body>
<h1>{html.escape(title)}</h1><p>{html.escape(summary(results))}.</p>
<div class="wide"><table><tr><th rowspan="2" class="left">scenario</th>{heads}{changed}</tr>{columns}{rows}</table></div>
<p>A number of answers leads to the picture. An answer that went is one of the first book's that another answer beats by the second;
one that came is one of the second's that is beaten by the first.</p>
</body></html>
"""
