"""The order of a book's rules as a picture: the Hasse diagram, in which a rule stands over those that it is above."""

from __future__ import annotations

import html

from ..book import Book

LETTER, LINE, GAP, RISE = 8.4, 20, 18, 34  # points


def levels(book: Book) -> list[int]:
    """For each rank, the most ranks of a chain over it."""
    covers = book.covers()
    found = [0] * len(book.ranks())
    for _ in found:
        for above, below in covers:
            found[below] = max(found[below], found[above] + 1)
    return found


def diagram(book: Book) -> str:
    """As an SVG. Rules of one rank share a box."""
    ranks, level = book.ranks(), levels(book)
    sizes = [(max(len(rule) for rule in rank) * LETTER + 16, len(rank) * LINE + 8) for rank in ranks]
    rows = [[k for k in range(len(ranks)) if level[k] == one] for one in range(max(level, default=-1) + 1)]
    widths = [sum(sizes[k][0] for k in row) + GAP * (len(row) - 1) for row in rows]
    width, top, places = max(widths, default=0.0) + 2, 1.0, {}
    for row, wide in zip(rows, widths):
        x = (width - wide) / 2
        for k in row:
            places[k] = (x, top)
            x += sizes[k][0] + GAP
        top += max(sizes[k][1] for k in row) + RISE
    lines = []
    for above, below in book.covers():
        (x, y), (u, v) = places[above], places[below]
        ends = (x + sizes[above][0] / 2, y + sizes[above][1], u + sizes[below][0] / 2, v)
        lines.append('<line x1="{:.1f}" y1="{:.1f}" x2="{:.1f}" y2="{:.1f}"/>'.format(*ends))
    boxes = "".join(_box(ranks[k], *places[k], *sizes[k]) for k in range(len(ranks)))
    height = top - RISE + 1
    pairs = [f"{', '.join(ranks[one])} above {', '.join(ranks[other])}" for one, other in book.covers()]
    said = "; ".join(pairs) or "no rule is above another"
    return (
        f'<svg class="order" role="img" aria-label="{html.escape(said)}" viewBox="0 0 {width:.1f} {height:.1f}" '
        f'style="max-width:{width:.0f}px">{"".join(lines)}{boxes}</svg>'
    )


def _box(rank: tuple[str, ...], x: float, y: float, wide: float, high: float) -> str:
    texts = "".join(
        f'<text x="{x + wide / 2:.1f}" y="{y + 4 + LINE * (k + 0.5):.1f}">{html.escape(rule)}</text>' for k, rule in enumerate(rank)
    )
    return f'<rect x="{x:.1f}" y="{y:.1f}" width="{wide:.1f}" height="{high:.1f}" rx="4"/>{texts}'
