"""Numbers and geometry in whole units, as the program defines them: 0.1 mm, microradians, mm/s."""

from __future__ import annotations

import math
import re
from decimal import ROUND_HALF_UP, Decimal
from functools import lru_cache

from .program import Fault

Point = tuple[int, int]
MILLION = 1_000_000
TURN = 6_283_184  # microradians of a whole turn
_DECIMAL = re.compile(r"[+-]?(\d+\.?\d*|\.\d+)([eE][+-]?\d+)?")


def whole(text: str, places: int) -> int:
    """The decimal times 10^places, rounded to the nearest whole number, halves away from 0."""
    text = text.strip()
    if not _DECIMAL.fullmatch(text) or len(text) > 64:
        raise Fault(f"no number: {text[:40] or 'nothing'}")
    return int(Decimal(text).scaleb(places).quantize(Decimal(1), rounding=ROUND_HALF_UP)) if abs(Decimal(text)) < 10**18 else 10**24


def truncated(value: int, by: int) -> int:
    return value // by if value >= 0 else -(-value // by)


def round_div(value: int, by: int) -> int:
    """To the nearest, halves away from 0."""
    return (2 * value + by) // (2 * by) if value >= 0 else -((-2 * value + by) // (2 * by))


@lru_cache(maxsize=4096)
def direction(angle: int) -> Point:
    """Cosine and sine in millionths, by a short series."""
    q = (angle + 785_398) // 1_570_796
    r = angle - q * 1_570_796
    z = truncated(r * r, MILLION)
    c = MILLION - truncated(z, 56)
    for by in (30, 12, 2):
        c = MILLION - truncated(z * c, by * MILLION)
    s = MILLION - truncated(z, 42)
    for by in (20, 6):
        s = MILLION - truncated(z * s, by * MILLION)
    s = truncated(r * s, MILLION)
    return ((c, s), (-s, c), (-c, -s), (s, -c))[q % 4]


def rotate(point: Point, angle: int) -> Point:
    c, s = direction(angle)
    return round_div(point[0] * c - point[1] * s, MILLION), round_div(point[0] * s + point[1] * c, MILLION)


def cross(a: Point, b: Point, c: Point) -> int:
    return (b[0] - a[0]) * (c[1] - a[1]) - (b[1] - a[1]) * (c[0] - a[0])


def inside(corners: list[Point], p: Point) -> bool:
    """Whether the closed polygon holds the point."""
    odd = False
    for a, b in zip(corners, corners[1:] + corners[:1]):
        turn = cross(a, b, p)
        if turn == 0 and min(a[0], b[0]) <= p[0] <= max(a[0], b[0]) and min(a[1], b[1]) <= p[1] <= max(a[1], b[1]):
            return True
        if (a[1] > p[1]) != (b[1] > p[1]) and (turn > 0 if b[1] > a[1] else turn < 0):
            odd = not odd
    return odd


def rectangle(center: Point, heading: int, length: int, width: int) -> list[Point]:
    c, s = direction(heading)
    corners = []
    for i, j in ((-1, -1), (1, -1), (1, 1), (-1, 1)):
        x, y = i * length * c - j * width * s, i * length * s + j * width * c
        corners.append((center[0] + round_div(x, 2 * MILLION), center[1] + round_div(y, 2 * MILLION)))
    return corners


def circle(center: Point, radius: int) -> list[Point]:
    around = [direction(392_699 * k) for k in range(16)]
    return [(center[0] + round_div(radius * x, MILLION), center[1] + round_div(radius * y, MILLION)) for x, y in around]


def to_polygon(corners: list[Point], p: Point) -> float:
    """How far the point is from the closed polygon, in the units of both."""
    return 0.0 if inside(corners, p) else min(to_segment(a, b, p) for a, b in zip(corners, corners[1:] + corners[:1]))


def to_segment(a: tuple[float, float], b: tuple[float, float], p: tuple[float, float]) -> float:
    dx, dy = b[0] - a[0], b[1] - a[1]
    square = dx * dx + dy * dy
    t = 0.0 if square == 0 else max(0.0, min(1.0, ((p[0] - a[0]) * dx + (p[1] - a[1]) * dy) / square))
    return math.hypot(a[0] + t * dx - p[0], a[1] + t * dy - p[1])
