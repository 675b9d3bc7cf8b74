"""The way from a start to a goal along lanelets: its headings, its lanes to both sides, its greatest speed."""

from __future__ import annotations

import heapq
import math
from dataclasses import dataclass, field

from .exact import inside
from .scenario import Goal, Lanelet, Problem, Scenario

METRE = 10_000
LANE_CHANGE = 10 * METRE  # what a change of lane costs beside the length of the lanelets
Line = list[tuple[float, float]]


@dataclass
class Way:
    """Headings are relative to the start's, in radians, each with how far along the way it begins, in metres."""

    lanelets: list[int]
    headings: list[tuple[float, float]]
    offset: float = 0.0  # metres that the start is left of its lanelet's middle
    width: float = 3.5  # of the start's lanelet
    left: float | None = None  # metres to the middle of the lane left of the way, where there is one
    right: float | None = None
    limit: float | None = None  # metres per second, by signs
    arrives: bool = True  # whether it leads to the goal
    notes: list[str] = field(default_factory=list)


def wrapped(angle: float) -> float:
    return (angle + math.pi) % (2 * math.pi) - math.pi


def _resampled(bound: list[tuple[int, int]], number: int) -> Line:
    lengths = [0.0]
    for a, b in zip(bound, bound[1:]):
        lengths.append(lengths[-1] + math.dist(a, b))
    points, at = [], 0
    for k in range(number):
        wanted = lengths[-1] * k / (number - 1)
        while at < len(bound) - 2 and lengths[at + 1] < wanted:
            at += 1
        span = lengths[at + 1] - lengths[at]
        t = (wanted - lengths[at]) / span if span else 0.0
        (x, y), (u, v) = bound[at], bound[at + 1]
        points.append((x + t * (u - x), y + t * (v - y)))
    return points


def middle(lanelet: Lanelet) -> Line:
    """The line half way between both bounds."""
    number = max(len(lanelet.left), len(lanelet.right))
    pairs = zip(_resampled(lanelet.left, number), _resampled(lanelet.right, number))
    return [((a + c) / 2, (b + d) / 2) for (a, b), (c, d) in pairs]


def width_of(lanelet: Lanelet) -> float:
    return sum(math.dist(a, b) for a, b in zip(_resampled(lanelet.left, 5), _resampled(lanelet.right, 5))) / 5 / METRE


def length_of(line: Line) -> float:
    return sum(math.dist(a, b) for a, b in zip(line, line[1:]))


def projected(line: Line, p: tuple[float, float]) -> tuple[float, float, float, float]:
    """How far along the line its nearest point is, how far left of it p lies, how far from it, and the line's heading there."""
    best, along = (0.0, 0.0, math.inf, 0.0), 0.0
    for (ax, ay), (bx, by) in zip(line, line[1:]):
        dx, dy = bx - ax, by - ay
        length = math.hypot(dx, dy)
        if length:
            t = max(0.0, min(1.0, ((p[0] - ax) * dx + (p[1] - ay) * dy) / length**2))
            away = math.hypot(ax + t * dx - p[0], ay + t * dy - p[1])
            if away < best[2]:
                best = (along + t * length, (dx * (p[1] - ay) - dy * (p[0] - ax)) / length, away, math.atan2(dy, dx))
        along += length
    return best


def _box(points: list[tuple[int, int]]) -> tuple[int, int, int, int]:
    xs, ys = [p[0] for p in points], [p[1] for p in points]
    return min(xs), min(ys), max(xs), max(ys)


def _start(scenario: Scenario, problem: Problem) -> Lanelet | None:
    """The lanelet that holds the start and leads its way; else the nearest that leads its way."""
    heading = problem.start.heading / 1e6
    holding = [one for one in scenario.lanelets.values() if inside(one.corners, problem.start.point)]

    def turned(one: Lanelet) -> float:
        return abs(wrapped(projected(middle(one), problem.start.point)[3] - heading))

    ahead = [one for one in holding if turned(one) < 1.2]
    if ahead:
        return min(ahead, key=turned)
    near = [(projected(middle(one), problem.start.point), one) for one in scenario.lanelets.values()]
    near = [(found, one) for found, one in near if abs(wrapped(found[3] - heading)) < 1.2]
    return min(near, key=lambda pair: pair[0][2])[1] if near else None


def _goals(scenario: Scenario, goal: Goal) -> set[int]:
    """The lanelets that a goal names, and those that its other regions meet; regions that are lanelets stand last."""
    found = set(goal.lanelets) & set(scenario.lanelets)
    regions = goal.regions or []
    for region in regions[: len(regions) - len(found)]:
        low_x, low_y, high_x, high_y = _box(region)
        center = sum(p[0] for p in region) // len(region), sum(p[1] for p in region) // len(region)
        for one in scenario.lanelets.values():
            a, b, c, d = _box(one.corners)
            if c < low_x or a > high_x or d < low_y or b > high_y:
                continue
            if inside(one.corners, center) or any(inside(region, (round(x), round(y))) for x, y in middle(one)):
                found.add(one.id)
    return found


def _neighbours(scenario: Scenario, one: Lanelet) -> list[tuple[int, bool]]:
    """The lanelets that may follow this one, and whether it is a change of lane."""
    after = [(other, False) for other in one.successors]
    after += [(other, True) for other, same in ((one.beside_left, one.same_left), (one.beside_right, one.same_right)) if other and same]
    return [(other, change) for other, change in after if other in scenario.lanelets]


def _path(scenario: Scenario, start: Lanelet, ends: set[int]) -> list[tuple[int, bool]] | None:
    """The shortest list of lanelets to one of the ends; each says whether a change of lane leads to it."""
    waiting: list[tuple[float, int]] = [(0.0, start.id)]
    costs, before = {start.id: 0.0}, {start.id: (0, False)}
    while waiting:
        cost, one = heapq.heappop(waiting)
        if one in ends:
            path = [one]
            while path[0] != start.id:
                path.insert(0, before[path[0]][0])
            return [(lane, before[lane][1]) for lane in path]
        if cost > costs[one]:
            continue
        for other, change in _neighbours(scenario, scenario.lanelets[one]):
            more = cost + (LANE_CHANGE if change else length_of(middle(scenario.lanelets[one])))
            if more < costs.get(other, math.inf):
                costs[other], before[other] = more, (one, change)
                heapq.heappush(waiting, (more, other))
    return None


def _straight_on(scenario: Scenario, start: Lanelet, metres: float) -> list[tuple[int, bool]]:
    """The lanelets ahead, by the successor that turns least, for about so many metres."""
    path, far, now = [(start.id, False)], 0.0, start
    while far < metres and len(path) < 50:
        line = middle(now)
        far += length_of(line) / METRE
        end = math.atan2(line[-1][1] - line[-2][1], line[-1][0] - line[-2][0])
        after = [scenario.lanelets[one] for one in now.successors if one in scenario.lanelets]
        if not after:
            break

        def turned(one: Lanelet) -> float:
            ahead = middle(one)
            return abs(wrapped(math.atan2(ahead[-1][1] - ahead[0][1], ahead[-1][0] - ahead[0][0]) - end))

        now = min(after, key=turned)
        path.append((now.id, False))
    return path


def _headings(scenario: Scenario, problem: Problem, path: list[tuple[int, bool]], metres: float) -> list[tuple[float, float]]:
    start = problem.start.heading / 1e6
    found: list[tuple[float, float]] = []
    far, last, place = 0.0, 0.0, problem.start.point
    for number, (lane, change) in enumerate(path):
        line = middle(scenario.lanelets[lane])
        begins = projected(line, place)[0] if number == 0 or change else 0.0
        along = 0.0
        for a, b in zip(line, line[1:]):
            length = math.dist(a, b)
            along += length
            if along <= begins or not length or (number + 1 < len(path) and path[number + 1][1] and along - begins > LANE_CHANGE):
                continue
            last += wrapped(math.atan2(b[1] - a[1], b[0] - a[0]) - start - last)
            found.append((far, last))
            far += min(length, along - begins) / METRE
            place = (round(b[0]), round(b[1]))
            if far > metres:
                return found
    return found or [(0.0, 0.0)]


def _sides(scenario: Scenario, path: list[tuple[int, bool]]) -> tuple[float | None, float | None]:
    """How far the middles of the lanes to the left and to the right are, where the way has some."""
    sides: list[float | None] = []
    on_the_way = {lane for lane, _ in path}
    for left in (True, False):
        found = []
        for lane, _ in path:
            one = scenario.lanelets[lane]
            other = scenario.lanelets.get((one.beside_left if left else one.beside_right) or 0)
            other = other or _beside(scenario, one, left, on_the_way)
            if other is not None:
                found.append((width_of(one) + width_of(other)) / 2)
        sides.append(sum(found) / len(found) if found else None)
    return sides[0], sides[1]


def _beside(scenario: Scenario, one: Lanelet, left: bool, but: set[int]) -> Lanelet | None:
    """A lanelet along this one that lies a lane's width to the side of its middle, where the document names no neighbour."""
    line = middle(one)
    (ax, ay), (bx, by) = line[(len(line) - 1) // 2], line[(len(line) - 1) // 2 + 1]
    length = math.hypot(bx - ax, by - ay)
    if not length:
        return None
    aside = width_of(one) * METRE / length * (1 if left else -1)
    point = round((ax + bx) / 2 - (by - ay) * aside), round((ay + by) / 2 + (bx - ax) * aside)
    for other in scenario.lanelets.values():
        low_x, low_y, high_x, high_y = _box(other.corners)
        if other.id in but or not (low_x <= point[0] <= high_x and low_y <= point[1] <= high_y):
            continue
        turned = projected(middle(other), point)[3] - math.atan2(by - ay, bx - ax)
        if abs(math.sin(turned)) < 0.3 and inside(other.corners, point):
            return other
    return None


def _limit(scenario: Scenario, path: list[tuple[int, bool]]) -> float | None:
    found = [scenario.limits[sign] / 1000 for lane, _ in path for sign in scenario.lanelets[lane].signs if sign in scenario.limits]
    return max(found) if found else None


def find_way(scenario: Scenario, problem: Problem, goal: Goal, metres: float) -> Way:
    """The way to the goal, or straight on for so many metres where no lanelets lead to it or it has no region."""
    start = _start(scenario, problem)
    if start is None:
        return _bee_line(problem, goal, ["no lanelet leads the way of the start, so the way is a straight line to the goal"])
    ends = _goals(scenario, goal) if goal.regions is not None else set()
    path = _path(scenario, start, ends) if ends else None
    arrives = path is not None or goal.regions is None
    path = path or _straight_on(scenario, start, metres)
    far, left_of, _, _ = projected(middle(start), problem.start.point)
    left, right = _sides(scenario, path)
    way = Way([lane for lane, _ in path], _headings(scenario, problem, path, metres), left_of / METRE, width_of(start), left, right)
    way.limit, way.arrives = _limit(scenario, path), arrives
    if not arrives:
        way.notes.append("no lanelets lead from the start to the goal's region, so the way goes straight on, and to the region's bearing")
        way.headings += _bee_line(problem, goal, []).headings
    return way


def _bee_line(problem: Problem, goal: Goal, notes: list[str]) -> Way:
    headings = [(0.0, 0.0)]
    if goal.regions:
        region = goal.regions[0]
        x, y = sum(p[0] for p in region) / len(region) - problem.start.x, sum(p[1] for p in region) / len(region) - problem.start.y
        if math.hypot(x, y) > 5 * METRE:
            headings.append((1.0, wrapped(math.atan2(y, x) - problem.start.heading / 1e6)))
    return Way([], headings, arrives=False, notes=notes)
