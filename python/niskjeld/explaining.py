"""What a call printed, in words for a person."""

from __future__ import annotations

from pathlib import Path

from .lattice import Lattice, Spot, TooManyStates, heading_fits, list_to, point_of, reached, read_lattice
from .exact import to_polygon
from .program import Call, Status
from .refusals import Refused, raised
from .scenario import Goal, Problem, Scenario, read_scenario


def status_of(text: str) -> int:
    """The status with which a call ends that prints this."""
    begins = {
        "refused ": Status.REFUSED,
        "rejected ": Status.REJECTED,
        "cannot read ": Status.READ_FAULT,
        "too many labels": Status.TOO_MANY_LABELS,
        "usage: ": Status.USAGE,
    }
    return next((status for word, status in begins.items() if text.startswith(word)), Status.DONE)


def explained(call: Call) -> str:
    """A sentence, and where there is a place the line with a mark; of an answer that is none, why."""
    if call.status == Status.DONE:
        if call.command in ("plan", "check") and call.printed.splitlines()[-1:] == ["none"]:
            return "\n".join(why_none(call))
        return f"nothing to explain: {call.command} ended as done\n{call.printed}".rstrip()
    fault = raised(call)
    if isinstance(fault, Refused) and fault.place.shown():
        return f"{fault}\n{fault.place.shown()}"
    return str(fault)


def why_none(call: Call) -> list[str]:
    """Why no list of maneuvers reaches a goal, by driving the lattice without a book."""
    scenario = read_scenario(Path(call.word("scenario") or ""))
    lattice = read_lattice(Path(call.word("lattice") or ""))
    problem = scenario.problems[0]
    said = [f"{call.word('scenario')}: no list of maneuvers of {call.word('lattice')} reaches a goal of problem {problem.id}"]
    try:
        found = reached(lattice, problem)
    except TooManyStates as fault:
        return [*said, f"  and {fault}, so it isn't told how near they come"]
    for number, goal in enumerate(problem.goals, 1):
        which = f"goal {number}: " if len(problem.goals) > 1 else ""
        said += [f"  {which}{line}" for line in why_not(goal, scenario, problem, lattice, found)]
    return said


def _ticks(goal: Goal) -> str:
    return f"tick {goal.ticks.low}" if goal.ticks.low == goal.ticks.high else f"ticks {goal.ticks.low} to {goal.ticks.high}"


def why_not(
    goal: Goal, scenario: Scenario, problem: Problem, lattice: Lattice, found: dict[Spot, tuple[Spot, str] | None]
) -> list[str]:
    """The first reason that alone is enough, or else how near the states of the right tick and class come."""
    last = problem.start.tick + lattice.horizon
    if goal.ticks.low > last:
        return [f"the goal's time, {_ticks(goal)}, lies past the lattice's horizon, which ends at tick {last}"]
    if goal.speed and not any(goal.speed.holds(one.speed) for one in lattice.classes):
        speeds = ", ".join(f"{speed / 1000:g}" for speed in sorted({one.speed for one in lattice.classes}))
        return [f"no class meets the goal's speed, {goal.speed.low / 1000:g} to {goal.speed.high / 1000:g} m/s: there are {speeds} m/s"]
    if goal.heading and not any(heading_fits(goal, problem, one) for one in lattice.classes):
        headings = ", ".join(f"{(problem.start.heading + one) / 1e6:.3f}" for one in sorted({one.heading for one in lattice.classes}))
        low, high = goal.heading.low / 1e6, goal.heading.high / 1e6
        return [f"no class meets the goal's heading, {low:g} to {high:g} rad: with the start's there are {headings} rad"]
    in_time = [spot for spot in found if goal.ticks.holds(problem.start.tick + spot.tick)]
    if not in_time:
        ticks = sorted({problem.start.tick + spot.tick for spot in found})
        shown = ", ".join(str(tick) for tick in ticks[:12]) + (" .." if len(ticks) > 12 else "")
        return [f"no list of maneuvers ends at {_ticks(goal)}: lists end at the ticks {shown}"]
    fits = [spot for spot in in_time if _fits(goal, problem, lattice, spot)]
    if not fits:
        return [f"no list that ends at {_ticks(goal)} has a heading and a speed that the goal asks for"]
    return [_nearest(goal, problem, fits, found)]


def _fits(goal: Goal, problem: Problem, lattice: Lattice, spot: Spot) -> bool:
    here = lattice.class_of(spot.class_name)
    return (goal.speed is None or goal.speed.holds(here.speed)) and heading_fits(goal, problem, here)


def _nearest(goal: Goal, problem: Problem, spots: list[Spot], found: dict[Spot, tuple[Spot, str] | None]) -> str:
    if not goal.regions:
        return "the goal has no region that the scenario knows"

    def distance(spot: Spot) -> float:
        return min(to_polygon(region, point_of(problem, spot)) for region in goal.regions or [])

    nearest = min(spots, key=distance)
    names = " ".join(list_to(found, nearest)) or "(the empty list)"
    tick = problem.start.tick + nearest.tick
    return f"the nearest that a list comes to the goal's region in time is {distance(nearest) / 1e4:.2f} m, at tick {tick}: {names}"
