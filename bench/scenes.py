"""Writes scenes for `plan` into a folder, and prints a line for each: its name, and what it is."""

import sys
from pathlib import Path

from city import LANE as CITY_LANE, city

LANE = '<lanelet id="{id}"><leftBound><point><x>{a}</x><y>{left}</y></point><point><x>{b}</x><y>{left}</y></point></leftBound><rightBound><point><x>{a}</x><y>{right}</y></point><point><x>{b}</x><y>{right}</y></point></rightBound></lanelet>\n'


def document(step, inside, y, tick):
    goal = f"<goalState><time><intervalStart>{tick}</intervalStart><intervalEnd>{tick}</intervalEnd></time></goalState>"
    start = f"<position><point><x>0</x><y>{y}</y></point></position><orientation><exact>0</exact></orientation><time><exact>0</exact></time><velocity><exact>10</exact></velocity>"
    problem = f'<planningProblem id="900"><initialState>{start}</initialState>{goal}</planningProblem>\n'
    return f'<commonRoad commonRoadVersion="2020a" timeStepSize="{step}">\n{inside}{problem}</commonRoad>\n'


def lattice(horizon, classes, maneuvers):
    lines = [f"horizon = {horizon}", "length = 45000", "width = 18000", "tolerance = 0"]
    for name, speed in classes:
        lines += ["[[class]]", f'name = "{name}"', "heading = 0", f"speed = {speed}"]
    for name, start, end, steps in maneuvers:
        lines += ["[[maneuver]]", f'name = "{name}"', f'from = "{start}"', f'to = "{end}"', f"steps = {steps}"]
    return "\n".join(lines) + "\n"


def one_lane(tick):
    return document(0.1, LANE.format(id=1, a=-50, b=150, left=2, right=-2), 0, tick)


def doubling(horizon):
    """Two maneuvers that cost 2^0, 2^1, .. by the tick, the one by one rule and the other by the other: all costs differ."""
    cost = " * ".join(f"if(tick - {j}, 2, 1)" for j in range(1, 14))
    book = f"rule a\npart a 1 maneuver(p) * {cost}\nrule b\npart b 1 maneuver(q) * {cost}\n"
    step = [[10000, 0, 0, 10000, 0, 0]]
    return one_lane(13), book, lattice(horizon, [("c", 10000)], [("p", "c", "c", step), ("q", "c", "c", step)])


def many_choices(horizon):
    """32 choices in each state, and one label for each place that they reach."""
    step = [("m%d" % k, "c", "c", [[k, 0, 0, 10000, 0, 0]]) for k in range(32)]
    return one_lane(horizon), "rule a\npart a 1 overlaps\n", lattice(horizon, [("c", 10000)], step)


def draws(number):
    """A plain sequence of pseudo-random numbers."""
    state = number

    def draw():
        nonlocal state
        state = (1103515245 * state + 12345) % 2**31
        return state // 65536

    return draw


def drivers():
    """A book of five rules, and a lattice of three speeds and thirteen maneuvers of a second each."""
    classes = [("slow", 5000), ("mid", 10000), ("fast", 15000)]
    maneuvers = []
    for name, v in classes:
        for kind, side in (("keep", 0), ("left", 8000), ("right", -8000)):
            maneuvers.append((f"{kind}_{name}", name, name, [[2 * v * j, side * j, 0, v, 0, 0] for j in range(1, 6)]))
    for kind, name, other, v, sign in (("up", "slow", "mid", 5000, 1), ("up", "mid", "fast", 10000, 1), ("down", "mid", "slow", 10000, -1), ("down", "fast", "mid", 15000, -1)):
        steps = [[2 * v * j + sign * 1000 * j * j, 0, 0, v + sign * 1000 * j, sign * 5000, 0] for j in range(1, 6)]
        maneuvers.append((f"{kind}_{name}", name, other, steps))
    changes = [m[0] for m in maneuvers if m[0].startswith(("up", "down"))]
    turns = [m[0] for m in maneuvers if m[0].startswith(("left", "right"))]
    book = "rule collision\npart collision 1 overlaps\nrule road\npart road 1 off_road\nrule gap\npart gap 1 max(0, 20000 - gap)\nrule smooth\n"
    book += "".join(f"part smooth 1 maneuver({name})\n" for name in changes) + "rule lane\n"
    book += "".join(f"part lane 1 maneuver({name})\n" for name in turns)
    book += "above collision road\nabove road gap\nabove gap smooth\nabove gap lane\n"
    return book, lattice(30, classes, maneuvers)


def motorway(number, last=30, end=500):
    """Three lanes up to an end, and forty cars up to a last tick."""
    draw = draws(number)
    inside = "".join(LANE.format(id=k, a=-50, b=end, left=4 * (k - 1) + 2, right=4 * (k - 1) - 2) for k in (1, 2, 3))
    for car in range(40):
        a, b, d = draw(), draw(), draw()
        y, x, v = 4 * (a % 3), 10 + b % 400, 4 + d % 8

        def pose(tick):
            return f"<position><point><x>{x + v * tick / 5:.1f}</x><y>{y}</y></point></position><orientation><exact>0</exact></orientation><time><exact>{tick}</exact></time><velocity><exact>{v}</exact></velocity>"

        states = "".join(f"<state>{pose(tick)}</state>" for tick in range(1, last + 1))
        shape = "<shape><rectangle><length>4.5</length><width>1.8</width></rectangle></shape>"
        inside += f'<dynamicObstacle id="{100 + car}">{shape}<initialState>{pose(0)}</initialState><trajectory>{states}</trajectory></dynamicObstacle>\n'
    return document(0.2, inside, 4, 30), *drivers()


def streets(number):
    """A city in which the vehicle drives along its second street."""
    return document(0.2, city(draws(number), 30), 100 - CITY_LANE / 2, 30), *drivers()


def scenes():
    yield "doubling", doubling(14), "two choices, 32,767 undominated pairs, 8,192 answers"
    yield "choices", many_choices(56), "32 choices, 49,533 undominated pairs, 1,585,024 links but for the last tick"
    yield "motorway", motorway(7), "a motorway with 40 cars and 13 maneuvers"
    yield "city", streets(7), "a city of 512 lanelets, 100 cars, 40 walkers and 13 maneuvers"


def write(folder, name, texts):
    """The three files of a scene."""
    for ending, text in zip(("xml", "book", "lattice"), texts):
        (Path(folder) / f"{name}.{ending}").write_text(text)


if __name__ == "__main__":
    for name, texts, what in scenes():
        write(sys.argv[1], name, texts)
        print(name, what)
