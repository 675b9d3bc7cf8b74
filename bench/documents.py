"""Writes large CommonRoad documents into a folder, and prints a line for each: its file, its bytes, and what it is."""

import itertools
import random
import string
import sys
from pathlib import Path

MOST_BYTES = 16_777_216
MOST_ELEMENTS = 2_000_000
MOST_LANELETS = 4_000
MOST_POINTS = 2_048
MOST_OBSTACLES = 500

HEAD = '<commonRoad commonRoadVersion="2020a" timeStepSize="0.1">\n'
POSITION = "<position><point><x>1</x><y>2</y></point></position>"
SHAPE = "<shape><circle><radius>1</radius></circle></shape>"
GOAL = "<goalState><time><exact>1</exact></time>%s</goalState>"
PROBLEM = f'<planningProblem id="1"><initialState>{POSITION}</initialState>{GOAL}</planningProblem>\n'
END = "</commonRoad>\n"


def bound(name, points):
    inside = "".join(f"<point><x>{x}</x><y>2</y></point>" for x in range(points))
    return f"<{name}>{inside}</{name}>"


def lanelet(number, points):
    around = "".join(
        f'<{name} ref="{other}"/>'
        for name, other in (("predecessor", number - 1), ("successor", number + 1))
    )
    return f'<lanelet id="{number}">{bound("leftBound", points)}{bound("rightBound", points)}{around}</lanelet>\n'


def moving(number, states):
    inside = "".join(
        f"<state>{POSITION}<orientation><exact>0</exact></orientation>"
        f"<time><exact>{tick}</exact></time><velocity><exact>9</exact></velocity></state>"
        for tick in range(1, states + 1)
    )
    initial = f"<initialState>{POSITION}<time><exact>0</exact></time></initialState>"
    return f'<dynamicObstacle id="{number}">{SHAPE}{initial}<trajectory>{inside}</trajectory></dynamicObstacle>\n'


def most_that_fit(make, count, room):
    """The elements 1 to count, each as long as all of them together may be."""
    high = MOST_POINTS
    while count * len(make(count, high)) > room:
        high -= 1
    return "".join(make(number, high) for number in range(1, count + 1))


def filled(text, tail):
    """The text, white space, and the tail: of just the most bytes."""
    return text + "\n" * (MOST_BYTES - len(text) - len(tail)) + tail


def with_attributes(count, order=lambda names: None):
    """A root's tag with so many attributes before its own, sorted by name where no other order is given."""
    letters = string.ascii_uppercase + string.ascii_lowercase
    names = list(itertools.islice(itertools.product(letters, repeat=4), count))
    order(names)
    return "<commonRoad" + "".join(" %s%s%s%s=''" % name for name in names) + HEAD.removeprefix("<commonRoad")


def documents():
    good = PROBLEM % "" + END
    room = MOST_BYTES - len(HEAD) - 2 * len(good)
    lanelets = HEAD + most_that_fit(lanelet, MOST_LANELETS, room)
    obstacles = HEAD + most_that_fit(moving, MOST_OBSTACLES, room)
    small = "<a/>" * (MOST_ELEMENTS - 100)
    in_lanelet = lanelet(1, 2).replace("<leftBound>", small + "<leftBound>")
    widest = room // len(" name=''")
    astray = PROBLEM % '<position><lanelet ref="0"/></position>' + END
    yield "lanelets", "4,000 lanelets with long bounds", filled(lanelets, good)
    yield "obstacles", "500 moving obstacles with long trajectories", filled(obstacles, good)
    yield "skipped", "elements that are skipped, in the root", filled(HEAD + small, good)
    yield "skipped_inside", "elements that are skipped, in a lanelet", filled(HEAD + in_lanelet, good)
    yield "attributes_20000", "one tag of 20,000 attributes", with_attributes(20_000) + good
    yield "attributes", f"one tag of {widest:,} attributes", filled(with_attributes(widest), good)
    mixed = with_attributes(widest, random.Random(1).shuffle)
    yield "mixed", "one tag of as many, in no order", filled(mixed, good)
    yield "cut", "the lanelets, without the root's end", filled(lanelets, good.removesuffix(END))
    yield "astray", "the lanelets, and a goal on none of them", filled(lanelets, astray)


def main(folder):
    for name, what, text in documents():
        (Path(folder) / name).write_text(text, encoding="ascii", newline="")
        print(name, len(text), what)


main(sys.argv[1])
