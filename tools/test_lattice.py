"""Tests of tools/lattice: python3 tools/test_lattice.py [SCENARIO ..]. The scenarios named are tried too: each has to have an answer."""

import math
import subprocess
import sys
import tempfile
import unittest
from pathlib import Path

TOP = Path(__file__).resolve().parent.parent
sys.path.insert(0, str(TOP / "python"))

import niskjeld  # noqa: E402
from niskjeld.exact import direction, inside, rectangle, rotate, whole  # noqa: E402
from niskjeld.lattice import Lattice, drive, meets, reached, read_lattice  # noqa: E402
from niskjeld.making import MOST_CHOICES, MOST_CLASSES, make  # noqa: E402
from niskjeld.scenario import read_scenario  # noqa: E402

ROAD = TOP / "examples" / "narrow_road"
OTHERS: list[Path] = []

# A road that bends to the left by a quarter of a circle of 20 m between two straight stretches of 30 m, 3.5 m wide.
BOOK = "rule hit\npart hit 1 overlaps\nrule road\npart road 1 off_road\nabove hit road\n"


def bend(speed: str, goal: str) -> str:
    angles = [math.radians(9 * k) for k in range(11)]

    def bound(left: float) -> str:
        points = [(x, left) for x in (-10, 0)] + [((20 - left) * math.sin(a), 20 - (20 - left) * math.cos(a)) for a in angles]
        points += [(20 - left, 20 + y) for y in (10, 20, 30)]
        return "".join(f"<point><x>{x:.4f}</x><y>{y:.4f}</y></point>" for x, y in points)

    return (
        '<commonRoad commonRoadVersion="2020a" timeStepSize="0.2"><lanelet id="1">'
        f"<leftBound>{bound(1.75)}</leftBound><rightBound>{bound(-1.75)}</rightBound></lanelet>"
        '<planningProblem id="2"><initialState><position><point><x>-5</x><y>0</y></point></position>'
        f"<velocity><exact>{speed}</exact></velocity></initialState><goalState>{goal}</goalState></planningProblem></commonRoad>"
    )


SPAN = "<intervalStart>{}</intervalStart><intervalEnd>{}</intervalEnd>"
GOAL = f"<time>{SPAN.format(30, 50)}</time><position><rectangle><length>4</length><width>12</width><center><x>20</x><y>32</y></center></rectangle></position>"


def lattice(*words):
    return subprocess.run([sys.executable, TOP / "tools" / "lattice", *map(str, words)], capture_output=True, text=True)


class Whole(unittest.TestCase):
    def test_numbers_and_geometry_are_the_programs(self):
        self.assertEqual([whole(text, 4) for text in ("-0.00005", "0.00004999", "690000.1234", "5.", "0e400")], [-1, 0, 6900001234, 50000, 0])
        self.assertEqual([direction(a) for a in (0, 1570796, 3141592, -1570796, 500000)], [(10**6, 0), (0, 10**6), (-(10**6), 0), (0, -(10**6)), (877583, 479426)])
        self.assertEqual(rotate((10000, 0), 1570796), (0, 10000))
        self.assertTrue(inside(rectangle((0, 0), 0, 40, 20), (20, 10)))
        self.assertFalse(inside(rectangle((0, 0), 0, 40, 20), (21, 0)))

    def test_a_list_is_driven_as_the_program_drives_it(self):
        scenario, here = read_scenario(ROAD / "narrow_road.xml"), read_lattice(ROAD / "narrow_road.lattice")
        problem = scenario.problems[0]
        found = reached(here, problem)
        goals = [spot for spot in found if any(meets(goal, problem, here, spot) for goal in problem.goals)]
        self.assertTrue(goals)
        steps = drive(here, problem, ("keep", "brake"))
        self.assertEqual([step.maneuver for step in steps], ["", "keep", "keep", "brake", "brake"])
        self.assertEqual(steps[2].state.point, (100_000, 0))


class Making(unittest.TestCase):
    def setUp(self):
        made = tempfile.TemporaryDirectory()
        self.addCleanup(made.cleanup)
        self.folder = Path(made.name)
        (self.folder / "b.book").write_text(BOOK)

    def planned(self, document: str, *options: str) -> tuple[Lattice, niskjeld.Front]:
        scene, out = self.folder / "s.xml", self.folder / "s.lattice"
        scene.write_text(document)
        done = lattice(scene, "-o", out, *options)
        self.assertEqual((done.returncode, done.stdout, done.stderr), (0, "", ""))
        return read_lattice(out), niskjeld.plan(scene, self.folder / "b.book", out)

    def test_a_bend_is_driven_without_leaving_the_road(self):
        made, front = self.planned(bend("7.3", GOAL))
        self.assertLess(front.answers[0].vector[1], 4)
        self.assertIn(7300, [one.speed for one in made.classes])
        headings = sorted({one.heading for one in made.classes})
        self.assertIn(0, headings)
        self.assertAlmostEqual(headings[-1] / 1e6, math.pi / 2, places=2)

    def test_a_start_from_standing_and_a_goal_of_one_speed(self):
        goal = GOAL + "<velocity>" + SPAN.format("4.2", "4.3") + "</velocity>"
        made, front = self.planned(bend("0", goal.replace("50", "70", 1)), "--grain", "1,5,30")
        self.assertTrue(front.answers)
        self.assertTrue(any(4200 <= one.speed <= 4300 for one in made.classes))

    def test_a_goal_of_one_tick(self):
        made, front = self.planned(bend("7.3", GOAL.replace(SPAN.format(30, 50), "<exact>37</exact>")))
        self.assertTrue(front.answers)
        self.assertEqual(made.horizon, 37)

    def test_limits_and_ends_hold(self):
        problem_of = read_scenario(ROAD / "narrow_road.xml")
        made = make(problem_of, problem_of.problems[0]).lattice
        self.assertLessEqual(len(made.classes), MOST_CLASSES)
        # the lane of those who come towards us is 3 m to the left, though the document names no neighbours
        self.assertEqual({one.steps[-1][1] for one in made.maneuvers if one.name.startswith("lane_left")}, {30_000})
        for one in made.classes:
            self.assertLessEqual(sum(m.begins == one.name for m in made.maneuvers), MOST_CHOICES)
        for one in made.maneuvers:
            end = made.class_of(one.ends)
            self.assertEqual((one.steps[-1][2], one.steps[-1][3]), (end.heading, end.speed))

    def test_the_maneuvers_are_drawn(self):
        page = self.folder / "m.html"
        self.planned(bend("7.3", GOAL), "--draw", str(page))
        self.assertIn("<polyline", page.read_text())

    def test_what_cannot_be_reached_is_said(self):
        (self.folder / "s.xml").write_text(bend("7.3", GOAL.replace("<x>20</x>", "<x>2000</x>")))
        done = lattice(self.folder / "s.xml", "-o", self.folder / "s.lattice", "--grain", "2,8,45")
        self.assertEqual((done.returncode, done.stderr.count("\n")), (1, 1))
        self.assertIn("no list of maneuvers reaches the goal", done.stderr)
        self.assertIn("NO goal is reached", (self.folder / "s.lattice").read_text())

    def test_the_lattice_of_the_city_is_what_is_made(self):
        city = TOP / "examples" / "city" / "city"
        self.assertEqual(lattice(city.with_suffix(".xml")).stdout, city.with_suffix(".lattice").read_text())

    def test_faults_are_told_in_one_line(self):
        (self.folder / "s.xml").write_text(bend("fast", GOAL))
        for words, said in (
            (("nowhere.xml",), "nowhere.xml: the scenario can't be read"),
            ((self.folder / "b.book",), "b.book:1:1: text outside the root element"),
            ((self.folder / "s.xml",), "`fast` in <exact> is no number"),
            ((ROAD / "narrow_road.xml", "--grain", "1"), "--grain takes three numbers"),
            ((ROAD / "narrow_road.xml", "--length", "0"), "are above 0"),
        ):
            done = lattice(*words)
            self.assertEqual((done.returncode, done.stdout, done.stderr.count("\n")), (2, "", 1), done.stderr)
            self.assertIn(said, done.stderr)

    def test_scenarios_that_are_named_have_an_answer(self):
        for scene in OTHERS:
            with self.subTest(scene=scene.name):
                done = lattice(scene, "-o", self.folder / "o.lattice")
                self.assertEqual((done.returncode, done.stderr), (0, ""))
                self.assertTrue(niskjeld.plan(scene, self.folder / "b.book", self.folder / "o.lattice").answers)


if __name__ == "__main__":
    OTHERS = [Path(word) for word in sys.argv[1:] if word.endswith(".xml")]
    unittest.main(argv=[word for word in sys.argv if not word.endswith(".xml")])
