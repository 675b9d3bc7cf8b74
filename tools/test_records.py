"""Tests of tools/records: python3 tools/test_records.py. Expected values are worked out by hand."""

import subprocess
import sys
import tempfile
import unittest
from pathlib import Path

TOP = Path(__file__).resolve().parent.parent
sys.path.insert(0, str(TOP / "python"))

import niskjeld  # noqa: E402
from niskjeld.exact import whole  # noqa: E402

ROAD = TOP / "examples" / "narrow_road" / "narrow_road"
HEADER = "name,tick,x,y,heading,speed,accel,turn,maneuver\n"
# Half a second between ticks. At tick 3 there is no speed, and tick 5 is missing.
STATES = (
    (1, "10.12344", "2", "3.1", "4"),
    (2, "8.2", "2", "3.13", "5"),
    (3, "6.2", "2", "-3.13", None),
    (4, "3.2", "2", "-3.13", "6"),
    (6, "0", "2", "0", "0"),
)


def state(tag, tick, x, y, heading, speed):
    velocity = f"<velocity><exact>{speed}</exact></velocity>" if speed else ""
    return (
        f"<{tag}><position><point><x>{x}</x><y>{y}</y></point></position><orientation><exact>{heading}</exact></orientation>"
        f"<time><exact>{tick}</exact></time>{velocity}</{tag}>"
    )


def document():
    shape = "<shape><circle><radius>1</radius></circle></shape>"
    first, *others = STATES
    later = "".join(state("state", *one) for one in others)
    start = state("initialState", "0", "0", "0", "0", "1")
    return (
        '<commonRoad commonRoadVersion="2020a" timeStepSize="0.5">'
        f'<dynamicObstacle id="7">{shape}{state("initialState", *first)}<trajectory>{later}</trajectory></dynamicObstacle>'
        f'<staticObstacle id="8">{shape}{start}</staticObstacle>'
        f'<planningProblem id="9">{start}<goalState><time><exact>1</exact></time></goalState></planningProblem></commonRoad>'
    )


def records(*words):
    return subprocess.run([sys.executable, TOP / "tools" / "records", *map(str, words)], capture_output=True, text=True)


class Tracks(unittest.TestCase):
    def setUp(self):
        made = tempfile.TemporaryDirectory()
        self.addCleanup(made.cleanup)
        self.folder = Path(made.name)
        self.scene = self.folder / "s.xml"
        self.scene.write_text(document())

    def test_a_track_has_differences_and_is_cut_at_a_gap(self):
        done = records(self.scene, 7)
        self.assertEqual((done.returncode, done.stderr), (0, ""))
        # from tick 2 to 3 the heading passes half a turn: -6.26 + 6.283185 = 0.023185 in half a second; the speed of tick 3 is the
        # way to tick 4, 3 m in half a second
        wanted = (
            "o7,1,10.1234,2,3.1,4,0,0,\n"
            "o7,2,8.2,2,3.13,5,2,0.06,\n"
            "o7,3,6.2,2,-3.13,6,2,0.046371,\n"
            "o7,4,3.2,2,-3.13,6,0,0,\n"
            "o7_2,6,0,2,0,0,0,0,\n"
        )
        self.assertEqual(done.stdout, HEADER + wanted)

    def test_what_is_written_is_judged(self):
        out = self.folder / "o.records"
        self.assertEqual(records(f"{ROAD}.xml", "--all", "-o", out).returncode, 0)
        judged = niskjeld.judge(f"{ROAD}.xml", f"{ROAD}.book", f"{ROAD}.lattice", out)
        # the car that comes towards us meets itself at each of its 17 ticks
        self.assertEqual([(one.name, one.vector[0]) for one in judged.recordings], [("o11", 17)])

    def test_a_driver_is_judged_without_itself(self):
        out, scene = self.folder / "o.records", self.folder / "o.xml"
        self.assertEqual(records(f"{ROAD}.xml", 11, "-o", out, "--scene", scene).returncode, 0)
        self.assertEqual([one.id for one in niskjeld.show(scene).obstacles], [10])
        judged = niskjeld.judge(scene, f"{ROAD}.book", f"{ROAD}.lattice", out)
        self.assertEqual([(one.name, one.vector[0]) for one in judged.recordings], [("o11", 0)])

    def test_faults_are_told_in_one_line(self):
        for words, said in (
            ((self.scene, 8), "obstacle 8 stands"),
            ((self.scene, 6), "those that move are 7"),
            ((self.scene, "x"), "an id is digits"),
            ((self.scene,), "or take --all"),
            ((self.scene, 7, "--all"), "or take --all"),
            (("nowhere.xml", 7), "nowhere.xml"),
        ):
            done = records(*words)
            self.assertEqual((done.returncode, done.stdout, done.stderr.count("\n")), (1, "", 1), done.stderr)
            self.assertIn(said, done.stderr)

    def test_numbers_are_written_in_their_units(self):
        line = records(self.scene, 7).stdout.splitlines()[1].split(",")
        self.assertEqual(whole(line[2], 4), 101_234)


if __name__ == "__main__":
    unittest.main()
