"""Tests of the package python/niskjeld: python3 tools/test_niskjeld.py. What is wanted stands in examples/ or is worked out by hand."""

import contextlib
import doctest
import subprocess
import sys
import tempfile
import unittest
from pathlib import Path

TOP = Path(__file__).resolve().parent.parent
sys.path.insert(0, str(TOP / "python"))

import niskjeld  # noqa: E402
from niskjeld import Answer, Derivation, Standing  # noqa: E402
from niskjeld.book import read_book  # noqa: E402
from niskjeld.expressions import NoExpression, features_of  # noqa: E402

ROAD = TOP / "examples" / "narrow_road"
SCENE = [ROAD / f"narrow_road.{ending}" for ending in ("xml", "book", "lattice")]
GENERAL = TOP / "examples" / "general_rules"


class Commands(unittest.TestCase):
    def test_plan_and_check_give_the_front(self):
        with tempfile.TemporaryDirectory() as folder:
            saved = Path(folder) / "saved"
            front = niskjeld.plan(*SCENE, saved)
            self.assertEqual(saved.read_bytes(), (ROAD / "narrow_road.certificate").read_bytes())
        self.assertEqual(front.rules, ("collision", "oncoming", "distance", "arrive", "comfort"))
        self.assertEqual(len(front.answers), 3)
        self.assertEqual(front.answers[0], Answer((0, 0, 0, 1, 20000), ("keep", "brake", *["wait"] * 6)))
        self.assertEqual(niskjeld.check(*SCENE, ROAD / "narrow_road.certificate"), front)
        self.assertEqual(niskjeld.plan(*SCENE), front)

    def test_a_rejection_has_its_condition_and_label(self):
        with self.assertRaises(niskjeld.Rejected) as raised:
            niskjeld.check(*SCENE, ROAD / "one_byte.certificate")
        self.assertEqual((raised.exception.condition, raised.exception.label), (5, 108))

    def test_walk_judge_pick_and_compare(self):
        walk = niskjeld.walk(*SCENE, "keep,out,along,back,keep,keep,keep,keep".split(","))
        self.assertEqual((walk.vector, walk.goal), ((1, 3, 2, 0, 0), True))
        judged = niskjeld.judge(*SCENE, ROAD / "driven.records")
        self.assertEqual([one.name for one in judged.layer(0)], ["stays", "waits_and_goes"])
        self.assertEqual((judged.verdicts[1].standing, judged.verdicts[1].rules), (Standing.NEITHER, ("arrive", "oncoming")))
        files = TOP / "examples" / "two_behaviours.book", TOP / "examples" / "two_behaviours.table"
        self.assertEqual([row.name for row in niskjeld.pick(*files)], ["swing_out"])
        self.assertEqual(niskjeld.compare(*files)[0].standing, Standing.SECOND)

    def test_show_accept_and_derive(self):
        shown = niskjeld.show(SCENE[0])
        self.assertEqual((shown.step, [one.id for one in shown.lanelets], shown.problems[0].speed), (500_000, [1, 3, 2], 10_000))
        self.assertEqual(niskjeld.accept(GENERAL / "general_rules.book", GENERAL / "calmer.book"), Derivation.AUGMENTATION)
        derived = niskjeld.derive(GENERAL / "general_rules.book", GENERAL / "region.script")
        self.assertEqual(derived, (GENERAL / "region.derive").read_text())

    def test_a_refusal_has_file_line_and_words(self):
        with tempfile.TemporaryDirectory() as folder:
            book = Path(folder) / "b.book"
            book.write_text("rule a\n\nabove a bb\n")
            with self.assertRaises(niskjeld.Refused) as raised:
                niskjeld.plan(SCENE[0], book, SCENE[2])
        refused = raised.exception
        self.assertEqual((refused.file, refused.line, refused.column, refused.words), (str(book), 3, 9, "unknown-name 3"))

    def test_other_ends_are_raised(self):
        with self.assertRaises(niskjeld.CannotRead) as raised:
            niskjeld.show("nowhere.xml")
        self.assertEqual(raised.exception.file, "nowhere.xml")
        with self.assertRaises(niskjeld.WriteFault):
            niskjeld.plan(*SCENE, "/nowhere/saved")
        with self.assertRaises(niskjeld.TooSlow):
            niskjeld.plan(*SCENE, seconds=1e-6)


class Reading(unittest.TestCase):
    def test_the_diagram_of_a_book(self):
        book = read_book("rule a\nrule b\nrule c\nrule d\nabove a b\nabove b d\nabove a d\nsame b c\n")
        self.assertEqual(book.ranks(), [("a",), ("b", "c"), ("d",)])
        self.assertEqual(book.covers(), [(0, 1), (1, 2)])

    def test_the_place_of_a_fault_in_an_expression(self):
        self.assertEqual([str(one) for one in features_of("max(0, speed - 2) * maneuver(keep)")], ["speed", "maneuver(keep)"])
        for text, at in (("max(0 speed)", 6), ("1 +", 3), ("speed ? 2", 6), ("div(speed, 0)", 11), ("(1", 2), ("1 2", 2)):
            with self.assertRaises(NoExpression) as raised:
                features_of(text)
            self.assertEqual(raised.exception.at, at, text)

    def test_the_page_runs_as_it_stands(self):
        with contextlib.chdir(TOP):
            done = doctest.testfile(str(TOP / "docs" / "PYTHON.md"), module_relative=False)
        self.assertGreater(done.attempted, 30)
        self.assertEqual(done.failed, 0)

    def test_each_tool_tells_wrong_words_in_one_line(self):
        for tool in ("lattice", "explain", "records", "draw", "report", "hostile"):
            done = subprocess.run([sys.executable, TOP / "tools" / tool, "--nothing"], capture_output=True, text=True)
            self.assertEqual((done.returncode, done.stdout, done.stderr.count("\n")), (2, "", 1), tool)
            self.assertTrue(done.stderr.startswith(f"{tool}: "), done.stderr)

    def test_the_tools_are_listed(self):
        done = subprocess.run([sys.executable, "-m", "niskjeld"], cwd=TOP / "python", capture_output=True, text=True)
        self.assertIn("tools/draw", done.stdout)


if __name__ == "__main__":
    unittest.main()
