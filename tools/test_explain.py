"""Tests of tools/explain: python3 tools/test_explain.py. Each refusal of rows/ and examples/ has its sentence, and its place if it has one."""

import importlib.machinery
import importlib.util
import re
import subprocess
import sys
import tempfile
import unittest
from pathlib import Path

TOP = Path(__file__).resolve().parent.parent
sys.path.insert(0, str(TOP / "python"))

from niskjeld.explaining import explained  # noqa: E402
from niskjeld.program import ROLES, Call, call  # noqa: E402
from niskjeld.refusals import Refusal, Rejected, raised  # noqa: E402
from niskjeld.telling import tell  # noqa: E402

# Faults of a file that have no place in it.
PLACELESS = {"too-long", "empty", "no-rules"}
EXAMPLE = TOP / "examples" / "ease_left" / "ease_left"
COMMANDS = {"table": "pick", "records": "judge", "certificate": "check", "script": "derive", "child": "accept", "list": "walk"}
# Of each page the header of a table of faults, the column in which they stand, and the role of the file.
TABLES = (
    ("README.md", "| FAULT of a book | When |", 1, "book"),
    ("README.md", "| FAULT of a table | When |", 1, "table"),
    ("README.md", "| FAULT | When |", 1, "book"),
    ("docs/SCENARIOS.md", "| Fault | When |", 1, "scenario"),
    ("docs/LATTICES.md", "| # | What is looked at | FAULT |", 3, "lattice"),
    ("docs/RECORDINGS.md", "| Fault | When |", 1, "records"),
    ("docs/CERTIFICATES.md", "| FAULT | When |", 1, "certificate"),
)
NAMES = {"X": "0,1", "Y": "1,0", "KIND": "lanelet", "KEY": "horizon"}
# Lines of a page that name faults in a sentence.
LINES = (
    ("docs/DERIVING.md", "They are printed as `syntax N`", ("script",)),
    ("docs/DERIVING.md", "They are printed as `rules-differ A`", ("script", "child")),
    ("README.md", "A name of LIST that no choice has", ("list",)),
)


def rows_module():
    loader = importlib.machinery.SourceFileLoader("rows_of_explain", str(TOP / "tools" / "rows"))
    module = importlib.util.module_from_spec(importlib.util.spec_from_loader("rows_of_explain", loader))
    sys.modules["rows_of_explain"] = module
    loader.exec_module(module)
    return module


def explain(*words):
    return subprocess.run([sys.executable, TOP / "tools" / "explain", *map(str, words)], capture_output=True, text=True)


def faults_in(text):
    """The faults in backticks, with 1 in the place of a number and a name in the place of a name."""
    for words in re.findall(r"`(?:refused list )?([a-z][a-z0-9-]*(?: [A-Za-z,]+)*)`", text):
        fault, *about = words.split()
        if fault not in ROLES and all(word.isupper() or word in ("class", "maneuver", "step", "choice") for word in about):
            yield fault, tuple("1" if word in ("N", "K", "P", "ID", "ROW") else NAMES.get(word, word) for word in about)


def faults_of_pages():
    for page, header, column, role in TABLES:
        lines = (TOP / page).read_text().splitlines()
        for line in lines[lines.index(header) + 2 :]:
            if not line.startswith("|"):
                break
            yield from ((role, *one) for one in faults_in(line.split("|")[column]))
    for page, begins, roles in LINES:
        line = next(line for line in (TOP / page).read_text().splitlines() if line.startswith(begins))
        yield from ((role, *one) for role in roles for one in faults_in(line))


class Rows(unittest.TestCase):
    def told(self, rows, row):
        with tempfile.TemporaryDirectory() as made:
            folder = Path(made)
            rows.laid_out(row, folder)
            printed = row.prints.decode() if row.prints is not None else call(*row.words, folder=folder).printed
            refusal = Refusal.read(printed)
            self.assertIsNotNone(refusal, (row.name, printed))
            return refusal, tell(Call(tuple(row.words), 1, printed), refusal.role, refusal.fault, refusal.about, folder)

    def test_every_refused_row_is_told_with_its_place(self):
        rows = rows_module()
        seen = set()
        for row in (*rows.kept_rows(), *rows.example_rows()):
            if row.ends != 1:
                continue
            refusal, told = self.told(rows, row)
            seen.add((refusal.role, refusal.fault))
            with self.subTest(row=row.name, words=refusal.words):
                self.assertNotEqual(told.sentence, refusal.words)
                self.assertGreaterEqual(len(told.sentence.split()), 4, told.sentence)
                self.assertNotIn("\n", told.sentence)
                if refusal.fault not in PLACELESS:
                    self.assertTrue(told.place.line and told.place.column, f"{told} has no line or no column")
                if refusal.about and refusal.role in ("book", "table") and refusal.about[0].isdigit():
                    self.assertEqual(told.place.line, int(refusal.about[0]))
        self.assertGreater(len(seen), 60)

    def test_every_fault_of_the_pages_has_its_sentence(self):
        seen = set()
        for role, fault, about in faults_of_pages():
            words = (COMMANDS.get(role, "plan"), *[str(EXAMPLE)] * 4)
            told = tell(Call(words, 1, ""), role, fault, about)
            self.assertNotEqual(told.sentence, " ".join((fault, *about)), f"refused {role} {fault}")
            seen.add((role, fault))
        wanted = {"book": 12, "table": 7, "scenario": 14, "lattice": 8, "records": 9, "certificate": 6, "script": 11, "child": 5, "list": 1}
        counted = {role: sum(one == role for one, _ in seen) for role in wanted}
        self.assertTrue(all(counted[role] >= number for role, number in wanted.items()), counted)

    def test_every_condition_has_its_sentence(self):
        for condition in range(1, 9):
            fault = raised(Call(("check", "s", "b", "l", "c"), 6, f"rejected {condition} 3\n"))
            self.assertIsInstance(fault, Rejected)
            self.assertIn(f"condition {condition}: ", str(fault))


class Sentences(unittest.TestCase):
    def setUp(self):
        made = tempfile.TemporaryDirectory()
        self.addCleanup(made.cleanup)
        self.folder = Path(made.name)

    def changed(self, ending, old, new):
        """The example with this text changed in the file with this ending, as the words of plan."""
        words = []
        for one in ("xml", "book", "lattice"):
            text = EXAMPLE.with_suffix(f".{one}").read_text()
            if one == ending:
                self.assertIn(old, text)
                text = text.replace(old, new, 1)
            (self.folder / f"x.{one}").write_text(text)
            words.append(str(self.folder / f"x.{one}"))
        return ["plan", *words, str(self.folder / "saved")]

    def says(self, words, *pieces, status=1):
        done = explain(*words)
        self.assertEqual((done.returncode, done.stderr), (status, ""), done.stdout)
        for piece in pieces:
            self.assertIn(piece, done.stdout)
        return done.stdout

    def test_the_line_and_a_mark_are_shown(self):
        said = self.says(self.changed("book", "above limit comfort", "above limit comfrot"), "x.book:12:13: ", "is it `comfort`?")
        self.assertEqual(said.splitlines()[1:], ["   12 | above limit comfrot", "      |             ^^^^^^^"])

    def test_a_missing_element(self):
        self.says(self.changed("xml", "<exact>10</exact>", "<intervalStart>10</intervalStart>"), "has no <exact>: an interval stands")

    def test_an_unknown_feature_names_what_is_near(self):
        self.says(self.changed("book", "headway)", "headways)"), "measures `headways`", "is it `headway`")
        self.says(self.changed("book", "1 overlaps ", "1 maneuver(kep) "), "is it `keep`")

    def test_an_end_mismatch_has_both_values(self):
        self.says(self.changed("lattice", "8000, -10000, -500000", "8001, -10000, -500000"), "ends with speed 8001", "has speed 8000")

    def test_a_class_that_no_longer_fits_is_told_by_its_maneuver(self):
        self.says(self.changed("lattice", "speed = 10000", "speed = 11000"), "`keep` ends with speed 10000")
        self.says(self.changed("lattice", "heading = 0 ", "heading = 1 "), "`keep` ends with heading 0")

    def test_none_says_why(self):
        words = self.changed("lattice", "horizon = 4", "horizon = 1")
        self.says(words, "no list of maneuvers", "lies past the lattice's horizon", status=0)
        speed = "</time><velocity><intervalStart>20</intervalStart><intervalEnd>30</intervalEnd></velocity></goalState>"
        self.says(self.changed("xml", "</time></goalState>", speed), "no class meets the goal's speed, 20 to 30 m/s", status=0)

    def test_what_was_printed_before_is_read(self):
        (self.folder / "printed").write_text("refused table syntax 1\n")
        (self.folder / "t").write_text("7 1\n")
        said = self.says(["--printed", self.folder / "printed", "pick", "b", self.folder / "t"], ":1:1: `7` is no name")
        self.assertEqual(len(said.splitlines()), 3)

    def test_other_ends_are_said(self):
        self.says(["show", "nowhere.xml"], "nowhere.xml: the scenario can't be read", status=3)
        self.says(["shwo", "nowhere.xml"], "no such command", status=2)
        done = explain("--printed", "nowhere", "plan")
        self.assertEqual((done.returncode, done.stdout, done.stderr.count("\n")), (70, "", 1))
        self.assertIn("nothing to explain", explained(Call(("show", "x"), 0, "version 2020a\n")))


if __name__ == "__main__":
    unittest.main()
