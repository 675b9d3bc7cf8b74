"""Tests of tools/hostile: python3 tools/test_hostile.py. The programs are a few lines of shell that do what none may."""

import random
import subprocess
import sys
import tempfile
import unittest
from pathlib import Path

TOP = Path(__file__).resolve().parent.parent
sys.path.insert(0, str(TOP / "python"))

from niskjeld.hostility.changes import CHANGES, changed  # noqa: E402
from niskjeld.hostility.inputs import trials  # noqa: E402
from niskjeld.hostility.outcomes import wrong_with  # noqa: E402
from niskjeld.hostility.run import Found, try_one  # noqa: E402
from niskjeld.program import ROLES, find_program  # noqa: E402


class Hostile(unittest.TestCase):
    def setUp(self):
        made = tempfile.TemporaryDirectory()
        self.addCleanup(made.cleanup)
        self.folder = Path(made.name)

    def wrong(self, shell: str, *, against: str | None = None) -> list[str]:
        """What is found of a program of shell over the first plan."""
        programs = []
        for name, text in (("program", shell), ("other", against)):
            if text is not None:
                programs.append(self.folder / name)
                programs[-1].write_text(f"#!/bin/sh\n{text}\n")
                programs[-1].chmod(0o755)
        found = Found()
        trial = next(one for one in trials() if one.words[0] == "plan")
        try_one(programs[:1], programs[1] if against else None, trial, found, Path(tempfile.mkdtemp(dir=self.folder)))
        return found.wrong

    def test_what_may_not_be_is_found(self):
        refused = "echo refused book no-rules; exit 1"
        self.assertEqual(self.wrong(refused), [])
        for shell, said in (
            ("kill -SEGV $$", "ended by signal 11"),
            ("exit 9", "it ended with 9"),
            ("echo refused; exit 1", "with status 1 it printed"),
            ("echo none", "with status 0 it printed"),
            ("echo oops >&2; " + refused, "on standard error"),
            ("echo x >other; " + refused, "a file was changed or made"),
            ("echo x >s.book; " + refused, "a file was changed or made"),
            ("echo x >saved; " + refused, "its certificate was saved"),
            ("echo rules a; echo none", "its certificate was not saved"),
            ("i=0; while [ $i -lt 4000000 ]; do i=$((i+1)); done; " + refused, "it took"),
        ):
            wrong = self.wrong(shell)
            self.assertEqual(len(wrong), 1, shell)
            self.assertIn(said, wrong[0])

    def test_another_program_decides(self):
        self.assertEqual(self.wrong("echo refused book no-rules; exit 1", against="echo refused book no-rules; exit 1"), [])
        wrong = self.wrong("echo refused book no-rules; exit 1", against="echo refused book not-utf8; exit 1")
        self.assertIn("another program with 1", wrong[0])

    def test_what_went_wrong_is_kept(self):
        wrong = self.wrong("exit 9")
        folder = Path(wrong[0].split(":")[0])
        self.assertEqual((folder / "words").read_text().splitlines()[0], "plan")
        self.assertTrue((folder / "s.xml").is_file())

    def test_every_command_is_tried(self):
        self.assertEqual({one.words[0] for one in trials()} | {"sample"}, set(ROLES))

    def test_changes_change(self):
        dice, text = random.Random(3), (TOP / "examples" / "fork" / "fork.lattice").read_bytes()
        for change in CHANGES:
            self.assertTrue(any(change(text, dice) != text for _ in range(5)), change.__name__)
        self.assertEqual(changed(b"", dice) is not None, True)

    def test_ends_have_their_forms(self):
        self.assertIsNone(wrong_with("plan", 0, b"rules a b\nfront 1\n0 1 : p q\n", b""))
        self.assertIsNone(wrong_with("plan", 0, b"rules a b\nfront 1\n0 1 :\n", b""))
        self.assertIsNotNone(wrong_with("plan", 0, b"rules a b\nfront 1\n", b""))
        self.assertIsNotNone(wrong_with("check", 5, b"accepted\n", b""))

    def test_the_program_stands_for_a_second(self):
        done = subprocess.run([sys.executable, TOP / "tools" / "hostile", "1", str(find_program())], capture_output=True, text=True)
        self.assertEqual((done.returncode, done.stderr), (0, ""), done.stdout)
        self.assertTrue(done.stdout.endswith("hostile: 0 wrong\n"))

    def test_faults_are_told_in_one_line(self):
        done = subprocess.run([sys.executable, TOP / "tools" / "hostile", "1", "nowhere"], capture_output=True, text=True)
        self.assertEqual((done.returncode, done.stdout, done.stderr.count("\n")), (2, "", 1))


if __name__ == "__main__":
    unittest.main()
