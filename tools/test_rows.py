"""Tests of tools/rows: python3 tools/test_rows.py. The program is a few lines of shell that echo, save or fail as told."""

import contextlib
import importlib.machinery
import importlib.util
import io
import stat
import sys
import tempfile
import unittest
from pathlib import Path

HERE = Path(__file__).resolve().parent

# The first word is the command: what it prints, saves and ends with.
PROGRAM = """#!/bin/sh
case $1 in
    pick) cat "$2" ;;
    plan) printf 'front\\n'; printf 'saved\\n' >"$5" ;;
    check) printf 'accepted\\nfront\\n' ;;
    spoil) printf 'spoiled\\n' >"$2"; printf 'ok\\n' ;;
    grumble) echo grumble >&2; printf 'ok\\n' ;;
    walk) printf 'refused list no-such-move 1\\n'; exit 1 ;;
esac
"""


def rows_over(top: Path):
    """The script as a module, over this folder in the place of the repository."""
    loader = importlib.machinery.SourceFileLoader("rows_under_test", str(HERE / "rows"))
    module = importlib.util.module_from_spec(importlib.util.spec_from_loader("rows_under_test", loader))
    sys.modules["rows_under_test"] = module
    loader.exec_module(module)
    module.TOP = top
    return module


class Rows(unittest.TestCase):
    def setUp(self):
        made = tempfile.TemporaryDirectory()
        self.addCleanup(made.cleanup)
        self.top = Path(made.name).resolve()
        (self.top / "rows" / "one").mkdir(parents=True)
        (self.top / "examples").mkdir()
        self.program = self.top / "program"
        self.program.write_text(PROGRAM)
        self.program.chmod(self.program.stat().st_mode | stat.S_IXUSR)

    def told(self, rows: str) -> tuple[int, str]:
        """The status of the script over these rows, and what it prints and says."""
        (self.top / "rows" / "one" / "rows.toml").write_text(rows)
        said = io.StringIO()
        module = rows_over(self.top)
        old, sys.argv = sys.argv, ["rows", str(self.program)]
        try:
            with contextlib.redirect_stdout(said), contextlib.redirect_stderr(said):
                return module.main(), said.getvalue()
        finally:
            sys.argv = old

    def holds(self, rows: str, count: int = 1):
        self.assertEqual(self.told(rows), (0, f"rows: {count} passed, 0 failed\n"))

    def fails(self, rows: str, word: str):
        status, said = self.told(rows)
        self.assertEqual(status, 1, said)
        self.assertIn(word, said)

    def test_a_text_is_compared_byte_by_byte(self):
        self.holds('[a]\nwords = "pick f"\nprints = "x\\n"\nfiles.f = "x\\n"\n')
        self.fails('[a]\nwords = "pick f"\nprints = "x"\nfiles.f = "x\\n"\n', "1 failed")
        self.fails('[a]\nwords = "pick f"\nprints_like = "y+"\nfiles.f = "x"\n', "not like")

    def test_the_status_and_standard_error_are_looked_at(self):
        self.holds('[a]\nwords = "walk"\nends = 1\nprints = "refused list no-such-move 1\\n"\n')
        self.fails('[a]\nwords = "walk"\nprints = "refused list no-such-move 1\\n"\n', "ended with 1, not 0")
        self.fails('[a]\nwords = "grumble"\nprints = "ok\\n"\n', "standard error")

    def test_no_other_file_changes(self):
        self.fails('[a]\nwords = "spoil f"\nprints = "ok\\n"\nfiles.f = "x"\n', "a file was changed")
        self.fails('[a]\nwords = "plan s b l c"\nprints = "front\\n"\n', "a file was changed")
        self.holds('[a]\nwords = "plan s b l c"\nprints = "front\\n"\nsaves = "saved\\n"\n')
        self.fails('[a]\nwords = "plan s b l c"\nprints = "front\\n"\nsaves = "other\\n"\n', "saved, wanted")
        self.holds('[a]\nwords = "plan s b l c"\nprints = "front\\n"\nchecked = true\n')

    def test_a_row_stands_for_each_of_its_texts(self):
        each = 'each = [{ before = "", piece = "x" }, { before = "<<", piece = "y" }]\n'
        self.holds('[a]\nwords = "pick f"\nprints_like = "(<<)?[xy]@{at}"\nfiles.f = "{before}{piece}@0"\n'
                   'each = [{ before = "", piece = "x" }]\n')
        self.fails('[a]\nwords = "pick f"\nprints = "{before}{piece}{at}"\nfiles.f = "{before}{piece}2"\n' + each, "1 passed, 1 failed")
        self.holds('[a]\nwords = "pick f"\nprints = "012"\nfiles.f = { text = "{n}", times = 3 }\n')

    def test_what_nothing_reads_or_prints_is_told(self):
        (self.top / "rows" / "one" / "left.book").write_text("rule a\n")
        self.fails('[a]\nwords = "pick f"\nprints = "x"\nfiles.f = "x"\n', "left.book: no row reads it")
        (self.top / "rows" / "one" / "left.book").unlink()
        (self.top / "examples" / "a.pikc").write_text("x\n")
        self.fails('[a]\nwords = "pick f"\nprints = "x"\nfiles.f = "x"\n', "no command prints a file with this ending")

    def test_a_row_that_is_no_row_is_told(self):
        self.fails('[a]\nwords = "pick f"\n', "either prints or prints_like")
        self.fails('[a]\nwords = "pick f"\nprints = "x"\nprint = "x"\n', "unknown: print")
        self.fails('[a]\nwords = "pick f"\nprints = "x"\nfiles.g = "x"\n', "no word names g")


if __name__ == "__main__":
    unittest.main()
