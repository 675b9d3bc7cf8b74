"""Tests of tools/report: python3 tools/test_report.py. Scenes are those of examples/narrow_road, some of them changed."""

import json
import os
import re
import shutil
import signal
import socket
import subprocess
import sys
import tempfile
import time
import unittest
from pathlib import Path

TOP = Path(__file__).resolve().parent.parent
ROAD = TOP / "examples" / "narrow_road"
REPORT = TOP / "tools" / "report"
DEBIAN = "/usr/bin/python3"


def has_dask() -> bool:
    found = shutil.which("dask-scheduler") and shutil.which("dask-worker") and Path(DEBIAN).exists()
    return bool(found) and subprocess.run([DEBIAN, "-c", "import distributed"], capture_output=True).returncode == 0


class Folder(unittest.TestCase):
    def setUp(self):
        made = tempfile.TemporaryDirectory()
        self.addCleanup(made.cleanup)
        self.folder, self.out = Path(made.name) / "scenes", Path(made.name) / "pages"
        self.folder.mkdir()
        self.words = [self.folder, "--book", ROAD / "narrow_road.book", "--lattice", ROAD / "narrow_road.lattice", "-o", self.out]

    def scenes(self, number: int, change=lambda text, k: text):
        text = (ROAD / "narrow_road.xml").read_text()
        for k in range(number):
            (self.folder / f"s{k:02}.xml").write_text(change(text, k))

    def command(self, *words, python=sys.executable):
        return [str(word) for word in (python, REPORT, *self.words, *words)]

    def report(self, *words, status=0):
        done = subprocess.run(self.command(*words), capture_output=True, text=True)
        self.assertEqual((done.returncode, done.stderr), (status, ""), done.stdout)
        return done.stdout, (self.out / "index.html").read_text()

    def results(self):
        return {path.stem: path.stat().st_mtime_ns for path in (self.out / "results").glob("*.json")}


class Reports(Folder):
    def test_a_row_and_pages_for_each_scenario(self):
        self.scenes(2, lambda text, k: text if k else text.replace("<exact>10</exact>", "<exact>ten</exact>", 1))
        (self.folder / "below").mkdir()
        shutil.copy(ROAD / "narrow_road.xml", self.folder / "below" / "t.xml")
        said, index = self.report(status=1)
        self.assertIn("3 scenarios: 2 with answers, each checked; 0 with none; 1 refused", said)
        self.assertEqual(re.findall(r'<tr><td class="left">(\w+)<', index), ["below__t", "s00", "s01"])
        self.assertIn("`ten` in &lt;exact&gt; is no number", index)
        self.assertIn('<a href="s01.html">3</a>', index)
        self.assertIn('<svg class="order"', (self.out / "below__t.html").read_text())

    def test_what_changes_with_a_second_book(self):
        self.scenes(1)
        _, index = self.report("--against", ROAD / "patient.book")
        # by patient.book the first answer alone remains; the README tells why
        self.assertIn("2 went, 0 came; by ", index)
        told = json.loads((self.out / "results" / "s00.json").read_text())["result"]
        self.assertEqual([len(one["answers"]) for one in told["books"]], [3, 1])
        self.assertEqual([one["by"] for one in told["went"]], [["keep", "brake", *["wait"] * 6]] * 2)
        self.assertTrue((self.out / "s00.against.html").is_file())

    def test_a_lattice_is_made_where_there_is_none(self):
        self.scenes(1)
        self.words = [self.folder, "--book", ROAD / "narrow_road.book", "-o", self.out]
        said, _ = self.report()
        self.assertIn("1 with answers", said)
        self.assertTrue((self.out / "s00.lattice").read_text().startswith("# Made by tools/lattice"))

    def test_it_goes_on_where_it_was_stopped(self):
        self.scenes(30)
        began = subprocess.Popen(self.command("--jobs", "1"), stdout=subprocess.DEVNULL, stderr=subprocess.DEVNULL, start_new_session=True)
        while began.poll() is None and (not (self.out / "results").is_dir() or len(self.results()) < 5):
            time.sleep(0.02)
        self.assertIsNone(began.poll())
        os.killpg(began.pid, signal.SIGKILL)
        began.wait()
        before = self.results()
        self.assertLess(len(before), 30)
        said, index = self.report()
        after = self.results()
        self.assertEqual((len(after), index.count('<tr><td class="left">')), (30, 30))
        self.assertEqual({name: after[name] for name in before}, before)
        self.assertIn("30 with answers", said)
        # another book is another work; the same again is none
        self.assertEqual(self.report()[0], said)
        self.assertEqual(self.results(), after)

    def test_faults_are_told_in_one_line(self):
        book, out = ROAD / "narrow_road.book", self.out
        for words, said in (
            ([self.folder, "--book", book, "-o", out], "no scenario (*.xml) in this folder"),
            ([ROAD, "--book", "nowhere.book", "-o", out], "nowhere.book: no such file"),
            ([ROAD, "--book", book, "-o", book], "narrow_road.book"),
        ):
            done = subprocess.run([sys.executable, REPORT, *map(str, words)], capture_output=True, text=True)
            self.assertEqual((done.returncode, done.stdout, done.stderr.count("\n")), (2, "", 1), done.stderr)
            self.assertIn(said, done.stderr)

    def test_without_dask_a_line_says_what_to_install(self):
        self.scenes(1)
        nowhere = "import sys; sys.modules['distributed'] = None; sys.argv = sys.argv[1:]; import runpy; runpy.run_path(sys.argv[0], run_name='__main__')"
        words = self.command("--scheduler", "tcp://127.0.0.1:1")[1:]
        done = subprocess.run([sys.executable, "-c", nowhere, *words], capture_output=True, text=True)
        self.assertEqual((done.returncode, done.stderr.count("\n")), (2, 1), done.stderr)
        self.assertIn("apt install python3-distributed", done.stderr)


@unittest.skipUnless(has_dask(), "there is no python3-distributed")
class Clusters(Folder):
    def started(self, *words):
        process = subprocess.Popen(words, stdout=subprocess.DEVNULL, stderr=subprocess.DEVNULL, start_new_session=True, cwd=self.out.parent)
        self.addCleanup(process.wait)
        self.addCleanup(process.kill)
        return process

    def test_a_worker_ends_half_way_and_nothing_is_lost_or_counted_twice(self):
        self.scenes(40)
        with socket.socket() as free:
            free.bind(("127.0.0.1", 0))
            address = f"tcp://127.0.0.1:{free.getsockname()[1]}"
        self.started("dask-scheduler", "--host", address, "--no-dashboard")
        worker = ("dask-worker", address, "--nthreads", "1", "--no-nanny", "--no-dashboard", "--local-directory", str(self.out.parent))
        workers = [self.started(*worker) for _ in range(2)]
        began = subprocess.Popen(
            self.command("--scheduler", address, python=DEBIAN), stdout=subprocess.PIPE, stderr=subprocess.PIPE, text=True
        )
        while began.poll() is None and (not (self.out / "results").is_dir() or len(self.results()) < 8):
            time.sleep(0.02)
        workers[0].kill()
        done = len(self.results()) if (self.out / "results").is_dir() else 0
        said, faults = began.communicate(timeout=60)
        self.assertEqual(began.returncode, 0, faults)
        self.assertLess(done, 40)
        self.assertIn("40 scenarios: 40 with answers, each checked", said)
        self.assertEqual(len(self.results()), 40)
        names = re.findall(r'<tr><td class="left">(\w+)<', (self.out / "index.html").read_text())
        self.assertEqual(names, [f"s{k:02}" for k in range(40)])


if __name__ == "__main__":
    unittest.main()
