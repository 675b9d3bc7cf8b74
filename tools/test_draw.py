"""Tests of tools/draw: python3 tools/test_draw.py. Expected values are worked out by hand from examples/round_the_car."""

import json
import re
import shutil
import subprocess
import sys
import tempfile
import unittest
from pathlib import Path

TOP = Path(__file__).resolve().parent.parent
ROAD = TOP / "examples" / "narrow_road"
SCENE = TOP / "examples" / "round_the_car" / "round_the_car"


def draw(*words):
    return subprocess.run([sys.executable, TOP / "tools" / "draw", *map(str, words)], capture_output=True, text=True)


def drawn(plan):
    done = draw(SCENE.with_suffix(".xml"), SCENE.with_suffix(".lattice"), plan)
    assert done.returncode == 0, done.stderr
    return done.stdout, json.loads(re.search(r'id="scene">(.*?)</script>', done.stdout, re.S).group(1))


class Drawing(unittest.TestCase):
    def test_the_page_says_what_the_plan_says(self):
        text, scene = drawn(SCENE.with_suffix(".plan"))
        self.assertEqual(scene["rules"], ["collision", "lane", "speed", "accel", "turn"])
        self.assertEqual([(d["letter"], d["vector"], d["names"]) for d in scene["drives"]], [("A", [0, 4, 0, 0, 300000], ["sharp"]), ("B", [0, 4, 0, 1000, 100000], ["soft"])])
        # both end 10 m ahead and 4 m to the left; the vehicle is 4.5 m by 1.8 m
        self.assertEqual(scene["drives"][0]["path"], [[0, 0], [10, 4]])
        self.assertEqual(scene["drives"][1]["bodies"][1], [[12.25, 3.1], [12.25, 4.9], [7.75, 4.9], [7.75, 3.1]])
        self.assertEqual(scene["obstacles"][0]["places"][1], [[[12.25, -0.9], [12.25, 0.9], [7.75, 0.9], [7.75, -0.9]]])
        self.assertEqual(scene["lanelets"][0]["corners"], [[-50, 2], [150, 2], [150, -2], [-50, -2]])
        self.assertEqual(scene["goals"], [[[12, -6], [12, 6], [8, 6], [8, -6]]])
        self.assertEqual(re.findall(r"<th class=differ>(\w+)", text), ["accel", "turn"])
        self.assertNotIn("http://", text.replace("http://www.w3.org/2000/svg", ""))

    def test_what_is_near_is_shown(self):
        # driven: -2.25 to 12.25 ahead, -0.9 to 4.9 to the left; the goal reaches from -6 to 6; 4 m more on each side
        text, _ = drawn(SCENE.with_suffix(".plan"))
        self.assertIn('<svg viewBox="-6.250 -10.000 22.500 20.000" id="map"', text)

    def test_what_check_prints_is_drawn_too(self):
        self.assertEqual(drawn(SCENE.with_suffix(".check"))[1], drawn(SCENE.with_suffix(".plan"))[1])

    def test_no_answer_is_said(self):
        with tempfile.TemporaryDirectory() as folder:
            plan = Path(folder) / "plan"
            plan.write_text("rules a\nnone\n")
            text, scene = drawn(plan)
        self.assertEqual(scene["drives"], [])
        self.assertIn("No trajectory reaches the goal", text)

    def test_a_moving_obstacle_is_where_it_is_at_each_tick(self):
        car = '<dynamicObstacle id="7"><shape><circle><radius>1</radius></circle></shape><initialState><position><point><x>3</x><y>5</y></point></position><orientation><exact>0</exact></orientation><time><exact>0</exact></time></initialState></dynamicObstacle>'
        with tempfile.TemporaryDirectory() as folder:
            scenario = Path(folder) / "scene.xml"
            scenario.write_text(SCENE.with_suffix(".xml").read_text().replace("<planningProblem", car + "<planningProblem"))
            done = draw(scenario, SCENE.with_suffix(".lattice"), SCENE.with_suffix(".plan"))
        scene = json.loads(re.search(r'id="scene">(.*?)</script>', done.stdout, re.S).group(1))
        moving = scene["obstacles"][1]
        self.assertEqual(moving["places"][0][0][0], [4, 5])
        self.assertEqual(moving["places"][1], [])

    def road(self, *words):
        done = draw(ROAD / "narrow_road.xml", ROAD / "narrow_road.lattice", *words)
        self.assertEqual((done.returncode, done.stderr), (0, ""))
        return done.stdout, json.loads(re.search(r'id="scene">(.*?)</script>', done.stdout, re.S).group(1))

    def test_the_curves_end_in_the_vectors(self):
        text, scene = self.road(ROAD / "narrow_road.plan", "--book", ROAD / "narrow_road.book")
        patient, tight, wide = (drive["added"] for drive in scene["drives"])
        # arrive is the only final part; comfort counts 10,000 for each of the steps of a brake and of a start
        self.assertEqual([rule[-1] for rule in patient], [0, 0, 0, 0, 20000])
        self.assertEqual([rule[-1] for rule in tight], [0, 1, 2, 0, 40000])
        self.assertEqual([rule[-1] for rule in wide], [0, 3, 1, 0, 40000])
        self.assertEqual(patient[4], [0, 0, 0, 10000, *[20000] * 13])
        self.assertIn('<select id="chosen">', text)

    def test_the_order_of_the_rules_is_drawn(self):
        text, _ = self.road(ROAD / "narrow_road.plan", "--book", ROAD / "narrow_road.book")
        order = re.search(r'<svg class="order".*?</svg>', text, re.S).group()
        self.assertEqual((order.count("<line"), order.count("<rect"), order.count("<text")), (6, 5, 5))
        self.assertIn("collision above oncoming", order)

    def test_what_judge_prints_is_drawn(self):
        text, scene = self.road(ROAD / "driven.judge", "--records", ROAD / "driven.records")
        self.assertEqual([(d["names"], d["layer"]) for d in scene["drives"]], [(["stays"], 0), (["goes_at_once"], 1), (["waits_and_goes"], 0)])
        self.assertIn("<code>stays goes_at_once first collision</code>", text)
        self.assertEqual(len(scene["drives"][0]["path"]), 17)

    def test_the_page_of_the_city_is_what_is_drawn(self):
        city = [TOP / "examples" / "city" / f"city.{ending}" for ending in ("xml", "lattice", "plan", "book", "html")]
        self.assertEqual(draw(*city[:3], "--book", city[3]).stdout, city[4].read_text())

    @unittest.skipUnless(shutil.which("chromium"), "there is no chromium")
    def test_a_browser_plays_it_without_a_mouse(self):
        text, _ = self.road(ROAD / "narrow_road.plan", "--book", ROAD / "narrow_road.book")
        keys = "<script>document.body.dispatchEvent(new KeyboardEvent('keydown',{key:' ',bubbles:true}));"
        keys += "chosen.value=1;chosen.onchange();setTimeout(()=>play.click(),3200)</script></body>"
        with tempfile.TemporaryDirectory() as folder:
            page = Path(folder) / "page.html"
            page.write_text(text.replace("</body>", keys))
            browser = ["chromium", "--headless", "--no-sandbox", "--disable-gpu", f"--user-data-dir={folder}/profile"]
            done = subprocess.run([*browser, "--virtual-time-budget=9000", "--dump-dom", page.as_uri()], capture_output=True, text=True, timeout=60)
        # half a second a tick: after 3.2 s it stops at tick 6
        self.assertIn('<b id="tick">tick 6 of 16</b>', done.stdout)
        self.assertIn(">20000 of 40000<", done.stdout)

    def test_a_scene_far_from_the_origin_is_moved_to_it(self):
        # at 5,334 km single precision is half a metre; the origin is a whole number of ten metres near the start
        with tempfile.TemporaryDirectory() as folder:
            scenario = Path(folder) / "far.xml"
            text = SCENE.with_suffix(".xml").read_text()
            scenario.write_text(re.sub(r"<x>(-?\d+)</x>", lambda found: f"<x>{int(found[1]) + 5334212}.25</x>", text))
            done = draw(scenario, SCENE.with_suffix(".lattice"), SCENE.with_suffix(".plan"))
        scene = json.loads(re.search(r'id="scene">(.*?)</script>', done.stdout, re.S).group(1))
        self.assertEqual((scene["origin"], scene["drives"][0]["path"]), ([5334210, 0], [[2.25, 0], [12.25, 4]]))

    def test_faults_are_told_in_one_line(self):
        book = SCENE.with_suffix(".book")
        for words, said in [
            ((book, SCENE.with_suffix(".lattice"), SCENE.with_suffix(".plan")), "not well-formed"),
            ((SCENE.with_suffix(".xml"), book, SCENE.with_suffix(".plan")), "round_the_car.book"),
            ((SCENE.with_suffix(".xml"), SCENE.with_suffix(".lattice"), book), "not what plan or check prints"),
            ((SCENE.with_suffix(".xml"), SCENE.with_suffix(".lattice"), "nowhere"), "nowhere"),
        ]:
            done = draw(*words)
            self.assertEqual((done.returncode, done.stdout, done.stderr.count("\n")), (1, "", 1))
            self.assertTrue(done.stderr.startswith("draw: ") and said in done.stderr, done.stderr)


if __name__ == "__main__":
    unittest.main()
