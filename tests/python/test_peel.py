"""vengutari peel on made files of one to four modes: rounds, labels and certificates against the truth and against an enumeration."""

import csv
import itertools
import json
import re
import unittest

from made_points import Made, run
from made_requests import Folder, cost, records

FOUR = Made([(0.9, -20.0), (0.5, 200.0), (0.1, 600.0), (-0.4, 1500.0)], [(300, 4000)], 240, noise=0.7, outliers=0.05, gaps=4, seed=41)
WORDS = ["--x=x1", "--y=y", "--epsilon=3", "--quiet"]
SMALL = Made([(0.5, 12.0), (0.2, 30.0)], [(0, 100)], 30, noise=0.4, outliers=0.1, gaps=1, seed=42)


class Peel(Folder):
    def peeled(self, made, *words):
        self.write("points.csv", made.text())
        files = ["--json=peel.json", "--labels=labels.csv", "--coefficients=upload.txt", "--report=page.html", "--force"]
        status, out, err = run("peel", "points.csv", *words, *files)
        self.assertEqual(err, "")
        return status, out, json.loads(self.read("peel.json"))

    def test_four_modes(self):
        """Each round finds one of the lines behind the points, whatever box: the one that most of the points left lie on."""
        status, out, found = self.peeled(FOUR, *WORDS)
        self.assertEqual((status, found["kind"], len(found["rounds"])), (0, "solved", 4))
        true = {}
        for made in found["rounds"]:
            values = list(made["coefficients"].values())
            def off(j, values=values):
                return max(abs(values[0] * x + values[1] - FOUR.value(j, [x])) for x in (300, 4000))
            true[made["round"]] = min(range(4), key=off)
            self.assertLess(off(true[made["round"]]), 3)
            self.assertIn(made["equation"], out)
            self.assertIn(f"no other line in this box and on this grid holds more of the {made['points']} points then left", out)
        self.assertEqual(sorted(true.values()), [0, 1, 2, 3])
        with open("labels.csv", encoding="utf-8", newline="") as file:
            labels = [row["label"] for row in csv.DictReader(file)]
        for x, y, truth, label in zip(FOUR.x, FOUR.y, FOUR.labels, labels):
            near = y is not None and sum(abs(y - FOUR.value(j, x)) <= 8 for j in range(4)) > 1
            if not near:
                self.assertEqual(label, "6" if truth is None else str(next(r for r, j in true.items() if j == truth - 1)) if truth else "0")

    def test_the_points_add_up(self):
        _, out, found = self.peeled(FOUR, *WORDS)
        before = FOUR.count - FOUR.labels.count(None)
        for made in found["rounds"]:
            self.assertEqual((made["points"], made["held"], made["left"]), (before, made["removed"], before - made["removed"]))
            self.assertIn(f"({made['removed']} points removed, {made['left']} left, RMS ", out)
            self.assertEqual(made["removed"], found["labels"][f"line {made['round']}"])
            before = made["left"]
        self.assertEqual(found["left"], before)
        self.assertIn(f"rows: 240, of them {before} left, 4 gaps\n", out)
        page = self.read("page.html")
        for made in found["rounds"]:
            self.assertIn(f"line {made['round']}, {made['removed']}</span>", page)
        self.assertIn(f"left, {before}</span>", page)
        self.assertEqual(len(re.findall("<title>row ", page.split("<h2>Residuals")[0])), 236)

    def test_each_certificate_against_enumeration(self):
        """In a small box: no vector fits more of the points that the labels say were left, and the line is the first that fits as many."""
        words = ["--x=x1", "--y=y", "--epsilon=1.5", "--quiet", "--box=0.1:0.6,10:40", "--scale=5", "--x-step=1", "--y-step=0.5"]
        status, _, found = self.peeled(SMALL, *words)
        self.assertEqual((status, found["end"]), (0, "the last of them holding none of the points left"))
        whole = records(found, [(*map(str, x), "" if y is None else str(y)) for x, y in zip(SMALL.x, SMALL.y)])
        with open("labels.csv", encoding="utf-8", newline="") as file:
            labels = [int(row["label"]) for row in csv.DictReader(file)]
        sides = [range(side["w"][0], side["w"][1] + 1) for side in found["box"]]
        self.assertLess(len(sides[0]) * len(sides[1]), 30_000)
        for made in found["rounds"]:
            left = [point for point, label in zip(whole, labels) if label in (0, *range(made["round"], 5))]
            costs = {vector: cost(found, left, vector, found["settings"]["epsilon_whole"], 0) for vector in itertools.product(*sides)}
            least = min(costs.values())
            self.assertEqual((made["cost"], made["bound"]), (least, least))
            self.assertEqual(tuple(made["vector"]), next(vector for vector, value in costs.items() if value == least))

    def test_fewer_rounds(self):
        """--most ends them; so does a file with no point left, and the file then has one mode."""
        for most in (1, 2):
            _, out, found = self.peeled(FOUR, *WORDS, f"--most={most}")
            self.assertEqual(len(found["rounds"]), most)
            self.assertTrue(out.startswith(f"solved: {most} round{'s' if most > 1 else ''}, as many as --most allows; "), out)
        one = Made([(0.5, 12.0)], [(0, 1000)], 40, noise=0.3, outliers=0.0, seed=43)
        _, out, found = self.peeled(one, *WORDS)
        self.assertEqual((len(found["rounds"]), found["left"]), (1, 0))
        self.assertTrue(out.startswith("solved: 1 round, until no point was left; 0 points left"), out)

    def test_a_round_that_is_not_solved(self):
        """It removes nothing, and its bound is given; the rounds before it hold."""
        status, out, found = self.peeled(FOUR, *WORDS, "--splits=20")
        last = found["rounds"][-1]
        self.assertEqual((status, found["kind"], last["kind"], last["removed"]), (3, "spent", "spent", 0))
        self.assertTrue(out.startswith("spent, all splits are used: "), out)
        self.assertIn("(spent: not solved, so none of the ", out)
        self.assertLess(last["held"], last["points"] - last["bound"])
        most = last["points"] - last["bound"]
        self.assertIn(f"holds more than {most} of the {last['points']} points then left, this one holds {last['held']}", out)
        self.assertIn("next: ", out)
        self.assertGreaterEqual(last["points"] - last["bound"], 40)
        tolerant = self.peeled(FOUR, *WORDS, "--tolerance=240", "--splits=20")
        self.assertEqual((tolerant[0], tolerant[2]["rounds"][0]["splits"]), (0, 0))

    def test_the_box_holds_every_line_through_the_range(self):
        """Lines from any corner of the data's range to any other, in a file of four points at its corners."""
        self.write("corners.csv", "x,y\n" + "".join(f"{x},{y}\n" for x in (100, 900) for y in (50, 2050)))
        run("peel", "corners.csv", "--x=x", "--y=y", "--epsilon=1", "--quiet", "--json=peel.json")
        box = json.loads(self.read("peel.json"))["box"]
        place = float(box[1]["meaning"].rpartition("= ")[2])
        for a, b in itertools.product((50, 2050), repeat=2):
            slope = (b - a) / 800
            self.assertTrue(box[0]["low"] <= slope <= box[0]["high"])
            self.assertTrue(box[1]["low"] <= a + slope * (place - 100) <= box[1]["high"])

    def test_through_0_and_two_columns(self):
        two = Made([(0.9, -2.0, 10.0), (-0.3, 1.0, 400.0)], [(0, 1000), (-20, 60)], 50, noise=0.5, outliers=0.0, x_decimals=1, seed=44)
        _, _, found = self.peeled(two, "--x=x1,x2", "--y=y", "--epsilon=3", "--offset", "--most=2", "--quiet", "--tolerance=1",
                                  "--box=-1:1,-3:3,0:450", "--origin=0,0")
        for made, true in zip(found["rounds"], sorted(two.lines, key=lambda line: -two.labels.count(two.lines.index(line) + 1))):
            for value, expected, most in zip(made["coefficients"].values(), true, (0.01, 0.2, 5)):
                self.assertLess(abs(value - expected), most)
        through = Made([(0.5, 0.0), (0.2, 0.0)], [(100, 1000)], 40, noise=0.5, outliers=0.0, seed=45)
        _, _, found = self.peeled(through, *WORDS, "--no-offset")
        self.assertEqual([round(made["coefficients"]["x1"], 1) for made in found["rounds"]],
                         [0.5, 0.2] if through.labels.count(1) >= through.labels.count(2) else [0.2, 0.5])

    def test_parts_of_a_file(self):
        self.write("points.csv", FOUR.text())
        status, out, _ = run("peel", "points.csv", *WORDS, "--rows=41:200", "--every=2")
        self.assertEqual(status, 0)
        self.assertIn("rows: 80, of them ", out)

    def test_few_points_are_doubted(self):
        _, out, _ = self.peeled(Made([(0.5, 12.0)], [(0, 1000)], 60, noise=0.3, outliers=0.2, seed=46), *WORDS)
        self.assertIn("warning: line 4 has ", out)
        self.assertEqual(run("peel", "points.csv", *WORDS, "--strict")[0], 4)

    def test_options_out_of_a_file(self):
        self.write("points.csv", FOUR.text())
        self.write("board.toml", 'x = "x1"\ny = "y"\nepsilon = 3\nmost = 1\n')
        self.assertEqual(run("peel", "points.csv", "--config=board.toml", "--quiet")[1].count("\nround "), 1)
        self.write("board.toml", "lines = 2\n")
        self.refused(2, "'lines' is no option of peel", "peel", "points.csv", "--config=board.toml")

    def test_requests_to_end(self):
        """Before the rounds one line; from then on the rounds of the last call, and all files."""
        self.write("points.csv", FOUR.text())
        words = ["peel", "points.csv", *WORDS, "--json=peel.json", "--report=page.html"]
        done = self.ended("points", "", "read_table", 1, *words)
        self.assertEqual((done.returncode, done.stdout, done.stderr), (130, "", "vengutari: interrupted\n"))
        done = self.ended("growing", "Growing", "one", 1, *words)
        self.assertEqual((done.returncode, done.stderr), (3, ""))
        self.assertTrue(done.stdout.startswith("spent, interrupted: 1 round, the last of them not solved; 236 points left"), done.stdout)
        self.assertEqual(json.loads(self.read("peel.json"))["stopped"], "interrupt")
        self.assertIn("interrupted", self.read("page.html"))

    def test_refused(self):
        self.write("points.csv", SMALL.text())
        one = ["peel", "points.csv", "--x=x1", "--y=y"]
        self.refused(2, "--epsilon", *one)
        for words, said in ((["--most=5"], "--most: 5 is not from 1 to 4"), (["--most=0"], "--most: 0 is not from 1 to 4"),
                            (["--tolerance=-1"], "--tolerance: -1 is not from 0"), (["--lines=2"], "unrecognized arguments: --lines=2"),
                            (["--box=0:1"], "1 values where there are 2 coefficients"), (["--report=points.csv"], "is the input")):
            self.refused(2, said, *one, "--epsilon=2", *words)
        self.refused(2, "No such file", "peel", "nothing.csv", *WORDS)
        self.refused(1, "no column 'z'", "peel", "points.csv", "--x=z", "--y=y", "--epsilon=2")
        self.write("long.csv", "x,y\n" + "1,2\n3,5\n" * 3000)
        self.refused(1, "--every 2 takes one row in 2, --rows 1:4096 a part, and vengutari drift all of them", "peel", "long.csv", "--x=x",
                     "--y=y", "--epsilon=1")


if __name__ == "__main__":
    unittest.main()
