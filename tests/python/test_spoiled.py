"""A limit on spoiled samples in place of a threshold: --spoiled, against known lines, values by hand and a cost worked out here."""

import json
import pathlib
import tempfile
import unittest

from made_points import ROOT, Made, run, store_of

import vengutari
from vengutari import library
from vengutari.problems import BadUse, Refused

# Four samples are nowhere near a line, and two were not taken.
TWO = Made([(0.8, -13.5), (0.31, 220.0)], [(300, 3500)], 60, noise=0.6, gaps=2, seed=11)
WORDS = ["--x=x1", "--y=y", "--quiet"]


class Spoiled(unittest.TestCase):
    @classmethod
    def setUpClass(cls):
        cls.held = tempfile.TemporaryDirectory()
        cls.folder = pathlib.Path(cls.held.name)
        cls.data = cls.folder / "points.csv"
        cls.text = TWO.text()
        cls.data.write_text(cls.text, encoding="utf-8")
        cls.count = TWO.labels.count(0)
        cls.files = {name: cls.folder / f"fit.{name}" for name in ("json", "labels", "coefficients", "record", "report")}
        words = [*WORDS, "--lines=2", f"--spoiled={cls.count}", *(f"--{name}={path}" for name, path in cls.files.items())]
        cls.status, cls.out, cls.err = run("fit", cls.data, *words)
        assert (cls.status, cls.err) == (0, ""), (cls.out, cls.err)
        cls.found = json.loads(cls.files["json"].read_text(encoding="utf-8"))

    @classmethod
    def tearDownClass(cls):
        cls.held.cleanup()

    def fitted(self, status, text, *words):
        data = self.folder / "other.csv"
        data.write_text(text, encoding="utf-8")
        done, out, err = run("fit", data, *WORDS, "--json", *words)
        self.assertEqual((done, err), (status, ""))
        return json.loads(out)

    def refused(self, status, words, text, *options):
        data = self.folder / "other.csv"
        data.write_text(text, encoding="utf-8")
        done, out, err = run("fit", data, *WORDS, *options)
        self.assertEqual((done, out), (status, ""))
        self.assertIn(words, err)

    def test_lines_are_those_behind_the_points(self):
        """Noise of 0.6 is cut at 1.8, so that no sound sample lies farther than that from the true lines."""
        for line, (slope, offset) in zip(self.found["lines"], TWO.lines):
            a, b = line["coefficients"].values()
            for x in (300, 3500):
                self.assertLess(abs(a * x + b - slope * x - offset), 4)
        self.assertLess(self.found["cost_in_units"], 1.9)
        self.assertEqual((self.found["kind"], self.found["cost"]), ("solved", self.found["bound"]))

    def test_cost_is_the_largest_but_for_the_spoiled(self):
        """Worked out from the file's numbers: distances sorted downward, and the one behind as many as are spoiled."""
        lines = [list(line["coefficients"].values()) for line in self.found["lines"]]
        samples = [(x[0], y) for x, y in zip(TWO.x, TWO.y) if y is not None]
        sizes = sorted((min(abs(y - a * x - b) for a, b in lines) for x, y in samples), reverse=True)
        self.assertAlmostEqual(self.found["cost_in_units"], sizes[self.count], places=6)
        self.assertGreater(sizes[self.count - 1], 10)

    def test_what_is_said(self):
        said = f"all samples but at most {self.count} lie within"
        self.assertIn(said, self.out)
        settings = self.found["settings"]
        self.assertEqual((settings["p"], settings["loss"], settings["spoiled"]), (3, "spoiled", self.count))
        self.assertEqual(settings["epsilon_whole"], self.found["cost"])
        self.assertEqual(self.found["beacons"], [])
        page = self.files["report"].read_text(encoding="utf-8")
        self.assertIn(said, page)
        self.assertIn(f"but for the {self.count} that lie farthest", page)
        self.assertNotIn('id="beacons"', page)

    def test_labels_go_by_the_cost(self):
        """The spoiled samples are the outliers, and the label command says the same."""
        rows = self.files["labels"].read_text(encoding="utf-8")
        labels = [row.split(",")[-3] for row in rows.splitlines()[1:] if not row.startswith("#")]
        self.assertEqual([label == "0" for label in labels], [label == 0 for label in TWO.labels])
        self.assertEqual([label == "6" for label in labels], [label is None for label in TWO.labels])
        self.assertEqual(self.found["labels"]["outliers"], self.count)
        status, out, err = run("label", self.data, "--fit", self.files["json"])
        self.assertEqual((status, out, err), (0, rows, ""))

    def test_files_from_it(self):
        status, out, _ = run("coefficients", self.files["json"])
        self.assertEqual((status, out), (0, self.files["coefficients"].read_text(encoding="utf-8")))
        status, out, _ = run("decode", self.files["record"])
        self.assertIn(f"answer record: solved, C = {self.found['cost']}, L = {self.found['bound']}", out)
        status, out, _ = run("answer", self.files["record"], "--loss=spoiled")
        self.assertIn(f"(C = {self.found['cost']})", out)

    def test_more_spoiled_never_cost_more(self):
        lines = "0.8,-13.5,0.31,220"
        box = ["--lines=2", "--box=0.79:0.81,-30:5,0.3:0.32,200:240", f"--start={lines}", "--scale=10", "--gap=20"]
        costs = [self.fitted(0, self.text, *box, f"--spoiled={self.count + k}")["cost_in_units"] for k in (-1, 0, 4)]
        self.assertGreater(costs[0], 5)
        self.assertGreaterEqual(costs[1] * 1.25, costs[2])
        self.assertLess(costs[1], 3)

    def test_by_hand(self):
        """y = 2, 2, 9 at x = 1, lines through 0: 5.5 is within 3.5 of all, 2 within 0 of all but one, and the first within 0 of one."""
        box = ["--no-offset", "--box=0:10", "--scale=8"]
        for spoiled, value, cost in ((0, 5.5, 3.5), (1, 2, 0), (2, 2, 0)):
            for start in ("0", "7.25", "10"):
                found = self.fitted(0, "x1,y\n1,2\n1,2\n1,9\n1,\n", *box, f"--spoiled={spoiled}", f"--start={start}")
                self.assertEqual((found["lines"][0]["coefficients"]["x1"], found["cost_in_units"]), (value, cost))
        self.assertEqual(self.fitted(0, "x1,y\n1,2\n1,2\n1,9\n", "--no-offset", "--scale=8", "--spoiled=0")["cost_in_units"], 3.5)
        self.refused(1, "3 of 3 samples: at least one must be sound", "x1,y\n1,2\n1,2\n1,9\n1,\n", *box, "--spoiled=3")

    def test_gaps_change_nothing(self):
        samples = "".join(line + "\n" for line in self.text.splitlines() if ",," not in line)
        gaps = "".join(f"{60 + k},{400 + 50 * k},,gap\n" for k in range(30))
        for text in (samples, self.text + gaps):
            found = self.fitted(0, text, "--lines=2", f"--spoiled={self.count}")
            self.assertEqual(*[[f[key] for key in ("vector", "cost", "bound", "box")] for f in (found, self.found)])

    def test_rows_beyond_16_bits_are_spoiled(self):
        far = self.text + "60,2000,999999,spike\n61,2500,-99999.5,spike\n"
        found = self.fitted(0, far, "--lines=2", "--y-step=0.1", f"--spoiled={self.count + 2}")
        self.assertEqual(*[[f["cost"], f["bound"], [line["exact"] for line in f["lines"]]] for f in (found, self.found)])
        self.assertEqual(found["labels"]["outliers"], self.count + 2)
        self.refused(1, "2 rows lie far beyond the others", far, "--lines=2", "--spoiled=1")

    def test_wide(self):
        found = self.fitted(0, self.text, "--lines=2", f"--spoiled={self.count}", "--wide", "--gap=5", "--time-limit=2")
        samples = TWO.count - 2
        self.assertEqual((found["wide"]["samples"], found["wide"]["fitted"] >= samples - self.count), (samples, True))

    def test_a_cost_beyond_labels_is_noted(self):
        """On a fine grid and in a box where the points are not, their distance is more than a threshold can be."""
        text = "x1,y\n" + "".join(f"{100 * k},{100 * k}\n" for k in range(1, 31))
        found = self.fitted(0, text, "--no-offset", "--box=-0.5:-0.4", "--spoiled=4", "--gap=20")
        self.assertGreater(found["cost"], library.LARGEST_EPSILON)
        self.assertEqual(found["settings"]["epsilon_whole"], library.LARGEST_EPSILON)
        self.assertIn("the cost is more than labels can be told by", " ".join(found["notes"]))

    def test_bad_use(self):
        good = "x1,y\n1,2\n2,4\n3,7\n"
        self.refused(2, "not allowed with", good, "--spoiled=1", "--epsilon=2")
        self.refused(2, "--epsilon --spoiled", good)
        self.refused(2, "--spoiled, --loss", good, "--spoiled=1", "--loss=count")
        for number in ("-1", "4096"):
            self.refused(2, f"--spoiled: {number} is not from 0 to 4,095", good, f"--spoiled={number}")
        self.refused(2, "--spoiled: '1.5' is not a whole number", good, "--spoiled=1.5")

    def test_from_python(self):
        found = vengutari.fit(self.data, x="x1", y="y", lines=2, spoiled=self.count)
        self.assertEqual((found.answer.cost, found.vector), (self.found["cost"], self.found["vector"]))
        for words in ({}, {"epsilon": 3, "spoiled": 2}, {"spoiled": -1}):
            with self.assertRaises(BadUse):
                vengutari.fit(self.data, x="x1", y="y", **words)


class Calls(unittest.TestCase):
    """p = 3 by the library: y = 2, 2, 9 and a gap at x = 1."""

    def setUp(self):
        self.calls = library.find()
        self.store = store_of([([1], 2), ([1], None), ([1], 2), ([1], 9)], range(4))

    def test_values(self):
        for q, cost, bound in ((0, 9, 6), (1, 2, 0), (2, 2, 0), (3, 0, 0)):
            model = library.Model(1, 1, 0, library.SPOILED, q)
            self.assertEqual(self.calls.cost(self.store, model, [0]), cost)
            self.assertEqual(self.calls.bound(self.store, model, [0], [3]), bound)
        answer = self.calls.search(self.store, library.Model(1, 1, 0, library.SPOILED, 1), 0, 10, [0], [3], [0], 4)
        self.assertEqual(answer, ("solved", [2], 0, 0, 1, 0, 1))

    def test_refusals(self):
        over, model = library.Model(1, 1, 0, library.SPOILED, 4), library.Model(1, 1, 0, library.SPOILED, 1)
        for call in (lambda: self.calls.cost(self.store, over, [0]), lambda: self.calls.bound(self.store, over, [0], [3]),
                     lambda: self.calls.search(self.store, over, 0, 10, [0], [3], [0], 4), lambda: self.calls.loss(library.SPOILED, 1, 0),
                     lambda: self.calls.labels(self.store, model, [0]), lambda: self.calls.cost_by_beacon(self.store, model, [0])):
            with self.assertRaises(Refused) as caught:
                call()
            self.assertEqual(caught.exception.number, 4)


class Jobs(unittest.TestCase):
    """The input of the program fit."""

    WORDS = ["--lines=1", "--dimensions=1", "--box=0:3", "--start=0", "--budget=10", "--rows=4"]

    def setUp(self):
        held = tempfile.TemporaryDirectory()
        self.addCleanup(held.cleanup)
        self.folder = pathlib.Path(held.name)
        self.points = self.folder / "points.csv"
        self.points.write_text("1,2\n1,2\n1,9\n1,\n", encoding="utf-8")

    def test_record(self):
        target = self.folder / "job"
        status, _, err = run("job", self.points, *self.WORDS, "--spoiled=3", "--scale=2", "--output", target)
        self.assertEqual((status, err), (0, ""))
        self.assertEqual(target.read_bytes()[:8], bytes([1, 1, 2, 3, 0, 0, 0, 3]))
        self.assertIn("p = 3, spoiled = 3, t = 0", run("decode", target)[1])

    def test_with_a_real_search(self):
        status, out, err = run("job", self.points, *self.WORDS, "--spoiled=0", "--fit", ROOT / "target" / "bin" / "fit")
        self.assertEqual((status, err), (0, ""))
        self.assertIn("cost   6  (C = 6)", out)
        self.assertIn("line 1 3  (w = 3)", out)

    def test_bad_use(self):
        for words, options in (("is not below the number of points, 4", ["--spoiled=4"]), ("takes the place", ["--spoiled=1", "--loss=1"]),
                               ("takes the place", ["--spoiled=1", "--epsilon=1"]), ("both are needed", ["--loss=1"]),
                               ("not a whole number", ["--spoiled=x"]), ("is not from 0 to 4095", ["--spoiled=-1"])):
            status, out, err = run("job", self.points, *self.WORDS, *options, "--output", self.folder / "job")
            self.assertEqual((status, out), (2, ""), err)
            self.assertIn(words, err)
        self.assertFalse((self.folder / "job").exists())


if __name__ == "__main__":
    unittest.main()
