"""vengutari fit on made files: its lines, labels, coefficients, record and certificate against the truth that made the points."""

import csv
import functools
import json
import pathlib
import random
import struct
import tempfile
import unittest
from collections import namedtuple
from fractions import Fraction

from made_points import Made, run

CASES = {
    "one line with an offset": (Made([(0.5, 12.0)], [(0, 1000)], 60, outliers=0.15, seed=1), ["--epsilon=2"]),
    "one line through 0": (Made([(0.5, 0.0)], [(-800, 800)], 40, seed=2), ["--epsilon=2", "--no-offset"]),
    "two lines, decimals, gaps": (
        Made([(0.8062, -13.5), (0.31, 220.0)], [(300, 4000)], 90, noise=0.7, gaps=4, seed=3), ["--epsilon=3", "--lines=2"]),
    "two lines, semicolons, decimal commas": (
        Made([(1.25, 3.0), (-0.5, 90.0)], [(-50, 50)], 60, noise=0.3, x_decimals=1, delimiter=";", decimal_comma=True, gaps=2, seed=4),
        ["--epsilon=1.5", "--lines=2", "--loss=absolute", "--gap=2"]),
    "three lines": (
        Made([(0.9, -20.0), (0.4, 100.0), (-0.3, 300.0)], [(0, 1000)], 75, noise=0.5, outliers=0.05, seed=5),
        ["--epsilon=4", "--lines=3", "--loss=count", "--gap=0.1"]),
    "two columns and an offset": (
        Made([(0.9, -2.0, 10.0)], [(0, 1000), (-20, 60)], 60, noise=0.5, x_decimals=1, delimiter="\t", seed=6),
        ["--epsilon=3", "--offset"]),
    "two lines of two columns": (
        Made([(0.9, -2.0, 0.0), (-0.4, 3.0, 0.0)], [(10, 200), (-60, 60)], 60, noise=0.5, seed=7), ["--epsilon=3", "--lines=2", "--gap=5"]),
    "three columns": (
        Made([(0.9, -2.0, 3.0, 0.0)], [(-100, 100), (-20, 60), (-50, 50)], 60, noise=0.5, x_decimals=1, seed=8), ["--epsilon=3"]),
    "seven decimals": (Made([(0.00123, 1.5)], [(0, 60000)], 60, noise=0.1, y_decimals=7, seed=9), ["--epsilon=0.5"]),
}


Done = namedtuple("Done", "made status out err files found")


def for_each(check):
    """A test of every case, each under its name."""
    @functools.wraps(check)
    def test(self):
        for name, done in self.done.items():
            with self.subTest(name):
                check(self, done)

    return test


class Fits(unittest.TestCase):
    """Each case is fitted once, with all outputs."""

    @classmethod
    def setUpClass(cls):
        cls.held = tempfile.TemporaryDirectory()
        cls.folder = pathlib.Path(cls.held.name)
        cls.done = {}
        for k, (name, (made, words)) in enumerate(CASES.items()):
            path = cls.folder / f"{k}.csv"
            path.write_text(made.text(), encoding="utf-8")
            files = {end: cls.folder / f"{k}.{end}" for end in ("json", "labels", "coefficients", "record", "report")}
            columns = ",".join(f"x{j + 1}" for j in range(len(made.ranges)))
            status, out, err = run("fit", path, "--x", columns, "--y=y", "--frame=frame", "--quiet", "--time-limit=0", *words,
                                   *(f"--{end}={file}" for end, file in files.items()))
            found = json.loads(files["json"].read_text(encoding="utf-8")) if status == 0 else None
            cls.done[name] = Done(made, status, out, err, files, found)

    @classmethod
    def tearDownClass(cls):
        cls.held.cleanup()

    @for_each
    def test_solved_and_summarised(self, done):
        made, status, out, err, found = done.made, done.status, done.out, done.err, done.found
        self.assertEqual((status, err), (0, ""))
        self.assertEqual(found["kind"], "solved")
        for line in found["lines"]:
            self.assertIn(line["equation"], out)
        self.assertIn(found["certificate"], out)
        self.assertIn("in this box and on this grid", out)
        counts = [found["labels"]["outliers"], found["labels"]["undecided"], made.labels.count(None)]
        self.assertIn("rows: {}, of them {} outliers, {} undecided, {} gaps\n".format(made.count, *counts), out)
        self.assertEqual(sum(found["labels"].values()), made.count)
        self.assertLessEqual(len(out.splitlines()), 16)

    def paired(self, made, found):
        """Each true line with the line found that is nearest at the points."""
        lines = [list(line["coefficients"].values()) for line in found["lines"]]
        pairs = {}
        for j in range(len(made.lines)):
            def off(line, j=j):
                return max(abs(sum(a * v for a, v in zip(line, [*x, 1])) - made.value(j, x)) for x in made.x)
            nearest = min(range(len(lines)), key=lambda k: off(lines[k]))
            pairs[j] = (nearest, off(lines[nearest]))
        return pairs

    @for_each
    def test_lines_are_those_behind_the_points(self, done):
        made, found = done.made, done.found
        pairs = self.paired(made, found)
        self.assertEqual(len({k for k, _ in pairs.values()}), len(made.lines))
        for _, off in pairs.values():
            self.assertLess(off, float(Fraction(found["settings"]["epsilon"])))

    @for_each
    def test_labels_are_those_behind_the_points(self, done):
        """But for points that two lines are near, which may be undecided."""
        made, files, found = done.made, done.files, done.found
        pairs, epsilon = self.paired(made, found), float(Fraction(found["settings"]["epsilon"]))
        with open(files["labels"], encoding="utf-8", newline="") as file:
            rows = list(csv.DictReader(file, delimiter=made.delimiter))
        self.assertEqual(len(rows), made.count)
        for x, y, truth, row in zip(made.x, made.y, made.labels, rows):
            near = y is not None and sum(abs(y - made.value(j, x)) <= 2.5 * epsilon for j in range(len(made.lines))) > 1
            if not near:
                self.assertEqual(row["label"], "6" if truth is None else str(pairs[truth - 1][0] + 1 if truth else 0))

    @for_each
    def test_fitted_values_and_residuals(self, done):
        made, files, found = done.made, done.files, done.found
        lines = [list(line["coefficients"].values()) for line in found["lines"]]
        with open(files["labels"], encoding="utf-8", newline="") as file:
            rows = list(csv.DictReader(file, delimiter=made.delimiter))
        self.assertEqual([row["remark"] for row in rows], [f"row {k}" for k in range(made.count)])
        for x, y, row in zip(made.x, made.y, rows):
            if y is None:
                self.assertEqual((row["fitted"], row["residual"]), ("", ""))
                continue
            fitted, residual = (float(row[name].replace(",", ".")) for name in ("fitted", "residual"))
            values = [sum(a * v for a, v in zip(line, [*x, 1])) for line in lines]
            of_label = [values[int(row["label"]) - 1]] if 1 <= int(row["label"]) <= 4 else values
            self.assertLess(min(abs(value - fitted) for value in of_label), 1e-4 * max(1.0, abs(fitted)))
            self.assertAlmostEqual(fitted + residual, y, delta=1e-4 * max(1.0, abs(y)))

    def whole(self, made, found):
        """The points in whole numbers, from the JSON alone."""
        def rounded(value):
            return int(abs(value) + Fraction(1, 2)) * (1 if value >= 0 else -1)

        def counted(value, column):
            return rounded((Fraction(str(value)) - Fraction(column["origin"])) / Fraction(column["step"])) * column["factor"]

        for x, y in zip(made.x, made.y):
            if y is not None:
                yield [counted(v, c) for v, c in zip([*x, 1], found["scaling"]["x"])], counted(y, found["scaling"]["y"])

    def sizes(self, point, found, vector):
        """|e| for each line."""
        (x, y), d = point, len(found["scaling"]["x"])
        return [abs(y * 2 ** found["scaling"]["scale"] - sum(w * v for w, v in zip(vector[k:], x))) for k in range(0, len(vector), d)]

    def cost(self, points, found, vector):
        """The cost by the paper's formulas."""
        p, epsilon = found["settings"]["p"], found["settings"]["epsilon_whole"]
        least = [min(self.sizes(point, found, vector)) for point in points]
        return sum(int(e > epsilon) if p == 0 else min(e, epsilon) ** p for e in least)

    @for_each
    def test_labels_by_the_formulas(self, done):
        """6 for a gap, 5 within epsilon of more than one line, else that line or 0."""
        made, files, found = done.made, done.files, done.found
        with open(files["labels"], encoding="utf-8", newline="") as file:
            labels = [int(row["label"]) for row in csv.DictReader(file, delimiter=made.delimiter)]
        samples = iter(self.whole(made, found))
        for y, label in zip(made.y, labels):
            fit = [] if y is None else [e <= found["settings"]["epsilon_whole"] for e in self.sizes(next(samples), found, found["vector"])]
            self.assertEqual(label, 6 if y is None else 5 if sum(fit) > 1 else fit.index(True) + 1 if any(fit) else 0)

    def test_some_are_undecided(self):
        """So that the cases show it."""
        self.assertGreater(sum(done.found["labels"]["undecided"] for done in self.done.values()), 0)

    @for_each
    def test_cost_and_bound(self, done):
        """The cost is that of the vector, and no vector of the box that is tried is below the bound."""
        made, found = done.made, done.found
        points = list(self.whole(made, found))
        self.assertEqual(self.cost(points, found, found["vector"]), found["cost"])
        self.assertLessEqual(found["bound"], found["cost"])
        numbers = random.Random(1)
        for k in range(60):
            near = [w + numbers.randint(-2, 2) for w in found["vector"]]
            any_of_box = [numbers.randint(*side["w"]) for side in found["box"]]
            tried = [min(max(w, side["w"][0]), side["w"][1]) for w, side in zip(near if k % 2 else any_of_box, found["box"])]
            self.assertGreaterEqual(self.cost(points, found, tried), found["bound"])

    @for_each
    def test_cost_by_beacon(self, done):
        """Groups of 19 rows, gaps among them, each with its cost by the formulas; together they are the cost."""
        made, found = done.made, done.found
        samples, points = iter(self.whole(made, found)), []
        for y in made.y:
            points.append(None if y is None else next(samples))
        groups = [points[k : k + 19] for k in range(0, made.count, 19)]
        costs = [self.cost([point for point in group if point is not None], found, found["vector"]) for group in groups]
        self.assertEqual([beacon["cost"] for beacon in found["beacons"]], costs)
        self.assertEqual(sum(costs), found["cost"])
        ends = [[19 * g + 1, min(19 * g + 19, made.count)] for g in range(len(groups))]
        self.assertEqual([beacon["rows"] for beacon in found["beacons"]], ends)

    @for_each
    def test_box_holds_the_answer_and_the_truth(self, done):
        """Of the offset, a line's y at the origin of x, which is near the middle of the column."""
        made, found = done.made, done.found
        d, columns = len(found["scaling"]["x"]), found["scaling"]["x"]
        for w, side in zip(found["vector"], found["box"]):
            self.assertTrue(side["w"][0] <= w <= side["w"][1])
        origin = [float(Fraction(column["origin"])) for column in columns if not column["constant"]]
        if d > len(origin):
            for x, (low, high) in zip(origin, made.ranges):
                self.assertLess(abs(x - (low + high) / 2), (high - low) / 8)
        for j, (k, _) in self.paired(made, found).items():
            for value, side in zip([*made.lines[j][:-1], made.value(j, origin)], found["box"][k * d : (k + 1) * d]):
                self.assertTrue(side["low"] <= value <= side["high"])

    @for_each
    def test_record(self, done):
        files, found = done.files, done.found
        *vector, cost, bound, count, kind, n, d, scale = struct.unpack(">8hQQI4B", files["record"].read_bytes())
        self.assertEqual(vector[: n * d], found["vector"])
        self.assertEqual((cost, bound, count, kind), (found["cost"], found["bound"], found["splits"], 1))
        self.assertEqual((n, d, scale), (len(found["lines"]), len(found["scaling"]["x"]), found["scaling"]["scale"]))

    @for_each
    def test_coefficients_give_the_lines(self, done):
        """By both sets of bits, read here by nothing but struct."""
        made, files, found = done.made, done.files, done.found
        rows = [row.split(" ", 5) for row in files["coefficients"].read_text(encoding="utf-8").splitlines() if row[0] != "#"]
        self.assertEqual(len(rows), len(found["vector"]))
        columns = found["scaling"]["x"]
        for k, (line, units, units_text, steps, steps_text, name) in enumerate(rows):
            by_units, by_steps = (struct.unpack(">f", bytes.fromhex(bits))[0] for bits in (units, steps))
            self.assertEqual(struct.pack(">f", float(units_text)).hex(), units.lower())
            self.assertEqual(struct.pack(">f", float(steps_text)).hex(), steps.lower())
            column = columns[k % len(columns)]
            self.assertEqual((int(line), name), (k // len(columns) + 1, column["name"]))
            exact = Fraction(found["vector"][k], 2 ** found["scaling"]["scale"]) * column["factor"]
            self.assertEqual(Fraction(by_steps), exact)
            value = Fraction(found["lines"][k // len(columns)]["exact"][name])
            self.assertEqual(units.lower(), struct.pack(">f", float(value)).hex())

    @for_each
    def test_the_shift_is_undone(self, done):
        """The offset of the user's units is the vector's less the slopes at the origins, exactly."""
        found, scaling = done.found, done.found["scaling"]
        step, d = Fraction(scaling["y"]["step"]) / 2 ** scaling["scale"], len(scaling["x"])
        for j, line in enumerate(found["lines"]):
            offset = Fraction(scaling["y"]["origin"])
            for w, column in zip(found["vector"][j * d :], scaling["x"]):
                value = w * column["factor"] * step / Fraction(column["step"])
                if not column["constant"]:
                    self.assertEqual(Fraction(line["exact"][column["name"]]), value)
                offset += value if column["constant"] else -value * Fraction(column["origin"])
            self.assertEqual(Fraction(line["exact"].get("offset", "0")), offset)
            self.assertAlmostEqual(line["coefficients"].get("offset", 0), float(offset))


if __name__ == "__main__":
    unittest.main()
