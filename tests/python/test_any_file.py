"""Right answers from any file: columns far from 0, in any unit, with few rows or empty fields; and the warnings of a doubtful fit."""

import json
import pathlib
import random
import struct
import tempfile
import unittest
from fractions import Fraction

from made_points import run


def rows_of(x, line, noise, digits, seed=1):
    """A file of points near a line."""
    numbers = random.Random(seed)
    return "x,y\n" + "".join(f"{v},{line(v) + max(-3, min(3, numbers.gauss(0, 1))) * noise:.{digits}f}\n" for v in x)


class Files(unittest.TestCase):
    def setUp(self):
        held = tempfile.TemporaryDirectory()
        self.addCleanup(held.cleanup)
        self.folder = pathlib.Path(held.name)
        self.data = self.folder / "points.csv"

    def fitted(self, text, *words, status=0):
        """The fit of a file as JSON, and what was said."""
        self.data.write_text(text, encoding="utf-8")
        target = self.folder / "fit.json"
        done, out, err = run("fit", self.data, "--x=x", "--y=y", "--quiet", "--force", f"--json={target}", *words)
        self.assertEqual((done, err), (status, ""))
        return json.loads(target.read_text(encoding="utf-8")), out

    def refused(self, text, words, *options):
        self.data.write_text(text, encoding="utf-8")
        done, out, err = run("fit", self.data, "--x=x", "--y=y", "--quiet", *options)
        self.assertEqual((done, out), (1, ""))
        self.assertIn(words, err)


class FarFromZero(Files):
    """What y and x are counted from is taken from them, exactly, and undone in all that is shown."""

    CASES = {
        "y far from 0": (range(0, 1000, 5), lambda x: 0.01 * x + 100_000, 0.05, 3, 0.2),
        "seconds since 1970": (range(1_700_000_000, 1_700_000_600, 3), lambda x: 0.05 * (x - 1_700_000_000) + 20, 0.3, 2, 1),
        "x from 60,000": (range(60_000, 60_101), lambda x: 2.5 * x + 20, 0.3, 2, 1),
        "unsigned counts": (range(0, 65_536, 255), lambda x: 0.01 * x + 20, 0.3, 1, 1),
        "far below 0": (range(-9_000_000, -8_999_000, 7), lambda x: -0.3 * (x + 9_000_000) - 70_000, 0.2, 1, 1),
        "small and far": ([f"0.5000{k:03}" for k in range(0, 900, 9)], lambda x: 2000 * (float(x) - 0.5), 0.02, 3, 0.1),
    }

    def test_lines_are_those_behind_the_points(self):
        for name, (x, line, noise, digits, epsilon) in self.CASES.items():
            with self.subTest(name):
                found, out = self.fitted(rows_of(x, line, noise, digits), f"--epsilon={epsilon}")
                self.assertEqual((found["kind"], found["labels"]["outliers"], found["warnings"]), ("solved", 0, []))
                self.assertFalse([note for note in found["notes"] if "rounded" in note])
                self.assertLess(abs(found["lines"][0]["rms"] - noise), noise / 4)
                slope, offset = (Fraction(found["lines"][0]["exact"][name]) for name in ("x", "offset"))
                for v in (x[0], x[-1]):
                    self.assertLess(abs(float(slope * Fraction(v) + offset) - line(v)), noise)
                self.shown(out, found, [x[0], x[-1]], epsilon)
                self.exact(found)

    def exact(self, found):
        """The cost is that of the lines as they are given and of the samples as they stand in the file, to the last digit."""
        slope, offset = (Fraction(value) for value in found["lines"][0]["exact"].values())
        unit = Fraction(found["scaling"]["y"]["step"]) / 2 ** found["scaling"]["scale"]
        rows = [map(Fraction, row.split(",")) for row in self.data.read_text().splitlines()[1:]]
        cost = sum(min(abs(y - slope * x - offset), found["settings"]["epsilon_whole"] * unit) ** 2 for x, y in rows)
        self.assertEqual(cost, found["cost"] * unit**2)

    def shown(self, out, found, ends, epsilon):
        """The equation is that line up to its last digit, and the box names the x that its offset is of."""
        words = out.splitlines()[1].split("y = ")[1].split("   ")[0].replace("−", "-").split(" ")
        slope, offset = Fraction(words[0]), Fraction(words[4]) * (-1 if words[3] == "-" else 1)
        exact = [Fraction(value) for value in found["lines"][0]["exact"].values()]
        for v in ends:
            self.assertLess(abs(slope * Fraction(v) + offset - exact[0] * Fraction(v) - exact[1]), Fraction(str(epsilon)) / 8)
        column = found["scaling"]["x"][0]
        self.assertIn(f"offset at x = {column['origin']} from", out)
        self.assertEqual(found["box"][1]["meaning"], f"offset at x = {column['origin']}")
        self.assertTrue(found["box"][1]["low"] <= found["lines"][0]["y_at_origin"] <= found["box"][1]["high"])

    def test_every_output_has_it_undone(self):
        x, line, noise, digits, epsilon = self.CASES["seconds since 1970"]
        files = {name: self.folder / f"fit.{name}" for name in ("labels", "coefficients", "report", "record")}
        found, _ = self.fitted(rows_of(x, line, noise, digits), "--epsilon=1", *(f"--{name}={path}" for name, path in files.items()))
        rows = [row.split(",") for row in files["labels"].read_text().splitlines()[1:]]
        for v, y, label, fitted, residual in rows:
            self.assertEqual(label, "1")
            self.assertAlmostEqual(float(fitted), line(int(v)), delta=0.2)
            self.assertAlmostEqual(float(fitted) + float(residual), float(y), delta=1e-3)
        upload = files["coefficients"].read_text()
        self.assertIn("by steps, exactly: (x − 1700000300) in steps of 1, (y − ", upload)
        self.assertIn("take the numbers by steps", upload)
        steps = [struct.unpack(">f", bytes.fromhex(row.split(" ")[3]))[0] for row in upload.splitlines() if row[0] != "#"]
        for v, y, *_ in rows:
            counted = steps[0] * (int(v) - 1_700_000_300) + steps[1]
            self.assertAlmostEqual(counted * 0.01 + float(Fraction(found["scaling"]["y"]["origin"])), line(int(v)), delta=0.2)
        page = files["report"].read_text()
        self.assertIn("(x − 1700000300) in steps of 1", page)
        self.assertIn(found["lines"][0]["equation"], page)
        saved = self.folder / "fit.json"
        self.assertEqual(run("label", self.data, "--fit", saved)[1], files["labels"].read_text())
        self.assertEqual(run("coefficients", saved)[1], upload)
        self.assertIn(found["lines"][0]["equation"], run("decode", files["record"], "--fit", saved)[1])

    def test_own_box_is_at_the_origin_that_is_given(self):
        """Without one at 0, exactly as it is given; y's shift is undone in it."""
        text = rows_of(range(0, 1000, 5), lambda x: 0.01 * x + 100_000, 0.05, 3)
        for words, x0 in ([], 0), (["--origin=500"], 500):
            box = f"--box=0.005:0.015,{99_998 + 0.01 * x0}:{100_002 + 0.01 * x0}"
            found, out = self.fitted(text, "--epsilon=0.2", box, *words)
            self.assertEqual(Fraction(found["scaling"]["x"][0]["origin"]), x0)
            (low, high), step = (found["box"][1][end] for end in ("low", "high")), found["box"][1]["step"]
            self.assertTrue(low <= 99_998 + 0.01 * x0 < low + step and high - step < 100_002 + 0.01 * x0 <= high)
            self.assertAlmostEqual(found["lines"][0]["coefficients"]["offset"], 100_000, delta=0.05)
            start, _ = self.fitted(text, "--epsilon=0.2", box, *words, f"--start=0.01,{100_000 + 0.01 * x0}")
            self.assertEqual(start["vector"], found["vector"])
            self.assertEqual(start["notes"], [])

    def test_rows_that_differ_by_a_shift_have_one_answer(self):
        """The same points, 10^9 and 10^6 farther on: the same cost, bound, splits, labels and slope."""
        here = "x,y\n" + "".join(f"{x},{y}\n" for x, y in zip(range(1000, 1100), [3, 1, 4, 1, 5, 9, 2, 6, 5, 3] * 10))
        there = "x,y\n" + "".join(f"{x + 10**9},{y - 10**6}\n" for x, y in zip(range(1000, 1100), [3, 1, 4, 1, 5, 9, 2, 6, 5, 3] * 10))
        first, second = (self.fitted(text, "--epsilon=3")[0] for text in (here, there))
        for key in ("cost", "bound", "splits", "labels", "vector", "warnings"):
            self.assertEqual(first[key], second[key], key)

    def test_rounding_beyond_epsilon_is_refused(self):
        wide = "x,y\n" + "".join(f"{k},{k * 12345.678:.3f}\n" for k in range(1, 100))
        self.refused(wide, "y has more digits than 16 bits hold: in steps of 20 it is rounded by up to 9.9, over a quarter of epsilon, 5: "
                     "give a larger --epsilon", "--epsilon=5")
        self.assertIn("y is rounded to multiples of 20 from", " ".join(self.fitted(wide, "--epsilon=90")[0]["notes"]))
        steep = "x,y\n" + "".join(f"{k * 12345.678:.3f},{300 * k}\n" for k in range(1, 100))
        self.refused(steep, "x has more digits than 16 bits hold: in steps of 20 it moves line 1 by up to 0.24, over a quarter of epsilon",
                     "--epsilon=0.5")


class EmptyFields(Files):
    def test_a_row_without_x_is_left_out_and_counted(self):
        rows = [f"{k},{2 * k + 5}" for k in range(40)]
        whole, _ = self.fitted("x,y\n" + "\n".join(rows) + "\n", "--epsilon=1")
        more = "x,y\n" + "\n".join([*rows[:20], ",17", "nan,18", *rows[20:], "41,"]) + "\n"
        labels = self.folder / "labels.csv"
        found, out = self.fitted(more, "--epsilon=1", f"--labels={labels}")
        self.assertEqual((found["vector"], found["cost"], found["labels"]["gaps"]), (whole["vector"], whole["cost"], 3))
        self.assertIn("note: 2 rows have no x: left out, as gaps are\n", out)
        self.assertEqual([row for row in labels.read_text().splitlines() if row.split(",")[2] == "6"], [",17,6,,", "nan,18,6,,", "41,,6,,"])
        page = self.folder / "page.html"
        self.fitted(more, "--epsilon=1", f"--report={page}")
        self.assertIn("row 21, frame 20: x none, gap", page.read_text())


class Warnings(Files):
    """Each case by itself; the words are in the summary, in the JSON and in the report, and --strict makes them status 4."""

    LINE = [(x, 0.5 * x + 10 + [-0.3, 0.2, 0.4, -0.1, -0.2, 0.3][x % 6]) for x in range(0, 300, 5)]

    def text(self, points):
        return "x,y\n" + "".join(f"{x},{y:.1f}\n" for x, y in points)

    def warned(self, words, points, *options, count=1, status=0):
        page = self.folder / "page.html"
        found, out = self.fitted(self.text(points), *options, f"--report={page}", status=status)
        text = page.read_text(encoding="utf-8")
        if count is not None:
            self.assertEqual(len(found["warnings"]), count, found["warnings"])
        self.assertIn(words, " ".join(found["warnings"]))
        for warning in found["warnings"]:
            self.assertIn(f"warning: {warning}\n", out)
            self.assertIn(warning, text)
        self.fitted(self.text(points), *options, "--strict", status=4)

    def test_a_sound_fit_has_none(self):
        found, out = self.fitted(self.text(self.LINE), "--epsilon=1", "--strict")
        self.assertEqual(found["warnings"], [])
        self.assertNotIn("warning", out)

    def test_many_outliers(self):
        spoiled = [(x, y + (37 * x % 91) + 9 if x % 10 == 0 else y) for x, y in self.LINE]
        self.warned("30 of 60 samples are outliers, 50 percent", spoiled, "--epsilon=1")

    def test_small_noise(self):
        self.warned("line 1 has an RMS of 0.268, under a tenth of epsilon, 3", self.LINE, "--epsilon=3")

    def test_few_points_for_a_line(self):
        few = [*self.LINE, *((x, 300 - x + [-0.2, 0.2][x % 2]) for x in (5, 60, 101, 140, 201))]
        self.warned("line 2 has 5 points, fewer than 3 for each of its 2 coefficients", few, "--epsilon=1", "--lines=2")

    def test_lines_that_are_one(self):
        self.warned("lines 1 and 2 are nearer to each other than epsilon at all samples", self.LINE, "--epsilon=1", "--lines=2", "--gap=30",
                    "--box=0.49:0.51,9.5:10.5", count=3)

    def test_edge_of_the_box(self):
        self.warned("line 1: its offset lies on the edge of the box", self.LINE, "--epsilon=1", "--box=0.499:0.501,10.05:10.6", "--scale=8")
        fixed, _ = self.fitted(self.text(self.LINE), "--epsilon=1", "--box=0.5:0.5,10:10")
        self.assertEqual(fixed["warnings"], [])

    def test_fewer_rows_than_coefficients(self):
        self.warned("3 samples for 4 coefficients", [(0, 1), (10, 5), (20, 40)], "--epsilon=1", "--lines=2", "--gap=50", count=None)

    def test_a_far_row_that_lies_on_a_line(self):
        """It is set aside before the lines are known; that it was none is said with the answer, which is not lost."""
        far = [*self.LINE, (2_000_000, 1_000_010)]
        self.warned("row 61 lies on line 1 but does not fit in 16 bits: fit with a larger --x-step or --y-step", far, "--epsilon=3000",
                    "--margin=0.01", count=None)

    def test_rms_over_epsilon(self):
        """Only rounding can do that, which is refused where it is given in time; the lines of a box of one's own are known afterwards."""
        from vengutari import doubts

        class Fit:
            reach, model, rows = Fraction(1), doubts_model(), [doubts_row(2.0)] * 9

        self.assertIn("over epsilon, 1: its samples are rounded too much", doubts.line_doubts(Fit)[0])


def doubts_model():
    from vengutari.library import Model

    return Model(1, 2, 0, 2, 1)


def doubts_row(residual):
    from vengutari.result import Row

    return Row(1, 0, 0.0, residual)


if __name__ == "__main__":
    unittest.main()
