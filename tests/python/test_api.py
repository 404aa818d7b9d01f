"""The package from Python: every kind of input gives the same fit, arguments are checked, and errors are one family."""

import array
import inspect
import io
import pathlib
import re
import tempfile
import unittest
from decimal import Decimal
from fractions import Fraction

from made_points import ROOT, Made

import vengutari
from vengutari import options

TWO = Made([(0.8, -13.5), (0.31, 220.0)], [(300, 4000)], 60, noise=0.6, gaps=2, seed=11)
TEXT = TWO.text()
X, Y = [x[0] for x in TWO.x], TWO.y
ASKED = {"lines": 2, "epsilon": 3}


class Series:
    """A column as pandas has it: a name, a length and an iterator, and no buffer."""

    def __init__(self, name, values):
        self.name, self.values = name, values

    def __len__(self):
        return len(self.values)

    def __iter__(self):
        return iter(self.values)


class Single:
    """A number as numpy has it: neither int nor float."""

    def __init__(self, value):
        self.value = value

    def __float__(self):
        return float(self.value)


def table(rows, kind="d"):
    """A two-dimensional buffer, as numpy has it."""
    flat = array.array(kind, [value for row in rows for value in row])
    return memoryview(flat).cast("B").cast(kind, (len(rows), len(rows[0])))


class Inputs(unittest.TestCase):
    @classmethod
    def setUpClass(cls):
        cls.found = vengutari.fit(io.StringIO(TEXT), x="x1", y="y", **ASKED)

    def same(self, found):
        self.assertEqual((found.vector, found.answer.cost, found.labels), (self.found.vector, self.found.answer.cost, self.found.labels))

    def test_files(self):
        with tempfile.TemporaryDirectory() as folder:
            path = pathlib.Path(folder) / "points.csv"
            path.write_text(TEXT, encoding="utf-8")
            for x in ("x1", ["x1"], 2):
                for data in (path, str(path), io.BytesIO(TEXT.encode())):
                    self.same(vengutari.fit(data, x, "y", 3, lines=2))
            with open(path, encoding="utf-8") as file:
                self.same(vengutari.fit(file, x="x1", y="y", frame="frame", **ASKED))

    def test_numbers(self):
        """Numbers of every kind, as they are written; nan and None are gaps."""
        gaps = [float("nan") if y is None else y for y in Y]
        for x in (X, tuple(X), [X], array.array("d", X), Series("raw", X), [Fraction(v) for v in X], [str(v) for v in X]):
            self.same(vengutari.fit(x=x, y=Y, **ASKED))
        for y in (array.array("d", gaps), [None if v is None else Decimal(str(v)) for v in Y], Series("current", gaps)):
            self.same(vengutari.fit(x=X, y=y, **ASKED))
        self.same(vengutari.fit(x=array.array("f", X), y=array.array("f", gaps), **ASKED))
        self.same(vengutari.fit(x=[Single(v) for v in X], y=[None if v is None else Single(v) for v in Y], **ASKED))
        for kind in "df":
            self.same(vengutari.fit(x=table([[v] for v in X], kind), y=Y, frame=range(60), **ASKED))
        tenths = vengutari.fit(x=table([[v / 10] for v in X], "f"), y=Y, **ASKED)
        self.assertEqual((tenths.scaling.x[0].step, tenths.scaling.x[0].rounding), (Fraction(1, 10), 0))

    def test_names_and_several_columns(self):
        found = vengutari.fit(x=Series("raw", X), y=Series("current", Y), **ASKED)
        self.assertEqual(list(found.lines[0].coefficients), ["raw", "offset"])
        self.assertTrue(found.lines[0].equation.startswith("current = "))
        other = [(7 * k) % 50 for k in range(60)]
        both = [2 * a + 3 * b + 5 for a, b in zip(X, other)]
        arrays = [array.array("d", X), array.array("h", other)]
        for x in ([X, other], [Series("a", X), Series("b", other)], table(list(zip(X, other))), arrays):
            found = vengutari.fit(x=x, y=both, epsilon=1, offset=True)
            self.assertEqual([round(value, 1) for value in found.lines[0].coefficients.values()], [2, 3, 5])

    def test_parts(self):
        chosen = slice(10, 50, 2)
        part = vengutari.fit(x=X, y=Y, rows=(11, 50), every=2, **ASKED)
        self.assertEqual(part.vector, vengutari.fit(x=X[chosen], y=Y[chosen], **ASKED).vector)
        self.assertEqual(vengutari.fit(io.StringIO(TEXT), "x1", "y", rows=(11, None), **ASKED).labels[:3],
                         vengutari.fit(x=X[10:], y=Y[10:], **ASKED).labels[:3])

    def test_what_a_fit_says(self):
        found = self.found
        self.assertEqual((found.kind, len(found.lines), found.warnings), ("solved", 2, []))
        self.assertRegex(repr(found), "^<Fit solved, gap 0 %: y = 0.8[0-9]* · x1 − 13.[0-9]*; y = 0.3[0-9]* · x1 \\+ 2[0-9.]*>$")
        line = found.lines[0]
        self.assertAlmostEqual(line.coefficients["x1"], 0.8, delta=0.01)
        self.assertEqual((line.points, 0.3 < line.rms < 0.9), (found.labels.count(1), True))
        self.assertIn("no other lines in this box and on this grid cost less", found.certificate)
        self.assertIn(found.certificate, found.summary())
        self.assertEqual(found.as_dictionary()["lines"][0]["coefficients"], line.coefficients)
        self.assertEqual([row.label for row in found.rows], found.labels)

    def test_box_start_and_limits(self):
        box = [("0.79", 0.81), (-20, -5), (0.3, 0.32), (210, 230)]
        found = vengutari.fit(x=X, y=Y, box=box, start=[0.8, -13, 0.31, 220], gap=1, time_limit=None, splits=5000, table=4000, **ASKED)
        self.assertEqual(found.kind, "solved")
        self.assertAlmostEqual(found.lines[0].coefficients["x"], 0.8, delta=0.01)
        self.assertEqual(vengutari.fit(x=X, y=Y, splits=1, margin=9, **ASKED).kind, "spent")
        self.assertEqual(vengutari.fit(x=X, y=Y, epsilon=Fraction(10, 3), lines=2).kind, "solved")


class Checks(unittest.TestCase):
    def test_bad_arguments(self):
        good = {"x": X, "y": Y, "epsilon": 3}
        for words, said in (
            ({"epsilon": None}, "epsilon, spoiled: give one of the two"), ({"spoiled": 3}, "epsilon, spoiled: give one of the two"),
            ({"x": None}, "x, y: give both"), ({"y": Y[:5]}, "different lengths"), ({"x": "raw"}, "columns go by name where data is given"),
            ({"lines": 5}, "lines: 5 is not from 1 to 4"), ({"lines": 1.5}, "lines: 1.5 is not a whole number"),
            ({"x": []}, "x: no numbers"),
            ({"epsilon": "small"}, "epsilon: 'small' is not a number"), ({"epsilon": float("nan")}, "epsilon: nan is not a number"),
            ({"epsilon": -1}, "epsilon: a threshold is more than 0"), ({"loss": "cubic"}, "loss: cubic is none of"),
            ({"scale": 16}, "scale: 16"),
            ({"y_step": 0}, "y_step: 0 is not more than 0"), ({"x_step": [1, 2]}, "x_step: 2 values where x names 1 columns"),
            ({"box": [(0, 1)]}, "box: 1 values where there are 2 coefficients a line"), ({"box": [(1, 0), (0, 1)]}, "low is not over high"),
            ({"box": [(0, 1), (0, 1)], "margin": 3}, "margin, box"), ({"gap": 100}, "gap: 100 percent"),
            ({"every": 0}, "every: 0 is less than 1"), ({"table": 0}, "table: 0"), ({"rows": (99, None)}, "no rows"),
            ({"time_limit": -1}, "time_limit: -1 is not at least 0"), ({"data": 7}, "data: int is no path"),
            ({"y": 5}, "y: int is no sequence"), ({"x": [X, X[:3]]}, "different lengths"),
            ({"frame": [0.5] * 60}, "frame: 0.5 is not a whole number"), ({"x": [object()] * 60}, "is not a number"),
            ({"x": [1e300] * 60}, "out of range"), ({"y": [None] * 60}, "no row has both x and y"),
            ({"x": range(5000), "y": range(5000)}, "5,000 rows, but a search takes at most 4,096: every 2"),
            ({"x": [Fraction(1, 3)] * 60}, "is not a number"), ({"data": "nothing.csv", "x": "a", "y": "b"}, "No such file"),
        ):
            with self.subTest(said):
                with self.assertRaises(vengutari.BadInput) as caught:
                    vengutari.fit(**{**good, **words})
                self.assertIn(said, str(caught.exception))
                self.assertNotIn("--", str(caught.exception))

    def test_one_family(self):
        for kind in (vengutari.BadInput, vengutari.BadUse, vengutari.Refused):
            self.assertTrue(issubclass(kind, vengutari.Error))
        with self.assertRaises(vengutari.Error) as caught:
            vengutari.library.find().cost(b"", vengutari.library.Model(1, 1, 0, 1, 2), [0])
        self.assertEqual((type(caught.exception), caught.exception.number, caught.exception.record), (vengutari.Refused, 1, None))

    def test_documented_and_typed(self):
        """Every argument has a type and a word in the text, and every setting of the command is an argument."""
        signature = inspect.signature(vengutari.fit)
        for name, parameter in signature.parameters.items():
            self.assertIsNot(parameter.annotation, inspect.Parameter.empty, name)
            self.assertRegex(vengutari.fit.__doc__, rf"\b{name}\b")
        self.assertEqual(signature.parameters["time_limit"].default, 60)
        self.assertTrue((ROOT / "python" / "vengutari" / "py.typed").exists())
        files = {"json", "labels", "coefficients", "record", "report", "picture", "force", "quiet", "strict", "summary", "jobs", "config",
                 "help", "with"}
        known = {option[2:].replace("-", "_") for option in options.options_of("fit") if re.match("--(?!no-)", option)} - files
        self.assertEqual(known - set(signature.parameters), set())


if __name__ == "__main__":
    unittest.main()
