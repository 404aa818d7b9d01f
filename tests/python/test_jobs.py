"""Tests of the sub-commands over the program fit, of their functions and of the command itself."""

import pathlib
import struct
import subprocess
import sys
import tempfile
import unittest
from fractions import Fraction

ROOT = pathlib.Path(__file__).resolve().parents[2]
sys.path.insert(0, str(ROOT / "python"))

from vengutari import jobs as vengutari  # noqa: E402
from vengutari.options import parser  # noqa: E402
from vengutari.points import table_of  # noqa: E402
from vengutari.problems import BadInput  # noqa: E402

TOOL = str(ROOT / "tools" / "vengutari")

# The paper's fit G: y = 2, 2, 9, x = 1, box 0..3, start 0, p = 1, epsilon 2, t = 0, budget 10, r = 4.
FIT_G = ["--lines", "1", "--dimensions", "1", "--loss", "1", "--epsilon", "2", "--box", "0:3", "--start", "0"]
FIT_G += ["--budget", "10", "--rows", "4"]
FIT_G_POINTS = "1,2\n1,2\n1,9\n"
FIT_G_LINE = "solved cost=2 bound=2 splits=1 open=0 peak=1 w=2"


def command(*words, stdin=b""):
    return subprocess.run([sys.executable, TOOL, *words], input=stdin, capture_output=True, check=False)


def options(*words):
    return parser().parse_args(["job", "points.csv", *words])


def job(*words):
    """The job of fit G with some options replaced."""
    given = dict(zip(FIT_G[::2], FIT_G[1::2]))
    flags = [word for word in words if word == "--integers"]
    words = [word for word in words if word != "--integers"]
    given.update(zip(words[::2], words[1::2]))
    return vengutari.job_of(options(*[f"{name}={value}" for name, value in given.items()], *flags))


class Points(unittest.TestCase):
    def read(self, text, dimensions):
        return vengutari.read_points(table_of(text, "points"), dimensions)

    def refused(self, text, dimensions, words):
        with self.assertRaises(BadInput) as caught:
            self.read(text, dimensions)
        self.assertIn(words, str(caught.exception))

    def test_without_header(self):
        self.assertEqual(self.read("1,2,3\n-4,5,-6\n", 2), [(1, 2, 0, 0, 3, 0), (-4, 5, 0, 0, -6, 1)])

    def test_frames(self):
        self.assertEqual(self.read("1,3,65535\n", 1), [(1, 0, 0, 0, 3, 65535)])

    def test_header_in_another_order(self):
        self.assertEqual(self.read("Y, x2 ,x1,frame\n\n3,2,1,7\n", 2), [(1, 2, 0, 0, 3, 7)])

    def test_four_dimensions_and_ends(self):
        self.assertEqual(self.read("-32768,32767,0,1,-1\n", 4), [(-32768, 32767, 0, 1, -1, 0)])

    def test_a_gap_is_an_empty_y(self):
        gap = [(1, 0, 0, 0, -32768, 0), (2, 0, 0, 0, -32767, 1)]
        for text in ("1,\n2,-32767\n", "1, \n2,-32767\n", "1,nan\n2,-32767\n", "1,-32768\n2,-32767\n", "y,x1\n,1\n-32767,2\n"):
            self.assertEqual(self.read(text, 1), gap)
        self.assertEqual(vengutari.store_bytes(gap[:1]), bytes.fromhex("0001 0000 0000 0000 8000 0000"))
        self.refused(",2\n", 1, "x1: '' is not a whole number")

    def test_bad_files(self):
        self.refused("", 1, "points: no rows")
        self.refused("x1,y\n", 1, "a header and no rows")
        self.refused("1\n", 1, "1 columns")
        self.refused("1,2,3,4\n", 1, "4 columns")
        self.refused("x1,y\n1,2,3\n", 1, "line 2: 3 fields where 2 are due")
        self.refused("x2,y\n1,2\n", 1, "no column x1")
        self.refused("x1,x2,y\n1,2,3\n", 1, "column 'x2' is unknown, unused or named twice")
        self.refused("x1,y,y\n1,2,3\n", 1, "named twice")
        self.refused("1,2\n1,1.5\n", 1, "line 2, y: '1.5' is not a whole number")
        self.refused("1,2\none,2\n", 1, "line 2, x1: 'one' is not a whole number")
        self.refused("one,2\n1,2\n", 1, "no column x1")
        self.refused("1,2\n1_0,2\n", 1, "not a whole number")
        self.refused("32768,2\n", 1, "x1: 32768 is not from -32768 to 32767")
        self.refused("1,2,-1\n", 1, "frame: -1 is not from 0 to 65535")
        self.refused("1,2\n" * 4097, 1, "4097 points")

    def test_store(self):
        store = vengutari.store_bytes([(1, -1, 0, 0, 258, 65535)])
        self.assertEqual(store, bytes.fromhex("0001 ffff 0000 0000 0102 ffff"))
        self.assertEqual(len(vengutari.store_bytes(self.read("1,2\n" * 4096, 1))), 49152)


class Jobs(unittest.TestCase):
    def refused(self, words, *changed):
        with self.assertRaises(BadInput) as caught:
            job(*changed)
        self.assertIn(words, str(caught.exception))

    def test_fit_g(self):
        record = vengutari.job_bytes(job())
        self.assertEqual(len(record), 72)
        zeros = "0000" * 7
        expected = "01010001 00000002 0000000000000000 0000000a 00000004" + f"0000{zeros}0003{zeros}0000{zeros}"
        self.assertEqual(record, bytes.fromhex(expected))

    def test_units_of_the_scale(self):
        made = job("--scale", "4", "--epsilon", "1.5", "--box", "-2:1/2", "--start", "-0.0625")
        self.assertEqual((made["epsilon"], made["low"], made["high"], made["start"]), (24, [-32], [8], [-1]))

    def test_integers(self):
        made = job("--integers", "--scale", "4", "--epsilon", "24", "--box", "-32:8", "--start", "-1", "--tolerance", "7")
        self.assertEqual((made["epsilon"], made["low"], made["high"], made["start"]), (24, [-32], [8], [-1]))
        self.assertEqual(made["t"], 7)

    def test_tolerance_by_loss(self):
        for loss, t in (("count", 3), ("absolute", 12), ("square", 48)):
            self.assertEqual(job("--scale", "2", "--loss", loss, "--tolerance", "3")["t"], t)
        self.assertEqual(job("--loss", "count", "--tolerance", "2.9")["t"], 2)
        self.assertEqual(job("--tolerance", str(2**64 - 1))["t"], 2**64 - 1)

    def test_one_value_for_all_and_one_each(self):
        made = job("--lines", "2", "--dimensions", "2", "--box", "0:1", "--start", "1")
        self.assertEqual((made["low"], made["high"], made["start"]), ([0] * 4, [1] * 4, [1] * 4))
        made = job("--lines", "2", "--box", "0:1,-5:7", "--start", "1,-4")
        self.assertEqual((made["low"], made["high"], made["start"]), ([0, -5], [1, 7], [1, -4]))

    def test_start_in_the_middle(self):
        given = options(*[word for word in FIT_G if word not in ("--start", "0")], "--box=-3:-2")
        self.assertEqual(vengutari.job_of(given)["start"], [-3])

    def test_bad_options(self):
        self.refused("--lines: 5 is not from 1 to 4", "--lines", "5")
        self.refused("--dimensions: 0 is not from 1 to 4", "--dimensions", "0")
        self.refused("9 coordinates", "--lines", "3", "--dimensions", "3")
        self.refused("--scale: 16 is not from 0 to 15", "--scale", "16")
        self.refused("--epsilon: 0 is not from 1", "--epsilon", "0")
        self.refused("--epsilon", "--epsilon", "16777216")
        self.refused("--epsilon: 'x' is not a number", "--epsilon", "x")
        self.refused("the nearest are 1 and 2", "--epsilon", "1.5")
        self.refused("0.25 and 0.5", "--scale", "2", "--box", "0:0.3")
        self.refused("'3' is not LOW:HIGH", "--box", "3")
        self.refused("low 3 is over high 0", "--box", "3:0")
        self.refused("2 values where 1 coordinates", "--box", "0:3,0:3")
        self.refused("outside -32768 to 32767", "--box", "0:32768")
        self.refused("outside -2 to 1.99993896484375", "--scale", "14", "--epsilon", "1", "--box", "0:2")
        self.refused("--start, coordinate 1: 4 is outside the box", "--start", "4")
        self.refused("--tolerance", "--tolerance", "-1")
        self.refused("--tolerance", "--tolerance", str(2**64))
        self.refused("--budget", "--budget", str(2**32))
        self.refused("--rows: 2049 is not from 1 to 2048", "--rows", "2049")
        self.refused("--rows: 0 is not from 1 to 2048", "--rows", "0")

    def test_threshold_of_zero_where_points_are_counted(self):
        self.assertEqual(job("--loss", "count", "--epsilon", "0")["epsilon"], 0)


class Answers(unittest.TestCase):
    def record(self, **changed):
        fields = {"w": [-3, 1] + [0] * 6, "C": 9, "L": 7, "count": 5, "kind": 2, "n": 1, "d": 2, "S": 1, **changed}
        w = fields.pop("w")
        return struct.pack(">8hQQI4B", *w, *fields.values())

    def refused(self, data, words):
        with self.assertRaises(BadInput) as caught:
            vengutari.decode_answer(data)
        self.assertIn(words, str(caught.exception))

    def test_shown(self):
        cases = {Fraction(3, 2): "1.5", Fraction(-1, 32768): "-0.000030517578125", Fraction(-7): "-7", Fraction(0): "0"}
        for value, text in cases.items():
            self.assertEqual(vengutari.shown(value), text)

    def test_record(self):
        answer = vengutari.decode_answer(self.record())
        self.assertEqual((answer["kind"], answer["w"], answer["splits"]), ("spent", [-3, 1], 5))
        text = vengutari.report(answer, answer["d"], answer["S"], None)
        self.assertIn("line 1 -1.5  0.5  (w = -3, 1)", text)
        self.assertIn("cost   9  (C = 9)", text)
        self.assertIn("cost   2.25  (C = 9)", vengutari.report(answer, 2, 1, 2))
        self.assertIn("spent: the split budget is used up; the bound holds for the whole box", text)

    def test_record_whose_bound_equals_its_cost(self):
        """Spent with C = L: an earlier vector may cost the same. Solved says nothing of that kind."""
        said = {kind: vengutari.meaning({"kind": kind, "cost": 9, "bound": 9}) for kind in ("solved", "spent", "full")}
        self.assertNotIn("earlier", said["solved"])
        for kind, why in (("spent", "the split budget is used up"), ("full", "the table has no row left")):
            self.assertEqual(said[kind], f"{why}; no vector of the box costs less, but an earlier one may cost the same")

    def test_bad_records(self):
        self.refused(b"", "40 bytes")
        self.refused(self.record() + b"\0", "41")
        self.refused(self.record(kind=0), "kind 0")
        self.refused(self.record(kind=4), "kind 4")
        self.refused(self.record(n=5), "5 lines")
        self.refused(self.record(n=3, d=3), "out of range")
        self.refused(self.record(S=16), "scale 16")
        self.refused(self.record(w=[1, 1, 1, 0, 0, 0, 0, 0]), "unused coordinate")
        self.refused(self.record(L=10), "bound is over the cost")
        self.refused(self.record(C=vengutari.LARGEST_COST + 1), "over its limit")
        vengutari.decode_answer(self.record(C=vengutari.LARGEST_COST, L=vengutari.LARGEST_COST))

    def test_lines_of_fit(self):
        expected = {"kind": "solved", "cost": 2, "bound": 2, "splits": 1, "open": 0, "peak": 1, "w": [2]}
        self.assertEqual(vengutari.parse_line(FIT_G_LINE), expected)
        self.assertEqual(vengutari.parse_line("refused 5"), {"refused": 5})
        for line in ("", "solved", "refused", "refused x", "solved cost=2", FIT_G_LINE.replace("w=2", "w=")):
            with self.assertRaises(BadInput):
                vengutari.parse_line(line)


class Command(unittest.TestCase):
    """The command as a user runs it; the program fit is played by a script that writes a given line."""

    def setUp(self):
        folder = tempfile.TemporaryDirectory()
        self.addCleanup(folder.cleanup)
        self.folder = pathlib.Path(folder.name)
        self.points = self.folder / "points.csv"
        self.points.write_text(FIT_G_POINTS)

    def fit_that_writes(self, line):
        program = self.folder / "fit"
        program.write_text(f"#!{sys.executable}\nimport sys\nsys.stdin.buffer.read()\nsys.stdout.write({line!r})\n")
        program.chmod(0o755)
        return str(program)

    def test_help(self):
        for words in (["--help"], ["job", "--help"], ["answer", "--help"]):
            done = command(*words)
            self.assertEqual(done.returncode, 0)
            self.assertIn(b"usage", done.stdout)

    def test_output(self):
        target = self.folder / "fit.in"
        done = command("job", str(self.points), *FIT_G, "--output", str(target))
        self.assertEqual((done.returncode, done.stdout, done.stderr), (0, b"", b""))
        points = vengutari.read_points(table_of(FIT_G_POINTS, "points"), 1)
        self.assertEqual(target.read_bytes(), vengutari.job_bytes(job()) + vengutari.store_bytes(points))
        piped = command("job", "-", *FIT_G, "--output", "-", stdin=FIT_G_POINTS.encode())
        self.assertEqual(piped.stdout, target.read_bytes())

    def test_answer_in_units(self):
        fit = self.fit_that_writes("full cost=6 bound=2 splits=0 open=1 peak=1 w=-3\n")
        done = command("job", str(self.points), *FIT_G, "--scale", "1", "--box=-2:3", "--start=1", "--fit", fit)
        self.assertEqual(done.returncode, 3, done.stderr)
        text = done.stdout.decode()
        self.assertTrue(text.startswith("full: "))
        self.assertIn("cost   3  (C = 6)", text)
        self.assertIn("bound  1  (L = 2)", text)
        self.assertIn("line 1 -1.5  (w = -3)", text)

    def test_refused_job(self):
        done = command("job", str(self.points), *FIT_G, "--fit", self.fit_that_writes("refused 8\n"))
        self.assertEqual((done.returncode, done.stdout), (1, b"refused 8, table: no row, or more rows than allowed\n"))

    def test_messages(self):
        def message(words, *given, status=2):
            done = command(*given)
            self.assertEqual((done.returncode, done.stdout), (status, b""))
            self.assertTrue(done.stderr.startswith(b"vengutari: "), done.stderr)
            self.assertEqual(done.stderr.count(b"\n"), 1)
            self.assertIn(words, done.stderr.decode())

        points = str(self.points)
        message("nothing to do", "job", points, *FIT_G)
        message("No such file", "job", points + "x", *FIT_G, "--output", "-")
        message("No such file", "job", points, *FIT_G, "--fit", points + "x")
        message("not a line of fit", "job", points, *FIT_G, "--fit", self.fit_that_writes("hello\n"))
        message("no whole line", "job", points, *FIT_G, "--fit", self.fit_that_writes(""))
        two = FIT_G_LINE + ",3\n"
        message("gave 2 coordinates where 1", "job", points, *FIT_G, "--fit", self.fit_that_writes(two))
        message("this has 3", "answer", str(self.short_record()))
        self.points.write_bytes(b"\x01\xfe\x00")
        message("not a text file", "job", points, *FIT_G, "--output", "-", status=1)

    def short_record(self):
        path = self.folder / "short"
        path.write_bytes(b"abc")
        return path

    def test_answer_record_from_standard_input(self):
        record = struct.pack(">8hQQI4B", 5, *[0] * 7, 3, 3, 1, 1, 1, 1, 2)
        done = command("answer", "-", "--loss", "absolute", stdin=record)
        self.assertEqual(done.returncode, 0)
        self.assertIn(b"cost   0.75  (C = 3)", done.stdout)
        self.assertIn(b"line 1 1.25  (w = 5)", done.stdout)

    def test_with_a_real_search(self):
        done = command("job", str(self.points), *FIT_G, "--fit", str(ROOT / "target" / "bin" / "fit"))
        self.assertEqual(done.returncode, 0, done.stderr)
        self.assertIn(b"line 1 2  (w = 2)", done.stdout)


if __name__ == "__main__":
    unittest.main()
