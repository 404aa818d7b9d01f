"""The commands on files from before, the limits of a search, the wide search, the user's own box, and the calls of the library."""

import ctypes
import json
import pathlib
import struct
import tempfile
import unittest
from fractions import Fraction

from made_points import Made, run, store_of

from vengutari import fitting, library, points, scaling
from vengutari.problems import Refused
from vengutari.settings import Limits, Settings

TWO = Made([(0.8, -13.5), (0.31, 220.0)], [(300, 4000)], 60, noise=0.6, gaps=2, seed=11)
WORDS = ["--x=x1", "--y=y", "--lines=2", "--epsilon=3", "--quiet"]


class Later(unittest.TestCase):
    @classmethod
    def setUpClass(cls):
        cls.held = tempfile.TemporaryDirectory()
        cls.folder = pathlib.Path(cls.held.name)
        cls.data = cls.folder / "points.csv"
        cls.data.write_text(TWO.text(), encoding="utf-8")
        cls.files = {name: cls.folder / f"fit.{name}" for name in ("json", "labels", "coefficients", "record")}
        status, out, err = run("fit", cls.data, *WORDS, *(f"--{name}={path}" for name, path in cls.files.items()))
        assert (status, err) == (0, ""), (out, err)
        cls.found = json.loads(cls.files["json"].read_text(encoding="utf-8"))

    @classmethod
    def tearDownClass(cls):
        cls.held.cleanup()

    def test_label_gives_the_same_labels(self):
        status, out, err = run("label", self.data, "--fit", self.files["json"])
        self.assertEqual((status, err), (0, ""))
        self.assertEqual(out, self.files["labels"].read_text(encoding="utf-8"))
        target = self.folder / "again.csv"
        status, out, _ = run("label", self.data, "--fit", self.files["json"], "--labels", target)
        self.assertEqual((status, target.read_text(encoding="utf-8")), (0, self.files["labels"].read_text(encoding="utf-8")))
        self.assertRegex(out, "^line 1: [0-9]+, line 2: [0-9]+, [0-9]+ outliers, [0-9]+ undecided, 2 gaps\n$")

    def test_label_takes_more_points_than_a_search(self):
        many = self.folder / "many.csv"
        many.write_text("t;amps;raw\n" + "".join(f"{k};{0.8 * 1000 - 13.5:.1f};1000\n" for k in range(5000)), encoding="utf-8")
        status, out, err = run("label", many, "--fit", self.files["json"], "--x=raw", "--y=amps")
        self.assertEqual((status, err), (0, ""))
        self.assertEqual([row.split(";")[3] for row in out.splitlines()[1:]], ["1"] * 5000)

    def test_label_near_two_lines_is_undecided(self):
        """0.8 x - 13.5 and 0.31 x + 220 are 362.5 and 365.7 at 470: two rows lie within epsilon of both lines, with the nearest's value."""
        near = self.folder / "near.csv"
        near.write_text("x1,y\n470,363\n470,365.2\n470,\n470,361\n470,367.5\n", encoding="utf-8")
        status, out, _ = run("label", near, "--fit", self.files["json"])
        rows = [row.split(",")[2:] for row in out.splitlines()]
        self.assertEqual((status, [row[0] for row in rows]), (0, ["label", "5", "5", "6", "1", "2"]))
        for row, value in ((rows[1], 362.5), (rows[2], 365.7)):
            self.assertAlmostEqual(float(row[1]), value, delta=1)

    def test_label_refuses_what_does_not_fit(self):
        far = self.folder / "far.csv"
        far.write_text("x1,y\n1000,99999\n40000,31986.5\n", encoding="utf-8")
        status, out, err = run("label", far, "--fit", self.files["json"], "--x=x1", "--y=y")
        self.assertEqual((status, out), (1, ""))
        self.assertIn("row 2 lies on line 1 but does not fit in 16 bits", err)
        far.write_text("x1,y\n1000,99999\n40000,1\n", encoding="utf-8")
        status, out, _ = run("label", far, "--fit", self.files["json"], "--x=x1", "--y=y")
        self.assertEqual((status, [row.split(",")[2] for row in out.splitlines()[1:]]), (0, ["0", "0"]))

    def test_spikes_do_not_take_the_digits(self):
        """Two values far beyond the rest are outliers, an x there without y is a gap, and the answer is that without them."""
        lines = TWO.text().splitlines()
        spiked = self.folder / "spiked.csv"
        spiked.write_text("\n".join([*lines, "60,2000,999999,spike", "61,2500,-99999.5,spike", "62,99999,,spike"]) + "\n", encoding="utf-8")
        status, out, err = run("fit", spiked, *WORDS, "--json")
        self.assertEqual((status, err), (0, ""))
        found = json.loads(out)
        self.assertEqual(*[[f["cost"], f["bound"], [line["exact"] for line in f["lines"]]] for f in (found, self.found)])
        self.assertEqual(found["labels"]["outliers"], self.found["labels"]["outliers"] + 2)
        self.assertEqual(found["labels"]["gaps"], 3)
        # Rows that 16 bits do not hold are in no beacon.
        self.assertEqual([beacon["rows"] for beacon in found["beacons"]], [beacon["rows"] for beacon in self.found["beacons"]])
        self.assertEqual(found["beacons"][-1]["rows"], [58, 60])
        self.assertIn("2 rows lie far beyond the others", " ".join(found["notes"]))

    def test_gaps_change_neither_cost_nor_bound(self):
        """The rows without y taken away, and as many put in: the answer is the same, and the gaps are counted and labelled."""
        lines = TWO.text().splitlines()
        samples = [line for line in lines if ",," not in line]
        more = [f"{60 + k},{400 + 50 * k},{'' if k % 2 else 'nan'},gap" for k in range(40)]
        for kept, gaps in ((samples, 0), ([*lines, *more], 42)):
            data, labels = self.folder / "gaps.csv", self.folder / f"gaps-{gaps}.csv"
            data.write_text("\n".join(kept) + "\n", encoding="utf-8")
            status, out, err = run("fit", data, *WORDS, "--json", "--labels", labels)
            self.assertEqual((status, err), (0, ""))
            found = json.loads(out)
            self.assertEqual(*[[f[key] for key in ("vector", "cost", "bound", "splits", "box")] for f in (found, self.found)])
            self.assertEqual(found["labels"], {**self.found["labels"], "gaps": gaps})
            rows = [row.split(",") for row in labels.read_text(encoding="utf-8").splitlines()]
            self.assertEqual([row[4:] for row in rows if row[2] in ("", "nan")], [["6", "", ""]] * gaps)

    def test_coefficients_of_a_fit_and_of_a_record(self):
        status, out, _ = run("coefficients", self.files["json"])
        self.assertEqual((status, out), (0, self.files["coefficients"].read_text(encoding="utf-8")))
        status, out, _ = run("coefficients", self.files["record"])
        self.assertEqual(status, 0)
        bits = [row.split(" ")[3] for row in out.splitlines() if row[0] != "#"]
        expected = [w / 2 ** self.found["scaling"]["scale"] for w in self.found["vector"]]
        self.assertEqual([struct.unpack(">f", bytes.fromhex(word))[0] for word in bits], expected)

    def test_decode(self):
        equations = [line["equation"] for line in self.found["lines"]]
        for name, extra in (("record", ["--fit", self.files["json"]]), ("json", [])):
            status, out, _ = run("decode", self.files[name], *extra)
            self.assertEqual(status, 0)
            for equation in equations:
                self.assertIn(equation, out)
        status, out, _ = run("decode", self.files["record"])
        self.assertIn(f"answer record: solved, C = {self.found['cost']}, L = {self.found['bound']}", out)
        status, out, _ = run("decode", self.files["coefficients"])
        self.assertEqual((status, out.count("\n")), (0, 2))
        job = pathlib.Path(__file__).resolve().parents[2] / "examples" / "fits" / "G.job"
        self.assertIn("job with 3 points: 1 lines of 1, S = 0, p = 1, epsilon = 2, t = 0, budget 10, 4 rows", run("decode", job)[1])


class Ends(unittest.TestCase):
    """Spent and full end with status 3, with a bound that holds and a word on what to do."""

    def setUp(self):
        held = tempfile.TemporaryDirectory()
        self.addCleanup(held.cleanup)
        self.data = pathlib.Path(held.name) / "points.csv"
        self.data.write_text(TWO.text(), encoding="utf-8")

    def fitted(self, status, *words):
        done, out, err = run("fit", self.data, *WORDS, "--json", *words)
        self.assertEqual((done, err), (status, ""))
        return json.loads(out)

    def test_spent_and_full(self):
        best = self.fitted(0)
        spent = self.fitted(3, "--splits=20", "--margin=8")
        self.assertEqual((spent["kind"], spent["splits"], spent["stopped"]), ("spent", 20, "splits"))
        full = self.fitted(3, "--table=3", "--margin=8")
        self.assertEqual((full["kind"], full["stopped"]), ("full", "rows"))
        for made in (spent, full):
            self.assertLess(made["bound"], best["cost"])
            self.assertGreaterEqual(made["cost"], best["cost"])
            self.assertIn("the bound holds", made["next"])
            self.assertGreater(made["gap_percent"], 0)

    def test_first_of_equals(self):
        """Many lines hold as many points. Without a gap the first of them is sought, from whatever start; with one any of them will do."""
        spent = self.fitted(3, "--loss=count", "--splits=50")
        self.assertEqual((spent["kind"], spent["cost"]), ("spent", spent["bound"]))
        self.assertIn("no other lines cost less", spent["next"])
        self.assertIn("a --gap above 0", spent["next"])
        self.assertEqual(self.fitted(0, "--loss=count", "--splits=50", "--gap=0.1")["cost"], spent["cost"])
        box = ["--loss=count", "--box=0.79:0.81,-20:-5,0.3:0.32,210:230"]
        starts = ("0.8,-13,0.31,220", "0.79,-20,0.3,210", "0.81,-5,0.32,230")
        found = [self.fitted(0, *box, f"--start={start}")["lines"] for start in starts]
        self.assertEqual(found, [found[0]] * len(starts))

    def test_gap(self):
        made = self.fitted(0, "--gap=30", "--margin=8")
        self.assertEqual(made["kind"], "solved")
        self.assertLessEqual(made["gap_percent"], 30)
        self.assertGreater(made["gap_percent"], 0)
        self.assertIn("the cost is at least", made["certificate"])

    def test_own_box_is_rounded_outward(self):
        made = self.fitted(0, "--box", "0.7777:0.8111,-30.03:5.55,0.3001:0.3222,200.01:240.07", "--start", "0,0,9,9")
        given = [(0.7777, 0.8111), (-30.03, 5.55), (0.3001, 0.3222), (200.01, 240.07)]
        for (low, high), side in zip(given, made["box"]):
            self.assertTrue(side["low"] <= low < side["low"] + side["step"], side)
            self.assertTrue(side["high"] - side["step"] < high <= side["high"], side)
        self.assertIn("the start was outside the box and is moved to its edge", made["notes"])

    def test_box_where_the_points_are_not(self):
        made = self.fitted(0, "--box", "-0.5:-0.4,0:10")
        self.assertEqual(made["labels"]["line 1"] + made["labels"]["line 2"], 0)

    def test_wide(self):
        made = self.fitted(0, "--wide")
        wide, samples = made["wide"], TWO.count - 2
        self.assertEqual((wide["kind"], wide["samples"], wide["most"]), ("solved", samples, samples - wide["bound"]))
        self.assertEqual(wide["fitted"], sum(made["labels"][name] for name in ("line 1", "line 2", "undecided")))
        self.assertIn(f"no lines of the wide box and grid fit more than {wide['most']} of {samples} points", wide["certificate"])
        for side, narrow in zip(wide["box"], made["box"]):
            self.assertTrue(side["low"] < narrow["low"] and narrow["high"] < side["high"])

    def test_wide_that_is_not_solved_goes_by_its_bound(self):
        wide = self.fitted(3, "--wide", "--splits=5", "--margin=8")["wide"]
        self.assertEqual(wide["kind"], "spent")
        self.assertLess(wide["bound"], wide["cost"])
        self.assertEqual(wide["most"], TWO.count - 2 - wide["bound"])
        self.assertIn(f"fit at most {wide['most']} of", wide["certificate"])
        self.assertIn("not decided", wide["certificate"])

    def test_wide_names_a_better_region(self):
        """One line is sought where few points are; the wide search finds that another region fits more."""
        made = self.fitted(0, "--lines=1", "--wide", "--box", "0.29:0.33,200:240")
        self.assertGreater(made["wide"]["samples"] - made["wide"]["cost"], made["wide"]["fitted"])
        self.assertIn("another region may be better", made["wide"]["certificate"])

    def test_seconds(self):
        """Without time every search still has its first answer."""
        table = points.read_table(str(self.data))
        settings = Settings(x=["x1"], y="y", lines=2, epsilon=Fraction(3), margin=Fraction(20), scale=11, loss="absolute",
                            limits=Limits(seconds=1e-9))
        found = fitting.fit(library.find(), points.read_points(table, ["x1"], "y"), settings)
        self.assertEqual((found.outcome.stopped, found.answer.kind), ("time", "spent"))
        self.assertLess(found.answer.bound, found.answer.cost)


class Interface(unittest.TestCase):
    def test_calls(self):
        """Every call once, on the paper's fits and on values by hand."""
        calls = library.find()
        model = library.Model(1, 1, 0, 1, 2)
        store = store_of([([1], 2), ([1], 2), ([1], 9)], [0, 1, 2])
        self.assertEqual([calls.loss(2, 4, -5), calls.loss(2, 5, -5)], [16, 25])
        self.assertEqual([calls.cost(store, model, [w]) for w in (0, 2, 3)], [6, 2, 4])
        self.assertEqual(calls.bound(store, model, [0], [3]), 2)
        rising = store_of([([1], k) for k in range(40)], range(40))
        self.assertEqual(calls.cost_by_beacon(rising, model._replace(epsilon=100), [0]), [171, 532, 77])
        self.assertEqual(calls.cost_by_beacon(rising[: 19 * 12], model._replace(epsilon=100), [0]), [171])
        self.assertEqual(calls.split(1, 1, [-3], [-2]), [([-3] + [0] * 7, [-3] + [0] * 7), ([-2] + [0] * 7, [-2] + [0] * 7)])
        self.assertEqual(calls.labels(store, model, [2]), b"\1\1\0")
        self.assertEqual(calls.labels(store, model._replace(n=2, epsilon=4), [4, 5]), b"\5\5\2")
        whole = scaling.Whole([[1] * 5], [None, 2, 40000, 9, None], [True, True, False, True, True])
        gapped, kept = scaling.store_of(whole, range(5))
        self.assertEqual((gapped[:12], kept), (bytes.fromhex("0001 0000 0000 0000 8000 0000"), [0, 1, 3, 4]))
        self.assertEqual(gapped, store_of([([1], None), ([1], 2), ([1], 9), ([1], None)], [0, 1, 3, 4]))
        self.assertEqual([calls.cost(gapped, model, [0]), calls.bound(gapped, model, [0], [3])], [4, 2])
        self.assertEqual(calls.labels(gapped, model, [2]), b"\6\1\0\6")
        alone = calls.search(gapped[:12], model, 0, 10, [0], [3], [0], 4)
        self.assertEqual((alone.kind, alone.cost, alone.bound), ("solved", 0, 0))
        answer = calls.search(store, model, 0, 10, [0], [3], [0], 4)
        self.assertEqual(answer, ("solved", [2], 2, 2, 1, 0, 1))
        first = calls.search(store[:24], model, 0, 10, [0], [3], [0], 4)
        second = calls.search(store[12:], model, 0, 10, [0], [3], first.vector, 4)
        windows = calls.windows(store, model, 0, 10, [0], [3], [0], 2, 1, 4)
        self.assertEqual(windows, [found._replace(open=None, peak=None) for found in (first, second)])
        record = calls.write_answer(answer, 1, 1, 0)
        self.assertEqual(calls.read_answer(record), (answer._replace(open=None, peak=None), 1, 1, 0))
        job = calls.write_job(model, 0, 10, 4, [0], [3], [0])
        self.assertEqual(calls.read_job(job), ([1, 1, 0, 1, 2, 0, 10, 4], [0] * 8, [3] + [0] * 7, [0] * 8))
        found = calls.boards(5, [job, job[:3] + b"\4" + job[4:]], [store, store], 4)
        self.assertEqual(found, [(0, 2, calls.search(store, model, 0, 2, [0], [3], [0], 4)._replace(vector=[2] + [0] * 7)), (4, 4, None)])
        ends = (0x3F800000, 0x40400000)  # 1 and 3, which cost 4; 2 costs 2 and 0 costs 6
        self.assertEqual(calls.ranges(store, model, 10, 4, [0], [3], [0], 4)[:2], ("solved", [ends]))
        self.assertEqual(calls.ranges(store, model, 10, 1, [0], [3], [0], 4)[:2], ("solved", [None]))
        count = model._replace(p=0, epsilon=0)
        peeled, marks = calls.peel(store, count, 0, 10, [0], [15], [0], 4, 4)
        self.assertEqual(([answer.vector for answer in peeled], marks), ([[2], [9]], b"\1\1\2"))
        registers = calls.reset()
        for offset, byte in [*enumerate(job, 64), (0, 2)]:
            registers = calls.write_register(registers, offset, byte, store, 4)
        self.assertEqual([calls.read_register(registers, k) for k in (0, 1, 3, 136)], [0, 1, 0, 0])
        self.assertEqual(bytes(calls.read_register(registers, k) for k in range(8, 48)), record)
        self.assertEqual(calls.write_line(1, 1, [-3]), [0xBFC00000, 0, 0, 0])
        self.assertEqual(calls.read_line(1, 1, [0xBFC00000, 0, 0, 0]), [-3])
        self.assertEqual(calls.take_in(bytes(24), 12, store[:12]), (bytes(12) + store[:12], 24))
        self.assertEqual(calls.merge(store[:12] + store[24:], store[12:24]), store)
        self.assertEqual([calls.merge(store, b""), calls.merge(b"", store)], [store, store])
        with self.assertRaises(Refused) as caught:
            calls.merge(store[:12], b"\0\2" + store[2:12])
        self.assertEqual(caught.exception.number, 16)

    def test_stray_record(self):
        """Refusal 7 names the record, the first and the last of a store among them, from every call that makes it."""
        calls, model = library.find(), library.Model(1, 1, 0, 1, 2)
        for stray in (0, 1, 255, 256, 4095):
            store = store_of([([1, 5 if k == stray else 0], 2) for k in range(4096)], range(4096))
            for call in (lambda: calls.cost(store, model, [0]), lambda: calls.bound(store, model, [0], [3]),
                         lambda: calls.labels(store, model, [0]), lambda: calls.search(store, model, 0, 10, [0], [3], [0], 4)):
                with self.assertRaises(Refused) as caught:
                    call()
                self.assertEqual((caught.exception.number, caught.exception.record), (7, stray))
                self.assertIn(f"record {stray}", str(caught.exception))

    def test_stray_record_comes_by_the_code_alone(self):
        """*value is kept, whatever it held: it is no part of a refusal."""
        calls = library.find()
        store = store_of([([1, 0], 2), ([1, 5], 2)], [0, 1])
        value, vector = ctypes.c_uint64(99), (ctypes.c_int16 * 8)()
        lent = (ctypes.c_uint8 * len(store)).from_buffer_copy(store)
        code = calls._calls.vengutari_cost(lent, len(store), 1, 1, 0, 1, 2, vector, 8, ctypes.byref(value))
        self.assertEqual((code, value.value), (7 + 256, 99))

        class Marked:
            """A library that leaves a mark in *value, as any memory may hold one."""

            def vengutari_cost(self, *given):
                given[-1]._obj.value = 99
                return 7 + 256

        calls._calls = Marked()
        with self.assertRaises(Refused) as caught:
            calls.cost(store, library.Model(1, 1, 0, 1, 2), [0])
        self.assertEqual((caught.exception.number, caught.exception.record), (7, 1))

    def test_refusals(self):
        calls = library.find()
        store = store_of([([1, 0], 2), ([1, 5], 2)], [0, 1])
        with self.assertRaises(Refused) as caught:
            calls.search(store, library.Model(1, 2, 0, 1, 2), 0, 10, [0, 0], [3, 3], [9, 0], 4)
        self.assertEqual((caught.exception.number, caught.exception.record), (6, None))


if __name__ == "__main__":
    unittest.main()
