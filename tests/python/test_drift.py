"""vengutari drift on made passes whose slope drifts: each window against the truth and against the same search alone."""

import csv
import json
import random
import re
import unittest

from made_points import run
from made_requests import Folder, records, store

from vengutari import drifting, library

TWO = ["--x=adc", "--y=mA", "--lines=2", "--epsilon=3", "--quiet"]
ONE = ["--x=adc", "--y=mA", "--epsilon=3", "--quiet"]


def slope(frame):
    return 0.8 + 0.00001 * frame


def made_pass(count, lines=2, seed=51, gaps=(), noise=0.5):
    """A pass with a slope that drifts, a second line that does not where there are two, and every twelfth sample anywhere."""
    numbers, rows = random.Random(seed), []
    for k in range(count):
        x = numbers.randrange(300, 4000)
        y = slope(k) * x - 13 if lines == 1 or numbers.random() < 0.5 else 0.3 * x + 22
        y += max(-3.0, min(3.0, numbers.gauss(0, 1))) * noise
        if k % 12 == 7:
            y = numbers.uniform(-500, 4000)
        rows.append((str(x), "" if k in gaps else f"{y:.1f}"))
    return rows, "frame,adc,mA\n" + "".join(f"{k + 1000},{x},{y}\n" for k, (x, y) in enumerate(rows))


class Drift(Folder):
    def drifted(self, text, *words, status=0):
        self.write("pass.csv", text)
        done = run("drift", "pass.csv", *words, "--json=drift.json", "--csv=drift.csv", "--report=page.html", "--force")
        self.assertEqual((done[0], done[2]), (status, ""))
        return done[1], json.loads(self.read("drift.json"))

    def alone(self, rows, found):
        """Each window of the JSON is the answer of one search of its rows alone, from another start."""
        calls = library.find()
        model = library.Model(found["settings"]["lines"], len(found["scaling"]["x"]), found["scaling"]["scale"], found["settings"]["p"],
                              found["settings"]["epsilon_whole"])
        low, high = ([side["w"][end] for side in found["box"]] for end in (0, 1))
        whole = records(found, rows)
        for window in found["windows"]:
            first, last = window["rows"]
            answer = calls.search(store(whole[first - 1 : last]), model, 0, 2**32 - 1, low, high, low, 100_000)
            self.assertEqual((window["kind"], window["vector"], window["cost"], window["bound"]),
                             ("solved", answer.vector, answer.cost, answer.bound))

    def test_a_slope_that_drifts(self):
        """Each window's slope lies between those of its first and last frame; the other line stays, and each window is as alone."""
        rows, text = made_pass(400, gaps=(30, 200))
        out, found = self.drifted(text, *TWO, "--window=100", "--hop=50")
        self.assertEqual([window["rows"] for window in found["windows"]], [[k + 1, k + 100] for k in range(0, 301, 50)])
        for window in found["windows"]:
            first, last = window["frames"]
            self.assertEqual([first, last], [row + 999 for row in window["rows"]])
            steep, flat = (line["coefficients"] for line in window["lines"])
            self.assertTrue(slope(first - 1000) < steep["adc"] < slope(last - 1000), window)
            self.assertLess(abs(flat["adc"] - 0.3), 0.001)
            self.assertIn(f"\n{first} to {last}  ", out)
        self.assertEqual(found["windows"][0]["samples"], 99)
        self.alone(rows, found)

    def test_more_rows_than_a_store(self):
        """No window is missed at the cuts, and each is as alone."""
        rows, text = made_pass(5200, lines=1)
        _, found = self.drifted(text, *ONE, "--window=900", "--hop=700")
        self.assertEqual([window["rows"] for window in found["windows"]], [[k + 1, k + 900] for k in range(0, 4301, 700)])
        self.alone(rows, found)
        self.assertIn("the last 100 rows fill no window", found["notes"])

    def test_each_window_starts_where_the_one_before_ended(self):
        """At the cut between two stores too: with no split the answer of a window is where its search began."""
        rows, text = made_pass(5200, lines=1)
        _, found = self.drifted(text, *ONE, "--window=100", "--hop=1100", "--splits=0", "--start=0.801,-13", status=3)
        vectors = [window["vector"] for window in found["windows"]]
        self.assertEqual(vectors, [vectors[0]] * 5)
        _, found = self.drifted(text, *ONE, "--window=100", "--hop=1100", "--splits=12", "--start=0.801,-13", status=3)
        calls, whole = library.find(), records(found, rows)
        model = library.Model(1, 2, found["scaling"]["scale"], 2, found["settings"]["epsilon_whole"])
        low, high = ([side["w"][end] for side in found["box"]] for end in (0, 1))
        for before, window in zip([{"vector": vectors[0]}, *found["windows"]], found["windows"]):
            first, last = window["rows"]
            answer = calls.search(store(whole[first - 1 : last]), model, 0, 12, low, high, before["vector"], 13)
            self.assertEqual((window["vector"], window["cost"], window["bound"]), (answer.vector, answer.cost, answer.bound))

    def test_stores(self):
        """All windows in order, each in one store, and two stores have a window less one hop in common."""
        for records_, length, hop in ((10_000, 200, 50), (4096, 4096, 1), (4097, 4096, 1), (9000, 1, 1), (9000, 7, 5000),
                                      (20_000, 4000, 30), (8191, 4096, 4095), (100, 101, 1)):
            made = drifting.stores_of(records_, length, hop)
            begins = [k for begin, end in made for k in range(begin, end - length + 1, hop)]
            self.assertEqual(begins, list(range(0, records_ - length + 1, hop)))
            self.assertTrue(all(end - begin <= 4096 for begin, end in made))
            for (_, end), (begin, _) in zip(made, made[1:]):
                self.assertEqual(end - begin, length - hop)

    def test_parts_of_a_file(self):
        """Rows keep their numbers and frames."""
        _, found = self.drifted(made_pass(300, lines=1)[1], *ONE, "--window=50", "--hop=50", "--rows=101:300", "--every=2")
        self.assertEqual([window["rows"] for window in found["windows"]], [[101, 199], [201, 299]])
        self.assertEqual([window["frames"] for window in found["windows"]], [[1100, 1198], [1200, 1298]])

    def test_table_csv_and_json_agree(self):
        out, found = self.drifted(made_pass(300)[1], *TWO, "--window=100", "--hop=100")
        with open("drift.csv", encoding="utf-8", newline="") as file:
            rows = list(csv.DictReader(file))
        self.assertEqual(len(rows), 3)
        for row, window in zip(rows, found["windows"]):
            self.assertEqual([int(row["first_frame"]), int(row["last_frame"])], window["frames"])
            self.assertEqual((row["kind"], int(row["samples"])), (window["kind"], 100))
            self.assertAlmostEqual(float(row["cost"]), window["cost_in_units"], places=4)
            for j, line in enumerate(window["lines"], 1):
                self.assertAlmostEqual(float(row[f"line {j} adc"]), line["coefficients"]["adc"])
                self.assertAlmostEqual(float(row[f"line {j} offset"]), line["coefficients"]["offset"], places=6)
                place = next(name for name in row if name.startswith(f"line {j} offset at adc = "))
                at = float(place.rpartition(" ")[2])
                self.assertAlmostEqual(float(row[place]), line["coefficients"]["offset"] + at * line["coefficients"]["adc"], places=6)
        self.assertEqual(out.count("  solved  0 %  "), 3)

    def test_report(self):
        """A plot for each coefficient, a mark for each window by its kind, the first window as a band, and a row for each window."""
        _, found = self.drifted(made_pass(300)[1], *TWO, "--window=100", "--hop=100")
        page = self.read("page.html")
        self.assertEqual(page.count("the first window&#x27;s line, within epsilon at all samples"), 4)
        self.assertEqual(len(re.findall("<title>first window, line ", page)), 2)
        self.assertEqual(len(re.findall("<title>frames [0-9]+ to [0-9]+, rows ", page)), 4 * 3)
        self.assertEqual(re.search(r'<table id="windows">(.*?)</table>', page, re.S).group(1).count("<tr>"), 4)
        for panel in re.findall('<svg class="panel".*?</svg>', page):
            band = re.search('<line x1="[^"]*" y1="([^"]*)" x2="[^"]*" y2="([^"]*)"', panel).groups()
            self.assertEqual(set(band), {re.search('<circle cx="[^"]*" cy="([^"]*)"', panel).group(1)})
        self.assertIn("</svg> solved, 3</span>", page)
        self.assertNotIn("</svg> spent", page)

    def test_windows_that_are_not_solved(self):
        """They are marked, with a bound that holds: none above the cost of the same window when it is solved."""
        _, text = made_pass(300)
        _, solved = self.drifted(text, *TWO, "--window=100", "--hop=100")
        out, found = self.drifted(text, *TWO, "--window=100", "--hop=100", "--splits=100", status=3)
        kinds = [window["kind"] for window in found["windows"]]
        self.assertIn("spent", kinds)
        self.assertTrue(out.startswith(f"spent, all splits are used: {kinds.count('solved')} of 3 windows solved"), out)
        self.assertIn("next: ", out)
        for window, best in zip(found["windows"], solved["windows"]):
            self.assertLessEqual(window["bound"], best["cost"])
            self.assertLessEqual(best["cost"], window["cost"])
        self.assertIn(f"</svg> spent, {kinds.count('spent')}</span>", self.read("page.html"))
        out, found = self.drifted(text, *TWO, "--window=100", "--hop=100", "--table=20", status=3)
        self.assertIn("full", [window["kind"] for window in found["windows"]])
        self.assertTrue(out.startswith("full, the table has no row left: "), out)

    def test_a_gap(self):
        """With a gap each window's bound is within it, and fewer splits are made."""
        _, text = made_pass(300)
        _, solved = self.drifted(text, *TWO, "--window=100", "--hop=100")
        _, found = self.drifted(text, *TWO, "--window=100", "--hop=100", "--gap=20")
        for window in found["windows"]:
            self.assertLessEqual(window["cost"] - window["bound"], 0.2 * window["cost"])
        self.assertLess(sum(window["splits"] for window in found["windows"]), sum(window["splits"] for window in solved["windows"]))

    def test_spoiled(self):
        rows, text = made_pass(200, lines=1)
        _, found = self.drifted(text, "--x=adc", "--y=mA", "--spoiled=12", "--quiet", "--window=100", "--hop=100")
        for window in found["windows"]:
            first, last = (frame - 1000 for frame in window["frames"])
            self.assertTrue(slope(first) < window["lines"][0]["coefficients"]["adc"] < slope(last))
        self.refused(2, "--spoiled: 100 in a window of 100", "drift", "pass.csv", "--x=adc", "--y=mA", "--spoiled=100", "--window=100",
                     "--hop=100")

    def test_doubts(self):
        """A window of gaps, and a box that the slope leaves."""
        out, found = self.drifted(made_pass(200, lines=1, gaps=range(100, 200))[1], *ONE, "--window=100", "--hop=100")
        self.assertIn("warning: 1 window, first rows 101 to 200: fewer samples than 3 for each coefficient", out)
        self.assertEqual(found["windows"][1]["samples"], 0)
        out, _ = self.drifted(made_pass(300, lines=1)[1], *ONE, "--window=100", "--hop=100", "--box=0.799:0.8008,-30:0")
        self.assertIn("first rows 101 to 200: a coefficient lies on the edge of the box; better lines may lie outside: give a wider --box",
                      out)
        self.assertEqual(run("drift", "pass.csv", *ONE, "--window=100", "--hop=100", "--box=0.799:0.8008,-30:0", "--strict")[0], 4)

    def test_rows_that_16_bits_do_not_hold(self):
        """They are in no window, are said to be set aside, and the others' windows are of as many rows as asked for."""
        rows, text = made_pass(200, lines=1)
        spiked = text.replace(f"1030,{rows[30][0]},{rows[30][1]}\n", f"1030,{rows[30][0]},9999999.0\n")
        out, found = self.drifted(spiked, *ONE, "--window=99", "--hop=100")
        self.assertIn("note: 1 row lies far beyond the others, outside 16 bits: set aside as outlier", out)
        self.assertEqual([window["rows"] for window in found["windows"]], [[1, 100], [102, 200]])
        self.assertEqual([window["samples"] for window in found["windows"]], [99, 99])

    def test_requests_to_end(self):
        self.write("pass.csv", made_pass(300)[1])
        words = ["drift", "pass.csv", *TWO, "--window=100", "--hop=100", "--csv=drift.csv", "--report=page.html"]
        done = self.ended("scaling", "", "columns_for", 1, *words)
        self.assertEqual((done.returncode, done.stdout, done.stderr), (130, "", "vengutari: interrupted\n"))
        done = self.ended("growing", "Growing", "one", 2, *words)
        self.assertEqual((done.returncode, done.stderr), (3, ""))
        self.assertTrue(done.stdout.startswith("spent, interrupted: "), done.stdout)
        self.assertEqual(self.read("drift.csv").count("\n"), 4)

    def test_refused(self):
        self.write("pass.csv", made_pass(60, lines=1)[1])
        one = ["drift", "pass.csv", *ONE]
        for words, said in ((["--window=0", "--hop=1"], "--window: 0 is not from 1 to 4,096"),
                            (["--window=5000", "--hop=1"], "--window: 5000"),
                            (["--window=10", "--hop=0"], "--hop: 0 is not from 1"), (["--hop=5"], "--window"), (["--window=5"], "--hop"),
                            (["--window=20", "--hop=5", "--csv=pass.csv"], "is the input"),
                            (["--window=20", "--hop=5", "--wide"], "unrecognized arguments: --wide")):
            self.refused(2, said, *one, *words)
        self.refused(1, "--window: 61 rows, but there are 60", *one, "--window=61", "--hop=1")
        self.refused(1, "too few samples in each window", *one, "--window=2", "--hop=1")


if __name__ == "__main__":
    unittest.main()
