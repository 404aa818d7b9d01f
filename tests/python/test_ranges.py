"""Ranges of the coefficients, against an enumeration of every vector of a small box in plain arithmetic."""

import itertools
import json
import re
import unittest

from made_points import Made, run
from made_requests import Folder, cost, records

import vengutari

CASES = {
    "one line with an offset": (Made([(0.5, 12.0)], [(0, 1000)], 30, noise=2.0, seed=31),
                                ["--epsilon=8", "--box=0.45:0.55,495:525", "--origin=1000", "--scale=4"]),
    "two lines through 0": (Made([(0.9, 0.0), (-0.4, 0.0)], [(10, 200)], 30, noise=1.0, seed=32),
                            ["--epsilon=5", "--lines=2", "--no-offset", "--box=0.7:1.1,-0.6:-0.2", "--scale=4"]),
    "distances": (Made([(0.5, 0.0)], [(-300, 300)], 30, noise=2.0, seed=33),
                  ["--epsilon=8", "--no-offset", "--loss=absolute", "--box=0.2:0.8", "--scale=8"]),
}


class Ranges(Folder):
    def fitted(self, made, words, *more):
        self.write("points.csv", made.text())
        files = ["--json=fit.json", "--coefficients=upload.txt", "--report=page.html", "--force"]
        status, out, err = run("fit", "points.csv", "--x=x1", "--y=y", "--quiet", *words, *files, *more)
        self.assertEqual((status, err), (0, ""))
        return out, json.loads(self.read("fit.json"))

    def enumerated(self, made, found):
        """The least and the greatest w of each coefficient among all vectors of the box that cost at most the ceiling."""
        whole = records(found, [(*map(str, x), "" if y is None else str(y)) for x, y in zip(made.x, made.y)])
        sides = [range(side["w"][0], side["w"][1] + 1) for side in found["box"]]
        epsilon, p = found["settings"]["epsilon_whole"], found["settings"]["p"]
        costs = {vector: cost(found, whole, vector, epsilon, p) for vector in itertools.product(*sides)}
        self.assertEqual(min(costs.values()), found["cost"])
        kept = [vector for vector, value in costs.items() if value <= found["ranges"]["ceiling"]]
        self.assertLess(len(kept), len(costs))
        return [[min(values), max(values)] for values in zip(*kept)], len(kept)

    def test_against_enumeration(self):
        for name, (made, words) in CASES.items():
            for percent in ("0", "1", "30"):
                with self.subTest(name, percent=percent):
                    out, found = self.fitted(made, words, f"--ranges={percent}")
                    ranges = found["ranges"]
                    self.assertEqual(ranges["ceiling"], found["cost"] + found["cost"] * int(percent) // 100)
                    ends, count = self.enumerated(made, found)
                    self.assertEqual([side["w"] for side in ranges["coefficients"]], ends)
                    self.assertEqual(count > 1, any(a < b for a, b in ends))
                    self.assertIn(f"cost at most {percent} % more than these", out)

    def test_in_units_everywhere(self):
        """Summary, JSON, report and upload file say the same, and so does the upload file that is written again."""
        made, words = CASES["one line with an offset"]
        out, found = self.fitted(made, words, "--ranges=30")
        for side, box in zip(found["ranges"]["coefficients"], found["box"]):
            self.assertAlmostEqual(side["low"], box["low"] + (side["w"][0] - box["w"][0]) * box["step"])
            self.assertAlmostEqual(side["high"], box["low"] + (side["w"][1] - box["w"][0]) * box["step"])
        told = [line for line in out.splitlines() if line.startswith("range")]
        self.assertEqual(len(told), 2)
        self.assertRegex(told[0], r"^range of line 1: x1 0\.\d+ to 0\.\d+, offset at x1 = 1000 from \d+[.\d]* to \d+[.\d]*$")
        for line in told:
            self.assertIn(f"# {line}\n", self.read("upload.txt"))
        self.assertEqual(run("coefficients", "fit.json")[1], self.read("upload.txt"))
        page = self.read("page.html")
        shown = re.search(r'<table id="ranges">(.*?)</table>', page, re.S).group(1)
        self.assertEqual((shown.count("<svg"), page.count("all lines 1 of the ranges lie here")), (2, 1))
        for number in re.findall(r"\d+\.\d+", told[0]):
            self.assertIn(f">{number}<", shown)

    def test_the_light_band(self):
        """It holds the lines with all four pairs of ends, and touches one of them at either end of the picture, above and below."""
        made, words = CASES["one line with an offset"]
        _, found = self.fitted(made, words, "--ranges=30")
        slopes, heights = ([side["low"], side["high"]] for side in found["ranges"]["coefficients"])
        picture = re.search('<svg class="wide".*?</svg>', self.read("page.html"), re.S).group(0)
        corners = re.search('polygon points="([^"]*)" fill="#fff"', picture).group(1).split()
        places = [tuple(map(float, corner.split(","))) for corner in corners]
        line = [tuple(map(float, place.split(","))) for place in re.search('polyline points="([^"]*)"', picture).group(1).split()]
        (x0, y0), (x1, y1) = line
        values, best = list(found["lines"][0]["coefficients"].values()), {}
        ticks = re.findall(r'<path d="M([0-9.]+) 30V[^>]*/><text[^>]*>([0-9,]+)</text>', picture)
        (a, u), (b, v) = ((float(place), float(text.replace(",", ""))) for place, text in (ticks[0], ticks[-1]))
        def x_of(place):
            return u + (place - a) * (v - u) / (b - a)
        scale = (y1 - y0) / (values[0] * (x_of(x1) - x_of(x0)))
        for end, y in ((x0, y0), (x1, y1)):
            x, here = x_of(end), sorted(b for a, b in places if abs(a - end) < 0.01)
            best = [y + scale * (h + s * (x - 1000) - values[0] * x - values[1]) for s in slopes for h in heights]
            self.assertEqual(len(here), 2)
            self.assertLess(abs(here[0] - min(best)) + abs(here[1] - max(best)), 0.3)

    def test_not_finished(self):
        """Where the search for ranges is not finished, or the fit not solved, there are none, and that is said."""
        made, words = CASES["two lines through 0"]
        self.write("points.csv", made.text())
        for splits, status, said in (("40", 0, "ranges: none, since their search is not finished, all splits are used\n"),
                                     ("3", 3, "ranges: none, since the search is not solved\n")):
            words = [*words, f"--splits={splits}"]
            done = run("fit", "points.csv", "--x=x1", "--y=y", "--quiet", *words, "--ranges=1000", "--json=fit.json",
                       "--coefficients=upload.txt", "--report=page.html", "--force")
            self.assertEqual(done[0], status, done)
            self.assertIn(said, done[1])
            ranges = json.loads(self.read("fit.json"))["ranges"]
            self.assertEqual((ranges["finished"], ranges["coefficients"]), (False, None))
            self.assertIn(f"# {said}", self.read("upload.txt"))
            self.assertIn(said.strip().removeprefix("ranges: "), self.read("page.html"))

    def test_from_python(self):
        """Each line has the ranges of its coefficients, by their meaning; none where they are not finished."""
        made, words = CASES["one line with an offset"]
        _, found = self.fitted(made, words, "--ranges=30")
        given = {"epsilon": 8, "box": [(0.45, 0.55), (495, 525)], "origin": 1000, "scale": 4, "ranges": 30}
        line = vengutari.fit("points.csv", x="x1", y="y", **given).lines[0]
        self.assertEqual(line.ranges, {side["meaning"]: (side["low"], side["high"]) for side in found["ranges"]["coefficients"]})
        self.assertIsNone(vengutari.fit("points.csv", x="x1", y="y", **given, splits=0).lines[0].ranges)
        with self.assertRaisesRegex(vengutari.BadUse, "ranges: -1 is not at least 0"):
            vengutari.fit("points.csv", x="x1", y="y", **{**given, "ranges": -1})

    def test_requests_to_end(self):
        """One that comes while the ranges are searched leaves the fit as it is."""
        self.write("points.csv", CASES["distances"][0].text())
        words = ["fit", "points.csv", "--x=x1", "--y=y", *CASES["distances"][1], "--quiet", "--ranges=30", "--json=fit.json"]
        done = self.ended("growing", "Growing", "one", 1, *words)
        self.assertEqual((done.returncode, done.stderr), (0, ""))
        self.assertTrue(done.stdout.startswith("solved: gap 0 %"), done.stdout)
        self.assertIn("ranges: none, since their search is not finished, interrupted\n", done.stdout)
        self.assertEqual(json.loads(self.read("fit.json"))["ranges"]["stopped"], "interrupt")

    def test_without_ranges_nothing_is_said(self):
        made, words = CASES["distances"]
        out, found = self.fitted(made, words)
        self.assertIsNone(found["ranges"])
        self.assertNotIn("range", out + self.read("upload.txt"))

    def test_refused(self):
        self.write("points.csv", CASES["distances"][0].text())
        for value, said in (("-1", "--ranges: -1 is not at least 0"), ("much", "--ranges: 'much' is not a number")):
            self.refused(2, said, "fit", "points.csv", "--x=x1", "--y=y", "--epsilon=8", f"--ranges={value}", "--report=p.html")


if __name__ == "__main__":
    unittest.main()
