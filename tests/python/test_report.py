"""The report is one well-formed page with nothing from outside, and shows each point once in each picture."""

import hashlib
import html.parser
import json
import os
import pathlib
import re
import sys
import tempfile
import unittest
import unittest.mock
import xml.etree.ElementTree
from html import escape as html_escape

from made_points import Made, run

VOID = {"meta", "br"}
SHAPES = {"circle", "rect", "path"}

CASES = {
    "two lines": (
        Made([(0.8, -13.5), (0.31, 220.0)], [(300, 4000)], 60, noise=0.6, gaps=2, seed=12), ["--lines=2", "--epsilon=3", "--wide"]),
    "two columns": (Made([(0.9, -2.0, 10.0)], [(0, 1000), (-20, 60)], 40, x_decimals=1, seed=13), ["--epsilon=3", "--offset"]),
    "crossing lines": (
        Made([(1.5, 3.0), (-0.5, 40.0)], [(0, 40)], 60, noise=0.3, gaps=3, x_decimals=1, seed=15), ["--lines=2", "--epsilon=2"]),
    "spent": (Made([(0.5, 12.0)], [(0, 1000)], 40, seed=14), ["--epsilon=2", "--splits=3"]),
}


class Page(html.parser.HTMLParser):
    """The tags in order of their opening, the text by the tag it is in, and whether every tag is closed in turn."""

    def __init__(self, text):
        super().__init__(convert_charrefs=True)
        self.open, self.tags, self.text, self.svg = [], [], {}, []
        self.feed(text)
        self.close()

    def handle_starttag(self, tag, attrs):
        self.tags.append((tag, dict(attrs)))
        if tag not in VOID:
            self.open.append((tag, dict(attrs)))

    def handle_startendtag(self, tag, attrs):
        self.tags.append((tag, dict(attrs)))

    def handle_endtag(self, tag):
        name, _ = self.open.pop()
        assert name == tag, f"{tag} closes {name}"

    def handle_data(self, data):
        for tag, attrs in self.open[-1:]:
            self.text.setdefault(attrs.get("id") or tag, []).append(data)


class Report(unittest.TestCase):
    @classmethod
    def setUpClass(cls):
        cls.done, cls.data = {}, {}
        with tempfile.TemporaryDirectory() as folder:
            for k, (name, (made, words)) in enumerate(CASES.items()):
                data, page, found = (pathlib.Path(folder) / f"{k}.{end}" for end in ("csv", "html", "json"))
                # A column whose name would be markup, were it not escaped.
                data.write_text(made.text().replace("x1", "<b>raw & x1"), encoding="utf-8")
                x = ",".join(["<b>raw & x1", *(f"x{j + 1}" for j in range(1, len(made.ranges)))])
                run("fit", data, "--x", x, "--y=y", "--frame=frame", "--quiet", *words, "--report", page, "--json", found)
                cls.data[name] = data.read_bytes()
                cls.done[name] = (made, page.read_text(encoding="utf-8"), json.loads(found.read_text(encoding="utf-8")))

    def test_well_formed(self):
        for name, (_, text, _) in self.done.items():
            with self.subTest(name):
                page = Page(text)
                self.assertEqual(page.open, [])
                self.assertTrue(text.startswith("<!DOCTYPE html>"))
                self.assertNotIn("b", {tag for tag, _ in page.tags})

    def test_nothing_from_outside(self):
        for name, (_, text, _) in self.done.items():
            with self.subTest(name):
                for tag, attributes in Page(text).tags:
                    self.assertNotIn(tag, {"script", "link", "img", "iframe", "object", "embed", "image", "use", "base"})
                    self.assertFalse({"src", "href", "xlink:href", "srcset"} & set(attributes))
                self.assertNotIn("://", text)
                self.assertNotIn("@import", text)
                for place in re.findall(r"url\(([^)]*)\)", text):
                    self.assertTrue(place.startswith("#clip-") and f'<clipPath id="{place[1:]}">' in text, place)

    def test_says_what_the_fit_says(self):
        for name, (_, text, found) in self.done.items():
            with self.subTest(name):
                page = Page(text)
                everything = " ".join(part for parts in page.text.values() for part in parts)
                self.assertIn(found["certificate"], "".join(page.text["certificate"]))
                for line in found["lines"]:
                    self.assertIn(line["equation"], everything)
                for note in found["notes"]:
                    self.assertIn(note, everything)
                counts = ", ".join(f"{found['labels'][name]} {name}" for name in ("outliers", "undecided", "gaps"))
                self.assertIn(counts, everything)
                if found["wide"]:
                    self.assertIn(found["wide"]["certificate"], "".join(page.text["wide"]))
                self.assertEqual("class=\"verdict solved\"" in text, found["kind"] == "solved")
                self.assertEqual(f"Next: {found['next']}" in everything, found["kind"] != "solved")

    def test_every_row_is_shown(self):
        """Each sample among the points and in each panel of its line, each gap in every panel by frame, and all marks in the picture."""
        for name, (made, text, found) in self.done.items():
            with self.subTest(name):
                titles = [title for title in Page(text).text["title"] if title.startswith("row ")]
                columns, lines = len(made.ranges), len(found["lines"])
                for k, label in enumerate(made.labels):
                    shown = lines if label is None else 2 if columns == 1 else columns + 2
                    self.assertEqual(sum(title.startswith(f"row {k + 1}, frame {k}: ") for title in titles), shown)
                for cx, cy in re.findall(r'<circle cx="([^"]+)" cy="([^"]+)"', text):
                    self.assertTrue(0 <= float(cx) <= 720 and 0 <= float(cy) <= 400)

    def test_panels(self):
        """For each line by frame, for several columns by each of them, and a histogram that holds every sample."""
        for name, (made, text, found) in self.done.items():
            with self.subTest(name):
                names = re.findall('aria-label="(residuals [^"]*)"', text)
                of = [f" of line {j + 1}" for j in range(len(found["lines"]))] if len(found["lines"]) > 1 else [""]
                columns = ["frame"] if len(made.ranges) == 1 else ["&lt;b&gt;raw &amp; x1", "x2", "frame"]
                self.assertEqual(names, [f"residuals{line} by {column}" for line in of for column in columns])
                bars = [int(count) for count in re.findall(r"<title>[a-z0-9 ]+: (\d+) samples, ", text)]
                self.assertEqual(sum(bars), sum(found["labels"].values()) - found["labels"]["gaps"])

    def test_residuals_go_by_epsilon(self):
        """Each panel has the band up to epsilon, three of five parts of its height, whatever the residuals."""
        for name, (made, text, found) in self.done.items():
            with self.subTest(name):
                epsilon = found["settings"]["epsilon"]
                panels = re.findall('<svg class="panel"[^>]*aria-label="residuals.*?</svg>', text)
                for panel in panels:
                    self.assertIn(f">{epsilon}</text>", panel)
                    self.assertIn(f">−{epsilon}</text>", panel)
                    corners = re.search('polygon points="([^"]*)"', panel).group(1).split()
                    heights = [float(corner.split(",")[1]) for corner in corners]
                    self.assertAlmostEqual((max(heights) - min(heights)) / (230 - 78), 1 / 1.6, delta=0.01)

    def test_where_it_comes_from(self):
        """Date, command, version and the sums of the data and of the settings, in the page and in the JSON."""
        for name, (made, text, found) in self.done.items():
            with self.subTest(name):
                self.assertEqual(found["data_sha256"], hashlib.sha256(self.data[name]).hexdigest())
                for key in ("data_sha256", "settings_sha256", "date", "version"):
                    self.assertIn(html_escape(found[key]), text)
                self.assertTrue(found["command"].startswith("vengutari fit "))
                self.assertIn(html_escape(found["command"]), text)
                self.assertRegex(found["date"], r"^\d{4}-\d\d-\d\d \d\d:\d\d:\d\d[+-]")
        sums = {found["settings_sha256"] for _, _, found in self.done.values()}
        self.assertEqual(len(sums), len(self.done))

    def test_frames_are_found_by_their_name(self):
        """Without --frame; a column of that name that has other things than whole numbers is left alone."""
        rows = [f"{100 + k},{k},{2 * k + k % 3}" for k in range(30)]
        with tempfile.TemporaryDirectory() as folder:
            data = pathlib.Path(folder) / "points.csv"
            for head, last, frame in (("Frame,x,y", "130,30,60", "Frame"), ("Frame,x,y", "late,30,60", None),
                                      ("number,x,y", "130,30,60", None)):
                data.write_text("\n".join([head, *rows, last]) + "\n")
                found = json.loads(run("fit", data, "--x=x", "--y=y", "--epsilon=3", "--json", "--quiet")[1])
                self.assertEqual(found["settings"]["frame"], frame)

    def test_pictures_in_files(self):
        """SVG by itself, well-formed; PNG by a program that is played here, and refused at once where there is none."""
        with tempfile.TemporaryDirectory() as place:
            folder = pathlib.Path(place)
            (folder / "points.csv").write_text(CASES["two columns"][0].text(), encoding="utf-8")
            words = ["fit", folder / "points.csv", "--x=x1,x2", "--y=y", "--epsilon=3", "--offset", "--quiet"]
            self.assertEqual(run(*words, "--picture", folder / "all.svg")[0], 0)
            drawing = xml.etree.ElementTree.parse(folder / "all.svg").getroot()
            self.assertEqual([len(list(drawing.iter(f"{{http://www.w3.org/2000/svg}}{tag}"))) for tag in ("svg", "polygon")], [6, 4])
            width, height = (int(drawing.get(name)) for name in ("width", "height"))
            for part in list(drawing)[2:]:
                x, y, across, down = (float(part.get(name)) for name in ("x", "y", "width", "height"))
                self.assertTrue(x + across <= width and y + down <= height)
            program = folder / "rsvg-convert"
            program.write_text(f"#!{sys.executable}\nimport sys\nassert open(sys.argv[-1]).read().startswith('<svg')\n"
                               "open(sys.argv[4], 'wb').write(b'\\x89PNG')\n")
            program.chmod(0o755)
            with unittest.mock.patch.dict(os.environ, PATH=place):
                self.assertEqual(run(*words, "--picture", folder / "all.png")[0], 0)
                self.assertEqual((folder / "all.png").read_bytes(), b"\x89PNG")
                program.write_text(f"#!{sys.executable}\nraise SystemExit(1)\n")
                status, out, err = run(*words, "--picture", folder / "other.png")
                self.assertEqual(status, 1)
                self.assertEqual(err, "vengutari: --picture: rsvg-convert made no PNG of the drawing; name a file that ends in .svg\n")
                self.assertIn("certificate: ", out)
                program.unlink()
                status, out, err = run(*words, "--picture", folder / "other.png")
                self.assertEqual((status, out), (1, ""))
                self.assertIn("no program here makes a PNG of a drawing: install one of rsvg-convert", err)

    def test_undecided_samples_and_gaps_have_marks_of_their_own(self):
        """By name: a ring and a tick, one in the legend and the others by their rows."""
        _, text, found = self.done["crossing lines"]
        self.assertGreater(found["labels"]["undecided"], 0)
        for name, several, mark, pictures in (("undecided", "undecided", 'r="4.2"', 2), ("gap", "gaps", 'v-9"', 2)):
            marks = re.findall(rf"<g>(<[^>]*{mark}[^>]*>)<title>row [^<]*, {name}[,<]", text)
            self.assertEqual(len(marks), pictures * found["labels"][several], name)
            self.assertEqual(text.count(mark), len(marks) + 1, name)
            self.assertIn(f"{name}, {found['labels'][several]}", text)

    def test_the_dearest_beacons_are_listed(self):
        for name, (made, text, found) in self.done.items():
            with self.subTest(name):
                table = re.search('<table id="beacons">(.*?)</table>', text).group(1)
                rows = [re.findall("<td[^>]*>([^<]*)</td>", row) for row in table.split("<tr>")[2:]]
                dear = sorted((beacon for beacon in found["beacons"] if beacon["cost"]), key=lambda beacon: -beacon["cost"])[:8]
                self.assertGreater(len(dear), 1)
                for (rows_of, frames, _, share), beacon in zip(rows, dear, strict=True):
                    first, last = beacon["rows"]
                    self.assertEqual((rows_of, frames), (f"{first} to {last}", f"{first - 1} to {last - 1}"))
                    self.assertAlmostEqual(float(share.split()[0]), 100 * beacon["cost"] / found["cost"], delta=0.5)
                self.assertIn(f"{-(-made.count // 19)} beacons of 19 records", text)

    def test_bands_and_lines(self):
        for name, (made, text, _) in self.done.items():
            with self.subTest(name):
                shapes = [tag for tag, _ in Page(text).tags]
                bands, lines = len(made.lines) if len(made.ranges) == 1 else 1, len(made.lines)
                self.assertEqual(shapes.count("polygon"), bands + lines * (1 if len(made.ranges) == 1 else len(made.ranges) + 1))
                self.assertEqual(text.count('<div class="scroll"><table'), 3)


if __name__ == "__main__":
    unittest.main()
