"""The pages and pictures of peel, drift, boards, merge and ranges: well-formed, nothing from outside, names escaped, every mark inside."""

import contextlib
import io
import re
import unittest
import xml.etree.ElementTree

from made_points import Made, run
from made_requests import Folder
from test_report import Page

from vengutari import boards, drifting, library, peeling, ranges

MADE = Made([(0.8, -13.5), (0.31, 220.0)], [(300, 4000)], 60, noise=0.6, gaps=2, seed=91)
TWO = Made([(0.9, -2.0, 10.0)], [(0, 1000), (-20, 60)], 40, x_decimals=1, seed=92)
X = "<b>raw & x1"
OUT = ["--quiet", "--report=page.html", "--picture=picture.svg"]
COMMANDS = {
    "peel": ["peel", "points.csv", "--x", X, "--y=y", "--epsilon=3"],
    "peel of two columns": ["peel", "two.csv", "--x=x1,x2", "--y=y", "--epsilon=3", "--offset", "--most=1", "--tolerance=40"],
    "a round that is not solved": ["peel", "points.csv", "--x", X, "--y=y", "--epsilon=3", "--splits=2"],
    "drift": ["drift", "points.csv", "--x", X, "--y=y", "--lines=2", "--epsilon=3", "--window=30", "--hop=15"],
    "drift of two columns": ["drift", "two.csv", "--x=x1,x2", "--y=y", "--epsilon=3", "--offset", "--window=20", "--hop=20", "--gap=10"],
    "windows that are not solved": ["drift", "points.csv", "--x", X, "--y=y", "--lines=2", "--epsilon=3", "--window=30", "--hop=30",
                                    "--splits=5"],
    "drift through 0": ["drift", "points.csv", "--x", X, "--y=y", "--no-offset", "--spoiled=20", "--window=30", "--hop=30"],
    "ranges": ["fit", "points.csv", "--x", X, "--y=y", "--lines=2", "--epsilon=3", "--ranges=20"],
    "ranges of two columns": ["fit", "two.csv", "--x=x1,x2", "--y=y", "--epsilon=3", "--offset", "--ranges=5"],
    "ranges of a line through 0": ["fit", "points.csv", "--x", X, "--y=y", "--epsilon=40", "--no-offset", "--ranges=5"],
    "boards": ["boards", "<i>.toml", "--splits=100000"],
    "merge": ["merge", "points.csv", "<i>.csv", "--frame=frame", "-o", "both.csv"],
}


class Pages(Folder):
    def setUp(self):
        super().setUp()
        text = MADE.text().replace("x1", X)
        self.write("points.csv", text)
        self.write("two.csv", TWO.text())
        lines = text.splitlines(keepends=True)
        self.write("<i>.csv", "".join([*lines[:10], *lines[25:]]))
        self.write("<i>.toml", f'y = "y"\nepsilon = 3\n[[board]]\nname = "<i>"\ndata = "points.csv"\nx = "{X}"\nlines = 2\n'
                               '[[board]]\nname = "<u>"\ndata = "nothing.csv"\nx = "x"\n')

    def test_pages(self):
        for name, words in COMMANDS.items():
            with self.subTest(name):
                status, _, err = run(*words, *OUT, "--force")
                self.assertIn((status, err), [(0, ""), (3, ""), (1, "")] if name == "boards" else [(0, ""), (3, "")])
                text = self.read("page.html")
                page = Page(text)
                self.assertEqual(page.open, [])
                self.assertFalse({"b", "i", "u", "script", "link", "img", "image", "use", "base"} & {tag for tag, _ in page.tags})
                self.assertFalse({"src", "href", "xlink:href"} & {name for _, attributes in page.tags for name in attributes})
                self.assertNotIn("://", text)
                clips = re.findall('<clipPath id="([^"]*)">', text)
                self.assertEqual(len(set(clips)), len(clips))
                self.assertEqual({f"#{clip}" for clip in clips}, set(re.findall(r"url\(([^)]*)\)", text)))
                self.assertEqual(re.search('class="verdict ([a-z]+)"', text).group(1), "solved" if status == 0 else "open")

    def test_pictures(self):
        """SVG that any reader takes, with numbers alone for places."""
        for name, words in COMMANDS.items():
            with self.subTest(name):
                run(*words, *OUT, "--force")
                root = xml.etree.ElementTree.fromstring(self.read("picture.svg"))
                self.assertGreater(len(list(root.iter("{http://www.w3.org/2000/svg}title"))), 2)
                self.assertNotRegex(self.read("picture.svg"), "nan|inf\\b")

    def test_progress(self):
        """A line each, on standard error."""
        answer = library.Answer("solved", [1], 2, 2, 5, 7, 9)
        two = [answer, answer._replace(kind="spent")]
        for tell, given, words in ((peeling.line_of_progress, (two, b""), "rounds solved: 1; round 2 has 7 boxes open"),
                                   (drifting.line_of_progress, two, "1 of 2 windows solved"),
                                   (boards.line_of_progress, (99, [(0, 9, answer), (1, 0, None)]), "1 of 2 boards solved"),
                                   (ranges.line_of_progress, ("spent", [None], [4, 1234, 6]), "ranges: 1,234 boxes open")):
            out = io.StringIO()
            with contextlib.redirect_stderr(out):
                tell(2.5, given, 4096)
            self.assertEqual(out.getvalue(), f"    2.5 s  {words}  (now running 4,096 splits)\n")


if __name__ == "__main__":
    unittest.main()
