"""Parts of a file, several files at once, and options out of a file."""

import csv
import io
import json
import os
import pathlib
import subprocess
import sys
import tempfile
import unittest

from made_points import TOOL, Made, heeding, run

ONE = ["--x=x1", "--y=y", "--epsilon=2", "--quiet"]
TEXT = Made([(0.5, 12.0)], [(0, 1000)], 80, noise=0.5, seed=21).text()


class Folder(unittest.TestCase):
    def setUp(self):
        held = tempfile.TemporaryDirectory()
        self.addCleanup(held.cleanup)
        self.folder = pathlib.Path(held.name)
        before = os.getcwd()
        os.chdir(self.folder)
        self.addCleanup(os.chdir, before)

    def write(self, name, text):
        (self.folder / name).write_text(text, encoding="utf-8")
        return name

    def refused(self, words, *command, status=2):
        done, out, err = run("fit", *command)
        self.assertEqual((done, out), (status, ""))
        self.assertIn(words, err)
        self.assertEqual(err.count("\n"), 1)


class Parts(Folder):
    """A part is fitted as a file that has those rows alone, and its rows keep their numbers."""

    def test_rows_and_every(self):
        head, rows = TEXT.splitlines()[:2], TEXT.splitlines()[2:]
        self.write("all.csv", TEXT)
        for words, chosen in ((["--rows=11:60"], slice(10, 60)), (["--every=3"], slice(0, None, 3)), (["--rows=:40"], slice(0, 40)),
                              (["--rows=5:", "--every=2"], slice(4, None, 2)), (["--rows=41:99999"], slice(40, None))):
            with self.subTest(words):
                self.write("part.csv", "\n".join([*head, *rows[chosen]]) + "\n")
                part = run("fit", "part.csv", *ONE, "--json", "--labels=part.txt", "--force")
                whole = run("fit", "all.csv", *ONE, *words, "--json", "--labels=whole.txt", "--report=page.html", "--force")
                self.assertEqual((part[0], whole[0]), (0, 0), whole)
                first, second = json.loads(part[1]), json.loads(whole[1])
                for key in ("vector", "cost", "bound", "labels", "box"):
                    self.assertEqual(first[key], second[key])
                self.assertEqual((self.folder / "part.txt").read_text(), (self.folder / "whole.txt").read_text())
                numbers = range(1, 81)[chosen]
                self.assertEqual(second["beacons"][0]["rows"], [numbers[0], numbers[18]])
                page = (self.folder / "page.html").read_text(encoding="utf-8")
                self.assertIn(f"row {numbers[-1]}, frame {numbers[-1] - 1}: ", page)

    def test_more_rows_than_a_search_takes(self):
        self.write("all.csv", "x1,y\n" + "".join(f"{k % 700},{2 * (k % 700) + k % 3}\n" for k in range(9000)))
        self.refused("9,000 rows, but a search takes at most 4,096: --every 3 takes one row in 3, --rows 1:4096 a part", "all.csv", *ONE,
                     status=1)
        for words, count in ((["--every=3"], 3000), (["--rows=1:4096"], 4096), (["--rows=2001:9000", "--every=2"], 3500)):
            status, out, _ = run("fit", "all.csv", *ONE, *words, "--json", "--gap=20")
            self.assertEqual((status, sum(json.loads(out)["labels"].values())), (0, count))

    def test_bad_parts(self):
        self.write("all.csv", TEXT)
        for words, said in ((["--rows=5"], "'5' is not A:B"), (["--rows=9:5"], "the first is not behind the last"),
                            (["--rows=0:5"], "rows count from 1"), (["--rows=:"], "is not A:B"), (["--rows=-3:5"], "is not A:B"),
                            (["--every=0"], "--every: 0 is not from 1")):
            self.refused(said, "all.csv", *ONE, *words)
        self.refused("there are 80 rows, and none of them from 81 to 80", "all.csv", *ONE, "--rows=81:", status=1)


class Several(Folder):
    def setUp(self):
        super().setUp()
        for k, name in enumerate(("a.csv", "b.csv", "c.csv")):
            self.write(name, Made([(0.5, 12.0 + k)], [(0, 1000)], 60, noise=0.5, seed=22 + k).text())

    def test_each_is_fitted_by_itself(self):
        """As alone, in one process after another or several at a time, with a table as CSV or JSON."""
        alone = {name: json.loads(run("fit", name, *ONE, "--json")[1]) for name in ("a.csv", "b.csv", "c.csv")}
        for jobs, table in ((1, "table.csv"), (3, "table.json")):
            words = [f"--jobs={jobs}", f"--summary={table}", "--json={}.json", "--report={}.html", "--labels={}-labels.csv", "--force"]
            status, out, err = run("fit", *alone, *ONE, *words)
            self.assertEqual((status, err), (0, ""))
            self.assertEqual([line.split(": ")[0] for line in out.splitlines()], list(alone))
            text = (self.folder / table).read_text(encoding="utf-8")
            rows = json.loads(text) if table.endswith("json") else list(csv.DictReader(io.StringIO(text)))
            for (name, found), row, line in zip(alone.items(), rows, out.splitlines(), strict=True):
                made = json.loads((self.folder / name.replace(".csv", ".json")).read_text(encoding="utf-8"))
                self.assertEqual(made["lines"], found["lines"])
                self.assertIn("solved, gap 0 %", line)
                self.assertIn(found["lines"][0]["equation"], line)
                self.assertEqual((row["file"], row["kind"], int(row["rows"]), int(row["status"])), (name, "solved", 60, 0))
                self.assertIn(found["lines"][0]["equation"], row["lines"])
                self.assertTrue((self.folder / name.replace(".csv", ".html")).exists())

    def test_one_bad_file_costs_its_line(self):
        self.write("b.csv", "x1,y\nhigh,3\n")
        status, out, err = run("fit", "a.csv", "b.csv", "nothing.csv", "c.csv", *ONE, "--labels={}.txt", "--summary=table.json")
        lines = out.splitlines()
        self.assertEqual((status, err, len(lines)), (1, "", 4))
        self.assertEqual(lines[1], "b.csv: b.csv, line 2, x1: 'high' is not a number")
        self.assertEqual(lines[2], "nothing.csv: No such file or directory")
        self.assertTrue((self.folder / "a.txt").exists() and (self.folder / "c.txt").exists())
        rows = json.loads((self.folder / "table.json").read_text())
        self.assertEqual([row["status"] for row in rows], [0, 1, 1, 0])

    def test_a_file_that_cannot_be_written_costs_no_answer(self):
        (self.folder / "a.pipe").symlink_to("/dev/full")
        status, out, err = run("fit", "a.csv", "b.csv", *ONE, "--labels={}.pipe", "--json={}.json", "--force")
        first, second = out.splitlines()
        self.assertEqual((status, err), (1, ""))
        self.assertTrue(first.startswith("a.csv: solved, gap 0 %") and "--labels: a.pipe: No space left on device" in first, first)
        self.assertTrue(second.startswith("b.csv: solved") and (self.folder / "a.json").exists(), second)

    def test_status_is_the_worst(self):
        for words, status in (([], 0), (["--splits=1"], 3), (["--epsilon=0.3", "--strict"], 4), (["--json=nowhere/{}"], 2)):
            self.assertEqual(run("fit", "a.csv", "b.csv", *ONE, *words)[0], status, words)

    def test_table_on_standard_output(self):
        status, out, err = run("fit", "a.csv", *ONE, "--summary=-")
        self.assertEqual((status, err), (0, ""))
        self.assertEqual(out.splitlines()[0].split(",")[:3], ["file", "status", "kind"])
        self.assertTrue(out.splitlines()[1].startswith("a.csv,0,solved,0.0,"))

    def test_bad_use(self):
        self.refused("--report: several files need a place each: write {}", "a.csv", "b.csv", *ONE, "--report=page.html")
        self.refused("--json: with several files, or --summary, it needs a file", "a.csv", "b.csv", *ONE, "--json")
        (self.folder / "other").mkdir()
        self.write("other/a.csv", TEXT)
        self.refused("would be written for a.csv and for other/a.csv", "a.csv", "other/a.csv", *ONE, "--labels={}.txt")
        self.refused("is the input", "a.csv", "b.csv", *ONE, "--labels={}.csv")
        self.write("other/b.csv", TEXT)
        self.refused("other/b.csv is the input", "b.csv", "other/b.csv", *ONE, "--labels=other/{}.csv", "--force")
        self.refused("--jobs: 0 is not from 1", "a.csv", "b.csv", *ONE, "--jobs=0")
        self.refused("is there already", "a.csv", "b.csv", *ONE, "--summary=c.csv")

    def test_a_request_to_end(self):
        """It comes to the first process as soon as the search in its child has begun: that ends with its answer, and no more are begun."""
        made = Made([(0.9, -20.0), (0.4, 100.0), (-0.3, 300.0)], [(0, 1000)], 300, noise=1.5, seed=5).text()
        for name in ("a.csv", "b.csv"):
            self.write(name, made)
        code = ("import os, signal, sys; sys.path.insert(0, sys.argv.pop(1)); import vengutari.run as m\nreal = m.search\n"
                "def played(*given):\n    os.kill(os.getppid(), signal.SIGTERM); return real(*given)\n"
                "m.search = played\nfrom vengutari.command import main\nsys.exit(main())")
        words = ["fit", "a.csv", "b.csv", "--x=x1", "--y=y", "--lines=3", "--epsilon=5", "--loss=absolute", "--scale=10", "--time-limit=0"]
        place = str(pathlib.Path(TOOL).parents[1] / "python")
        done = subprocess.run([sys.executable, "-c", code, place, *words], capture_output=True, text=True, check=False, preexec_fn=heeding)
        first, second = done.stdout.splitlines()
        self.assertEqual((done.returncode, done.stderr), (130, ""))
        self.assertTrue(first.startswith("a.csv: spent, gap "), first)
        self.assertEqual(second, "b.csv: not begun: interrupted")


class Config(Folder):
    def setUp(self):
        super().setUp()
        self.write("a.csv", TEXT)

    def config(self, text):
        return "--config=" + self.write("fit.toml", text)

    def test_options_from_a_file(self):
        plain = json.loads(run("fit", "a.csv", *ONE, "--json")[1])
        config = self.config('x = "x1"\ny = "y"\nepsilon = 2.0\nquiet = true\noffset = true\nwide = false\nbox = ["0.4:0.6", "0:20"]\n')
        status, out, err = run("fit", "a.csv", config, "--json")
        self.assertEqual((status, err), (0, ""))
        found = json.loads(out)
        self.assertEqual(found["lines"][0]["points"], plain["lines"][0]["points"])
        for side, (low, high) in zip(found["box"], [(0.4, 0.6), (0, 20)]):
            self.assertTrue(side["low"] <= low and high <= side["high"])

    def test_the_command_line_comes_first(self):
        config = self.config('x = ["x1"]\ny = "y"\nepsilon = 50\nloss = "count"\nquiet = true\nmargin = 2\nlines = 2\n')
        found = json.loads(run("fit", "a.csv", "--config", "fit.toml", "--json", "--spoiled=9", "--lines=1", "--box=0.4:0.6,0:20")[1])
        self.assertEqual((found["settings"]["loss"], found["settings"]["lines"]), ("spoiled", 1))
        self.assertEqual(json.loads(run("fit", "a.csv", config, "--json", "--epsilon=2", "--gap=1")[1])["settings"]["epsilon"], "2")

    def test_bad_files(self):
        for text, said in (("x = ", "fit.toml: "), ("colour = 3\n", "'colour' is no option of fit"),
                           ("x = {a = 1}\n", "is no number or text"), ('config = "other"\n', "'config' is no option"),
                           ('x = "x1"\ny = "y"\nepsilon = "small"\n', "'small' is not a number")):
            self.refused(said, "a.csv", self.config(text))
        self.refused("No such file", "a.csv", "--config=nothing.toml")
        self.refused("give one file", "a.csv", "--config=a", "--config=b")


if __name__ == "__main__":
    unittest.main()
