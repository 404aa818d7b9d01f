"""vengutari merge and fit --with on two polarisations of one made pass, each with other frames lost, and on spoiled ones."""

import csv
import json
import random
import re
import unittest

from made_points import Made, run
from made_requests import Folder

WHOLE = Made([(0.8, -13.5), (0.31, 220.0)], [(300, 4000)], 120, noise=0.6, gaps=3, seed=61)
FIT = ["--x=x1", "--y=y", "--lines=2", "--epsilon=3", "--quiet"]


class Merge(Folder):
    def setUp(self):
        super().setUp()
        text = WHOLE.text()
        self.head, self.rows = text.splitlines()[1], text.splitlines()[2:]
        numbers = random.Random(62)
        kept = [(numbers.random() < 0.7, numbers.random() < 0.7) for _ in self.rows]
        self.left, self.right = ([row for row, have in zip(self.rows, kept) if have[k]] for k in (0, 1))
        self.either = [row for row, have in zip(self.rows, kept) if any(have)]
        self.counts = [kept.count(pair) for pair in ((True, True), (True, False), (False, True))]
        self.file("left.csv", self.left)
        self.file("right.csv", self.right)

    def file(self, name, rows, head=None):
        return self.write(name, "\n".join([head or self.head, *rows]) + "\n")

    def merge(self, *words):
        return run("merge", "left.csv", "right.csv", "--frame=frame", *words)

    def test_all_frames_of_either(self):
        """In order, each once, whichever file comes first; the summary counts them."""
        both, first, second = self.counts
        status, out, err = self.merge("-o", "both.csv", "--json=merge.json", "--report=page.html")
        self.assertEqual((status, err), (0, ""))
        self.assertEqual(self.read("both.csv").splitlines(), [self.head, *self.either])
        ends = f"from {self.either[0].split(',')[0]} to {self.either[-1].split(',')[0]}"
        self.assertEqual(out, f"{len(self.either)} frames {ends}: {both} in both, {first} in left.csv alone, {second} in right.csv alone\n")
        found = json.loads(self.read("merge.json"))
        self.assertEqual([found[key] for key in ("both", "first_alone", "second_alone")], self.counts)
        self.assertEqual(found["frames"], [int(row.split(",")[0]) for row in self.either])
        page = self.read("page.html")
        self.assertEqual([len(re.findall(f"<title>frame [0-9]+, {words}</title>", page))
                          for words in ("in both", "left.csv alone", "right.csv alone")], self.counts)
        self.assertEqual(run("merge", "right.csv", "left.csv", "--frame=frame")[1], self.read("both.csv"))

    def test_standard_output(self):
        """The rows there, the summary on standard error, with --quiet not."""
        status, out, err = self.merge()
        self.assertEqual((status, out.splitlines()), (0, [self.head, *self.either]))
        self.assertIn(" in both, ", err)
        self.assertEqual(self.merge("--quiet")[1:], (out, ""))

    def test_fit_of_both(self):
        """It is the fit of a file that has the frames of either, and finds the lines behind them."""
        self.file("either.csv", self.either)
        whole = run("fit", "either.csv", *FIT, "--json")
        both = run("fit", "left.csv", "--with=right.csv", *FIT, "--json", "--labels=labels.csv", "--report=page.html")
        self.assertEqual((both[0], whole[0]), (0, 0), both)
        first, second = json.loads(both[1]), json.loads(whole[1])
        for key in ("vector", "cost", "bound", "labels", "box", "lines"):
            self.assertEqual(first[key], second[key])
        self.assertTrue(any(note.startswith(f"merged: {len(self.either)} frames from ") for note in first["notes"]))
        for line, (slope, offset) in zip(first["lines"], WHOLE.lines):
            for x in (300, 4000):
                self.assertLess(abs(line["coefficients"]["x1"] * x + line["coefficients"]["offset"] - slope * x - offset), 1.5)
        with open("labels.csv", encoding="utf-8", newline="") as file:
            rows = list(csv.DictReader(file))
        self.assertEqual([row["frame"] for row in rows], [row.split(",")[0] for row in self.either])
        self.assertIn("left.csv with right.csv", self.read("page.html"))

    def spoil(self, rows, frame, field, text):
        """The rows with one field of one frame's row replaced, and the number of that row."""
        k = next(k for k, row in enumerate(rows) if row.startswith(f"{frame},"))
        fields = rows[k].split(",")
        fields[field] = text
        return [*rows[:k], ",".join(fields), *rows[k + 1 :]], k + 1

    def test_a_spoiled_polarisation(self):
        """A frame that both have but for one number is told by its rows and its frame, for merge and for fit; the first of several."""
        shared = [row for row in self.left if row in self.right and ",," not in row]
        frame = shared[8].split(",")[0]
        spoiled, row = self.spoil(self.right, frame, 2, "9999.9")
        self.file("right.csv", spoiled)
        other = 1 + self.left.index(shared[8])
        said = f"frame {frame}: left.csv, row {other}, and right.csv, row {row}, differ: y {shared[8].split(',')[2]} and 9999.9\n"
        self.refused(1, said, "merge", "left.csv", "right.csv", "--frame=frame", "-o", "both.csv")
        self.refused(1, said, "fit", "left.csv", "--with=right.csv", *FIT)
        spoiled, _ = self.spoil(spoiled, shared[9].split(",")[0], 2, "")
        self.file("right.csv", spoiled)
        self.refused(1, f"{said.strip()}; 1 more frames clash", "merge", "left.csv", "right.csv", "--frame=frame")
        status, out, _ = self.merge("--columns=frame,x1", "--quiet")
        self.assertEqual((status, out.splitlines()[0], out.count("\n")), (0, "frame,x1", 1 + len(self.either)))

    def test_frames_out_of_order(self):
        rows = [*self.right[:10], self.right[11], self.right[10], *self.right[12:]]
        self.file("right.csv", rows)
        late, early = (self.right[k].split(",")[0] for k in (11, 10))
        self.refused(1, f"right.csv, row 12: frame {early} comes after frame {late}; the frames of a file must rise", "merge", "left.csv",
                     "right.csv", "--frame=frame")
        self.file("right.csv", [*self.right[:10], *self.right[9:]])
        self.refused(1, f"right.csv, row 11: frame {self.right[9].split(',')[0]} comes after frame {self.right[9].split(',')[0]}", "fit",
                     "left.csv", "--with=right.csv", *FIT)

    def test_files_that_are_written_otherwise(self):
        """Other columns first, semicolons, decimal commas and longer decimals are the same numbers, and come out as the first file's."""
        order = [3, 0, 2, 1]
        rows = []
        for row in self.right:
            fields = row.split(",")
            fields[2] = fields[2] and fields[2].replace(".", ",") + "0"
            rows.append(";".join(fields[k] for k in order))
        self.file("right.csv", rows, ";".join(self.head.split(",")[k] for k in order))
        status, out, err = self.merge("--quiet")
        self.assertEqual((status, err), (0, ""))
        made = [row.split(",") for row in out.splitlines()[1:]]
        self.assertEqual([[*row[:2], row[2] and float(row[2]), row[3]] for row in made],
                         [[*row[:2], row[2] and float(row[2]), row[3]] for row in (line.split(",") for line in self.either)])

    def test_frames_beyond_16_bits(self):
        """They are merged by how far they lie apart."""
        def moved(rows, more):
            return [f"{int(row.split(',')[0]) + more},{row.partition(',')[2]}" for row in rows]

        for more in (65_500, 10**9):
            self.file("left.csv", moved(self.left, more))
            self.file("right.csv", moved(self.right, more))
            self.assertEqual(self.merge("--quiet")[1].splitlines()[1:], moved(self.either, more))
        def apart(rows):
            return [f"{540 * int(row.split(',')[0])},{row.partition(',')[2]}" for row in rows]

        self.file("left.csv", apart(self.left))
        self.file("right.csv", apart(self.right))
        self.assertEqual(self.merge("--quiet")[1].splitlines()[1:], apart(self.either))
        self.file("left.csv", self.left)
        self.file("right.csv", moved(self.right, 10**9))
        self.assertEqual(self.merge("--quiet")[1].splitlines()[1:], [*self.left, *moved(self.right, 10**9)])

    def test_more_frames_than_a_store(self):
        """They are merged part by part: the same as with sorting, and clashes and disorder are found wherever they are."""
        rows = {k: f"{k},{k % 7},{k % 11}.5,r" for k in range(10_000)}
        numbers = random.Random(63)
        left, right = ([k for k in rows if numbers.random() < part] for part in (0.6, 0.4))
        self.file("left.csv", [rows[k] for k in left])
        self.file("right.csv", [rows[k] for k in right])
        self.assertEqual(self.merge("--quiet")[1].splitlines()[1:], [rows[k] for k in sorted({*left, *right})])
        shared = max({*left} & {*right})
        self.file("right.csv", [rows[k] if k != shared else f"{k},1,2.25,r" for k in right])
        self.refused(1, f"frame {shared}: left.csv, row {1 + left.index(shared)}, and right.csv, row {1 + right.index(shared)}, differ",
                     "merge", "left.csv", "right.csv", "--frame=frame")
        for a, b in ((1500, 3500), (0, 3800), (3799, 3800)):
            moved = [*right[:b], right[a], *right[b:]]
            self.file("right.csv", [rows[k] for k in moved])
            self.refused(1, f"right.csv, row {b + 1}: frame {right[a]} comes after frame {right[b - 1]}", "merge", "left.csv", "right.csv",
                         "--frame=frame")
        self.file("right.csv", [rows[right[0]]] * 5000)
        self.refused(1, "right.csv, row 2: frame", "merge", "left.csv", "right.csv", "--frame=frame")

    def test_refused(self):
        self.refused(2, "--frame", "merge", "left.csv", "right.csv")
        self.refused(2, "No such file", "merge", "left.csv", "nothing.csv", "--frame=frame")
        self.refused(2, "is the input", "merge", "left.csv", "right.csv", "--frame=frame", "-o", "right.csv", "--force")
        self.refused(1, "no column 'number'", "merge", "left.csv", "right.csv", "--frame=number")
        self.refused(1, "a frame is a whole number", "merge", "left.csv", "right.csv", "--frame=remark")
        self.file("other.csv", self.right, self.head.replace("remark", "words"))
        self.refused(1, "other.csv: no column 'remark', which left.csv has; --columns", "merge", "left.csv", "other.csv", "--frame=frame")
        self.refused(2, "--with: a second file belongs to one file", "fit", "left.csv", "right.csv", "--with=other.csv", *FIT)
        self.refused(2, "is the input", "fit", "left.csv", "--with=right.csv", *FIT, "--labels=right.csv", "--force")
        self.file("plain.csv", self.left, self.head.replace("frame", "number"))
        self.refused(2, "--with: two files are merged by their frames: give --frame", "fit", "plain.csv", "--with=plain.csv", *FIT)
        self.write("text.csv", self.head + "\n" + self.right[0].replace(self.right[0].split(",")[1], "many") + "\n")
        self.refused(1, "text.csv, line 2, x1: 'many' is not a number", "fit", "left.csv", "--with=text.csv", *FIT)


if __name__ == "__main__":
    unittest.main()
