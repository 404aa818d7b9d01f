"""vengutari boards: shares by the papers' rule, answers as those of each board alone, and boards that are refused."""

import csv
import json
import unittest
import unittest.mock

from made_points import Made, run
from made_requests import Folder

from vengutari import library

LINES = {
    "one": Made([(0.5, 12.0)], [(0, 1000)], 40, noise=0.5, seed=71),
    "two": Made([(0.8, -13.5), (0.31, 220.0)], [(300, 4000)], 60, noise=0.6, seed=72),
    "three": Made([(0.9, -20.0), (0.2, 100.0)], [(0, 1000)], 60, noise=0.6, seed=73),
}


def part(file, **more):
    """A board of the spec."""
    options = {"data": f"{file}.csv", **({"lines": len(LINES[file].lines)} if file in LINES else {}), **more}
    return "[[board]]\n" + "".join(f"{key} = {json.dumps(value)}\n" for key, value in options.items())


class Boards(Folder):
    def setUp(self):
        super().setUp()
        for name, made in LINES.items():
            self.write(f"{name}.csv", made.text())

    def shared(self, spec, splits, *words, status=0):
        self.write("station.toml", 'x = "x1"\ny = "y"\nepsilon = 3\n' + spec)
        files = ["--json=boards.json", "--csv=boards.csv", "--report=page.html", "--quiet", "--force"]
        done = run("boards", "station.toml", f"--splits={splits}", *files, *words)
        self.assertEqual((done[0], done[2]), (status, ""), done)
        return done[1], json.loads(self.read("boards.json"))["boards"]

    def test_each_is_as_alone(self):
        """With splits enough each answer is that of a fit of its file alone."""
        out, found = self.shared("".join(part(name) for name in LINES), 10**6)
        for name, board in zip(LINES, found):
            words = ["--x=x1", "--y=y", "--epsilon=3", f"--lines={len(LINES[name].lines)}", "--json"]
            alone = json.loads(run("fit", f"{name}.csv", *words)[1])
            for key in ("vector", "cost", "bound", "labels", "box", "certificate"):
                self.assertEqual(board["fit"][key], alone[key])
            self.assertIn(f"{name}.csv: certificate: {alone['certificate']}\n", out)
        self.assertTrue(out.startswith("3 boards: 3 solved; "), out)

    def test_shares(self):
        """In order the smaller of its own budget and its part of the splits left; what is not used goes to those behind."""
        spec = part("two") + part("one", splits=7) + part("missing") + part("three")
        out, found = self.shared(spec, 100, status=1)
        left = 100
        for k, (board, own) in enumerate(zip(found, (10**9, 7, 10**9, 10**9))):
            if board["kind"] != "refused":
                self.assertEqual(board["got"], min(own, left // (4 - k)))
                self.assertLessEqual(board["used"], board["got"])
            left -= board["used"]
        self.assertEqual([board["kind"] for board in found], ["spent", "spent", "refused", "spent"])
        self.assertEqual(([board["got"] for board in found[:2]], found[3]["got"]), ([25, 7], 68))
        self.assertIn("4 boards: 3 spent, 1 refused; ", out)
        self.assertIn("missing.csv: No such file or directory", found[2]["problem"])
        self.assertIn("missing.csv: No such file or directory", self.read("page.html"))

    def test_the_whole_budget_is_shared_where_all_are_solved_with_less(self):
        """It takes one call more, and not one for each doubling of the budget."""
        totals, real = [], library.Library.boards

        def counted(calls, total, *given):
            totals.append(total)
            return real(calls, total, *given)

        with unittest.mock.patch.object(library.Library, "boards", counted):
            _, found = self.shared(part("one") + part("two"), 10**9)
        self.assertEqual([board["got"] for board in found], [5 * 10**8, 10**9 - found[0]["used"]])
        self.assertEqual((totals[0], totals[-1]), (0, 10**9))
        self.assertLess(totals[-2], 4 * sum(board["used"] for board in found) + 512)

    def test_refused_boards_cost_their_own_line(self):
        spec = part("one", x="x9") + part("two") + part("three", rows="1:3", epsilon=0.0001)
        out, found = self.shared(spec, 10**6, status=1)
        self.assertEqual([board["kind"] for board in found][:2], ["refused", "solved"])
        self.assertIn("one.csv: no column 'x9'", out)
        with open("boards.csv", encoding="utf-8", newline="") as file:
            rows = list(csv.DictReader(file))
        self.assertEqual([row["kind"] for row in rows], [board["kind"] for board in found])
        self.assertIn("no column 'x9'", rows[0]["problem"])
        self.assertEqual(found[0]["code"], 1)

    def test_parts_of_files(self):
        _, found = self.shared(part("two", rows="11:50", every=2), 10**6)
        self.assertEqual((sum(found[0]["fit"]["labels"].values()), found[0]["fit"]["beacons"][0]["rows"][0]), (20, 11))

    def test_not_solved_and_gap(self):
        _, solved = self.shared(part("two"), 10**6)
        out, found = self.shared(part("two"), 30, status=3)
        self.assertLessEqual(found[0]["fit"]["bound"], solved[0]["fit"]["cost"])
        self.assertIn("the cost is at least ", out)
        _, found = self.shared(part("two", gap=50), 10**6)
        self.assertLess(found[0]["used"], solved[0]["used"])
        self.assertLessEqual(found[0]["fit"]["gap_percent"], 50)
        out, found = self.shared(part("two"), 10**6, "--table=3", status=3)
        self.assertEqual(found[0]["kind"], "full")

    def test_requests_to_end(self):
        self.write("station.toml", 'x = "x1"\ny = "y"\nepsilon = 3\n' + part("two") + part("three"))
        words = ["boards", "station.toml", "--splits=100000", "--quiet", "--csv=boards.csv"]
        done = self.ended("growing", "Growing", "one", 1, *words)
        self.assertEqual((done.returncode, done.stderr), (3, ""))
        self.assertTrue(done.stdout.startswith("2 boards: 2 spent, interrupted; 0 of 100,000 splits, of which 0 were shared out"),
                        done.stdout)
        self.assertEqual(self.read("boards.csv").count("\n"), 3)

    def test_bad_files_of_boards(self):
        self.refused(2, "No such file", "boards", "nothing.toml", "--splits=1")
        head = 'x = "x1"\ny = "y"\nepsilon = 3\n'
        for spec, said in (("", "0 boards, where 1 to 8 share a budget"), (head + "board = 3\n", "no list of boards"),
                           (head + "".join(part("one", name=str(k)) for k in range(9)), "9 boards, where 1 to 8"),
                           (head + "[[board]]\nlines = 2\n", "board 1 names no file"),
                           (head + part("one", wide=True), "'wide' is no option"),
                           (head + part("one", colour=1), "'colour' is no option of a board"),
                           (head + part("one", scale=99), "--scale: 99"),
                           (part("one"), "--x"), (head + part("one") + part("one"), "two boards are called 'one.csv'"),
                           (head + "[[board\n", "SPEC: station.toml")):
            self.write("station.toml", spec)
            self.refused(2, said, "boards", "station.toml", "--splits=10")
        self.write("station.toml", head + part("one"))
        self.refused(2, "--splits", "boards", "station.toml")
        self.refused(2, "is the input", "boards", "station.toml", "--splits=10", "--csv=one.csv")


if __name__ == "__main__":
    unittest.main()
