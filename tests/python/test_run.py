"""The runs of a search: their tolerances, budgets and ends, by a library that plays given answers and by the real one."""

import json
import pathlib
import tempfile
import unittest
import unittest.mock
from fractions import Fraction

from made_points import Made, run

from vengutari import library
from vengutari import run as runs
from vengutari.library import Answer
from vengutari.settings import Limits

JOB = runs.Job(b"", library.Model(1, 1, 0, 1, 2), [0], [9], [0])


def answer(kind, cost, bound, splits=0):
    return Answer(kind, [cost], cost, bound, splits, 0 if cost == bound else 1, 1)


class Played:
    """Plays answers one after another, and keeps the tolerance and the budget of each run; behind the last comes Ctrl-C."""

    def __init__(self, start, *answers):
        self.start = start
        self.answers = list(answers)
        self.given = []

    def cost(self, store, model, vector):
        return self.start

    def search(self, store, model, t, budget, low, high, start, rows):
        self.given.append((t, budget))
        if not self.answers:
            raise KeyboardInterrupt
        return self.answers.pop(0)


class Runs(unittest.TestCase):
    def outcome(self, played, **limits):
        return runs.search(played, JOB, Limits(**limits))

    def test_solved_is_by_the_gap_of_its_own_cost(self):
        """The cost falls from 100 to 40 in a run whose tolerance of 10 was set by 100: a gap of 20 percent is no solved at 10."""
        played = Played(100, answer("spent", 100, 0), answer("solved", 40, 32, 7))
        outcome = self.outcome(played, gap=Fraction(1, 10))
        self.assertEqual((outcome.stopped, outcome.answer, outcome.t), ("interrupt", answer("spent", 40, 32, 7), 4))
        self.assertEqual(played.given, [(10, 0), (10, 512), (4, 1024)])

    def test_it_goes_on_with_the_narrower_tolerance(self):
        """Also where the budget is the largest that is allowed: it is not used up."""
        played = Played(100, answer("spent", 100, 0), answer("solved", 40, 32, 7), answer("solved", 40, 36, 12))
        outcome = self.outcome(played, gap=Fraction(1, 10), splits=512)
        self.assertEqual((outcome.stopped, outcome.answer, outcome.t), ("solved", answer("solved", 40, 36, 12), 4))
        self.assertEqual(played.given, [(10, 0), (10, 512), (4, 512)])

    def test_first_run_has_the_gap_too(self):
        played = Played(100, answer("solved", 100, 90))
        outcome = self.outcome(played, gap=Fraction(1, 10), seconds=1e-9)
        self.assertEqual((outcome.stopped, outcome.answer.kind, played.given), ("solved", "solved", [(10, 0)]))

    def test_without_a_gap_the_first_of_equals_is_sought(self):
        """The bound equals the cost in a spent answer: the library is asked again, until it says solved or a limit is reached."""
        played = Played(9, answer("spent", 9, 0), answer("spent", 8, 8, 512), answer("solved", 8, 8, 700))
        outcome = self.outcome(played)
        self.assertEqual((outcome.stopped, outcome.answer, outcome.t), ("solved", answer("solved", 8, 8, 700), 0))
        self.assertEqual(played.given, [(0, 0), (0, 512), (0, 1024)])
        outcome = self.outcome(Played(9, answer("spent", 9, 0), answer("spent", 8, 8, 512)), splits=512)
        self.assertEqual((outcome.stopped, outcome.answer), ("splits", answer("spent", 8, 8, 512)))

    def test_with_a_gap_any_of_equals_is_taken(self):
        """Ten percent of 5 allow no distance: first the tolerance is 1, and where that ends one below the cost, 0 up to the cost itself."""
        played = Played(5, answer("spent", 5, 0), answer("solved", 5, 4, 30), answer("spent", 5, 5, 1024))
        outcome = self.outcome(played, gap=Fraction(1, 10))
        self.assertEqual((outcome.stopped, outcome.answer, outcome.t), ("solved", answer("solved", 5, 5, 1024), 1))
        self.assertEqual(played.given, [(1, 0), (1, 512), (0, 1024)])

    def test_ends(self):
        """The answer with the least distance of cost and bound is kept, with the reason why there is no better one."""
        first, nearer, farther = answer("spent", 9, 0), answer("spent", 8, 4, 512), answer("spent", 8, 3, 600)
        for limits, answers, kept, why in (
            ({"splits": 512}, [first, nearer], nearer, "splits"),
            ({"splits": 600}, [first, nearer, farther], nearer, "splits"),
            ({}, [first, nearer._replace(kind="full")], nearer._replace(kind="full"), "rows"),
            ({"seconds": 1e-9}, [first], first, "time"),
            ({}, [first, nearer], nearer, "interrupt"),
            ({}, [first, answer("solved", 8, 8, 3)], answer("solved", 8, 8, 3), "solved"),
        ):
            with self.subTest(why):
                outcome = self.outcome(Played(9, *answers), **limits)
                self.assertEqual((outcome.answer, outcome.stopped), (kept, why))

    def test_the_last_run_takes_the_time_that_is_left(self):
        """Twice the splits while two runs more have room; then as many as the rest holds, up to a quarter; none for hardly more."""
        made = runs.Runs(Played(9), JOB, Limits(seconds=60))
        made.best, made.lengths = answer("spent", 9, 0), [1.0, 2.0, 4.0]
        for left, splits in ((25, 8192), (24, 8192), (20, 8192 * 15 // 8), (12, 8192 * 9 // 8), (8, 6144), (6, None), (0, None),
                             (-1, None)):
            with unittest.mock.patch.object(made, "left", lambda left=left: left):
                self.assertEqual(made.next_splits(4096), splits)
        made.lengths = [1.0, 1.0, 3.0]
        with unittest.mock.patch.object(made, "left", lambda: 12):
            self.assertEqual(made.next_splits(4096), 8192)
        with unittest.mock.patch.object(made, "left", lambda: 20):
            self.assertTrue(8192 < made.next_splits(4096) < 2 * 8192)

    def test_asked_to_stop(self):
        """The answer so far, also where the request came before the first run was over."""
        stop = runs.Stop()
        stop.asked = True
        outcome = runs.search(Played(9, answer("spent", 9, 0)), JOB, Limits(), None, stop)
        self.assertEqual((outcome.answer, outcome.stopped), (answer("spent", 9, 0), "interrupt"))

    def test_interrupt_before_any_answer(self):
        with self.assertRaises(KeyboardInterrupt):
            self.outcome(Played(9))


class Gap(unittest.TestCase):
    """With a bad start, far dearer than the lines found; each search then ends within the gap, or is not called solved."""

    def test_solved_is_within_the_gap(self):
        made = Made([(0.8, -13.5), (0.31, 220.0)], [(300, 4000)], 60, noise=0.6, seed=11)
        with tempfile.TemporaryDirectory() as folder:
            data = pathlib.Path(folder) / "points.csv"
            data.write_text(made.text(), encoding="utf-8")
            words = ["--x=x1", "--y=y", "--lines=2", "--epsilon=3", "--quiet", "--json", "--loss=absolute"]
            words += ["--box=0.75:0.85,-80:60,0.26:0.36,150:290", "--start=0.75,-80,0.36,290"]
            for gap, splits in ((60, 512), (60, 4096), (80, 512), (80, 64)):
                with self.subTest(gap=gap, splits=splits):
                    status, out, _ = run("fit", data, *words, f"--gap={gap}", f"--splits={splits}")
                    found = json.loads(out)
                    self.assertEqual(status, 0 if found["kind"] == "solved" else 3)
                    self.assertEqual(found["kind"] == "solved", found["gap_percent"] <= gap, found["gap_percent"])


if __name__ == "__main__":
    unittest.main()
