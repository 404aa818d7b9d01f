"""The search, run again with twice the splits until it is solved, so that there is a certified answer at any time.

A call of the library cannot be stopped, so it runs in a thread of its own; a time limit or Ctrl-C leaves it behind, and the answer is
that of the last run that came to its end. Each run starts from the best vector so far. A split opens at most one box more, so a
run of B splits needs at most B + 1 rows: only a limit on the rows can make a run full. Where the time left has no room for two runs
more, the next is the last, with as many splits as it has room for.
"""

import math
import sys
import threading
import time
from dataclasses import dataclass

from .library import LARGEST_TOLERANCE, ROW_BYTES, Model

FIRST_SPLITS = 512
MOST_ROWS = 2**26
TICK = 1.0
# A request to end is looked for so often.
GLANCE = 0.05
# A run with hardly more splits than the one before is not worth its time.
LEAST_GROWTH = 1.2
# What twice the splits took as a multiple of what they took before, at most: a longer one says more of the machine than of the search.
MOST_GROWTH = 8.0
# A run is the last where the time left is at most so many times what twice the splits will take, and is then given this part of it.
ROOM = 3.0
SAFE = 0.75


@dataclass
class Job:
    """What a search is given, but for its budget and rows."""

    store: bytes
    model: Model
    low: list
    high: list
    start: list


class Stop:
    """A request to end a search with its answer so far. Ctrl-C in the thread that waits for it is one too."""

    def __init__(self):
        self.begun = False
        self.asked = False

    def begin(self):
        """From here on there is an answer, or there will be one at once."""
        self.begun = True


@dataclass
class Outcome:
    """answer is that of one run of the library; stopped says why no more were made: solved, time, splits, rows or interrupt.

    t is the tolerance that the gap allows at this answer's cost. A run's own tolerance goes by the cost that it starts from, which may be
    higher: an answer that is solved by that one and not by t is given as spent, as the library says of t and so many splits. One that is
    solved by t is given as solved, also of a run with the tolerance 0, in which the library goes on to the first of equally good lines.
    """

    answer: object
    stopped: str
    seconds: float
    t: int


def gap_of(answer):
    """How far the bound lies below the cost, as a part of the cost."""
    return 0.0 if answer.cost == 0 else (answer.cost - answer.bound) / answer.cost


def rows_in_memory():
    """As many rows as half of the memory that is free holds."""
    try:
        with open("/proc/meminfo", encoding="ascii") as file:
            free = next(int(line.split()[1]) * 1024 for line in file if line.startswith("MemAvailable:"))
    except (OSError, ValueError, StopIteration):
        free = 2**30
    return max(4096, min(MOST_ROWS, free // 2 // ROW_BYTES))


def in_background(call):
    """Starts a call in a thread; its list takes the result, or the exception."""
    results = []

    def work():
        try:
            results.append((call(), None))
        except BaseException as error:  # handed to the thread that waits
            results.append((None, error))

    thread = threading.Thread(target=work, daemon=True)
    thread.start()
    return thread, results


class Runs:
    """The runs of one job."""

    def __init__(self, library, job, limits, progress=None, stop=None):
        self.library = library
        self.job = job
        self.limits = limits
        self.progress = progress
        self.stop = stop or Stop()
        self.began = time.monotonic()
        self.ticked = self.began
        self.rows = limits.rows or rows_in_memory()
        self.start = list(job.start)
        self.best = None
        self.t = self.tolerance(library.cost(job.store, job.model, job.start))
        self.lengths = []

    def seconds(self):
        return time.monotonic() - self.began

    def left(self):
        """The time left; the first run, which has no split, is not held to it."""
        return math.inf if self.limits.seconds is None or self.best is None else self.limits.seconds - self.seconds()

    def over(self):
        """Why no run is waited for any longer, or None; the first, which has no split, always is."""
        if self.best is None:
            return None
        return "interrupt" if self.stop.asked else "time" if self.left() <= 0 else None

    def one(self, splits):
        """One run to its end, or None where the time is over before or an end is asked for."""
        job = self.job
        given = (job.store, job.model, self.t, splits, job.low, job.high, list(self.start), max(1, min(splits + 1, self.rows)))
        return self.waited(lambda: self.library.search(*given), splits)

    def waited(self, call, splits):
        """What a call gives, or None as of a run."""
        begun = time.monotonic()
        thread, results = in_background(call)
        while thread.is_alive():
            thread.join(max(0.0, min(GLANCE, self.left())))
            if thread.is_alive() and self.over():
                return None
            self.tick(splits)
        answer, error = results[0]
        if error is not None:
            raise error
        self.lengths.append(time.monotonic() - begun)
        return answer

    def tick(self, splits):
        """A line of progress each second."""
        if time.monotonic() - self.ticked >= TICK and self.best is not None:
            self.ticked = time.monotonic()
            if self.progress is not None:
                self.progress(self.seconds(), self.best, splits)

    def take(self, answer):
        """The answer with the least distance of cost and bound is kept; the next run starts at the vector of the last, never dearer."""
        self.start = answer.vector
        if self.best is None or answer.cost - answer.bound <= self.best.cost - self.best.bound:
            self.best = answer

    def allowed(self, cost):
        """How far the bound may lie below a cost, by the gap."""
        return min(LARGEST_TOLERANCE, int(self.limits.gap * cost))

    def tolerance(self, cost):
        """What the gap allows at a cost. 0 asks the library for the first of equally good lines, so that with a gap it is 1 at least."""
        return max(1, self.allowed(cost)) if self.limits.gap else 0

    def next_tolerance(self, answer):
        """That of the answer's cost; 0 where one of 1 would end with this answer again, which is outside the gap."""
        again = self.allowed(answer.cost) == 0 and answer.cost - answer.bound <= 1
        return 0 if again else self.tolerance(answer.cost)

    def next_splits(self, splits):
        """Twice the splits; as many as the time left has room for, by the runs before, where that is the last run; None for hardly more."""
        wanted = min(self.limits.splits, max(FIRST_SPLITS, 2 * splits))
        if len(self.lengths) < 3 or self.left() == math.inf:
            return wanted
        before, last = self.lengths[-2:]
        growth = max(2.0, min(MOST_GROWTH, last / before if before > 0 else 2.0))
        if self.left() >= ROOM * last * growth:
            return wanted
        share = max(0.0, SAFE * self.left() / (last * growth))
        fitting = min(self.limits.splits, int(wanted * share ** (1 / math.log2(growth))))
        return None if fitting < LEAST_GROWTH * splits else fitting

    def stopped(self, answer, splits):
        """Why the runs are over after this answer to so many splits, or None."""
        if answer.cost - answer.bound <= self.allowed(answer.cost) and (self.limits.gap or answer.kind == "solved"):
            return "solved"
        if answer.kind == "full":
            return "rows"
        if answer.kind == "spent" and splits >= self.limits.splits:
            return "splits"
        return self.over()

    def run(self):
        """Runs until solved, a limit or Ctrl-C. The first has no split and is over at once, so that there always is an answer."""
        splits, why = 0, None
        try:
            while why is None:
                answer = self.one(splits)
                if answer is None:
                    why = self.over()
                    break
                self.take(answer)
                why = self.stopped(answer, splits)
                if why is None:
                    self.t = self.next_tolerance(answer)
                    splits = self.next_splits(splits)
                    why = "time" if splits is None else None
        except KeyboardInterrupt:
            if self.best is None:
                raise
            why = "interrupt"
        kind = "solved" if why == "solved" else "spent" if self.best.kind == "solved" else self.best.kind
        answer = self.best._replace(kind=kind)
        return Outcome(answer, why, self.seconds(), self.tolerance(answer.cost))


def search(library, job, limits, progress=None, stop=None):
    return Runs(library, job, limits, progress, stop).run()


def line_of_progress(unit):
    """Progress on standard error, costs in the user's units."""

    def progress(seconds, answer, splits):
        cost, bound = float(answer.cost * unit), float(answer.bound * unit)
        words = f"{seconds:7.1f} s  {answer.splits:>10,} splits  {answer.open:>9,} open  C {cost:.6g}  L {bound:.6g}"
        try:
            print(f"{words}  gap {100 * gap_of(answer):.3g} %  (now running {splits:,} splits)", file=sys.stderr, flush=True)
        except OSError:
            pass

    return progress
