"""A coefficient along a pass: the same search in window after window, of any number of rows.

The library searches all windows of a store, each from the vector of the one before. A pass that is longer than a store is cut into stores,
each beginning with the first window that the one before has no room for, and with the vector that it ended with: every window is the same
as if there were one store, and as alone.
"""

import itertools
import statistics
from dataclasses import dataclass, field

from . import fitting, preparing, result, run, scaling
from . import library as calls
from .decimals import shown
from .growing import Growing, ended, marked, tolerance
from .problems import BadInput, BadUse
from .progress import told

# From so many windows along the pass a first guess is made, which the box holds.
GUESSED = 9
POINTS_EACH = 3


@dataclass
class Window:
    """One window: its first and last row as places among the points, how many samples it has, and its answer, marked by the gap."""

    first: int
    last: int
    samples: int
    answer: calls.Answer


@dataclass(repr=False)
class Drift:
    """The windows of a pass, and what was searched for each."""

    settings: object
    scaling: object
    model: calls.Model
    low: list
    high: list
    length: int
    hop: int
    points: object
    notes: list
    windows: list
    stopped: str
    seconds: float
    source: str = ""
    warnings: list = field(default_factory=list)
    date: str = field(default_factory=fitting.now)
    command: str = None
    data_sum: str = None

    @property
    def kind(self):
        """The worst of all."""
        kinds = {window.answer.kind for window in self.windows}
        return next(kind for kind in ("full", "spent", "solved") if kind in kinds)

    @property
    def settings_sum(self):
        return fitting.sum_of(self)

    @property
    def reach(self):
        """How far from its line a sample may lie, in y's units; without an epsilon the cost of the first window."""
        if self.settings.spoiled is None:
            return self.settings.epsilon
        return self.windows[0].answer.cost * self.scaling.cost_unit(calls.SPOILED)

    def frames(self, window):
        return self.points.counted[window.first], self.points.counted[window.last]

    def rows(self, window):
        return self.points.numbers[window.first], self.points.numbers[window.last]

    def value(self, window, k):
        """Coefficient k of a window in the user's units: of an offset, a line's y at the origin of x."""
        return self.scaling.side(k, window.answer.vector[k])


# Windows and stores


def stores_of(records, length, hop, most=calls.MOST_RECORDS):
    """Where each store begins and ends: two of them have a window less one hop in common."""
    begin, made = 0, []
    while begin + length <= records:
        count = (min(records - begin, most) - length) // hop + 1
        made.append((begin, begin + (count - 1) * hop + length))
        begin += count * hop
    return made


class Pass:
    """The records of a pass, and the windows on them."""

    def __init__(self, made, length, hop):
        self.length, self.hop = length, hop
        self.store, self.kept = scaling.store_of(made.whole, made.points.frame)
        self.whole = made.whole
        if length > len(self.kept):
            raise BadInput(f"--window: {length:,} rows, but there are {len(self.kept):,}")
        self.starts = range(0, len(self.kept) - length + 1, hop)
        self.stores = stores_of(len(self.kept), length, hop)

    def bytes_of(self, begin, end):
        return self.store[begin * calls.RECORD_BYTES : end * calls.RECORD_BYTES]

    def samples(self, start):
        """The samples of the window that begins with a record."""
        rows = set(self.kept[start : start + self.length])
        return self.whole.chosen([k in rows for k in range(len(self.whole))]).samples()

    def some(self):
        """Windows along the pass, the first and the last among them."""
        count = min(GUESSED, len(self.starts))
        return sorted({self.starts[i * (len(self.starts) - 1) // max(1, count - 1)] for i in range(count)})

    def windows(self, answers):
        made = []
        for start, answer in zip(self.starts, answers):
            first, last = self.kept[start], self.kept[start + self.length - 1]
            samples = sum(self.whole.y[k] is not None for k in self.kept[start : start + self.length])
            made.append(Window(first, last, samples, answer))
        return made


# The box


def paired(guess, before, sizes):
    """The lines of a guess in the order in which they lie nearest to those before it."""
    def apart(lines):
        return sum(((a - b) * size) ** 2 for line, other in zip(lines, before) for a, b, size in zip(line, other, sizes))

    return guess if before is None else min(itertools.permutations(guess), key=apart)


def guesses_of(library, made, track, spoiled):
    """For some windows along the pass: their samples, a guess and its threshold. Windows of too few samples have none."""
    found, problem, before = [], None, None
    sizes = [max(1, *map(abs, values)) for values in made.samples.x]
    for start in track.some():
        samples = track.samples(start)
        if len(samples) <= max(made.scales.d, spoiled or 0) or (made.scales.offset and any(min(v) == max(v) for v in samples.x[:-1])):
            continue
        try:
            guess, epsilon = preparing.guessed(library, made.settings, made.scales, samples, spoiled)
        except BadInput as error:
            problem = error
            continue
        before = guess and paired(guess, before, sizes)
        found.append((samples, before, epsilon))
    if not found:
        raise problem or BadInput("--window: too few samples in each window to tell a line: give a longer one")
    return found


def box_along(made, guesses):
    """The user's box, or one that holds that of each guess."""
    boxes = [preparing.box_of(made.settings, made.scales, samples, guess, epsilon) for samples, guess, epsilon in guesses]
    return [[side(values) for values in zip(*(box[end] for box in boxes))] for end, side in ((0, min), (1, max))]


# The searches


class Searches:
    """All windows searched, again with more splits each time."""

    def __init__(self, library, job, track, gap):
        self.library, self.job, self.track, self.gap = library, job, track, gap
        self.t = 1 if gap else 0

    def __call__(self, splits, rows):
        job, track, start, made = self.job, self.track, self.job.start, []
        for begin, end in track.stores:
            store = track.bytes_of(begin, end)
            made += self.library.windows(store, job.model, self.t, splits, job.low, job.high, start, track.length, track.hop, rows)
            start = made[-1].vector
        self.t = tolerance(made, self.gap)
        return [marked(answer, self.gap) for answer in made]


def line_of_progress(seconds, answers, splits):
    solved = sum(answer.kind == "solved" for answer in answers)
    told(seconds, f"{solved:,} of {len(answers):,} windows solved", splits)


def drift_table(library, table, settings, length, hop, progress=None, stop=None):
    """The windows of a file's points."""
    stop = stop or run.Stop()
    if settings.spoiled is not None and settings.spoiled >= length:
        raise BadUse(f"--spoiled: {settings.spoiled} in a window of {length}: at least one sample of a window must be sound")
    made = preparing.laid_out(preparing.points_of(table, settings), settings)
    track = Pass(made, length, hop)
    guesses = guesses_of(library, made, track, settings.spoiled)
    epsilon = statistics.median_low([epsilon for _, _, epsilon in guesses])
    preparing.give_job(library, made, track.bytes_of(0, length), settings.spoiled, guesses[0][1], epsilon, box_along(made, guesses))
    stop.begin()
    job, limits = made.job, settings.limits
    searches = Searches(library, job, track, limits.gap)
    answers, stopped, seconds = Growing(searches, lambda given: ended([a.kind for a in given]), limits, progress, stop).run()
    notes = made.notes + hop_notes(track)
    found = Drift(settings, made.scales, job.model, job.low, job.high, length, hop, made.points, notes, track.windows(answers), stopped,
                  seconds, table.name, data_sum=table.sum)
    found.warnings = doubts_of(found)
    return found


# What is doubtful


def hop_notes(track):
    """Rows that are in no window."""
    missed = len(track.kept) - (track.starts[-1] + track.length)
    made = [f"the last {missed:,} rows fill no window"] if missed else []
    if track.hop > track.length:
        made.append(f"between two windows {track.hop - track.length:,} rows are in none, since --hop is over --window")
    return made


def where_text(drift, windows, words):
    """How many windows something holds of, and the first of them."""
    if not windows:
        return []
    first, last = drift.rows(windows[0])
    return [f"{len(windows):,} window{'s' if len(windows) > 1 else ''}, first rows {first} to {last}: {words}"]


def on_edge(drift, window):
    return any(low < high and w in (low, high) for w, low, high in zip(window.answer.vector, drift.low, drift.high))


def doubts_of(drift):
    due = POINTS_EACH * drift.model.n * drift.model.d
    wider = "a wider --box" if drift.settings.box is not None else "a larger --margin"
    few = [window for window in drift.windows if window.samples < due]
    edge = [window for window in drift.windows if window.samples >= due and on_edge(drift, window)]
    return (where_text(drift, few, f"fewer samples than {POINTS_EACH} for each coefficient, so that little can be said")
            + where_text(drift, edge, f"a coefficient lies on the edge of the box; better lines may lie outside: give {wider}"))


def advice(drift):
    if drift.kind == "solved":
        return None
    smaller = "a narrower --box" if drift.settings.box is not None else "a smaller --margin"
    return (f"the bound of each window holds; to solve all: {result.REMEDIES[drift.stopped]}, {smaller}, a shorter --window or a smaller "
            "--scale; or accept a --gap")


def solved_text(drift):
    solved = sum(window.answer.kind == "solved" for window in drift.windows)
    return f"{solved:,} of {len(drift.windows):,} windows solved"


def headline(drift):
    head = f"{drift.kind}{result.STOPPED[drift.stopped]}: {solved_text(drift)}"
    return f"{head}, {drift.length:,} rows each, {drift.hop:,} apart, {drift.seconds:.1f} s"


def certificate(drift):
    """What the windows show, in a sentence."""
    lines, cost = ("lines", "cost") if drift.model.n > 1 else ("line", "costs")
    gap = drift.settings.limits.gap
    less = f"over {shown(100 * gap)} % less" if gap else "less"
    solved = f"in a window that is solved no other {lines} in this box and on this grid {cost} {less}"
    return f"{solved}; in every window none {cost} less than L"
