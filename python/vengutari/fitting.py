"""From points to a certified fit: what is prepared is searched, and labelled by the answer."""

import datetime
import hashlib
from dataclasses import dataclass, field
from fractions import Fraction
from functools import cached_property
from typing import NamedTuple

from . import library as calls
from . import result, run, scaling
from .decimals import digits_of
from .doubts import doubts_of
from .preparing import check_count, far_rows, points_of, prepare
from .settings import Settings


def now():
    return datetime.datetime.now().astimezone().isoformat(" ", "seconds")


def sum_of(found):
    """The SHA-256 of all that was asked for and of the box and grid that came of it; the same for the same, whatever the day."""
    asked = [*sorted(vars(found.settings).items(), key=lambda pair: pair[0]), found.scaling, found.model, found.low, found.high]
    return hashlib.sha256(repr(asked).encode()).hexdigest()


class Line(NamedTuple):
    """A line that was found: its equation, its coefficients by their columns in the user's units, its points and their RMS. ranges has the
    least and the greatest of each coefficient where they were found, of an offset those of the line's y at the origin of x."""

    equation: str
    coefficients: dict
    points: int
    rms: float
    ranges: dict = None


@dataclass(repr=False)
class Fit:
    """A certified fit: what was searched, the answer, and what each row is by it; words has other names for some labels."""

    settings: Settings
    scaling: scaling.Scaling
    model: calls.Model
    low: list
    high: list
    outcome: run.Outcome
    notes: list
    points: object
    labels: list
    beacons: list
    wide: object = None
    ranges: object = None
    source: str = ""
    warnings: list = field(default_factory=list)
    date: str = field(default_factory=now)
    command: str = None
    data_sum: str = None
    words: dict = field(default_factory=dict)

    @property
    def answer(self):
        return self.outcome.answer

    @property
    def vector(self):
        return self.outcome.answer.vector

    def __repr__(self):
        return f"<Fit {self.answer.kind}, gap {result.gap_text(self.answer)}: {'; '.join(line.equation for line in self.lines)}>"

    @property
    def kind(self):
        """solved, spent or full."""
        return self.answer.kind

    @property
    def lines(self):
        """The lines, each with its equation, coefficients, points and RMS."""
        made = []
        for j in range(self.model.n):
            values = {column.name: float(value) for column, value in zip(self.scaling.x, self.line(j))}
            residuals = result.residuals_of(self, j)
            equation, rms = result.equation(self.scaling, self.vector, j), result.root_mean_square(residuals)
            made.append(Line(equation, values, len(residuals), rms, self.ranges and self.ranges.of_line(self.scaling, j)))
        return made

    @property
    def settings_sum(self):
        return sum_of(self)

    @property
    def certificate(self):
        """The certificate in a sentence."""
        return result.certificate(self)

    def summary(self):
        """What the command prints."""
        return result.summary(self)

    def as_dictionary(self):
        """Everything about the fit, as the command's JSON has it."""
        from .saved import as_dictionary

        return as_dictionary(self)

    def line(self, j):
        """The coefficients of a line, in the user's units, exactly."""
        return self.scaling.line(self.vector, j)

    @cached_property
    def rows(self):
        """What each row is by the fit."""
        return result.rows_of(self.scaling, self.model.n, self.vector, self.points, self.labels)

    @property
    def range_lines(self):
        """What the ranges say, line by line; nothing where none are asked for."""
        if self.ranges is None:
            return []
        from .ranges import summary_of

        return summary_of(self)

    @property
    def labelled(self):
        """The model of the labels."""
        return label_model(self.model, self.answer.cost)

    @property
    def reach(self):
        """How far from its line a sample is labelled as the line's, in y's units."""
        spoiled = self.settings.spoiled is not None
        return self.labelled.epsilon * self.scaling.cost_unit(calls.SPOILED) if spoiled else self.settings.epsilon


@dataclass
class Beacon:
    """The first and the last row of a beacon's records, as places among the points, and what they cost."""

    first: int
    last: int
    cost: int


def label_model(model, cost):
    """What labels are made with. Spoiled samples have no threshold: it is then the cost, which no other sample's distance exceeds."""
    return model._replace(p=0, epsilon=min(cost, calls.LARGEST_EPSILON)) if model.p == calls.SPOILED else model


def spread(labels, whole, kept):
    """A label for each row: its record's; where a row is not in the store, an outlier's if 16 bits do not hold it, or that of a gap."""
    made = [calls.GAP] * len(whole)
    for k in far_rows(whole):
        made[k] = calls.OUTLIER
    for k, label in zip(kept, labels):
        made[k] = label
    return made


def row_labels(library, model, vector, points, whole):
    """A label for each row, by the library where it is in the store."""
    store, kept = scaling.store_of(whole, points.frame)
    return spread(library.labels(store, model, vector) if store else b"", whole, kept)


def beacons_of(library, model, vector, store, kept):
    """What each beacon costs, in the order of the file; a row that is not in the store is in none. A largest distance is no sum."""
    if model.p == calls.SPOILED:
        return []
    groups = [kept[k : k + calls.BEACON_RECORDS] for k in range(0, len(kept), calls.BEACON_RECORDS)]
    return [Beacon(rows[0], rows[-1], cost) for rows, cost in zip(groups, library.cost_by_beacon(store, model, vector))]


def far_on_lines(model, scales, vector, points, whole):
    """A row that 16 bits do not hold is an outlier unless a line runs through it: those that are none, in words."""
    made, reach = [], model.epsilon * scales.y.unit / 2**scales.scale
    for k in far_rows(whole):
        x = [*(values.exact(k) for values in points.x), Fraction(1)][: scales.d]
        for j in range(model.n):
            if abs(points.y.exact(k) - sum(a * v for a, v in zip(scales.line(vector, j), x))) <= reach:
                made.append(f"row {points.numbers[k]} lies on line {j + 1} but does not fit in 16 bits: fit with a larger --x-step "
                            "or --y-step")
    return made


def fit_table(library, table, settings, progress=None, stop=None):
    """A certified fit of a file's points."""
    check_count(len(table.rows))
    found = fit(library, points_of(table, settings), settings, progress, stop)
    found.source, found.data_sum = table.name, table.sum
    return found


def fit_of(library, made, outcome):
    """The fit that a search led to: its labels, and what each beacon costs."""
    model, scales, vector = made.job.model, made.scales, outcome.answer.vector
    notes = made.notes + label_notes(model, scales, outcome.answer.cost)
    labelled = label_model(model, outcome.answer.cost)
    labels = row_labels(library, labelled, vector, made.points, made.whole)
    beacons = beacons_of(library, model, vector, made.job.store, made.kept)
    found = Fit(made.settings, scales, model, made.job.low, made.job.high, outcome, notes, made.points, labels, beacons)
    found.warnings = doubts_of(found) + far_on_lines(labelled, scales, vector, made.points, made.whole)
    return found


def fit(library, points, settings, progress=None, stop=None):
    """A certified fit. progress(unit) gives what is called each second; stop is asked whether to end with the answer so far."""
    stop = stop or run.Stop()
    made = prepare(library, points, settings)
    stop.begin()
    unit = made.scales.cost_unit(made.job.model.p)
    outcome = run.search(library, made.job, settings.limits, progress and progress(unit), stop)
    found = fit_of(library, made, outcome)
    if settings.wide and outcome.stopped != "interrupt":
        from .wide import wide_search

        found.wide = wide_search(library, found, made.samples, made.job.store, progress, stop)
    if settings.ranges is not None:
        from .ranges import ranges_of

        found.ranges = ranges_of(library, found, made.job, progress, stop)
    return found


def label_notes(model, scales, cost):
    """A cost that is more than labels can be told by."""
    if model.p != calls.SPOILED or cost <= calls.LARGEST_EPSILON:
        return []
    most = digits_of(calls.LARGEST_EPSILON * scales.cost_unit(model.p), 4)
    return [f"the cost is more than labels can be told by: they go by a distance of {most}; "
            "more samples may be spoiled than --spoiled says"]


