"""One line after another: the line that holds most points, then the one that holds most of those left, and so on. How many modes are there?

The library searches, removes and labels; here its rounds are said in the user's words and units.
"""

import json
from dataclasses import dataclass, field
from functools import cached_property

from . import __version__, fitting, preparing, result, run, wide
from . import library as calls
from .decimals import shown_exactly
from .doubts import line_doubts, outlier_doubts, pair_doubts
from .growing import Growing, ended
from .progress import told
from .saved import answer_json, box_json, scaling_json

FORMAT = "vengutari peel 1"


@dataclass
class Round:
    """One round's answer, among how many points it was searched, and how many it removed."""

    answer: calls.Answer
    before: int
    removed: int

    @property
    def held(self):
        """The points that its line fits, of those it was searched among."""
        return self.before - self.answer.cost

    @property
    def most(self):
        """No line of the box and grid fits more of them."""
        return self.before - self.answer.bound


@dataclass(repr=False)
class Peeled:
    """The rounds, and what each row is by them. The lines of all rounds stand in one vector, as those of a fit do."""

    settings: object
    scaling: object
    model: calls.Model
    low: list
    high: list
    rounds: list
    limit: int
    points: object
    labels: list
    notes: list
    stopped: str
    seconds: float
    source: str = ""
    warnings: list = field(default_factory=list)
    date: str = field(default_factory=fitting.now)
    command: str = None
    data_sum: str = None
    ranges: object = None
    range_lines: tuple = ()
    words: dict = field(default_factory=lambda: {calls.OUTLIER: "left"})

    @property
    def vector(self):
        return [w for made in self.rounds for w in made.answer.vector]

    @property
    def reach(self):
        return self.settings.epsilon

    @property
    def kind(self):
        return self.rounds[-1].answer.kind

    @property
    def left(self):
        """The points that no round removed."""
        return self.rounds[-1].before - self.rounds[-1].removed

    @property
    def settings_sum(self):
        return fitting.sum_of(self)

    def line(self, j):
        return self.scaling.line(self.vector, j)

    @cached_property
    def rows(self):
        return result.rows_of(self.scaling, self.model.n, self.vector, self.points, self.labels)


def box_for(settings, scales, samples, guess, epsilon):
    """The user's box, or one that holds every line that stays near the range of the data."""
    if settings.box is not None:
        return preparing.box_of(settings, scales, samples, guess, epsilon)
    return wide.wide_box(samples, scales.offset, 1)


def rounds_of(answers, labels, samples):
    """The rounds with their points: one that is solved removes those that have its label."""
    made, before = [], samples
    for number, answer in enumerate(answers, 1):
        made.append(Round(answer, before, labels.count(number)))
        before -= made[-1].removed
    return made


def peel_table(library, table, settings, limit, t, progress=None, stop=None):
    """The rounds on the points of a file."""
    stop = stop or run.Stop()
    preparing.check_count(len(table.rows))
    made = preparing.prepare(library, preparing.points_of(table, settings), settings, box_for)
    stop.begin()
    job = made.job

    def call(splits, rows):
        return library.peel(job.store, job.model, t, splits, job.low, job.high, job.start, limit, rows)

    grown = Growing(call, lambda given: ended([answer.kind for answer in given[0]]), settings.limits, progress, stop)
    (answers, labels), stopped, seconds = grown.run()
    found = Peeled(settings, made.scales, job.model._replace(n=len(answers)), job.low, job.high,
                   rounds_of(answers, labels, len(made.samples)), limit, made.points, fitting.spread(labels, made.whole, made.kept),
                   made.notes, stopped, seconds, table.name, data_sum=table.sum)
    found.warnings = doubts_of(found) + fitting.far_on_lines(found.model, made.scales, found.vector, made.points, made.whole)
    return found


def doubts_of(peeled):
    """What makes the lines doubtful."""
    samples = len(peeled.points) - peeled.points.gaps
    return outlier_doubts(peeled, samples) + line_doubts(peeled) + pair_doubts(peeled)


def line_of_progress(seconds, given, splits):
    answers, _ = given
    solved = sum(answer.kind == "solved" for answer in answers)
    told(seconds, f"rounds solved: {solved}; round {len(answers)} has {answers[-1].open:,} boxes open", splits)


# In words


def points_text(count):
    return f"{count:,} point{'' if count == 1 else 's'}"


def certificate(made):
    """What a round shows, in a sentence; it speaks of this box and this grid, and of the points that were left before it."""
    left = f"{points_text(made.before)} then left"
    if made.answer.cost == made.answer.bound:
        return f"no other line in this box and on this grid holds more of the {left}"
    return f"no other line in this box and on this grid holds more than {made.most:,} of the {left}, this one holds {made.held:,}"


def round_text(peeled, j):
    """A round: its line, and what became of the points."""
    made = peeled.rounds[j]
    residuals = result.residuals_of(peeled, j)
    rms = f", RMS {result.rms_text(residuals, '')}" if residuals else ""
    if made.answer.kind != "solved":
        told_of = f"{made.answer.kind}: not solved, so none of the {points_text(made.before)} then left is removed"
    else:
        told_of = f"{points_text(made.removed)} removed, {made.before - made.removed:,} left{rms}"
    return f"round {j + 1}: {result.equation(peeled.scaling, peeled.vector, j)}   ({told_of})"


def end_text(peeled):
    """Why there are no more rounds."""
    last = peeled.rounds[-1]
    if last.answer.kind != "solved":
        return "the last of them not solved"
    if peeled.left == 0:
        return "until no point was left"
    return "as many as --most allows" if last.removed else "the last of them holding none of the points left"


def headline(peeled):
    sums = [made.answer for made in peeled.rounds]
    count = len(sums)
    head = f"{peeled.kind}{result.STOPPED[peeled.stopped]}: {count} round{'' if count == 1 else 's'}, {end_text(peeled)}"
    return f"{head}; {points_text(peeled.left)} left, {sum(answer.splits for answer in sums):,} splits, {peeled.seconds:.1f} s"


def advice(peeled):
    """What to do where a round is not solved."""
    if peeled.kind == "solved":
        return None
    more = result.REMEDIES[peeled.stopped]
    return (f"the rounds before round {len(peeled.rounds)} hold; to solve it: {more}, a narrower --box or a smaller --scale; "
            "or accept a line that holds a few points fewer with --tolerance")


def summary(peeled):
    text = [headline(peeled)]
    for j, made in enumerate(peeled.rounds):
        text += [round_text(peeled, j), f"  certificate: {certificate(made)}"]
    text.append(rows_text(peeled))
    text.append("box: each line " + result.box_text(peeled.scaling, peeled.low, peeled.high)[0])
    text.append("grid: " + result.grid_text(peeled.scaling))
    text += [f"warning: {warning}" for warning in peeled.warnings] + [f"note: {note}" for note in peeled.notes]
    text += [f"next: {advice(peeled)}"] if advice(peeled) else []
    return "\n".join(text) + "\n"


def rows_text(peeled):
    return f"rows: {len(peeled.labels):,}, of them {peeled.labels.count(calls.OUTLIER):,} left, {peeled.labels.count(calls.GAP):,} gaps"


def round_json(peeled, j):
    made, line = peeled.rounds[j], peeled.line(j)
    return {
        "round": j + 1, "equation": result.equation(peeled.scaling, peeled.vector, j),
        "coefficients": {column.name: float(value) for column, value in zip(peeled.scaling.x, line)},
        "exact": {column.name: shown_exactly(value) for column, value in zip(peeled.scaling.x, line)},
        **answer_json(made.answer, 1), "points": made.before, "held": made.held, "removed": made.removed,
        "left": made.before - made.removed, "rms": result.root_mean_square(result.residuals_of(peeled, j)),
        "certificate": certificate(made),
    }


def as_json(peeled):
    """Everything about the rounds."""
    settings = peeled.settings
    made = {
        "format": FORMAT, "version": __version__, "source": peeled.source, "date": peeled.date, "command": peeled.command,
        "data_sha256": peeled.data_sum, "settings_sha256": peeled.settings_sum, "kind": peeled.kind, "stopped": peeled.stopped,
        "seconds": round(peeled.seconds, 3), "end": end_text(peeled), "left": peeled.left,
        "rounds": [round_json(peeled, j) for j in range(len(peeled.rounds))],
        "labels": result.counts_of(peeled.labels, len(peeled.rounds)), "box": box_json(peeled.scaling, peeled.low, peeled.high),
        "settings": {"x": settings.x, "y": settings.y, "frame": settings.frame, "offset": peeled.scaling.offset, "most": peeled.limit,
                     "epsilon": shown_exactly(settings.epsilon), "epsilon_whole": peeled.model.epsilon},
        "scaling": scaling_json(peeled.scaling), "warnings": peeled.warnings, "notes": peeled.notes, "next": advice(peeled),
    }
    return json.dumps(made, indent=2, ensure_ascii=False) + "\n"
