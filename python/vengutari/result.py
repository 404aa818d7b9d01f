"""What a fit says, in the user's words and units: equations, counts, the certificate, and what to do next."""

import math
from typing import NamedTuple

from . import library, run
from .decimals import digits_of, on_step
from .library import GAP, OUTLIER, UNDECIDED

# The labels that are no line's: what one row is by it, and what several are.
LABELS = {OUTLIER: ("outlier", "outliers"), UNDECIDED: ("undecided", "undecided"), GAP: ("gap", "gaps")}
SUMMED = ("points outside epsilon", "distance", "squared distance")
UNITS = ("", " {}", " {}²", " {}")
# Why no more was searched.
STOPPED = {"time": ", the time limit allows no more", "interrupt": ", interrupted", "splits": ", all splits are used",
           "rows": ", the table has no row left", "solved": ""}
# And what lets it go on.
REMEDIES = {"time": "a longer --time-limit", "interrupt": "a longer run", "splits": "more --splits", "rows": "more --table rows"}


# Lines and rows


def minus(text):
    return text.replace("-", "−")


def equation(scaling, vector, j):
    """A line as a formula: y = 0.8062 · x − 13.5. Where x is shifted, with digits enough for an offset that is far from the points."""
    text, last = "", scaling.grid(scaling.d - 1) / 8
    for k, (column, value) in enumerate(zip(scaling.x, scaling.line(vector, j))):
        sign = "−" if value < 0 else "+"
        text += f" {sign} " if text else sign.replace("+", "")
        step = scaling.grid(k)
        if scaling.place():
            step = min(step, last / (abs(column.origin) or 1))
        number = on_step(abs(value), step)
        text += number if column.constant else f"{number} · {column.name}"
    return f"{scaling.y.name} = {text}"


def line_values(scaling, vector, j, points):
    """A line's y in each row, as a float; None in a row without y. From the origin on, so that no digits are lost far from 0."""
    *slopes, last = map(float, scaling.at_origin(vector, j))
    if not scaling.offset:
        slopes, last = [*slopes, last], 0.0
    columns = [values.floats(column.origin) for values, column in zip(points.x, scaling.x)]
    rows = zip(points.y.values, *columns)
    if len(slopes) == 1:
        slope = slopes[0]
        return [None if y is None else slope * x + last for y, x in rows]
    return [None if y is None else sum(a * v for a, v in zip(slopes, x)) + last for y, *x in rows]


class Row(NamedTuple):
    """What a row is by the fit: its label, the line that the two numbers are of, its value and the residual; None without y."""

    label: int
    line: int
    fitted: float
    residual: float


def rows_of(scaling, n, vector, points, labels):
    """For each row its line, or the nearest where the label names none."""
    rows, lines = [], range(n)
    values = zip(*(line_values(scaling, vector, j, points) for j in lines))
    for y, fitted, label in zip(points.y.floats(), values, labels):
        if y is None:
            rows.append(Row(label, None, None, None))
            continue
        j = label - 1 if 1 <= label <= n else min(lines, key=lambda j: abs(y - fitted[j]))
        rows.append(Row(label, j, fitted[j], y - fitted[j]))
    return rows


def root_mean_square(values):
    return math.hypot(*values) / math.sqrt(len(values)) if values else None


def counts_of(labels, n):
    """How many rows have each label."""
    counts = {f"line {j}": labels.count(j) for j in range(1, n + 1)}
    return {**counts, **{several: labels.count(label) for label, (_, several) in LABELS.items()}}


def rows_text(labels):
    """How many rows there are, and how many are of no line."""
    return f"rows: {len(labels)}, of them " + ", ".join(f"{count} {name}" for name, count in counts_of(labels, 0).items())


# The certificate


def cost_text(fit, cost):
    """A cost in the user's units."""
    if fit.model.p == 0:
        return f"{cost:,} points"
    return digits_of(cost * fit.scaling.cost_unit(fit.model.p), 6) + UNITS[fit.model.p].format(fit.settings.y)


def loss_text(fit):
    """What the cost is."""
    p, spoiled = fit.model.p, fit.settings.spoiled
    if p == library.SPOILED:
        return f"spoiled: the largest distance of a sample to its nearest line, but for the {spoiled} that lie farthest"
    return f"{fit.settings.loss}: the sum of each point's {SUMMED[p]}" + (", cut at epsilon" if p else "")


def spoiled_text(fit):
    """What a limit on spoiled samples says of the samples."""
    several = "lines" if fit.model.n > 1 else "line"
    return f"all samples but at most {fit.settings.spoiled} lie within {cost_text(fit, fit.answer.cost)} of the {several}"


def name_of(scaling, k):
    """A coefficient's name; an offset is a line's y at the origin of x."""
    column = scaling.x[k % scaling.d]
    return column.name + (scaling.place() if column.constant else "")


def side_text(scaling, k, low, high):
    ends = [minus(on_step(scaling.side(k, w), scaling.grid(k))) for w in (low, high)]
    return f"{name_of(scaling, k)} {'from ' if scaling.x[k % scaling.d].constant and scaling.place() else ''}{ends[0]} to {ends[1]}"


def box_text(scaling, low, high):
    """The box, line by line, in the user's units."""
    d = scaling.d
    sides = [side_text(scaling, k, a, b) for k, (a, b) in enumerate(zip(low, high))]
    return [", ".join(sides[k : k + d]) for k in range(0, len(sides), d)]


def grid_text(scaling):
    return ", ".join(f"{name_of(scaling, k)} in steps of {digits_of(scaling.grid(k), 4)}" for k in range(scaling.d))


def gap_text(answer):
    gap = 100 * run.gap_of(answer)
    return "0 %" if gap == 0 else f"{gap:.3g} %"


def certificate(fit):
    """The certificate in a sentence; it speaks of this box and this grid."""
    answer, several = fit.answer, fit.model.n > 1
    where = "in this box and on this grid"
    if answer.cost == answer.bound:
        none = f"no other lines {where} cost less" if several else f"no other line {where} costs less"
        return f"{none}: the lower bound equals the cost, {cost_text(fit, answer.cost)}"
    least = f"whatever {'lines are' if several else 'line is'} taken {where}, the cost is at least {cost_text(fit, answer.bound)}"
    return f"{least}, at most {gap_text(answer)} below the cost of these, {cost_text(fit, answer.cost)}"


def wide_sentence(wide):
    """What the wide search says of every other region."""
    answer = wide.outcome.answer
    if wide.most <= wide.fitted:
        return (f"no lines of the wide box and grid fit more than {wide.most} of {wide.samples} points; those found fit {wide.fitted}")
    best = wide.samples - answer.cost
    if best > wide.fitted:
        return (f"lines of the wide box fit {best} of {wide.samples} points, those found {wide.fitted}: another region may be better; "
                "compare with --loss count, or give it as --box")
    return (f"lines of the wide box and grid fit at most {wide.most} of {wide.samples} points, those found {wide.fitted}; "
            "the rest is not decided, a longer --time-limit may")


def settled(fit):
    return fit.answer.kind == "solved"


def advice(fit):
    """What to do where the search is not solved."""
    if settled(fit):
        return None
    smaller = "a narrower --box" if fit.settings.box is not None else "a smaller --margin"
    remedies = f"{REMEDIES[fit.outcome.stopped]}, {smaller} or a smaller --scale"
    if fit.answer.cost == fit.answer.bound:
        return ("no other lines cost less, but whether these are the first of those that cost the same is not decided; "
                f"to find the first: {remedies}; or accept any of them with a --gap above 0")
    found = f"these are the best lines found and the bound holds; the gap is {gap_text(fit.answer)}"
    return f"{found}; to close it: {remedies}; or accept it with --gap"


# The summary


def headline(fit):
    answer = fit.answer
    head = f"{answer.kind}{STOPPED[fit.outcome.stopped]}: gap {gap_text(answer)}"
    return f"{head}, {answer.splits:,} splits, {answer.open:,} boxes open, {fit.outcome.seconds:.1f} s"


def residuals_of(fit, j):
    """The residuals of the points of line j, from 0."""
    return [row.residual for row in fit.rows if row.label == j + 1]


def rms_text(residuals, none):
    return digits_of(root_mean_square(residuals), 3) if residuals else none


def summary(fit):
    """About ten lines for the operator."""
    text = [headline(fit)]
    for j in range(fit.model.n):
        residuals = residuals_of(fit, j)
        rms = "" if not residuals else f", RMS {rms_text(residuals, '')}"
        text.append(f"line {j + 1}: {equation(fit.scaling, fit.vector, j)}   ({len(residuals)} points{rms})")
    text.append(rows_text(fit.labels))
    if fit.settings.spoiled is not None:
        text.append("spoiled: " + spoiled_text(fit))
    boxes = box_text(fit.scaling, fit.low, fit.high)
    text.append("box: " + "; ".join(f"line {j + 1} {box}" for j, box in enumerate(boxes)))
    text.append("grid: " + grid_text(fit.scaling))
    text.append("certificate: " + certificate(fit))
    if fit.wide is not None:
        text.append("wide: " + wide_sentence(fit.wide))
        wide_box = box_text(fit.wide.scaling, fit.wide.low, fit.wide.high)[0]
        text.append(f"wide box: each line {wide_box}; {grid_text(fit.wide.scaling)}")
    text += fit.range_lines
    text += [f"warning: {warning}" for warning in fit.warnings]
    text += [f"note: {note}" for note in fit.notes]
    if advice(fit):
        text.append("next: " + advice(fit))
    return "\n".join(text) + "\n"
