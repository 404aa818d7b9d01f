"""How sure each coefficient is: its least and greatest value among all lines of the box and grid that cost hardly more than the best."""

from dataclasses import dataclass

from .coefficients import value_of
from .decimals import on_step, shown
from .growing import Growing, ended
from .library import LARGEST_TOLERANCE
from .progress import told
from .result import STOPPED, cost_text, minus, name_of, settled, side_text


@dataclass
class Ranges:
    """part is how much more a line may cost, as a part of the cost, and ceiling the cost then; ends has the least and the greatest w of
    each coefficient, or is None where they are not found, and stopped says why: unsolved is that of the fit."""

    part: object
    ceiling: int
    ends: list = None
    stopped: str = "unsolved"
    splits: int = 0
    seconds: float = 0.0

    def of_line(self, scaling, j):
        """The ranges of a line's coefficients in the user's units, by their meaning, or None."""
        if self.ends is None:
            return None
        places = range(j * scaling.d, (j + 1) * scaling.d)
        return {name_of(scaling, k): tuple(float(scaling.side(k, w)) for w in self.ends[k]) for k in places}


def whole_ends(ends, scale):
    """The bits of w / 2^S as w."""
    return [tuple(int(value_of(pattern) * 2**scale) for pattern in pair) for pair in ends]


def ranges_of(library, fit, job, progress, stop):
    """The ranges of a solved fit; none of one that is not solved, or where an end is asked for."""
    part, cost = fit.settings.ranges, fit.answer.cost
    made = Ranges(part, min(LARGEST_TOLERANCE, cost + int(part * cost)))
    if not settled(fit) or stop.asked:
        made.stopped = "interrupt" if stop.asked else "unsolved"
        return made

    def call(splits, rows):
        return library.ranges(job.store, job.model, splits, made.ceiling, job.low, job.high, fit.vector, rows)

    grown = Growing(call, lambda given: ended([given[0]]), fit.settings.limits, progress and line_of_progress, stop)
    (kind, ends, numbers), made.stopped, made.seconds = grown.run()
    made.splits = numbers[0]
    if kind == "solved":
        made.ends = whole_ends(ends, fit.scaling.scale)
    return made


def line_of_progress(seconds, given, splits):
    told(seconds, f"ranges: {given[2][1]:,} boxes open", splits)


# In words


def more_text(ranges):
    return f"{shown(100 * ranges.part)} %"


def head_text(fit):
    """Of which lines the ranges are."""
    most = cost_text(fit, fit.ranges.ceiling)
    return f"of all lines in this box and on this grid that cost at most {more_text(fit.ranges)} more than these, {most}"


def none_text(fit):
    """Why there are none."""
    if fit.ranges.stopped == "unsolved":
        return "none, since the search is not solved"
    return f"none, since their search is not finished{STOPPED[fit.ranges.stopped]}"


def range_text(scaling, k, low, high):
    """The range of one coefficient in the user's units."""
    if low < high:
        return side_text(scaling, k, low, high)
    return f"{name_of(scaling, k)} is {minus(on_step(scaling.side(k, low), scaling.grid(k)))} alone"


def ranges_text(fit):
    """Line by line, the ranges of all coefficients."""
    d, scaling = fit.scaling.d, fit.scaling
    sides = [range_text(scaling, k, *ends) for k, ends in enumerate(fit.ranges.ends)]
    return [", ".join(sides[k : k + d]) for k in range(0, len(sides), d)]


def summary_of(fit):
    """The lines of a summary."""
    if fit.ranges.ends is None:
        return [f"ranges: {none_text(fit)}"]
    made = [f"range of line {j + 1}: {text}" for j, text in enumerate(ranges_text(fit))]
    return [*made, f"ranges: {head_text(fit)}"]


def as_json(fit):
    """The ranges for JSON; an offset is a line's y at the origin of x."""
    ranges, scaling = fit.ranges, fit.scaling
    found = None if ranges.ends is None else [
        {"line": k // scaling.d + 1, "coefficient": scaling.x[k % scaling.d].name, "meaning": name_of(scaling, k), "w": [low, high],
         "low": float(scaling.side(k, low)), "high": float(scaling.side(k, high))}
        for k, (low, high) in enumerate(ranges.ends)
    ]
    words = none_text(fit) if ranges.ends is None else head_text(fit)
    return {"percent": float(100 * ranges.part), "ceiling": ranges.ceiling, "finished": ranges.ends is not None, "stopped": ranges.stopped,
            "splits": ranges.splits, "seconds": round(ranges.seconds, 3), "coefficients": found, "meaning": words,
            "text": summary_of(fit)}
