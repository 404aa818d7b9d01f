"""The wide search: it counts samples over all lines that stay near the range of the data."""

import dataclasses
from dataclasses import dataclass
from fractions import Fraction

from . import library as calls
from . import proposal, run, scaling
from .decimals import rounded

# A wide box holds the lines that stay within the range of y, widened by this much of its span on either side.
WIDENED = 1
# The least gap: it allows no distance of cost and bound, and any of the lines of least cost.
ANY_OF_THE_BEST = Fraction(1, 2**64)


@dataclass
class Wide:
    """A search of a wide box that counts points; fitted is how many the fit's own lines hold, of all the samples."""

    scaling: scaling.Scaling
    low: list
    high: list
    outcome: run.Outcome
    fitted: int
    samples: int

    @property
    def most(self):
        """No lines of the wide box and grid fit more points than this."""
        return self.samples - self.outcome.answer.bound


def wide_box(samples, offset, n):
    """Lines that stay within the range of y, widened by its span on either side, in whole numbers before the scale."""
    low, high = min(samples.y), max(samples.y)
    span = max(1, high - low)
    top = max(abs(high + WIDENED * span), abs(low - WIDENED * span))
    if not offset:
        sides = [Fraction(2 * top, max(map(abs, values))) for values in samples.x]
    else:
        sides = [Fraction((1 + 2 * WIDENED) * span, max(1, max(values) - min(values))) for values in samples.x[:-1]]
        around = top + sum(side * abs(max(v) + min(v)) / 2 for side, v in zip(sides, samples.x))
        sides.append(Fraction(around) / samples.x[-1][0])
    return [-side for side in sides] * n, sides * n


def wide_search(library, made, samples, store, progress, stop):
    """Counts points over a wide box, from the lines found: no others fit more than the samples less its bound."""
    settings, n = made.settings, made.settings.lines
    low, high = wide_box(samples, made.scaling.offset, n)
    epsilon = made.reach / made.scaling.y.unit
    scale = min(made.scaling.scale, scaling.choose_scale(samples, epsilon, [abs(value) for value in high], None))
    scales = dataclasses.replace(made.scaling, scale=scale)
    model = calls.Model(n, scales.d, scale, 0, rounded(epsilon * 2**scale, 1))
    job = run.Job(store, model, *scaling.outward(low, high, scale), [])
    found = [rounded(Fraction(w, 2 ** (made.scaling.scale - scale)), 1) for w in made.answer.vector]
    job.start = proposal.start_in(library, store, model, job.low, job.high, [found])
    limits = dataclasses.replace(settings.limits, gap=ANY_OF_THE_BEST)
    outcome = run.search(library, job, limits, progress and progress(Fraction(1)), stop)
    fitted = sum(label not in (calls.OUTLIER, calls.GAP) for label in made.labels)
    return Wide(scales, job.low, job.high, outcome, fitted, len(samples))
