"""Warnings: what makes a fit doubtful though its certificate holds, one line each."""

import itertools

from .decimals import digits_of, shown
from .library import OUTLIER, SPOILED
from .result import line_values, root_mean_square

MOST_OUTLIERS = 0.3
LEAST_NOISE = 10
# So many points are due for each coefficient of a line.
POINTS_EACH = 3


def outlier_doubts(fit, samples):
    count = fit.labels.count(OUTLIER)
    if count <= MOST_OUTLIERS * samples:
        return []
    return [f"{count} of {samples} samples are outliers, {100 * count / samples:.0f} percent: epsilon may be too small, or the lines "
            "too few"]


def line_doubts(fit):
    """Lines whose points are too few, or lie otherwise than epsilon says; without an epsilon, what they lie within is the cost itself."""
    made, epsilon = [], float(fit.reach)
    for j in range(1, fit.model.n + 1):
        residuals = [row.residual for row in fit.rows if row.label == j]
        rms = root_mean_square(residuals)
        if len(residuals) < POINTS_EACH * fit.model.d:
            made.append(f"line {j} has {len(residuals)} point{'' if len(residuals) == 1 else 's'}, fewer than {POINTS_EACH} for each of "
                        f"its {fit.model.d} coefficients: little can be said of it")
        elif fit.model.p != SPOILED and rms > epsilon:
            made.append(f"line {j} has an RMS of {digits_of(rms, 3)}, over epsilon, {shown(fit.reach)}: its samples are rounded too much")
        elif fit.model.p != SPOILED and rms < epsilon / LEAST_NOISE:
            made.append(f"line {j} has an RMS of {digits_of(rms, 3)}, under a tenth of epsilon, {shown(fit.reach)}: a smaller epsilon, "
                        "3 to 4 times the RMS, leaves fewer outliers in")
    return made


def pair_doubts(fit):
    """Two lines that no sample tells apart."""
    epsilon, made = float(fit.reach), []
    values = [line_values(fit.scaling, fit.vector, j, fit.points) for j in range(fit.model.n)]
    used = [y is not None for y in fit.points.y.values]
    for i, j in itertools.combinations(range(fit.model.n), 2):
        apart = max(abs(a - b) for a, b in zip(itertools.compress(values[i], used), itertools.compress(values[j], used)))
        if apart < epsilon:
            made.append(f"lines {i + 1} and {j + 1} are nearer to each other than epsilon at all samples, {digits_of(apart, 3)} at most: "
                        "fewer --lines may do")
    return made


def edge_doubts(fit):
    """Coefficients at an end of what was searched, unless that is one value alone."""
    made, wider = [], "a wider --box" if fit.settings.box is not None else "a larger --margin"
    for k, (w, low, high) in enumerate(zip(fit.vector, fit.low, fit.high)):
        if low < high and w in (low, high):
            name = fit.scaling.x[k % fit.model.d].name
            made.append(f"line {k // fit.model.d + 1}: its {name} lies on the edge of the box; better lines may lie outside: give {wider}")
    return made


def doubts_of(fit):
    samples = len(fit.points) - fit.points.gaps
    coefficients = fit.model.n * fit.model.d
    few = [f"{samples} samples for {coefficients} coefficients: many other lines fit them as well"] if samples < coefficients else []
    return few + outlier_doubts(fit, samples) + line_doubts(fit) + pair_doubts(fit) + edge_doubts(fit)
