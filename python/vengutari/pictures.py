"""The pictures of a fit: points and lines, the residuals of each line, and how they are spread."""

from fractions import Fraction

from .decimals import digits_of
from .library import GAP, OUTLIER, UNDECIDED
from .picture import Picture, reach
from .result import LABELS, equation

# Colours that people with any colour sight tell apart, and a shape for each, for prints without colour.
MARKS = {1: ("#0072b2", "circle"), 2: ("#d55e00", "square"), 3: ("#009e73", "triangle"), 4: ("#cc79a7", "diamond")}
MARKS.update({OUTLIER: ("#555555", "cross"), UNDECIDED: ("#8a6d00", "ring"), GAP: ("#999999", "tick")})
PANEL = (480, 230)
# Residuals are drawn up to so many epsilon; those that lie farther stand at the edge.
REACH = 1.6
# The bars of the histogram in an epsilon.
BARS = 8


def name_of(fit, label):
    """What a label is called."""
    return fit.words.get(label) or (LABELS[label][0] if label in LABELS else f"line {label}")


class Pictures:
    """The pictures of one fit."""

    def __init__(self, fit):
        self.fit, self.rows = fit, fit.rows
        self.epsilon = float(fit.reach) or 1.0
        self.near = "epsilon" if fit.settings.spoiled is None else "the cost"
        self.tips = [self.tip(k) for k in range(len(self.rows))]
        self.samples = [k for k, row in enumerate(self.rows) if row.residual is not None]

    def tip(self, k):
        """What a point says when it is pointed at."""
        fit, row = self.fit, self.rows[k]
        text = f"row {fit.points.numbers[k]}, frame {fit.points.counted[k]}: "
        text += ", ".join(f"{name} {values.text(k)}" for name, values in zip(fit.settings.x, fit.points.x))
        if row.residual is None:
            return f"{text}, {name_of(fit, row.label)}"
        return f"{text}, {fit.settings.y} {fit.points.y.text(k)}, {name_of(fit, row.label)}, residual {row.residual:+.4g}"

    def put_points(self, picture, places):
        """Points by label: the outliers first, so that they hide nothing."""
        for k, x, y in sorted(places, key=lambda place: (self.rows[place[0]].label not in (OUTLIER, GAP), place[0])):
            picture.mark(x, y, *MARKS[self.rows[k].label], self.tips[k])

    def points(self):
        """The points over the lines and their bands, or, for several columns, against the fitted values."""
        fit, y = self.fit, self.fit.points.y.floats()
        if len(fit.settings.x) == 1:
            x = fit.points.x[0].floats()
            across, up = (reach(values[k] for k in self.samples) for values in (x, y))
            picture = Picture(across, up, (fit.settings.x[0], fit.settings.y), "points and lines")
            for j in range(fit.model.n):
                line = fit.line(j)
                ends = [(v, float(line[0] * Fraction(v) + (line[1] if len(line) > 1 else 0))) for v in picture.x]
                picture.band(ends, float(fit.reach), MARKS[j + 1][0], f"line {j + 1}: {equation(fit.scaling, fit.vector, j)}")
                self.put_envelope(picture, j, ends)
        else:
            x = [row.fitted for row in self.rows]
            both = reach([value for k in self.samples for value in (x[k], y[k])])
            picture = Picture(both, both, (f"{fit.settings.y} by the lines", fit.settings.y), "points against the lines")
            picture.band([(v, v) for v in picture.x], float(fit.reach), "#777777", f"equal, within {self.near}")
        self.put_points(picture, [(k, x[k], y[k]) for k in self.samples])
        return picture

    def put_envelope(self, picture, j, ends):
        """What surely holds all lines whose coefficients are in their ranges: it is narrowest at the origin of x."""
        fit, scaling = self.fit, self.fit.scaling
        if fit.ranges is None or fit.ranges.ends is None:
            return
        middle = float(scaling.x[0].origin)
        across = sorted({*picture.x, min(max(middle, picture.x[0]), picture.x[1])})
        sides = [[float(scaling.side(k, w)) for w in fit.ranges.ends[k]] for k in range(j * scaling.d, (j + 1) * scaling.d)]
        slopes, heights = [*sides, [0.0, 0.0]][:2]
        below = [(x, heights[0] + min(a * (x - middle) for a in slopes)) for x in across]
        above = [(x, heights[1] + max(a * (x - middle) for a in slopes)) for x in reversed(across)]
        picture.area([*below, *above], MARKS[j + 1][0], f"all lines {j + 1} of the ranges lie here")
        picture.path(ends, MARKS[j + 1][0])

    def residual_ticks(self):
        """Multiples of half an epsilon, in y's units."""
        return [(part * self.epsilon, digits_of(part * self.epsilon, 3).replace("-", "−")) for part in (-1.5, -1, -0.5, 0, 0.5, 1, 1.5)]

    def residuals(self, j, name, values):
        """The residuals of the rows whose nearest line is this one, against a column or the frames; the axis goes by epsilon."""
        most, several = REACH * self.epsilon, self.fit.model.n > 1
        title = f"residuals{f' of line {j + 1}' if several else ''} by {name}"
        names = name, f"residual, {self.fit.settings.y}"
        used = [k for k, row in enumerate(self.rows) if row.line == j or (row.line is None and name == "frame")]
        across = reach(values[k] for k in used if values[k] is not None)
        picture = Picture(across, (-most, most), names, title, PANEL, self.residual_ticks())
        picture.band([(v, 0.0) for v in picture.x], float(self.fit.reach), MARKS[j + 1][0], f"within {self.near}")
        edge, places = 0.95 * most, []
        for k in used:
            residual = self.rows[k].residual
            places.append((k, values[k], -most if residual is None else max(-edge, min(edge, residual))))
        self.put_points(picture, places)
        return picture

    def panels(self):
        """For each line its residuals by frame; where there are several columns, by each of them too."""
        columns = [("frame", [float(number) for number in self.fit.points.counted])]
        if len(self.fit.settings.x) > 1:
            columns = [(name, values.floats()) for name, values in zip(self.fit.settings.x, self.fit.points.x)] + columns
        return [self.residuals(j, name, values) for j in range(self.fit.model.n) for name, values in columns]

    def histogram(self):
        """How many samples have which residual, line by line on top of each other; those beyond stand in the outermost bars."""
        count = 3 * BARS
        bins = [{} for _ in range(count)]
        for k in self.samples:
            row = self.rows[k]
            place = int((row.residual / self.epsilon + 1.5) * BARS // 1)
            held = bins[max(0, min(count - 1, place))]
            held[row.label] = held.get(row.label, 0) + 1
        most = max(1, *(sum(held.values()) for held in bins))
        names = f"residual, {self.fit.settings.y}", "samples"
        picture = Picture((-1.5 * self.epsilon, 1.5 * self.epsilon), (0, 1.05 * most), names, "how the residuals are spread", PANEL)
        for place, held in enumerate(bins):
            ends, top = [(place + side) / BARS * self.epsilon - 1.5 * self.epsilon for side in (0, 1)], 0
            for label in sorted(held, key=lambda label: (label in LABELS, label)):
                beyond = " or beyond" if place in (0, count - 1) else ""
                tip = f"{name_of(self.fit, label)}: {held[label]} samples, {digits_of(ends[0], 3)} to {digits_of(ends[1], 3)}{beyond}"
                picture.bar(ends, (top, top + held[label]), MARKS[label][0], tip)
                top += held[label]
        return picture

    def all(self):
        return [self.points(), *self.panels(), self.histogram()]
