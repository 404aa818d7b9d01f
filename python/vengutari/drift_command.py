"""The command drift, and its page: a small plot for each coefficient along the pass."""

import os
import shlex
from fractions import Fraction

from . import drift_tables, drifting, library, points
from .command import REFUSED
from .decimals import digits_of, shown
from .fit_command import checked_outputs, picture_of, show_and_write, status_of
from .options import settings_of
from .picture import Picture, drawn, reach
from .pictures import MARKS, PANEL
from .report import cells, escaped, items, origin_pairs, pairs_table, shell, table, verdict, warnings_of
from .result import box_text, equation, grid_text

FILES = ("json", "csv", "report", "picture")
# The mark of a window by its kind.
KINDS = {"solved": "circle", "spent": "ring", "full": "cross"}
# So many samples at most are drawn.
DRAWN = 3000
EARLY, LATE = (0, 114, 178), (213, 94, 0)


def shade(part):
    """A colour between that of the first and that of the last frame."""
    return "#" + "".join(f"{round(a + (b - a) * part):02x}" for a, b in zip(EARLY, LATE))


class DriftPictures:
    """The pictures of a pass."""

    def __init__(self, drift):
        self.drift = drift
        self.middles = [sum(drift.frames(window)) / 2 for window in drift.windows]
        self.across = reach(frame for window in drift.windows for frame in drift.frames(window))

    def tip(self, window, k):
        drift = self.drift
        value = digits_of(drift.value(window, k), 6).replace("-", "−")
        return ("frames {} to {}, rows {} to {}: ".format(*drift.frames(window), *drift.rows(window))
                + f"{drift_tables.names_of(drift)[k]} {value}, {window.answer.kind}")

    def near(self, k):
        """How far coefficient k alone goes before its line moves by epsilon at a sample."""
        drift, column = self.drift, self.drift.scaling.x[k % self.drift.scaling.d]
        if column.constant:
            return float(drift.reach)
        values = drift.points.x[k % drift.scaling.d].floats(column.origin)
        return float(drift.reach) / (max((abs(v) for v in values if v is not None), default=0.0) or 1.0)

    def coefficient(self, k):
        """A coefficient over the frames, each window at its middle, and the first window's value as a band."""
        drift, colour = self.drift, MARKS[k // self.drift.scaling.d + 1][0]
        values, near = [float(drift.value(window, k)) for window in drift.windows], self.near(k)
        up = reach([*values, values[0] - near, values[0] + near])
        picture = Picture(self.across, up, ("frame", ""), drift_tables.names_of(drift)[k], PANEL)
        picture.band([(x, values[0]) for x in picture.x], near, "#777777", "the first window's line, within epsilon at all samples")
        picture.path(zip(self.middles, values), colour)
        for window, middle, value in zip(drift.windows, self.middles, values):
            picture.mark(middle, value, colour, KINDS[window.answer.kind], self.tip(window, k))
        return picture

    def samples(self):
        """The samples, from the first frame's colour to the last's, over the first window's lines; of several columns there is none."""
        drift = self.drift
        if len(drift.settings.x) > 1:
            return []
        x, y = drift.points.x[0].floats(), drift.points.y.floats()
        used = [k for k, value in enumerate(y) if value is not None]
        used = used[:: -(-len(used) // DRAWN)]
        picture = Picture(reach(x[k] for k in used), reach(y[k] for k in used), (drift.settings.x[0], drift.settings.y),
                          "samples and the first window's lines")
        vector = drift.windows[0].answer.vector
        for j in range(drift.model.n):
            line = drift.scaling.line(vector, j)
            ends = [(v, float(line[0] * Fraction(v) + (line[1] if len(line) > 1 else 0))) for v in picture.x]
            picture.band(ends, float(drift.reach), "#777777", f"first window, line {j + 1}: {equation(drift.scaling, vector, j)}")
        for k in used:
            tip = f"row {drift.points.numbers[k]}, frame {drift.points.counted[k]}: {drift.points.x[0].text(k)}, {drift.points.y.text(k)}"
            picture.mark(x[k], y[k], shade(k / max(1, len(y) - 1)), "circle", tip)
        return [picture]

    def coefficients(self):
        return [self.coefficient(k) for k in range(self.drift.model.n * self.drift.model.d)]

    def all(self):
        return [*self.samples(), *self.coefficients()]


class DriftReport:
    """The page of a pass."""

    def __init__(self, drift):
        self.drift, self.pictures = drift, DriftPictures(drift)

    def verdict(self):
        drift = self.drift
        parts = [f"<strong>{escaped(drifting.headline(drift))}</strong>",
                 f'<span id="certificate">Certificate: {escaped(drifting.certificate(drift))}.</span>', *warnings_of(drift)]
        if drifting.advice(drift):
            parts.append(f"Next: {escaped(drifting.advice(drift))}.")
        return verdict(drift.kind == "solved", parts)

    def legend(self):
        kinds = [window.answer.kind for window in self.drift.windows]
        made = []
        for kind, shape in KINDS.items():
            if kind in kinds:
                mark = f'<svg viewBox="0 0 16 16" aria-hidden="true">{drawn(8, 8, MARKS[1][0], shape)}</svg>'
                made.append(f"<span>{mark} {kind}, {kinds.count(kind)}</span>")
        return '<p class="legend">' + " ".join(made) + "</p>"

    def pictures_part(self):
        panels = "\n".join(picture.svg("panel") for picture in self.pictures.coefficients())
        samples = "".join(picture.svg("wide") for picture in self.pictures.samples())
        below = ('<p class="quiet">From blue, the first frames, to orange, the last; the bands are the first window\'s lines, epsilon to '
                 "either side.</p>\n") if samples else ""
        return (f'<h2>Coefficients along the pass</h2>\n{self.legend()}\n<div class="panels">\n{panels}\n</div>\n'
                '<p class="quiet">Each window at its middle frame. The band is the first window\'s coefficient: within it, this '
                f"coefficient alone moves the line by epsilon at most.</p>\n{'<h2>Samples</h2>' if samples else ''}\n{samples}\n{below}")

    def windows_table(self):
        rows = [cells([(name, k > 1) for k, name in enumerate(drift_tables.head_of(self.drift))], "th")]
        rows += [cells([(text, k > 1) for k, text in enumerate(drift_tables.row_of(self.drift, window))]) for window in self.drift.windows]
        return table("windows", rows)

    def settings_table(self):
        drift = self.drift
        boxes = "; ".join(f"line {j + 1} {box}" for j, box in enumerate(box_text(drift.scaling, drift.low, drift.high)))
        return pairs_table([
            ("file", drift.source), ("rows", len(drift.points)), ("columns", drift.scaling.steps()),
            ("window, hop", f"{drift.length}, {drift.hop}"),
            ("epsilon" if drift.settings.spoiled is None else "cost of the first window", f"{shown(drift.reach)} {drift.settings.y}"),
            ("box", boxes), ("grid", grid_text(drift.scaling)), ("scale S", drift.scaling.scale), *origin_pairs(drift)])

    def page(self):
        drift = self.drift
        count = len(drift.windows)
        title = f"{drift.settings.y}: {count:,} window{'s' if count > 1 else ''} of {os.path.basename(drift.source)}"
        return shell(title, f"{self.verdict()}\n{self.pictures_part()}<h2>Windows</h2>\n{self.windows_table()}\n<h2>Notes</h2>\n"
                            f"{items(drift.notes or ['none'])}\n<h2>Settings</h2>\n{self.settings_table()}\n")


def made_files(options, drift):
    return {
        "--csv": lambda: drift_tables.as_csv(drift),
        "--json": lambda: drift_tables.as_json(drift),
        "--report": lambda: DriftReport(drift).page(),
        "--picture": lambda: picture_of(DriftPictures(drift).all(), options.picture),
    }


def command_drift(options, stop):
    settings = settings_of(options)
    outputs = checked_outputs(options, [options.data], FILES)
    read = points.read_table(options.data).part(*options.rows, options.every)
    progress = None if options.quiet else drifting.line_of_progress
    drift = drifting.drift_table(library.find(), read, settings, options.window, options.hop, progress, stop)
    drift.command = shlex.join(["vengutari", *options.words])
    whole = show_and_write(options, outputs, drift_tables.summary(drift), made_files(options, drift))
    return status_of(options, drift) if whole else REFUSED
