"""The command peel: how many modes has this board?"""

import os
import shlex

from . import library, peeling, points
from .command import REFUSED
from .fit_command import checked_outputs, labels_text, picture_of, show_and_write, status_of
from .options import settings_of
from .pictures import Pictures
from .report import Report, cells, escaped, origin_pairs, pairs_table, table, verdict, warnings_of
from .result import box_text, equation, grid_text, residuals_of, rms_text

FILES = ("json", "labels", "coefficients", "report", "picture")


class PeelReport(Report):
    """The page of the rounds: as that of a fit, with a line for each round."""

    def title(self):
        return f"{self.fit.settings.y}: {self.n} round{'s' if self.n > 1 else ''} of peeling, from {os.path.basename(self.fit.source)}"

    def verdict(self):
        peeled = self.fit
        parts = [f"<strong>{escaped(peeling.headline(peeled))}</strong>"]
        parts.append("Each certificate speaks of the searched box and of the grid named below, not of lines outside them, and of the "
                     "points that the rounds before it left.")
        parts += warnings_of(peeled)
        if peeling.advice(peeled):
            parts.append(f"Next: {escaped(peeling.advice(peeled))}.")
        return verdict(peeled.kind == "solved", parts)

    def lines_table(self):
        peeled = self.fit
        names = [("round", 0), ("formula", 0), ("removed", 1), ("left", 1), ("RMS", 1), ("certificate", 0)]
        rows = [cells(names, "th")]
        for j, made in enumerate(peeled.rounds):
            rms = rms_text(residuals_of(peeled, j), "–")
            rows.append(cells([(j + 1, 0), (equation(peeled.scaling, peeled.vector, j), 0), (made.removed, 1),
                               (made.before - made.removed, 1), (rms, 1), (peeling.certificate(made), 0)]))
        return table("rounds", rows)

    def beacons_part(self):
        return ""

    def said(self):
        return [peeling.rows_text(self.fit), *self.fit.notes]

    def settings_table(self):
        peeled = self.fit
        return pairs_table([
            ("file", peeled.source), ("rows", len(peeled.rows)), ("columns", peeled.scaling.steps()), ("epsilon", self.reach()),
            ("rounds at most", peeled.limit), ("box of each line", box_text(peeled.scaling, peeled.low, peeled.high)[0]),
            ("grid", grid_text(peeled.scaling)), ("scale S", peeled.scaling.scale), *origin_pairs(peeled)])


def made_files(options, calls, table_read, peeled):
    def coefficients():
        from .coefficients import text

        return text(calls, peeled)

    return {
        "--labels": lambda: labels_text(table_read, peeled.rows),
        "--coefficients": coefficients,
        "--report": lambda: PeelReport(peeled).page(),
        "--picture": lambda: picture_of(Pictures(peeled).all(), options.picture),
        "--json": lambda: peeling.as_json(peeled),
    }


def command_peel(options, stop):
    settings = settings_of(options)
    outputs = checked_outputs(options, [options.data], FILES)
    calls = library.find()
    read = points.read_table(options.data).part(*options.rows, options.every)
    progress = None if options.quiet else peeling.line_of_progress
    peeled = peeling.peel_table(calls, read, settings, options.most, options.tolerance, progress, stop)
    peeled.command = shlex.join(["vengutari", *options.words])
    whole = show_and_write(options, outputs, peeling.summary(peeled), made_files(options, calls, read, peeled))
    return status_of(options, peeled) if whole else REFUSED
