"""The report of a fit: one HTML file with nothing from outside, for any browser and any width."""

import html
import os

from . import __version__
from .decimals import on_step, shown
from .library import BEACON_RECORDS
from .picture import drawn, range_bar
from .pictures import MARKS, Pictures, name_of
from .result import LABELS, advice, box_text, certificate, cost_text, equation, gap_text, grid_text, headline, loss_text
from .result import minus, residuals_of, rms_text, rows_text, settled, spoiled_text, wide_sentence
from .result import name_of as coefficient_name

# So many beacons at most are listed.
MOST_BEACONS = 8

STYLE = """
body { font: 16px/1.5 system-ui, sans-serif; color: #222; background: #fff; max-width: 60rem; margin: 2rem auto; padding: 0 1rem; }
h1 { font-size: 1.5rem; margin-bottom: 0; } h2 { font-size: 1.15rem; margin: 2rem 0 .5rem; } h1, td { overflow-wrap: anywhere; }
.verdict { border-left: .4rem solid; padding: .6rem 1rem; margin: 1rem 0; background: #f6f8fa; }
.solved { border-color: #1a7f37; } .open { border-color: #bf8700; } .warning { color: #9a3412; font-weight: 600; }
.scroll { overflow-x: auto; } table { border-collapse: collapse; width: 100%; }
#lines, #beacons, #ranges, #rounds, #windows, #boards { min-width: 36rem; }
th, td { text-align: left; padding: .3rem .6rem; border-bottom: 1px solid #ddd; vertical-align: top; }
td.number, th.number { text-align: right; font-variant-numeric: tabular-nums; white-space: nowrap; }
#windows td, #boards td:not(:last-child) { white-space: nowrap; }
td svg { width: 12rem; border: 0; }
.quiet { color: #666; font-size: .9rem; }
svg { width: 100%; height: auto; border: 1px solid #ddd; background: #fff; box-sizing: border-box; display: block; }
svg text { font-family: system-ui, sans-serif; font-size: 13px; fill: #333; }
.legend svg { display: inline-block; width: 1rem; border: 0; vertical-align: middle; }
.legend span { white-space: nowrap; margin-right: 1.2rem; }
.panels { display: grid; grid-template-columns: repeat(auto-fit, minmax(min(100%, 22rem), 1fr)); gap: .6rem; }
ul { padding-left: 1.2rem; }
@media (max-width: 40rem) { body { margin: 1rem auto; } svg.wide text { font-size: 19px; } }
@media print { body { margin: 0; max-width: none; } svg { break-inside: avoid; } }
"""


def escaped(value):
    return html.escape(str(value))


def table(name, rows):
    return f'<div class="scroll"><table id="{name}">{"".join(f"<tr>{row}</tr>" for row in rows)}</table></div>'


def cells(values, kind="td"):
    """The cells of a row; a pair is a number and its class."""
    return "".join(f"<{kind}{' class=number' if number else ''}>{escaped(value)}</{kind}>" for value, number in values)


def pairs_table(pairs):
    """Names and what they are; those that are nothing are left out."""
    return table("settings", [f"<th>{escaped(a)}</th><td>{escaped(b)}</td>" for a, b in pairs if b is not None])


def verdict(solved, parts):
    """What stands above all; the parts are markup."""
    return f'<div class="verdict {"solved" if solved else "open"}">' + "<br>".join(parts) + "</div>"


def warnings_of(found):
    return [f'<span class="warning">Warning: {escaped(warning)}.</span>' for warning in found.warnings]


def origin_pairs(found):
    """Where a page comes from."""
    return [("date", found.date), ("command", found.command), ("tool", f"vengutari {__version__}"),
            ("SHA-256 of the data", found.data_sum), ("SHA-256 of the settings", found.settings_sum)]


def items(lines):
    return "<ul>" + "".join(f"<li>{escaped(line)}</li>" for line in lines) + "</ul>"


def shell(title, body):
    """A page with nothing from outside."""
    return (
        '<!DOCTYPE html>\n<html lang="en"><head><meta charset="utf-8">'
        '<meta name="viewport" content="width=device-width, initial-scale=1">'
        "<meta http-equiv=\"Content-Security-Policy\" content=\"default-src 'none'; style-src 'unsafe-inline'\">"
        f"<title>{escaped(title)}</title><style>{STYLE}</style></head>\n<body>\n<h1>{escaped(title)}</h1>\n{body}</body></html>\n"
    )


class Report:
    """The parts of the page of one fit."""

    def __init__(self, fit):
        self.fit = fit
        self.n = fit.model.n
        self.pictures = Pictures(fit)
        self.labels = [label for label in (*range(1, self.n + 1), *LABELS) if label in fit.labels]

    def reach(self):
        """How far from a line its samples lie at most."""
        return f"{shown(self.fit.reach)} {self.fit.settings.y}"

    def legend(self):
        items = []
        for label in self.labels:
            mark = f'<svg viewBox="0 0 16 16" aria-hidden="true">{drawn(8, 8, *MARKS[label])}</svg>'
            items.append(f"<span>{mark} {escaped(name_of(self.fit, label))}, {self.fit.labels.count(label)}</span>")
        return '<p class="legend">' + " ".join(items) + "</p>"

    def lines_table(self):
        fit, boxes = self.fit, box_text(self.fit.scaling, self.fit.low, self.fit.high)
        rows = ["<th>line</th><th>formula</th><th class=number>points</th><th class=number>RMS</th><th>searched</th>"]
        for j in range(self.n):
            residuals = residuals_of(fit, j)
            cells = f"<td>{j + 1}</td><td>{escaped(equation(fit.scaling, fit.vector, j))}</td><td class=number>{len(residuals)}</td>"
            rows.append(f"{cells}<td class=number>{rms_text(residuals, '–')}</td><td>{escaped(boxes[j])}</td>")
        return table("lines", rows)

    def ranges_part(self):
        """How sure each coefficient is: its range as a bar in what was searched, with its value."""
        fit = self.fit
        if fit.ranges is None:
            return ""
        from .ranges import head_text, none_text

        if fit.ranges.ends is None:
            return f'<h2>Ranges</h2>\n<p id="ranges">Ranges: {escaped(none_text(fit))}.</p>\n'
        names = [("line", 0), ("coefficient", 0), ("least", 1), ("found", 1), ("greatest", 1), ("in steps of the grid", 0)]
        rows = [cells(names, "th")]
        most = max(4, *(abs(w - end) for w, ends in zip(fit.vector, fit.ranges.ends) for end in ends))
        for k, (low, high) in enumerate(fit.ranges.ends):
            w = fit.vector[k]
            found = [minus(on_step(fit.scaling.side(k, end), fit.scaling.grid(k))) for end in (low, w, high)]
            bar = range_bar((low - w, high - w), most, MARKS[k // fit.scaling.d + 1][0])
            told = [(k // fit.scaling.d + 1, 0), (coefficient_name(fit.scaling, k), 0), *((text, 1) for text in found)]
            rows.append(f"{cells(told)}<td>{bar}</td>")
        words = f"The least and the greatest value {escaped(head_text(fit))}. All bars go {most} steps of the grid to either side."
        return f'<h2>Ranges</h2>\n{table("ranges", rows)}\n<p class="quiet">{words}</p>\n'

    def beacons_table(self):
        """The beacons that cost most, the dearest first."""
        fit, whole, points = self.fit, self.fit.answer.cost, self.fit.points
        dear = sorted((beacon for beacon in fit.beacons if beacon.cost), key=lambda beacon: -beacon.cost)[:MOST_BEACONS]
        rows = ["<th>rows</th><th>frames</th><th class=number>cost</th><th class=number>of the whole</th>"]
        for b in dear:
            cells = [f"{points.numbers[b.first]} to {points.numbers[b.last]}", f"{points.counted[b.first]} to {points.counted[b.last]}"]
            numbers = [cost_text(fit, b.cost), f"{100 * b.cost / whole:.3g} %"]
            rows.append("".join(f"<td>{cell}</td>" for cell in cells) + "".join(f"<td class=number>{escaped(n)}</td>" for n in numbers))
        return table("beacons", rows)

    def beacons_part(self):
        """Nothing where the cost is no sum."""
        count = len(self.fit.beacons)
        if not count:
            return ""
        several = "s" if count > 1 else ""
        words = f"{count} beacon{several} of {BEACON_RECORDS} records, the last of what is left; here are those that cost most."
        return f'<h2>Cost by beacon</h2>\n{self.beacons_table()}\n<p class="quiet">{words}</p>\n'

    def settings_table(self):
        fit, answer = self.fit, self.fit.answer
        pairs = [
            ("file", fit.source), ("rows", len(fit.rows)), ("columns", fit.scaling.steps()),
            ("offset", f"a column of {fit.scaling.x[-1].factor}{fit.scaling.place()}" if fit.scaling.offset else "none: lines through 0"),
            ("loss", loss_text(fit)), ("epsilon" if fit.settings.spoiled is None else "labelled within", self.reach()),
            ("cost C", cost_text(fit, answer.cost)), ("bound L", cost_text(fit, answer.bound)), ("gap", gap_text(answer)),
            ("splits, open boxes, peak", f"{answer.splits:,}, {answer.open:,}, {answer.peak:,}"),
            ("grid", grid_text(fit.scaling)), ("scale S", fit.scaling.scale), ("vector w", ", ".join(map(str, fit.vector))),
            *origin_pairs(fit),
        ]
        return pairs_table(pairs)

    def verdict(self):
        fit = self.fit
        parts = [f"<strong>{escaped(headline(fit))}</strong>", f'<span id="certificate">Certificate: {escaped(certificate(fit))}.</span>']
        parts.append("The certificate speaks of the searched box and of the grid named below, not of lines outside them.")
        if fit.scaling.shifted:
            parts.append(f"Inside, columns are counted from other numbers than 0: {escaped(fit.scaling.steps())}. That is an exact shift, "
                         "undone in all that is shown, and changes no residual.")
        if fit.wide is not None:
            wide = box_text(fit.wide.scaling, fit.wide.low, fit.wide.high)[0]
            parts.append(f'<span id="wide">Wide search: {escaped(wide_sentence(fit.wide))}. Its box for each line: {escaped(wide)}; '
                         f"its grid: {escaped(grid_text(fit.wide.scaling))}.</span>")
        parts += warnings_of(fit)
        if advice(fit):
            parts.append(f"Next: {escaped(advice(fit))}.")
        return verdict(settled(fit), parts)

    def said(self):
        spoiled = [] if self.fit.settings.spoiled is None else [spoiled_text(self.fit)]
        return [rows_text(self.fit.labels), *spoiled, *self.fit.notes]

    def pictures_part(self):
        several = len(self.fit.settings.x) > 1
        band = f"{self.pictures.near}, {escaped(self.reach())}, to either side."
        caption = f"A point on the diagonal lies on its line; the band reaches {band}" if several else f"Bands reach {band}"
        if self.fit.ranges is not None and self.fit.ranges.ends is not None and not several:
            caption += " The light band around a line surely holds all lines of the ranges above."
        panels = "\n".join(picture.svg("panel") for picture in [*self.pictures.panels(), self.pictures.histogram()])
        return (f"<h2>Points</h2>\n{self.legend()}\n{self.pictures.points().svg('wide')}\n"
                f'<p class="quiet">{caption} Point at a mark for its row.</p>\n<h2>Residuals</h2>\n<div class="panels">\n{panels}\n</div>\n'
                f'<p class="quiet">The distance to the nearest line, each sample at its own; the axis goes by {self.pictures.near}, and '
                "marks at its edge lie farther out.</p>\n")

    def title(self):
        return f"{self.fit.settings.y}: {self.n} line{'s' if self.n > 1 else ''} from {os.path.basename(self.fit.source)}"

    def page(self):
        return shell(self.title(), (
            f"{self.verdict()}\n<h2>Lines</h2>\n{self.lines_table()}\n{self.ranges_part()}{self.pictures_part()}{self.beacons_part()}"
            f"<h2>Notes</h2>\n{items(self.said())}\n<h2>Settings</h2>\n{self.settings_table()}\n"))


def page(fit):
    return Report(fit).page()
