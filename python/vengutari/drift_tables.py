"""The windows of a pass as text, CSV and JSON."""

import csv
import io
import json

from . import __version__, drifting, result, run
from .decimals import digits_of, on_step, shown_exactly
from .saved import box_json, scaling_json

FORMAT = "vengutari drift 1"


def names_of(drift):
    """The coefficients' names, with their line where there are several."""
    scaling, several = drift.scaling, drift.model.n > 1
    return [(f"line {k // scaling.d + 1} " if several else "") + result.name_of(scaling, k) for k in range(drift.model.n * scaling.d)]


def cost_text(drift, cost):
    return f"{cost:,}" if drift.model.p == 0 else digits_of(cost * drift.scaling.cost_unit(drift.model.p), 6)


def row_of(drift, window):
    """What the table says of a window, as text."""
    answer, scaling = window.answer, drift.scaling
    values = [result.minus(on_step(drift.value(window, k), scaling.grid(k))) for k in range(len(answer.vector))]
    return ["{} to {}".format(*drift.frames(window)), answer.kind, result.gap_text(answer), cost_text(drift, answer.cost),
            cost_text(drift, answer.bound), *values]


def head_of(drift):
    return ["frames", "kind", "gap", "C", "L", *names_of(drift)]


def table_text(drift):
    """A row for each window, in columns; numbers to the right."""
    rows = [head_of(drift), *(row_of(drift, window) for window in drift.windows)]
    widths = [max(map(len, column)) for column in zip(*rows)]
    return ["  ".join(text.ljust(width) if k < 2 else text.rjust(width) for k, (text, width) in enumerate(zip(row, widths))).rstrip()
            for row in rows]


def summary(drift):
    scaling, unit = drift.scaling, result.UNITS[drift.model.p].format(drift.settings.y) or " points"
    boxes = result.box_text(scaling, drift.low, drift.high)
    text = [drifting.headline(drift), *table_text(drift), f"C and L in{unit}; frames of each window from its first row to its last"]
    text.append("box: " + "; ".join(f"line {j + 1} {box}" for j, box in enumerate(boxes)))
    text += ["grid: " + result.grid_text(scaling), "certificate: " + drifting.certificate(drift)]
    text += [f"warning: {warning}" for warning in drift.warnings] + [f"note: {note}" for note in drift.notes]
    text += [f"next: {drifting.advice(drift)}"] if drifting.advice(drift) else []
    return "\n".join(text) + "\n"


def exact_of(drift, window):
    """Each line's coefficients in the user's units, the offset at 0, exactly."""
    return [drift.scaling.line(window.answer.vector, j) for j in range(drift.model.n)]


def as_csv(drift):
    """A row for each window; behind the coefficients as they are searched the offsets at x = 0, where those are others."""
    out, scaling = io.StringIO(), drift.scaling
    writer = csv.writer(out, lineterminator="\n")
    shifted = bool(scaling.place())
    several = [f"line {j + 1} " if drift.model.n > 1 else "" for j in range(drift.model.n)]
    writer.writerow(["first_row", "last_row", "first_frame", "last_frame", "samples", "kind", "gap_percent", "cost", "bound", "splits",
                     *names_of(drift), *(f"{line}{scaling.x[-1].name}" for line in several if shifted)])
    unit = scaling.cost_unit(drift.model.p)
    for window in drift.windows:
        answer = window.answer
        values = [f"{float(drift.value(window, k)):.10g}" for k in range(len(answer.vector))]
        values += [f"{float(line[-1]):.10g}" for line in exact_of(drift, window) if shifted]
        writer.writerow([*drift.rows(window), *drift.frames(window), window.samples, answer.kind, f"{100 * run.gap_of(answer):.6g}",
                         f"{float(answer.cost * unit):.10g}", f"{float(answer.bound * unit):.10g}", answer.splits, *values])
    return out.getvalue()


def window_json(drift, window):
    answer, scaling, unit = window.answer, drift.scaling, drift.scaling.cost_unit(drift.model.p)
    return {
        "rows": list(drift.rows(window)), "frames": list(drift.frames(window)), "samples": window.samples, "kind": answer.kind,
        "cost": answer.cost, "bound": answer.bound, "gap_percent": 100 * run.gap_of(answer), "cost_in_units": float(answer.cost * unit),
        "bound_in_units": float(answer.bound * unit), "splits": answer.splits, "vector": answer.vector,
        "lines": [{"equation": result.equation(scaling, answer.vector, j),
                   "coefficients": {column.name: float(value) for column, value in zip(scaling.x, line)},
                   "exact": {column.name: shown_exactly(value) for column, value in zip(scaling.x, line)}}
                  for j, line in enumerate(exact_of(drift, window))],
    }


def as_json(drift):
    """Everything about the windows."""
    settings = drift.settings
    made = {
        "format": FORMAT, "version": __version__, "source": drift.source, "date": drift.date, "command": drift.command,
        "data_sha256": drift.data_sum, "settings_sha256": drift.settings_sum, "kind": drift.kind, "stopped": drift.stopped,
        "seconds": round(drift.seconds, 3), "certificate": drifting.certificate(drift), "window": drift.length, "hop": drift.hop,
        "windows": [window_json(drift, window) for window in drift.windows], "box": box_json(drift.scaling, drift.low, drift.high),
        "settings": {"x": settings.x, "y": settings.y, "frame": settings.frame, "lines": drift.model.n, "offset": drift.scaling.offset,
                     "loss": settings.loss if settings.spoiled is None else "spoiled", "p": drift.model.p, "spoiled": settings.spoiled,
                     "epsilon": None if settings.epsilon is None else shown_exactly(settings.epsilon),
                     "epsilon_whole": drift.model.epsilon},
        "scaling": scaling_json(drift.scaling), "warnings": drift.warnings, "notes": drift.notes, "next": drifting.advice(drift),
    }
    return json.dumps(made, indent=2, ensure_ascii=False) + "\n"
