"""A fit as JSON, and back: later commands need nothing else."""

import json
from dataclasses import dataclass, field
from fractions import Fraction

from . import __version__, library, run
from .decimals import shown_exactly
from .problems import BadInput
from .result import advice, certificate, counts_of, equation, name_of, residuals_of, root_mean_square, wide_sentence
from .scaling import Column, Scaling

FORMAT = "vengutari fit 1"


def scaling_json(scaling):
    def column_json(column):
        return {"name": column.name, "step": shown_exactly(column.step), "factor": column.factor, "constant": column.constant,
                "origin": shown_exactly(column.origin)}

    return {"scale": scaling.scale, "x": [column_json(column) for column in scaling.x], "y": column_json(scaling.y)}


def line_json(fit, j):
    coefficients = fit.line(j)
    d = fit.scaling.d
    made = {
        "equation": equation(fit.scaling, fit.vector, j),
        "coefficients": {column.name: float(value) for column, value in zip(fit.scaling.x, coefficients)},
        "exact": {column.name: shown_exactly(value) for column, value in zip(fit.scaling.x, coefficients)},
        "w": fit.vector[j * d : (j + 1) * d],
        "points": fit.labels.count(j + 1),
        "rms": root_mean_square(residuals_of(fit, j)),
    }
    if fit.scaling.offset:
        made["y_at_origin"] = float(fit.scaling.at_origin(fit.vector, j)[-1])
    return made


def box_json(scaling, low, high):
    """The sides of the box; an offset is a line's y at the origin of x."""
    return [
        {"line": k // scaling.d + 1, "coefficient": scaling.x[k % scaling.d].name, "meaning": name_of(scaling, k), "w": [a, b],
         "low": float(scaling.side(k, a)), "high": float(scaling.side(k, b)), "step": float(scaling.grid(k))}
        for k, (a, b) in enumerate(zip(low, high))
    ]


def answer_json(answer, unit):
    return {
        "kind": answer.kind, "cost": answer.cost, "bound": answer.bound, "gap_percent": 100 * run.gap_of(answer),
        "cost_in_units": float(answer.cost * unit), "bound_in_units": float(answer.bound * unit),
        "splits": answer.splits, "open": answer.open, "peak": answer.peak, "vector": answer.vector,
    }


def beacons_json(fit):
    """The cost beacon by beacon; rows by their numbers in the file."""
    unit, numbers = fit.scaling.cost_unit(fit.model.p), fit.points.numbers
    return [{"rows": [numbers[b.first], numbers[b.last]], "cost": b.cost, "cost_in_units": float(b.cost * unit)} for b in fit.beacons]


def settings_json(fit):
    settings = fit.settings
    return {
        "x": settings.x, "y": settings.y, "frame": settings.frame, "lines": fit.model.n, "offset": fit.scaling.offset,
        "loss": settings.loss if settings.spoiled is None else "spoiled", "p": fit.model.p, "spoiled": settings.spoiled,
        "epsilon": shown_exactly(fit.reach), "epsilon_whole": fit.labelled.epsilon, "tolerance": fit.outcome.t,
    }


def wide_json(wide):
    if wide is None:
        return None
    return {
        **answer_json(wide.outcome.answer, Fraction(1)), "certificate": wide_sentence(wide), "samples": wide.samples,
        "fitted": wide.fitted, "most": wide.most, "box": box_json(wide.scaling, wide.low, wide.high),
    }


def ranges_json(fit):
    if fit.ranges is None:
        return None
    from .ranges import as_json as made

    return made(fit)


def as_dictionary(fit):
    """Everything about a fit."""
    return {
        "format": FORMAT, "version": __version__, "source": fit.source, "date": fit.date, "command": fit.command,
        "data_sha256": fit.data_sum, "settings_sha256": fit.settings_sum,
        **answer_json(fit.answer, fit.scaling.cost_unit(fit.model.p)),
        "stopped": fit.outcome.stopped, "seconds": round(fit.outcome.seconds, 3), "certificate": certificate(fit),
        "lines": [line_json(fit, j) for j in range(fit.model.n)],
        "labels": counts_of(fit.labels, fit.model.n),
        "beacons": beacons_json(fit), "box": box_json(fit.scaling, fit.low, fit.high), "settings": settings_json(fit),
        "scaling": scaling_json(fit.scaling), "warnings": fit.warnings, "notes": fit.notes, "next": advice(fit),
        "wide": wide_json(fit.wide), "ranges": ranges_json(fit),
    }


def as_json(fit):
    return json.dumps(as_dictionary(fit), indent=2, ensure_ascii=False) + "\n"


@dataclass
class Saved:
    """What later commands need of a fit that was written as JSON."""

    scaling: Scaling
    model: library.Model
    vector: list
    x: list
    y: str
    frame: str
    range_lines: list = field(default_factory=list)


def column_from(made):
    """A column; fits from before origins were written have none."""
    return Column(str(made["name"]), Fraction(made["step"]), int(made.get("factor", 1)), made.get("constant") is True,
                  Fraction(made.get("origin", 0)))


def saved_from(text, name):
    """A fit out of its JSON."""
    try:
        made = json.loads(text)
        if made["format"] != FORMAT:
            raise ValueError
        given, settings = made["scaling"], made["settings"]
        x = [column_from(column) for column in given["x"]]
        scaling = Scaling(x, column_from(given["y"]), int(given["scale"]))
        model = library.Model(int(settings["lines"]), len(x), scaling.scale, int(settings["p"]), int(settings["epsilon_whole"]))
        vector = [int(w) for w in made["vector"]]
        ranges = [" ".join(str(line).split()) for line in (made.get("ranges") or {}).get("text", [])]
        saved = Saved(scaling, model, vector, [str(n) for n in settings["x"]], str(settings["y"]), settings["frame"], ranges)
        sound = 1 <= len(x) <= 4 and len(vector) == model.n * model.d <= 8 and all(-32768 <= w <= 32767 for w in vector)
        if not sound or any(c.unit <= 0 for c in [*x, scaling.y]) or not 0 <= scaling.scale <= 15:
            raise ValueError
        if scaling.shifted and not scaling.offset:
            raise ValueError
        return saved
    except (ValueError, KeyError, TypeError, AttributeError, ZeroDivisionError, RecursionError):
        raise BadInput(f"{name}: not a fit that vengutari fit --json wrote") from None
