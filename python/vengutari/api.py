"""A fit from Python: its arguments checked and made into settings and points."""

import math
import numbers
import os
import re
from decimal import Decimal
from fractions import Fraction

from . import decimals, fitting, library, points, preparing
from .problems import BadInput, BadUse, Error
from .settings import MARGIN, Limits, Settings


def fit(data, x, y, epsilon, rows, every, **given):
    """vengutari.fit, with its words for what the command says of its options."""
    try:
        if x is None or y is None:
            raise BadUse("x, y: give both")
        read = table_fit if data is not None else numbers_fit
        return read(data, x, y, rows, checked(whole, every, "every", least=1), dict(given, epsilon=epsilon))
    except Error as problem:
        problem.args = (re.sub("--([a-z][a-z-]*)", lambda found: found[1].replace("-", "_"), str(problem)),)
        raise


# Arguments


def checked(kind, value, name, **more):
    return None if value is None else kind(value, name, **more)


def whole(value, name, least=None):
    try:
        made = value.__index__()
    except (AttributeError, TypeError):
        raise BadUse(f"{name}: {value!r} is not a whole number") from None
    if least is not None and made < least:
        raise BadUse(f"{name}: {made} is less than {least}")
    return made


def exact(value, name, least=None, positive=False):
    """A number as it is written."""
    made = value if isinstance(value, Fraction) else decimal_of(value, name)
    if made is None:
        raise BadUse(f"{name}: {value!r} is not a number")
    made = Fraction(made)
    if (positive and made <= 0) or (least is not None and made < least):
        raise BadUse(f"{name}: {value} is not {'more than 0' if positive else f'at least {least}'}")
    return made


def each(value, name, **more):
    """One number, or several."""
    several = value if isinstance(value, (list, tuple)) else [value]
    return [exact(one, name, **more) for one in several]


def percent_of(value, name):
    """A percentage as a part, or None."""
    return None if value is None else exact(value, name, least=0) / 100


def settings_of(x, y, frame, given):
    """The settings of a fit out of its arguments."""
    gap = exact(given["gap"], "gap", least=0)
    if gap >= 100:
        raise BadUse(f"gap: {given['gap']} percent would accept anything; give less than 100")
    seconds = checked(exact, given["time_limit"], "time_limit", least=0)
    limits = Limits(gap=gap / 100, seconds=float(seconds) if seconds else None, rows=checked(whole, given["table"], "table", least=1))
    if given["splits"] is not None:
        limits.splits = min(library.MOST_SPLITS, whole(given["splits"], "splits", least=0))
    made = Settings(
        x=x, y=y, frame=frame, lines=whole(given["lines"], "lines"), epsilon=checked(exact, given["epsilon"], "epsilon"),
        spoiled=checked(whole, given["spoiled"], "spoiled"), loss=given["loss"],
        offset=None if given["offset"] is None else bool(given["offset"]),
        x_steps=checked(each, given["x_step"], "x_step", positive=True), y_step=checked(exact, given["y_step"], "y_step", positive=True),
        origin=checked(each, given["origin"], "origin"), scale=checked(whole, given["scale"], "scale"),
        margin=MARGIN if given["margin"] is None else exact(given["margin"], "margin", positive=True),
        wide=bool(given["wide"]), ranges=percent_of(given["ranges"], "ranges"), limits=limits,
    )
    made.check()
    if given["box"] is not None:
        if given["margin"] is not None:
            raise BadUse("margin, box: a margin is for a box that is found; give one of the two")
        sides = [each(side, "box") for side in made.each(list(given["box"]), "box")]
        if any(len(side) != 2 or side[0] > side[1] for side in sides):
            raise BadUse("box: a side is (low, high), and low is not over high")
        made.box = [low for low, _ in sides], [high for _, high in sides]
    if given["start"] is not None:
        made.start = made.each(each(given["start"], "start"), "start")
    return made


# Points


def table_fit(data, x, y, rows, every, given):
    """Of the columns of a file."""
    if hasattr(data, "read"):
        text = data.read()
        name = str(getattr(data, "name", "file"))
        table = points.table_of_bytes(text.encode("utf-8") if isinstance(text, str) else bytes(text), name)
    elif isinstance(data, (str, os.PathLike)):
        table = points.read_table(os.fspath(data))
    else:
        raise BadUse(f"data: {type(data).__name__} is no path and no open file; numbers are given as x and y")
    first, last = rows or (None, None)
    table = table.part(checked(whole, first, "rows", least=1), checked(whole, last, "rows", least=1), every)
    columns = [str(name) for name in (x if isinstance(x, (list, tuple)) else [x])]
    frame = given.pop("frame")
    return fitting.fit_table(library.find(), table, settings_of(columns, str(y), None if frame is None else str(frame), given))


def numbers_fit(_, x, y, rows, every, given):
    """Of the numbers themselves."""
    if isinstance(x, str) or isinstance(y, str):
        raise BadUse("x, y: columns go by name where data is given")
    first, last = rows or (None, None)
    chosen = slice((first or 1) - 1, last, every)
    columns, height = columns_of(x), values_of(y, "y")
    frame = given.pop("frame")
    frames = None if frame is None else [whole(value, "frame") for value in values_of(frame, "frame")]
    if any(len(values) != len(height) for values in [*columns.values(), *([] if frames is None else [frames])]):
        raise BadUse("x, y, frame: they have different lengths")
    name = getattr(y, "name", None)
    settings = settings_of(list(columns), name if isinstance(name, str) and name not in columns else "y", None, given)
    counted = range(1, len(height) + 1)[chosen]
    preparing.check_count(len(counted))
    if not counted:
        raise BadInput("no rows")
    made = [decimals.decimals_of([decimal_of(value, name) for value in values[chosen]])
            for name, values in [*columns.items(), ("y", height)]]
    frames = [number - 1 for number in counted] if frames is None else frames[chosen]
    read = points.points_of(made[:-1], made[-1], frames, [], counted, settings.x)
    found = fitting.fit(library.find(), read, settings)
    found.source = "numbers"
    return found


def values_of(values, name):
    """The numbers of a sequence or buffer, as a list."""
    try:
        view = memoryview(values)
        made = view.tolist()
        if view.format == "f":
            made = [[shortest(value) for value in row] if view.ndim == 2 else shortest(row) for row in made]
        return made
    except (TypeError, NotImplementedError, ValueError):
        pass
    try:
        return list(values)
    except TypeError:
        raise BadUse(f"{name}: {type(values).__name__} is no sequence of numbers") from None


def columns_of(x):
    """The columns of x by their names: one sequence, a list of them, or an array of rows."""
    made = values_of(x, "x")
    if not made:
        raise BadUse("x: no numbers")
    if not is_sequence(made[0]):
        name = getattr(x, "name", None)
        return {name if isinstance(name, str) else "x": made}
    if isinstance(x, (list, tuple)):
        names = [getattr(values, "name", None) for values in x]
        named = all(isinstance(name, str) for name in names) and len(set(names)) == len(names)
        return {names[k] if named else f"x{k + 1}": values_of(values, "x") for k, values in enumerate(x)}
    rows = [values_of(row, "x") for row in made]
    if len({len(row) for row in rows}) > 1:
        raise BadUse("x: rows of different lengths")
    return {f"x{k + 1}": list(values) for k, values in enumerate(zip(*rows))}


def is_sequence(value):
    return hasattr(value, "__len__") and not isinstance(value, (str, bytes))


def shortest(value):
    """A single-precision number by its shortest decimals."""
    import struct

    if not math.isfinite(value):
        return value
    bits = struct.pack("f", value)
    return Decimal(next(text for text in (f"{value:.{k}g}" for k in range(6, 10)) if struct.pack("f", float(text)) == bits))


def decimal_of(value, name):
    """A number as it is written; None for no number."""
    if value is None or value != value:
        return None
    if isinstance(value, str):
        return None if value.strip().lower() in decimals.NO_SAMPLE else decimals.decimal(value, name)
    if isinstance(value, Decimal):
        text = str(value)
    elif isinstance(value, Fraction):
        text = decimals.shown_exactly(value)
    elif hasattr(value, "__index__"):
        text = str(value.__index__())
    elif isinstance(value, numbers.Real) or hasattr(value, "__float__"):
        text = repr(float(value))
    else:
        raise BadInput(f"{name}: {value!r} is not a number")
    return decimals.decimal(text, name)
