"""The line fitter from Python: points to certified lines, over the library for C.

    import vengutari
    found = vengutari.fit("pass.csv", x="adc_raw", y="current_mA", lines=2, epsilon=3)
    print(found.summary())

    found = vengutari.fit(x=counts, y=currents, epsilon=3)     # lists, arrays, columns of a table
    found.lines[0].coefficients, found.certificate, found.labels

What goes wrong is a vengutari.Error: BadInput for points or settings that cannot be used, Refused where the library refuses a call.
vengutari.library.find() has the calls of the library, one by one.
"""

from __future__ import annotations

from .problems import BadInput, BadUse, Error, Refused

TYPE_CHECKING = False
if TYPE_CHECKING:
    import os
    from collections.abc import Sequence
    from decimal import Decimal
    from fractions import Fraction
    from typing import IO, Any

    from . import library as library
    from .fitting import Fit, Line

    Number = int | float | str | Decimal | Fraction

__version__ = "0.1.0"
__all__ = ["BadInput", "BadUse", "Error", "Fit", "Line", "Refused", "__version__", "fit"]


def fit(
    data: str | os.PathLike[str] | IO[str] | IO[bytes] | None = None,
    x: str | int | Sequence[Any] | Any = None,
    y: str | int | Sequence[Any] | Any = None,
    epsilon: Number | None = None,
    *,
    spoiled: int | None = None,
    lines: int = 1,
    loss: str = "square",
    offset: bool | None = None,
    frame: str | int | Sequence[int] | Any = None,
    x_step: Number | Sequence[Number] | None = None,
    y_step: Number | None = None,
    origin: Number | Sequence[Number] | None = None,
    scale: int | None = None,
    box: Sequence[tuple[Number, Number]] | None = None,
    start: Sequence[Number] | None = None,
    margin: Number | None = None,
    wide: bool = False,
    ranges: Number | None = None,
    gap: Number = 0,
    time_limit: Number | None = 60,
    splits: int | None = None,
    table: int | None = None,
    rows: tuple[int | None, int | None] | None = None,
    every: int = 1,
) -> Fit:
    """A certified fit of one to four lines.

    data        a path or an open file of columns; without it x and y are the numbers themselves
    x           with data a column, by name or number from 1, or a list of up to four; else one sequence of numbers, a list of them, or
                an array of rows: any sequence or buffer will do, an array of numpy or a column of pandas too
    y           the column, or the numbers, to be explained; None, nan and, in a file, an empty field is a gap
    epsilon     how far from its line a point may lie, in y's units: 3 to 4 times the noise; or in its place
    spoiled     how many samples may be spoiled
    lines       how many lines, 1 to 4
    loss        "square", "absolute" or "count": what a point adds to the cost, cut at epsilon
    offset      whether lines have one; unless given, where there is one x
    frame       a column, or numbers, of frames
    x_step, y_step, scale, margin, wide, splits, table, rows, every
                as the options of the command; x_step a number or one for each x, rows a pair of the first and the last
    ranges      percent: after a solved fit, found.ranges has each coefficient's range among all lines that cost at most so much more
    box, start  (low, high) for each coefficient and a value for each, the offset last: for each line the same, or line after line
    origin      the x, one for each, at which their offsets are a line's y; 0 unless given
    gap         percent: solved when the bound is at most so much below the cost
    time_limit  seconds for each search; None for none

    Numbers are taken exactly as they are written: 0.1 is a tenth. Raises Error.
    """
    given = dict(locals())
    from . import api

    return api.fit(**given)


def __getattr__(name):
    if name in ("Fit", "Line"):
        from . import fitting

        return getattr(fitting, name)
    if name == "library":
        import importlib

        return importlib.import_module(".library", __name__)
    raise AttributeError(f"module 'vengutari' has no attribute '{name}'")
