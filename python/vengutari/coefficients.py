"""The file of coefficients for flight software: single-precision numbers, each in decimal and by its bits, read back and compared.

Each coefficient stands there twice. By steps: y in steps of y from each column in its steps, each counted from its origin, exactly, since
the library gives the number w / 2^S and a factor is a power of two. By units: y from the columns as the operator has them, the nearest
single-precision number. Where all steps are 1 and all origins 0 the two are the same.
"""

import struct
from decimal import Decimal
from fractions import Fraction

from .decimals import digits_of
from .problems import BadInput
from .result import equation

HEAD = "# vengutari coefficients 1"


def bits(value):
    """The single-precision number nearest to a fraction, by its bits; a float has digits enough for all that come here."""
    return struct.unpack(">I", struct.pack(">f", float(value)))[0]


def value_of(pattern):
    return Fraction(struct.unpack(">f", struct.pack(">I", pattern))[0])


def decimal(pattern):
    """The shortest decimal number that reads back as these bits."""
    value = float(value_of(pattern))
    text = next(text for text in (f"{value:.{digits}g}" for digits in range(1, 18)) if bits(Fraction(text)) == pattern)
    return f"{Decimal(text):f}" if 1e-6 < abs(value) < 1e12 else text


def entries(library, fit):
    """For each line and column: the bits by units and by steps."""
    d = fit.scaling.d
    for j in range(fit.model.n):
        patterns = library.write_line(d, fit.scaling.scale, fit.vector[j * d : (j + 1) * d])
        for column, pattern, value in zip(fit.scaling.x, patterns, fit.scaling.line(fit.vector, j)):
            yield j + 1, column, bits(value), bits(value_of(pattern) * column.factor)


def lost(scaling, line):
    """What single precision makes of a line at the origin of x, by units: how far its y is off."""
    off = [value_of(bits(value)) - value for value in line]
    return abs(sum(error * (1 if column.constant else column.origin) for error, column in zip(off, scaling.x)))


def text(library, fit):
    """The file's text, after it was read back and compared."""
    scaling = fit.scaling
    lines = [HEAD, "# by units: y from the columns as they are; by steps, exactly: " + scaling.steps()]
    lines += ["# " + equation(scaling, fit.vector, j) for j in range(fit.model.n)] + [f"# {line}" for line in fit.range_lines]
    try:
        most = max(lost(scaling, scaling.line(fit.vector, j)) for j in range(fit.model.n))
    except OverflowError:
        most = 0
    if scaling.shifted and most > scaling.grid(scaling.d - 1) / 2:
        lines.append(f"# by units a line is off by {digits_of(most, 2)} in the middle of these points, since single precision has too few "
                     "digits that far from 0: take the numbers by steps")
    lines.append("# line, by units: bits, decimal, by steps: bits, decimal, column")
    try:
        for j, column, units, by_steps in entries(library, fit):
            lines.append(f"{j} {units:08X} {decimal(units)} {by_steps:08X} {decimal(by_steps)} {' '.join(column.name.split())}")
    except OverflowError:
        raise BadInput("a coefficient is too large for single precision in these units") from None
    made = "\n".join(lines) + "\n"
    compare(library, fit, made)
    return made


def read(made, name):
    """The file's numbers: for each line its columns as (bits by units, bits by steps, name)."""
    lines = {}
    if not made.startswith(HEAD):
        raise BadInput(f"{name}: not a file of coefficients")
    for place, row in enumerate(made.splitlines(), 1):
        if row.startswith("#") or not row.strip():
            continue
        try:
            j, units, units_text, steps, steps_text, column = row.split(" ", 5)
            units, steps = int(units, 16), int(steps, 16)
            if bits(Fraction(units_text)) != units or bits(Fraction(steps_text)) != steps:
                raise ValueError
            lines.setdefault(int(j), []).append((units, steps, column))
        except (ValueError, OverflowError, struct.error):
            raise BadInput(f"{name}, line {place}: bits and decimal number do not agree") from None
    return lines


def compare(library, fit, made):
    """Both forms lead back to the lines: the exact one to the vector by the library's reading, the other to the nearest numbers."""
    d, scaling = fit.scaling.d, fit.scaling
    lines = read(made, "coefficients")
    vector, same = [], True
    for j in sorted(lines):
        exact = [bits(value_of(steps) / column.factor) for (_, steps, _), column in zip(lines[j], scaling.x)]
        vector += library.read_line(d, scaling.scale, [*exact, *[0] * (4 - d)])
        same = same and [units for units, _, _ in lines[j]] == [bits(value) for value in scaling.line(fit.vector, j - 1)]
    if vector != fit.vector or not same:
        raise BadInput("the coefficients do not read back as the lines that were found")
