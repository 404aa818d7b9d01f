"""From the user's units to the whole numbers of the records and back, exactly.

A column's origin is taken from its numbers, an exact shift; where lines have an offset it lies near the middle of the column, so that
16 bits hold the digits that differ, and else it is 0. Its step is what the numbers are then multiples of, and its factor a power of two
that brings columns of different sizes near each other, so that a search cuts the sides of a box where it matters. One of a record's
whole numbers stands for step / factor. The offset is a column too: it is 1 in every row, and its factor is a power of two near the size of
the others; its coefficient is a line's y at the origin, less y's own origin.

A coordinate w of a vector stands for w / 2^S * (step of y) / (step / factor of its column): multiples of this are the grid.
"""

import math
import statistics
import struct
from dataclasses import dataclass
from fractions import Fraction
from itertools import compress

from . import library
from .decimals import digits_of, shown
from .problems import BadInput, BadUse

# 16 bits hold numbers down to one less than its negative, which for y stands for a gap.
LARGEST = 32767
LEAST_SIZE = 64
# A step of the grid moves a line by about an eighth of epsilon, over the range of the points.
GRID_PART = 8
OFFSET = "offset"
# At most this part of the rows may be set aside for a step, and only where it is so many times finer than one that holds all rows.
SET_ASIDE = Fraction(1, 10)
FAR = 10


@dataclass
class Column:
    """rounding is how far a number of the file lies from its whole number of steps at most."""

    name: str
    step: Fraction
    factor: int = 1
    constant: bool = False
    origin: Fraction = Fraction(0)
    rounding: Fraction = Fraction(0)

    @property
    def unit(self):
        return self.step / self.factor

    def words(self):
        """What the whole numbers count: multiples of the step, from the origin on."""
        return self.name if self.origin == 0 else f"({self.name} {'−' if self.origin > 0 else '+'} {shown(abs(self.origin))})"


@dataclass
class Scaling:
    """x has a column for each coordinate of a line, the offset's last where there is one."""

    x: list
    y: Column
    scale: int = 0

    @property
    def d(self):
        return len(self.x)

    @property
    def offset(self):
        return self.x[-1].constant

    @property
    def columns(self):
        """The columns of the file."""
        return [column for column in [*self.x, self.y] if not column.constant]

    @property
    def shifted(self):
        return any(column.origin for column in self.columns)

    def grid(self, k):
        """The step of coefficient k of a line, in the user's units."""
        return self.y.unit / self.x[k % self.d].unit / 2**self.scale

    def steps(self):
        """What the whole numbers of each column of the file are, in words."""
        return ", ".join(f"{column.words()} in steps of {shown(column.step)}" for column in self.columns)

    def place(self):
        """Where the offset of a box is a line's y: the origin of x, in words; nothing at 0."""
        if not self.offset or not any(column.origin for column in self.x):
            return ""
        return " at " + ", ".join(f"{column.name} = {shown(column.origin)}" for column in self.x[:-1])

    def side(self, k, w):
        """Coordinate k of a box in the user's units: of an offset, a line's y at the origin of x."""
        return w * self.grid(k) + (self.y.origin if self.x[k % self.d].constant else 0)

    def at_origin(self, vector, j):
        """The coefficients of line j of a vector, the last of them its y at the origin of x where lines have an offset."""
        return [self.side(k, vector[j * self.d + k]) for k in range(self.d)]

    def line(self, vector, j):
        """The coefficients of line j of a vector in the user's units: y is their sum over the columns as they are in the file."""
        made = self.at_origin(vector, j)
        if self.offset:
            made[-1] -= sum(value * column.origin for value, column in zip(made, self.x[:-1]))
        return made

    def cost_unit(self, p):
        """What a cost of 1 stands for: a point, or a distance in y, or its square."""
        return (self.y.unit / 2**self.scale) ** (1 if p == library.SPOILED else p)

    def whole_units(self, values, origins):
        """Coefficients in the user's units, each offset a line's y at these x, as whole numbers of the records before the scale."""
        made = []
        for k, value in enumerate(values):
            column = self.x[k % self.d]
            if column.constant:
                slopes = values[k + 1 - self.d : k]
                value += sum(a * (c.origin - x) for a, c, x in zip(slopes, self.x, origins)) - self.y.origin
            made.append(value * column.unit / self.y.unit)
        return made


# The step and the origin of a column


def fitting_step(below, above, least):
    """The least of 1, 2, 5, 10, 20 and so on with which 16 bits hold numbers so far below and above 0."""
    power = 1
    while True:
        for step in (power, 2 * power, 5 * power):
            if above <= LARGEST * step and below <= least * step:
                return step
        power *= 10


def middle_of(low, high, unit, least):
    """A number near the middle: a multiple of the unit, as round as it can be without a coarser step, and that step."""
    def tried(unit):
        middle = round(Fraction(low + high) / 2 / unit) * unit
        return middle, fitting_step(middle - low, high - middle, least)

    finest = best = tried(unit)
    while 100 * unit <= high - low:
        unit *= 10
        if tried(unit)[1] == finest[1]:
            best = tried(unit)
    return best


def shortest(ordered):
    """The ends of the shortest range that holds all numbers but the part that may be set aside."""
    count = len(ordered) - math.floor(SET_ASIDE * len(ordered))
    return min(((a, b) for a, b in zip(ordered, ordered[count - 1 :])), key=lambda ends: ends[1] - ends[0])


def found(values, origin, unit, least):
    """An origin, where none is given, and the coarsest step that all numbers are multiples of, or one with which 16 bits hold them.

    A few numbers far beyond the others do not count, and the others have as much room again: a spike would else take their digits.
    """
    if origin is None:
        ordered = sorted(values)
        of_all = middle_of(ordered[0], ordered[-1], unit, least)
        low, high = shortest(ordered)
        room = Fraction(high - low, 2)
        of_most = middle_of(low - room, high + room, unit, least)
    else:
        sizes = sorted(abs(value - origin) for value in values)
        below, above = (max(0, *(sign * (value - origin) for value in values)) for sign in (-1, 1))
        of_all = origin, fitting_step(below, above, least)
        most = 2 * sizes[math.floor((1 - SET_ASIDE) * (len(sizes) - 1))]
        of_most = origin, fitting_step(most, most, least)
    return of_most if of_all[1] >= FAR * of_most[1] else of_all


def whole_column(decimals, column):
    """The numbers of a column in whole steps from its origin, halves away from 0, and 0 for none; how much each is rounded, and in
    which part of the unit."""
    shift, step = column.origin / decimals.unit, column.step / decimals.unit
    times = shift.denominator * step.denominator
    less, part = int(shift * times), int(step * times)
    counts = [0 if value is None else value * times - less for value in decimals.values]
    if part == 1:
        return counts, [0] * len(counts), times
    whole = [(2 * count + part) // (2 * part) if count >= 0 else -((part - 2 * count) // (2 * part)) for count in counts]
    return whole, [abs(count - part * number) for count, number in zip(counts, whole)], times


def whole_if_it_is(value):
    """A fraction as a whole number where it is one: arithmetic is then far quicker."""
    return int(value) if value.denominator == 1 else value


def column_for(name, decimals, used, step, origin, least, notes):
    """The column with the step and the origin given, or found by the rows in use; what it rounds is noted."""
    values = list(compress(decimals.values, used))
    unit = 1 if step is None else step / decimals.unit
    middle, wide = found(values, None if origin is None else whole_if_it_is(origin / decimals.unit), unit, least)
    made = Column(name, (wide if step is None else unit) * decimals.unit, origin=Fraction(middle) * decimals.unit)
    whole, rounding, times = whole_column(decimals, made)
    inside = [row and -least <= value <= LARGEST for row, value in zip(used, whole)]
    if sum(inside) < (1 - SET_ASIDE) * len(values):
        most = max(abs(value - middle) for value in values) * decimals.unit
        raise BadInput(f"{name}: values up to {shown(most)} {'' if middle == 0 else f'away from {shown(made.origin)} '}"
                       f"do not fit in 16 bits with a step of {shown(step)}; {shown(wide * decimals.unit)} does")
    made.rounding = Fraction(max(compress(rounding, inside)), times) * decimals.unit
    if made.rounding:
        notes.append(f"{name} is rounded to multiples of {shown(made.step)}{'' if middle == 0 else f' from {shown(made.origin)} on'}, "
                     f"by at most {digits_of(made.rounding, 2)}")
    return made


def power_near(ratio):
    """The power of two nearest to a ratio, at least 1."""
    return 2 ** max(0, round(math.log2(ratio))) if ratio > 0 else 1


def check_varies(column, decimals, values, used, offset):
    """A column of which something can be said."""
    if sum(used) == 1 and offset:
        raise BadInput("there is one sample only, which lines of any slope run through: give more rows, or --no-offset")
    given = {value for value, row in zip(decimals.values, used) if row}
    if offset and len(given) == 1:
        raise BadInput(f"{column.name} is {shown(given.pop() * decimals.unit)} in every row, which an offset says already: "
                       "leave it out or give --no-offset")
    if offset and min(values) == max(values):
        raise BadInput(f"{column.name} differs by less than its step of {shown(column.step)}: give a smaller --x-step")
    if not any(values):
        raise BadInput(f"{column.name} is 0 in every row, so nothing can be said of its coefficient")


def columns_for(points, settings, notes):
    """The scaling of all columns by the rows with y, with the scale still 0."""
    used = [value is not None for value in points.y.values]
    origins = settings.origins
    y = column_for(settings.y, points.y, used, settings.y_step, None if settings.offset else Fraction(0), LARGEST, notes)
    x = [column_for(name, values, used, step, origin, LARGEST + 1, notes)
         for name, values, step, origin in zip(settings.x, points.x, settings.x_steps, origins)]
    whole = whole_points(points, Scaling(x, y)).samples()
    for column, decimals, values in zip(x, points.x, whole.x):
        check_varies(column, decimals, values, used, settings.offset)
    middles = [statistics.median_high(abs(value) for value in values if value) for values in whole.x]
    common = max(LEAST_SIZE, *middles)
    for column, values, middle in zip(x, whole.x, middles):
        column.factor = power_near(common / middle)
        while column.factor > 1 and max(map(abs, values)) * column.factor > LARGEST:
            column.factor //= 2
    if settings.offset:
        name = OFFSET if OFFSET not in settings.x else f"constant {OFFSET}"
        x.append(Column(name, Fraction(1), min(2**14, power_near(common)), True))
    return Scaling(x, y)


# Points in whole numbers


@dataclass
class Whole:
    """Rows in whole numbers, column by column; y is None for a gap, and held says which rows 16 bits hold."""

    x: list
    y: list
    held: list

    def __len__(self):
        return len(self.y)

    def chosen(self, rows):
        """Those rows whose entry is true."""
        return Whole([list(compress(values, rows)) for values in self.x], list(compress(self.y, rows)), list(compress(self.held, rows)))

    def samples(self):
        return self.chosen([held and value is not None for held, value in zip(self.held, self.y)])

    def reach(self):
        """The largest size of an x."""
        return max(max(max(values), -min(values)) for values in self.x)


def whole_points(points, scaling):
    """All rows in whole numbers."""
    x = [whole_column(values, column)[0] for values, column in zip(points.x, scaling.x)]
    x = [values if column.factor == 1 else [value * column.factor for value in values] for values, column in zip(x, scaling.x)]
    if scaling.offset:
        x.append([scaling.x[-1].factor] * len(points))
    y = whole_column(points.y, scaling.y)[0]
    held = [-LARGEST <= last <= LARGEST and all(-LARGEST - 1 <= value <= LARGEST for value in row) for *row, last in zip(*x, y)]
    return Whole(x, [None if exact is None else value for exact, value in zip(points.y.values, y)], held)


def store_of(whole, frames=None):
    """The store, and for each of its records the number of its row; without frames all are 0."""
    kept = [k for k, held in enumerate(whole.held) if held]
    columns = [list(compress(values, whole.held)) for values in whole.x]
    columns += [[0] * len(kept)] * (4 - len(columns))
    y = [library.GAP_Y if value is None else value for value in compress(whole.y, whole.held)]
    frames = [0] * len(kept) if frames is None else list(compress(frames, whole.held))
    return b"".join(map(struct.Struct(">5hH").pack, *columns, y, frames)), kept


# The scale, epsilon and the box


def widest_scale(sizes, epsilon):
    """The largest S with which coefficients of these sizes and the threshold fit, or -1."""
    largest = max(sizes)
    for scale in range(15, -1, -1):
        if largest * 2**scale <= LARGEST and epsilon * 2**scale <= library.LARGEST_EPSILON:
            return scale
    return -1


def wanted_scale(samples, epsilon):
    """The S with which a step of the grid moves a line by about that part of epsilon, over the range of the points."""
    return 15 if epsilon == 0 else max(0, min(15, round(math.log2(samples.reach() * GRID_PART / epsilon))))


def choose_scale(samples, epsilon, sizes, given):
    """S by the points, the threshold and the sizes of the box's corners in whole numbers, all before the scale."""
    widest = widest_scale(sizes, epsilon)
    if widest < 0:
        raise BadInput("the box or epsilon is too large for 16 bits in these steps: give a smaller --margin or --box, or a larger --y-step")
    if given is None:
        return min(widest, wanted_scale(samples, epsilon))
    if given > widest:
        raise BadUse(f"--scale: with {given} the box or epsilon does not fit in 16 bits; {widest} is the largest that does")
    return given


def outward(low, high, scale):
    """A box before the scale as vectors of the grid, rounded outward."""
    return [math.floor(value * 2**scale) for value in low], [math.ceil(value * 2**scale) for value in high]
