"""What comes before a search: points in whole numbers, a first guess, the box, the scale and the start."""

from dataclasses import dataclass
from fractions import Fraction

from . import library as calls
from . import proposal, run, scaling
from .decimals import digits_of, rounded, shown
from .points import found_frame, name_of, read_points
from .problems import BadInput
from .settings import Settings

# The rounding of a sample, and what that of x moves a line by, are at most this part of epsilon.
ROUNDING_PART = 4


# Points


def check_count(count):
    if count > calls.MOST_RECORDS:
        every = -(-count // calls.MOST_RECORDS)
        raise BadInput(f"{count:,} rows, but a search takes at most {calls.MOST_RECORDS:,}: --every {every} takes one row in {every}, "
                       f"--rows 1:{calls.MOST_RECORDS} a part, and vengutari drift all of them, window by window")


def named(table, settings):
    """The settings with the columns by their own names, and a column called frame where none is named."""
    settings.x = [name_of(table, name) for name in settings.x]
    settings.y = name_of(table, settings.y)
    settings.frame = name_of(table, settings.frame) or found_frame(table, [*settings.x, settings.y])
    return settings


def points_of(table, settings):
    """The points of a file; its columns go by their own names from here on."""
    settings.check()
    named(table, settings)
    return read_points(table, settings.x, settings.y, settings.frame)


@dataclass
class Prepared:
    """Points in whole numbers, and the search that is made of them; kept has the row of each record."""

    settings: Settings
    points: object
    scales: scaling.Scaling
    whole: scaling.Whole
    samples: scaling.Whole
    notes: list
    kept: list = None
    job: run.Job = None


def far_rows(whole):
    """The samples that 16 bits do not hold."""
    return [k for k, (held, y) in enumerate(zip(whole.held, whole.y)) if not held and y is not None]


def far_notes(whole):
    """Rows that are not in the search."""
    far = len(far_rows(whole))
    return [f"{far} row{'s lie' if far > 1 else ' lies'} far beyond the others, outside 16 bits: set aside as "
            f"outlier{'s' if far > 1 else ''}; the certificate is of the rest"] if far else []


def offset_notes(settings):
    lines = "the line passes" if settings.lines == 1 else "the lines pass"
    return [] if settings.offset else [f"{lines} through 0; --offset allows an offset"]


def check_rounding(settings, scales, vector=None):
    """No more rounding than a part of epsilon: of y, and with the lines to begin with of x."""
    if settings.epsilon is None:
        return
    y, most = scales.y, settings.epsilon / ROUNDING_PART
    close = f"over a quarter of epsilon, {shown(settings.epsilon)}"
    centred = "" if settings.offset else ", --offset, with which columns are counted from their middle"
    if y.rounding > most:
        raise BadInput(f"{y.name} has more digits than 16 bits hold: in steps of {shown(y.step)} it is rounded by up to "
                       f"{digits_of(y.rounding, 2)}, {close}: give a larger --epsilon, a smaller --y-step, a part of the rows{centred}")
    for j in range(settings.lines if vector else 0):
        for column, value in zip(scales.x, scales.line(vector, j)):
            if abs(value) * column.rounding > most:
                raise BadInput(f"{column.name} has more digits than 16 bits hold: in steps of {shown(column.step)} it moves line {j + 1} "
                               f"by up to {digits_of(abs(value) * column.rounding, 2)}, {close}: give a larger --epsilon, "
                               f"a smaller --x-step, a part of the rows{centred}")


def laid_out(points, settings):
    """Points in whole numbers."""
    notes = []
    scales = scaling.columns_for(points, settings, notes)
    check_rounding(settings, scales)
    whole = scaling.whole_points(points, scales)
    notes += points.notes + offset_notes(settings) + far_notes(whole)
    return Prepared(settings, points, scales, whole, whole.samples(), notes)


# The box and the start


def spoiled_in(settings, whole, samples):
    """How many samples of the store may be spoiled: those that 16 bits do not hold are spoiled too, and are not in it."""
    far = len(far_rows(whole))
    if far > settings.spoiled:
        raise BadInput(f"--spoiled: {far} rows lie far beyond the others, outside 16 bits, but only {settings.spoiled} may be spoiled")
    if settings.spoiled - far >= len(samples):
        raise BadInput(f"--spoiled: {settings.spoiled} of {len(samples) + far} samples: at least one must be sound")
    return settings.spoiled - far


def guessed(library, settings, scales, samples, spoiled):
    """A first guess where it is needed, and the threshold in whole numbers before the scale: the user's, or by the lines at hand."""
    needed, cloud = None in (settings.box, settings.start), proposal.Cloud(samples)
    if spoiled is None:
        epsilon = settings.epsilon / scales.y.unit
        return proposal.propose(library, cloud, settings.lines, float(epsilon)) if needed else None, epsilon
    if needed:
        guess, epsilon = proposal.propose_spoiled(library, cloud, settings.lines, spoiled)
    else:
        guess, start = None, scales.whole_units(settings.start, settings.told)
        lines = [[float(c) for c in start[k : k + scales.d]] for k in range(0, len(start), scales.d)]
        epsilon = proposal.spoiled_cost(library, cloud, lines, spoiled) or 0
    return guess, Fraction(epsilon)


def box_of(settings, scales, samples, guess, epsilon):
    """The box in whole numbers before the scale: the user's, or one around the guess."""
    if settings.box is not None:
        return [scales.whole_units(side, settings.told) for side in settings.box]
    sides = proposal.margins(samples, scales.offset, float(epsilon), float(settings.margin))
    return [[Fraction(value) for value in side] for side in proposal.box_around(guess, sides)]


def whole_epsilon(settings, scales, notes):
    exact = settings.epsilon / scales.y.unit * 2**scales.scale
    epsilon = rounded(exact, 1)
    if epsilon == 0 and settings.loss != "count":
        raise BadInput(f"--epsilon: {shown(settings.epsilon)} is less than y's grid can tell; give a smaller --y-step")
    if epsilon != exact:
        used = digits_of(epsilon * scales.y.unit / 2**scales.scale, 6)
        notes.append(f"epsilon is rounded to the grid: {used} is used")
    return epsilon


def model_of(settings, scales, spoiled, notes):
    shape = settings.lines, scales.d, scales.scale
    if spoiled is not None:
        return calls.Model(*shape, calls.SPOILED, spoiled)
    return calls.Model(*shape, calls.LOSSES[settings.loss], whole_epsilon(settings, scales, notes))


def start_of(library, settings, scales, job, guess, notes):
    """The start vector: the user's, moved into the box, or the cheapest arrangement of the guess, polished."""
    if settings.start is not None:
        wanted = scales.whole_units(settings.start, settings.told)
        vector = [rounded(value * 2**scales.scale, 1) for value in wanted]
        start = proposal.inside(vector, job.low, job.high)
        if start != vector:
            notes.append("the start was outside the box and is moved to its edge")
        return start
    guesses = list(proposal.arranged(guess, scales.scale))
    guesses.append([(a + b) // 2 for a, b in zip(job.low, job.high)])
    return proposal.start_in(library, job.store, job.model, job.low, job.high, guesses)


def coarse_notes(settings, samples, epsilon, scales):
    """A grid that 16 bits keep coarser than it should be."""
    reach = samples.reach()
    if epsilon and reach * scaling.GRID_PART > 2 * epsilon * 2**scales.scale:
        moved = reach * scales.y.unit / 2**scales.scale
        near = f"epsilon is {shown(epsilon * scales.y.unit)}"
        if settings.spoiled is not None:
            near = f"the first guess lies within {digits_of(epsilon * scales.y.unit, 3)}"
        return [f"the grid is coarse: one step moves a line by up to {digits_of(moved, 3)}, where {near}; "
                "a narrower box or a larger --scale makes it finer"]
    return []


def give_job(library, made, store, spoiled, guess, epsilon, box):
    """Chooses the scale for a box before it, and makes the search of a store with a start."""
    settings, scales, (low, high) = made.settings, made.scales, box
    scales.scale = scaling.choose_scale(made.samples, epsilon, [abs(value) for value in [*low, *high]], settings.scale)
    made.notes += coarse_notes(settings, made.samples, epsilon, scales)
    model = model_of(settings, scales, spoiled, made.notes)
    made.job = run.Job(store, model, *scaling.outward(low, high, scales.scale), [])
    made.job.start = start_of(library, settings, scales, made.job, guess, made.notes)
    check_rounding(settings, scales, made.job.start)


def prepare(library, points, settings, box=box_of):
    """All that a search of a store needs; box says what is searched."""
    settings.check()
    check_count(len(points))
    made = laid_out(points, settings)
    store, made.kept = scaling.store_of(made.whole, points.frame)
    spoiled = None if settings.spoiled is None else spoiled_in(settings, made.whole, made.samples)
    guess, epsilon = guessed(library, settings, made.scales, made.samples, spoiled)
    give_job(library, made, store, spoiled, guess, epsilon, box(settings, made.scales, made.samples, guess, epsilon))
    return made
