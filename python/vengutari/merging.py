"""One table of two of the same pass, such as its two polarisations, by their frames.

The library merges records. A record here has a row's frame, counted from the least of its part, and the number of what else stands in
the row, the same number for the same: so which rows are taken, in which order, and what is refused, is the library's word. Where it
refuses, the rows are looked up that it refuses for. Files of more frames than a store has records are cut at the same frames, and merged
part by part.
"""

import struct
from dataclasses import dataclass, replace

from . import library as calls
from .decimals import NO_SAMPLE, NUMBER, decimal, dotted
from .points import column, frames_of, texts_of
from .problems import BadInput, Refused

MOST_FRAMES = 65536


@dataclass
class Side:
    """One of the two files: its rows by the columns that count, as values, and their frames."""

    table: object
    places: list
    values: list
    frames: list


@dataclass
class Merged:
    """The rows of either file, and of each of them whether the first and the second file has it."""

    table: object
    sides: tuple
    frames: list
    held: list

    def count(self, first, second):
        return self.held.count((first, second))


def value_of(text, comma):
    """What a field says: a number however it is written, no sample, or its text."""
    if text.lower() in NO_SAMPLE:
        return None
    try:
        return decimal(text, "field", comma)
    except BadInput:
        return text


def columns_of(left, right, names):
    """The columns that count, by their names: those given, or all where both files have the same."""
    if names is not None:
        return names
    for one, other in ((left, right), (right, left)):
        lacking = [name for name in one.names if name not in other.names]
        if lacking:
            raise BadInput(f"{other.name}: no column '{lacking[0]}', which {one.name} has; --columns names those to be merged")
    return left.names


def side_of(table, names, frame):
    places = [column(table, name) for name in names]
    rows = zip(*(texts_of(table, k) for k in places))
    values = [tuple(value_of(text, table.decimal_comma) for text in row) for row in rows]
    return Side(table, places, values, frames_of(table, frame, []))


def cuts_of(sides):
    """The first and the last frame of each part: no more frames than a store has records, and none that 16 bits do not hold."""
    made = []
    for frame in sorted({frame for side in sides for frame in side.frames}):
        if not made or made[-1][2] == calls.MOST_RECORDS or frame - made[-1][0] >= MOST_FRAMES:
            made.append([frame, frame, 0])
        made[-1][1:] = frame, made[-1][2] + 1
    return [(first, last) for first, last, _ in made]


def parts_of(side, cuts):
    """The rows of each part, by their places: up to the first that lies behind it, so that frames that do not rise are found in one."""
    made, place = [], 0
    for _, last in cuts:
        begin = place
        while place < len(side.frames) and side.frames[place] <= last:
            place += 1
        made.append(range(begin, place))
    return made


def store_of(side, rows, least, numbers):
    """A store of some rows: what stands in a row by its number among all that differ."""
    pack = struct.Struct(">5hH").pack
    return b"".join(pack(*divmod(numbers.setdefault(side.values[k], len(numbers)), 2**15), 0, 0, 0, (side.frames[k] - least) % MOST_FRAMES)
                    for k in rows)


def frames_by(library, sides):
    """The frames of the merged file, by the library, part by part."""
    cuts, frames = cuts_of(sides), []
    for (least, _), *parts in zip(cuts, *(parts_of(side, cuts) for side in sides)):
        numbers = {}
        made = library.merge(*(store_of(side, rows, least, numbers) for side, rows in zip(sides, parts)))
        frames += [least + record[0] for record in struct.iter_unpack(">10xH", made)]
    return frames


def order_problem(sides):
    """The first row whose frame does not rise."""
    for side in sides:
        for k in range(1, len(side.frames)):
            if side.frames[k] <= side.frames[k - 1]:
                return (f"{side.table.name}, row {side.table.numbers[k]}: frame {side.frames[k]} comes after frame {side.frames[k - 1]}; "
                        "the frames of a file must rise")
    return None


def clash_problem(sides, names):
    """The first frame of which both files have rows that differ, and where."""
    first, second = sides
    places = {frame: k for k, frame in enumerate(second.frames)}
    pairs = [(k, places[frame]) for k, frame in enumerate(first.frames) if frame in places]
    clashes = [(i, j) for i, j in pairs if first.values[i] != second.values[j]]
    if not clashes:
        return None
    i, j = clashes[0]
    told = [f"{name} {'none' if u is None else u} and {'none' if v is None else v}"
            for name, u, v in zip(names, first.values[i], second.values[j]) if u != v]
    more = f"; {len(clashes) - 1} more frames clash" if len(clashes) > 1 else ""
    return (f"frame {first.frames[i]}: {first.table.name}, row {first.table.numbers[i]}, and {second.table.name}, "
            f"row {second.table.numbers[j]}, differ: {', '.join(told)}{more}")


def told(refusal, sides, names):
    """What a refusal of the library is about, in the user's words: where frames do not rise, a part may be too long too."""
    words = clash_problem(sides, names) if refusal.number == 16 else order_problem(sides)
    return BadInput(words) if words else refusal


def rows_of(side, like):
    """The rows' fields in the columns that count, and numbers with the decimal mark of a table like this."""
    mark, other = "," if like.commas else ".", side.table.commas != like.commas

    def field(text):
        plain = dotted(text, side.table.decimal_comma)
        return plain.replace(".", mark) if other and NUMBER.fullmatch(plain) else text

    return [list(map(field, row)) for row in zip(*(texts_of(side.table, k) for k in side.places))]


def merged(library, left, right, frame, names=None):
    """One table of two, in each of which the frames rise. names has the columns that are compared and kept, or is None for all."""
    kept = columns_of(left, right, names)
    sides = side_of(left, kept, frame), side_of(right, kept, frame)
    try:
        frames = frames_by(library, sides)
    except Refused as refusal:
        raise told(refusal, sides, kept) from None
    at = [{frame: k for k, frame in enumerate(side.frames)} for side in sides]
    first, second = (rows_of(side, left) for side in sides)
    rows = [first[at[0][number]] if number in at[0] else second[at[1][number]] for number in frames]
    table = replace(left, name=f"{left.name} with {right.name}", names=list(kept), rows=rows, places=list(range(1, len(rows) + 1)),
                    numbers=None, sum=f"{left.sum} {right.sum}")
    return Merged(table, sides, frames, [tuple(number in places for places in at) for number in frames])


def summary(made):
    left, right = (side.table.name for side in made.sides)
    both = f"{len(made.frames):,} frames from {made.frames[0]} to {made.frames[-1]}: {made.count(True, True):,} in both"
    return f"{both}, {made.count(True, False):,} in {left} alone, {made.count(False, True):,} in {right} alone"
