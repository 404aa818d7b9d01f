"""Points out of an operator's file: columns by name or number, decimals exactly, gaps, frames.

A file is text: comma, semicolon or tab between the fields, lines that begin with # or % are comments, and the first line is a
header where one of its fields is no number. With semicolons or tabs a decimal comma is read too. A first line sep=; is heeded.
"""

import csv
import hashlib
import io
import re
import sys
from dataclasses import dataclass, field, replace

from .decimals import NO_SAMPLE, NUMBER, Decimals, decimal, decimals_of, dotted, shortened
from .problems import BadInput, BadUse

MOST_BYTES = 64 * 2**20
FRAME = "frame"


@dataclass
class Table:
    """The rows of a file as text, with their line numbers, and with their own numbers from 1; sum is the SHA-256 of the file's bytes."""

    name: str
    names: list
    header: bool
    rows: list
    places: list
    delimiter: str
    numbers: range = None
    sum: str = None

    def __post_init__(self):
        if self.numbers is None:
            self.numbers = range(1, len(self.rows) + 1)

    def part(self, first, last, every):
        """Every so many of the rows from one to another, which count from 1 and may be None."""
        chosen = slice((first or 1) - 1, last, every)
        made = replace(self, rows=self.rows[chosen], places=self.places[chosen], numbers=self.numbers[chosen])
        if not made.rows:
            count = len(self.rows)
            raise BadInput(f"{self.name}: there are {count:,} rows, and none of them from {first or 1:,} to {last or count:,}")
        return made

    @property
    def decimal_comma(self):
        """Whether a comma may stand in a number."""
        return self.delimiter != ","

    @property
    def commas(self):
        """Whether one does."""
        numbers = (field for row in self.rows for field in row if "," in field)
        return self.decimal_comma and any(NUMBER.fullmatch(dotted(field, True)) for field in numbers)


@dataclass
class Points:
    """The columns in use as exact numbers, one entry for each row; a row whose y is None is a gap, one without an x too.

    counted has the frame numbers as they are in the file, and numbers those of the rows there, from 1.
    """

    x: list
    y: Decimals
    counted: list
    notes: list = field(default_factory=list)
    numbers: range = None

    @property
    def frame(self):
        """What the records hold of the frame numbers, 16 bits."""
        return [number % 65536 for number in self.counted]

    @property
    def gaps(self):
        return self.y.values.count(None)

    def __len__(self):
        return len(self.y.values)


def read_bytes(path):
    try:
        if path == "-":
            return sys.stdin.buffer.read(MOST_BYTES + 1) if sys.stdin else b""
        with open(path, "rb") as file:
            return file.read(MOST_BYTES + 1)
    except (OSError, ValueError) as error:
        raise BadUse(f"{path}: {getattr(error, 'strerror', None) or error}") from None


def text_of(data, name):
    """Text out of bytes: UTF-8, or Latin-1 where it is not, or UTF-16 by its mark."""
    if len(data) > MOST_BYTES:
        raise BadInput(f"{name}: over {MOST_BYTES // 2**20} MB, which is no file of points")
    for encoding in ("utf-16", "utf-8-sig", "latin-1"):
        if encoding == "utf-16" and data[:2] not in (b"\xff\xfe", b"\xfe\xff"):
            continue
        try:
            text = data.decode(encoding)
        except UnicodeDecodeError:
            continue
        if any(ord(c) < 32 and c not in "\t\r\n\f" for c in text[:4096]) or "\0" in text:
            break
        return text
    raise BadInput(f"{name}: not a text file")


def read_text(path):
    return text_of(read_bytes(path), path)


def is_comment(line):
    stripped = line.lstrip()
    return not stripped or stripped[0] in "#%"


def delimiter_of(line):
    return next((c for c in "\t;," if c in line), ",")


def table_of_bytes(data, name):
    made = table_of(text_of(data, name), name)
    made.sum = hashlib.sha256(data).hexdigest()
    return made


def read_table(path):
    return table_of_bytes(read_bytes(path), "standard input" if path == "-" else path)


def table_of(text, name):
    """The rows of a file's text."""
    kept = [(k, line) for k, line in enumerate(re.split("\r\n|\n|\r", text), 1) if not is_comment(line)]
    told = re.fullmatch("sep=(.)", kept[0][1].strip()) if kept else None
    kept = kept[1:] if told else kept
    if not kept:
        raise BadInput(f"{name}: no rows")
    delimiter = told.group(1) if told else delimiter_of(kept[0][1])
    rows, places = [], []
    for place, line in kept:
        try:
            row = next(csv.reader((line,), delimiter=delimiter, strict=True, skipinitialspace=True))
        except csv.Error as error:
            raise BadInput(f"{name}, line {place}: not a row of fields: {error}") from None
        rows.append([field.strip() for field in row])
        places.append(place)
    header = any(not NUMBER.fullmatch(dotted(field, delimiter != ",")) and field.lower() not in NO_SAMPLE for field in rows[0])
    names = rows[0] if header else [f"column {k}" for k in range(1, len(rows[0]) + 1)]
    table = Table(name, names, header, rows[header:], places[header:], delimiter)
    if not table.rows:
        raise BadInput(f"{name}: a header and no rows")
    return table


def column(table, wanted):
    """The place of a column, by its name, by its name in other letters, or by its number from 1."""
    for names, name in ((table.names, wanted), ([n.lower() for n in table.names], wanted.lower())):
        if names.count(name) > 1:
            raise BadInput(f"{table.name}: {names.count(name)} columns are named '{wanted}'; give its number from 1")
        if name in names:
            return names.index(name)
    if wanted.isascii() and wanted.isdigit() and len(wanted) < 6 and 1 <= int(wanted) <= len(table.names):
        return int(wanted) - 1
    known = ", ".join(table.names[:12])
    raise BadInput(f"{table.name}: no column '{wanted}'; there are {known}")


def name_of(table, wanted):
    """The name by which a column is shown and found again: its own, or its number where others have that name too."""
    if wanted is None:
        return None
    k = column(table, wanted)
    return table.names[k] if table.names.count(table.names[k]) == 1 else str(k + 1)


def found_frame(table, used):
    """The column of frame numbers where none is named: one called frame, unless it is in use or has other things than whole numbers."""
    names = [name.lower() for name in table.names]
    if names.count(FRAME) != 1 or names.index(FRAME) in [column(table, name) for name in used]:
        return None
    k = names.index(FRAME)
    whole = all(k < len(row) and re.fullmatch(r"\+?[0-9]{1,18}", row[k]) for row in table.rows)
    return table.names[k] if whole else None


def field_of(table, k, row, place):
    """A field of a row, which may have lost empty fields at its end but has none too many."""
    if len(row) > len(table.names) and any(row[len(table.names) :]):
        raise BadInput(f"{table.name}, line {place}: {len(row)} fields where {len(table.names)} are due")
    if k >= len(row):
        raise BadInput(f"{table.name}, line {place}: {len(row)} fields, so no {table.names[k]}")
    return row[k]


def texts_of(table, k):
    """The fields of a column; one that a short row has lost is empty."""
    width = len(table.names)
    for row, place in zip(table.rows, table.places):
        if len(row) > width:
            field_of(table, k, row, place)
    return [row[k] if k < len(row) else "" for row in table.rows]


def column_of(table, k):
    """The numbers of a column; None where there is no sample."""
    made, comma = [], table.decimal_comma
    for text, place in zip(texts_of(table, k), table.places):
        if text.lower() in NO_SAMPLE:
            made.append(None)
        else:
            made.append(decimal(text, f"{table.name}, line {place}, {table.names[k]}", comma))
    if all(value is None for value in made):
        raise BadInput(f"{table.name}: {table.names[k]} is empty in every row")
    return decimals_of(made)


def check_marks(table, places):
    """One decimal mark in all columns in use: with two, 1.000 may be a thousand in one of them."""
    first = {}
    if not table.decimal_comma:
        return
    for k in places:
        for text, place in zip(texts_of(table, k), table.places):
            for mark in ",.":
                if mark in text and mark not in first:
                    first[mark] = f"'{text[:40]}' in line {place}, {table.names[k]}"
    if len(first) == 2:
        raise BadInput(f"{table.name}: a decimal comma and a decimal point in one file: {first[',']}; {first['.']}; "
                       "write all numbers alike")


def frames_of(table, wanted, notes):
    """The frame numbers; without such a column the rows are counted from 0."""
    if wanted is None:
        return [number - 1 for number in table.numbers]
    k = column(table, wanted)
    frames = []
    for row, place in zip(table.rows, table.places):
        text = dotted(field_of(table, k, row, place), table.decimal_comma)
        value = decimal(text, wanted) if NUMBER.fullmatch(text) and len(text) <= 20 else None
        if value is None or value != int(value):
            raise BadInput(f"{table.name}, line {place}, {table.names[k]}: a frame is a whole number, not {shortened(row[k])}; "
                           "without --frame the rows are counted")
        frames.append(int(value))
    if any(not 0 <= frame < 65536 for frame in frames):
        notes.append("frame numbers are kept modulo 65,536")
    return frames


def read_points(table, x_names, y_name, frame_name=None):
    """The points of a table. A row whose y or x is empty or no number such as nan is a gap."""
    places = [column(table, name) for name in [*x_names, y_name]]
    if len(set(places)) < len(places):
        raise BadInput(f"{table.name}: a column is used twice: {', '.join([*x_names, y_name])}")
    check_marks(table, places)
    columns = [column_of(table, k) for k in places]
    notes = []
    frames = frames_of(table, frame_name, notes)
    return points_of(columns[:-1], columns[-1], frames, notes, table.numbers, x_names)


def points_of(x, y, frames, notes, numbers, x_names):
    """Points of columns of exact numbers: a row without an x is left out as a gap is."""
    lacking = {name: values.values.count(None) for name, values in zip(x_names, x)}
    without = [any(value is None for value in row) for row in zip(*(values.values for values in x))]
    y = Decimals([None if lacks else value for lacks, value in zip(without, y.values)], y.digits)
    if y.values.count(None) == len(y.values):
        raise BadInput("no row has both x and y")
    for name, count in lacking.items():
        if count:
            notes.append(f"{count} row{'s have' if count > 1 else ' has'} no {name}: left out, as gaps are")
    return Points(x, y, frames, notes, numbers)


def with_columns(table, names, columns):
    """The table as text with more columns behind its own, in its own way of writing numbers."""
    out = io.StringIO()
    writer = csv.writer(out, delimiter=table.delimiter, lineterminator="\n")
    own = table.names
    writer.writerow([*own, *names])
    point = "," if table.commas else "."
    for row, *more in zip(table.rows, *columns):
        filled = [*row[: len(own)], *[""] * (len(own) - len(row))]
        writer.writerow([*filled, *(value.replace(".", point) for value in more)])
    return out.getvalue()
