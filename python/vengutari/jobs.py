"""The sub-commands over the program fit, without the library: a CSV file of points to its input and back, in the user's units.

  vengutari job POINTS.csv OPTIONS   makes the input of the program fit: a job record and a store.
                                     With --fit PATH it also runs fit and prints the answer.
  vengutari answer RECORD            prints an answer record of 40 bytes.

A coefficient w of the records stands for w / 2^S, where S is the scale. Boxes, start vectors, thresholds and
costs are given and printed in those units, the units of the points; --integers takes them as they stand in
the records. Nothing is rounded on the way in: a number that is no multiple of 1 / 2^S is refused.

The points are a file of columns, as fit reads it, one point a line: x1 to xd, y and, if wanted, a frame number. A first
line of column names (x1 .. x4, y, frame) may put them in another order. Fields are whole numbers of 16 bits; where y is
empty, or -32768, the board took no sample: a gap.
"""

import re
import struct
import subprocess
from fractions import Fraction

from .library import ANSWER_BYTES, GAP_Y, KINDS, LARGEST_EPSILON, LOSSES, MESSAGES, MOST_RECORDS, SPOILED
from .outputs import Outputs, say
from .decimals import NO_SAMPLE, shown
from .points import read_bytes, read_table
from .problems import BadUse

MOST_ROWS = 2048
LONGEST_NUMBER = 60
LARGEST_COST = 1_152_921_367_167_897_600

# A loss by its name or its number.
NAMED_LOSSES = {**LOSSES, **{str(p): p for p in LOSSES.values()}}
# Those of an answer: a limit on spoiled samples too, which a job has in place of loss and threshold.
ANSWERED_LOSSES = {**NAMED_LOSSES, "spoiled": SPOILED, str(SPOILED): SPOILED}
SOLVED = "no vector of the box costs less than the bound, and the cost is within the tolerance of it"
# Why a search ended before it was solved.
ENDS = {"spent": "the split budget is used up", "full": "the table has no row left"}


# Numbers


def number(text, what):
    """A decimal number or a fraction, exactly."""
    try:
        if len(text) > LONGEST_NUMBER or re.search("[eE][+-]?[0-9]{3}", text):
            raise ValueError
        return Fraction(text.strip())
    except (ValueError, ZeroDivisionError):
        raise BadUse(f"{what}: '{text[:LONGEST_NUMBER]}' is not a number") from None


def whole(text, what, low, high):
    """A whole number within limits."""
    if not re.fullmatch(r"[+-]?[0-9]+", text.strip()) or len(text) > LONGEST_NUMBER:
        raise BadUse(f"{what}: '{text[:LONGEST_NUMBER]}' is not a whole number")
    value = int(text)
    if not low <= value <= high:
        raise BadUse(f"{what}: {value} is not from {low} to {high}")
    return value


def on_grid(value, unit, what):
    """The whole number of units, where unit is 1 / 2^S."""
    count = value / unit
    if count.denominator != 1:
        below = (count.numerator // count.denominator) * unit
        raise BadUse(
            f"{what}: {shown(value)} is no multiple of {shown(unit)}; "
            f"the nearest are {shown(below)} and {shown(below + unit)}"
        )
    return int(count)


def cost_unit(scale, loss):
    """What a cost of 1 stands for: a point, or 1 / 2^S, or its square."""
    return Fraction(1, 2**scale) ** (1 if loss == SPOILED else loss)


# Points


def read_points(table, dimensions):
    """The points of a table as tuples (x1 .. x4, y, frame)."""
    if len(table.rows) > MOST_RECORDS:
        raise BadUse(f"{table.name}: {len(table.rows)} points, but a store has at most {MOST_RECORDS}")
    columns = column_names(table, dimensions)
    for row, place in zip(table.rows, table.places):
        if len(row) != len(columns):
            raise BadUse(f"{table.name}, line {place}: {len(row)} fields where {len(columns)} are due")
    places = [f"{table.name}, line {place}" for place in table.places]
    return [read_point(row, columns, dimensions, k, place) for k, (row, place) in enumerate(zip(table.rows, places))]


def column_names(table, dimensions):
    """What each column is: by its name in a header, or by its place."""
    needed = [f"x{k}" for k in range(1, dimensions + 1)] + ["y"]
    if table.header:
        columns = [field.lower() for field in table.names]
        for column in needed:
            if column not in columns:
                raise BadUse(f"{table.name}: no column {column}, which {dimensions} dimensions need")
        for column in columns:
            if column not in needed + ["frame"] or columns.count(column) > 1:
                raise BadUse(f"{table.name}: column '{column}' is unknown, unused or named twice")
        return columns
    if len(table.names) == len(needed):
        return needed
    if len(table.names) == len(needed) + 1:
        return needed + ["frame"]
    raise BadUse(f"{table.name}: {len(table.names)} columns, but {dimensions} dimensions need {', '.join(needed)} and perhaps frame")


def read_point(row, columns, dimensions, record, place):
    field = dict(zip(columns, row))
    x = [whole(field[f"x{k}"], f"{place}, x{k}", -32768, 32767) for k in range(1, dimensions + 1)]
    gap = field["y"].lower() in NO_SAMPLE
    y = GAP_Y if gap else whole(field["y"], f"{place}, y", -32768, 32767)
    frame = whole(field["frame"], f"{place}, frame", 0, 65535) if "frame" in field else record
    return (*x, *[0] * (4 - dimensions), y, frame)


def store_bytes(points):
    return b"".join(struct.pack(">5hH", *point) for point in points)


# Jobs


def split_list(text, count, what):
    """One value for all coordinates, or one each."""
    values = text.split(",")
    if len(values) == 1:
        values *= count
    if len(values) != count:
        raise BadUse(f"{what}: {len(values)} values where {count} coordinates need 1 or {count}")
    return values


def coordinate(text, unit, what):
    w = on_grid(number(text, what), unit, what)
    if not -32768 <= w <= 32767:
        raise BadUse(f"{what}: {text} is outside {shown(-32768 * unit)} to {shown(32767 * unit)}, the range of the scale")
    return w


def read_box(text, used, unit):
    low, high = [], []
    for k, side in enumerate(split_list(text, used, "--box"), 1):
        ends = side.split(":")
        if len(ends) != 2:
            raise BadUse(f"--box: '{side}' is not LOW:HIGH")
        low.append(coordinate(ends[0], unit, f"--box, coordinate {k}, low"))
        high.append(coordinate(ends[1], unit, f"--box, coordinate {k}, high"))
        if low[-1] > high[-1]:
            raise BadUse(f"--box, coordinate {k}: low {ends[0]} is over high {ends[1]}")
    return low, high


def read_start(text, low, high, unit):
    """The start vector, by default the middle of the box, rounded down."""
    if text is None:
        return [(a + b) // 2 for a, b in zip(low, high)]
    start = []
    for k, value in enumerate(split_list(text, len(low), "--start")):
        w = coordinate(value, unit, f"--start, coordinate {k + 1}")
        if not low[k] <= w <= high[k]:
            raise BadUse(f"--start, coordinate {k + 1}: {value} is outside the box")
        start.append(w)
    return start


def read_epsilon(text, unit, loss):
    epsilon = on_grid(number(text, "--epsilon"), unit, "--epsilon")
    least = 0 if loss == 0 else 1
    if not least <= epsilon <= LARGEST_EPSILON:
        raise BadUse(
            f"--epsilon: {text} is not from {shown(least * unit)} to {shown(LARGEST_EPSILON * unit)}, "
            "the range of the scale and loss"
        )
    return epsilon


def read_loss(options, unit):
    """The loss and its threshold, or in their place the number of samples that may be spoiled."""
    if options.spoiled is None:
        if options.loss is None or options.epsilon is None:
            raise BadUse("--loss, --epsilon: both are needed, or --spoiled in place of both")
        loss = NAMED_LOSSES[options.loss]
        return loss, read_epsilon(options.epsilon, unit, loss)
    if options.loss is not None or options.epsilon is not None:
        raise BadUse("--spoiled: takes the place of --loss and --epsilon; give the one or the two")
    return SPOILED, whole(options.spoiled, "--spoiled", 0, MOST_RECORDS - 1)


def read_tolerance(text, unit):
    """A tolerance may fall between two costs; the smaller one then says the same."""
    t = number(text, "--tolerance") / unit
    t = t.numerator // t.denominator
    if not 0 <= t < 2**64:
        raise BadUse(f"--tolerance: {text} is negative or needs more than 64 bits")
    return t


def job_of(options):
    """The job as a dictionary of the record's whole numbers."""
    n = whole(options.lines, "--lines", 1, 4)
    d = whole(options.dimensions, "--dimensions", 1, 4)
    if n * d > 8:
        raise BadUse(f"--lines, --dimensions: {n} lines of {d} are {n * d} coordinates, but at most 8 are taken")
    scale = whole(options.scale, "--scale", 0, 15)
    unit = Fraction(1) if options.integers else Fraction(1, 2**scale)
    loss, epsilon = read_loss(options, unit)
    low, high = read_box(options.box, n * d, unit)
    return {
        "n": n,
        "d": d,
        "S": scale,
        "p": loss,
        "epsilon": epsilon,
        "t": read_tolerance(options.tolerance, Fraction(1) if options.integers else cost_unit(scale, loss)),
        "budget": whole(options.budget, "--budget", 0, 2**32 - 1),
        "rows": whole(options.rows, "--rows", 1, MOST_ROWS),
        "low": low,
        "high": high,
        "start": read_start(options.start, low, high, unit),
    }


def job_bytes(job):
    numbers = [job[name] for name in ("n", "d", "S", "p", "epsilon", "t", "budget", "rows")]
    vectors = [w for name in ("low", "high", "start") for w in job[name] + [0] * (8 - len(job[name]))]
    return struct.pack(">4BIQII24h", *numbers, *vectors)


# Answers


def run_fit(program, data):
    """The line that fit writes."""
    try:
        done = subprocess.run([program], input=data, stdout=subprocess.PIPE, check=False)
    except OSError as error:
        raise BadUse(f"--fit: {program}: {error.strerror}") from None
    line = done.stdout.decode("ascii", "replace")
    if not line.endswith("\n"):
        raise BadUse(f"--fit: {program} wrote no whole line (status {done.returncode})")
    return line.rstrip("\n")


def parse_line(line):
    """The fields of fit's line: a dictionary with kind, or with refused."""
    words = line.split(" ")
    try:
        if words[0] == "refused" and len(words) == 2:
            return {"refused": int(words[1])}
        fields = dict(word.split("=") for word in words[1:])
        if words[0] not in KINDS.values() or list(fields) != ["cost", "bound", "splits", "open", "peak", "w"]:
            raise ValueError
        answer = {name: int(fields[name]) for name in ("cost", "bound", "splits", "open", "peak")}
        return {"kind": words[0], "w": [int(w) for w in fields["w"].split(",")], **answer}
    except ValueError:
        raise BadUse(f"not a line of fit: '{line}'") from None


def decode_answer(data):
    """The fields of an answer record, as parse_line has them, with n, d and S."""
    if len(data) != ANSWER_BYTES:
        raise BadUse(f"an answer record has {ANSWER_BYTES} bytes, this has {len(data)}")
    *vector, cost, bound, count, kind, n, d, scale = struct.unpack(">8hQQI4B", data)
    if kind not in KINDS:
        raise BadUse(f"answer record: kind {kind} is not 1, 2 or 3")
    if not (1 <= n <= 4 and 1 <= d <= 4 and n * d <= 8):
        raise BadUse(f"answer record: {n} lines of {d} dimensions are out of range")
    if scale > 15:
        raise BadUse(f"answer record: scale {scale} is over 15")
    if any(vector[n * d :]):
        raise BadUse("answer record: an unused coordinate is not 0")
    if bound > cost or cost > LARGEST_COST:
        raise BadUse("answer record: the bound is over the cost, or the cost over its limit")
    fields = {"kind": KINDS[kind], "cost": cost, "bound": bound, "splits": count, "w": vector[: n * d]}
    return {**fields, "n": n, "d": d, "S": scale}


def meaning(answer):
    """What an answer's kind says. With the tolerance 0 a search goes on where the bound equals the cost, to the first of equal vectors."""
    if answer["kind"] == "solved":
        return SOLVED
    equal = answer["cost"] == answer["bound"]
    known = "no vector of the box costs less, but an earlier one may cost the same" if equal else "the bound holds for the whole box"
    return f"{ENDS[answer['kind']]}; {known}"


def report(answer, d, scale, loss):
    """The answer in the user's units; costs too where the loss is known."""
    lines = [f"{answer['kind']}: {meaning(answer)}"]
    for name, letter in (("cost", "C"), ("bound", "L")):
        unit = Fraction(1) if loss is None else cost_unit(scale, loss)
        lines.append(f"{name:<7}{shown(answer[name] * unit)}  ({letter} = {answer[name]})")
    lines.append(f"splits {answer['splits']}")
    if "open" in answer:
        lines.append(f"open   {answer['open']} boxes, {answer['peak']} at most")
    for j in range(len(answer["w"]) // d):
        line = answer["w"][j * d : (j + 1) * d]
        values = "  ".join(shown(Fraction(w, 2**scale)) for w in line)
        lines.append(f"line {j + 1} {values}  (w = {', '.join(map(str, line))})")
    return "\n".join(lines)


# The commands


def command_job(options):
    if options.output is None and options.fit is None:
        raise BadUse("nothing to do: give --output FILE, --fit PATH or both")
    outputs = Outputs([options.points], options.force)
    if options.output is not None:
        outputs.check("--output", options.output)
    job = job_of(options)
    points = read_points(read_table(options.points), job["d"])
    if job["p"] == SPOILED and job["epsilon"] >= len(points):
        raise BadUse(f"--spoiled: {job['epsilon']} is not below the number of points, {len(points)}")
    data = job_bytes(job) + store_bytes(points)
    if options.output is not None:
        outputs.write("--output", data)
    if options.fit is None:
        return 0
    answer = parse_line(run_fit(options.fit, data))
    if "refused" in answer:
        reason = MESSAGES.get(answer["refused"], "no number of the table")
        say(f"refused {answer['refused']}, {reason}\n")
        return 1
    if len(answer["w"]) != job["n"] * job["d"]:
        raise BadUse(f"--fit: {options.fit} gave {len(answer['w'])} coordinates where {job['n'] * job['d']} are due")
    say(report(answer, job["d"], job["S"], job["p"]) + "\n")
    return 0 if answer["kind"] == "solved" else 3


def command_answer(options):
    answer = decode_answer(read_bytes(options.record))
    loss = None if options.loss is None else ANSWERED_LOSSES[options.loss]
    say(report(answer, answer["d"], answer["S"], loss) + "\n")
    return 0


def add_commands(commands):
    job = commands.add_parser("job", help="make the input of fit from points, and run fit if asked")
    job.set_defaults(run=command_job)
    job.add_argument("points", metavar="POINTS.csv", help="the points; - for standard input")
    job.add_argument("--lines", required=True, metavar="N", help="number of lines, 1 to 4")
    job.add_argument("--dimensions", required=True, metavar="D", help="number of x used, 1 to 4; N x D is at most 8")
    job.add_argument("--scale", default="0", metavar="S", help="coefficients are multiples of 1 / 2^S, S from 0 to 15 (default 0)")
    job.add_argument(
        "--loss", choices=sorted(NAMED_LOSSES),
        help="0 or count: points farther than epsilon; 1 or absolute: distance, at most epsilon; 2 or square: its square",
    )
    job.add_argument("--epsilon", metavar="E", help="the threshold, in the units of y")
    job.add_argument("--spoiled", metavar="Q", help="in place of loss and threshold: so many points may be spoiled, fewer than there are, "
                     "gaps counted; the cost is the largest distance of the others")
    job.add_argument(
        "--box", required=True, metavar="LOW:HIGH[,..]",
        help="range of the coefficients: one for all, or one each, line after line; write --box=-1:1 where it begins with -",
    )
    job.add_argument("--start", metavar="W[,..]", help="start vector: one value for all, or one each (default: the box's middle)")
    job.add_argument("--tolerance", default="0", metavar="T",
                     help="solved when cost - bound is at most T, in the cost's units; 0 (default) asks for the first vector of least cost")
    job.add_argument("--budget", default="1000000", metavar="B", help="number of splits allowed (default 1000000)")
    job.add_argument("--rows", default=str(MOST_ROWS), metavar="R", help=f"rows of the table, 1 to {MOST_ROWS} (default {MOST_ROWS})")
    job.add_argument("--integers", action="store_true", help="epsilon, box, start and tolerance are the whole numbers of the records")
    job.add_argument("--output", metavar="FILE", help="where the input of fit goes; - for standard output")
    job.add_argument("--force", action="store_true", help="write over a file that is there")
    job.add_argument("--fit", metavar="PATH", help="the program fit, to be run on it; status 0 solved, 3 spent or full, 1 refused")

    answer = commands.add_parser("answer", help="print an answer record")
    answer.set_defaults(run=command_answer)
    answer.add_argument("record", metavar="RECORD", help="the 40 bytes; - for standard input")
    answer.add_argument("--loss", choices=sorted(ANSWERED_LOSSES), help="the job's loss, to print costs in the units of y")
