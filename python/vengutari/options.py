"""The command line: its sub-commands and options, and settings out of them."""

import argparse
import re
from fractions import Fraction

from . import __version__, jobs
from .decimals import number
from .library import LOSSES, MOST_RECORDS, MOST_SPLITS
from .problems import BadInput, BadUse
from .settings import MARGIN, Limits, Settings, check_shape

GUIDE = """From an operator's file to certified lines.

  vengutari fit pass.csv --x adc_raw --y current_mA --lines 2 --epsilon 3

finds two lines, each with an offset, and a certificate: how much less any other lines in the box that was searched could cost.
Add --report pass.html, --labels labels.csv and --coefficients upload.txt for files. docs/USERS.md is the guide.
The status is 0 solved, 3 spent or full (not solved, with a bound that holds), 4 with warnings where --strict is given,
1 refused or a file not written, 2 bad use."""

MOST_TABLE = 2**26


class Parser(argparse.ArgumentParser):
    """Bad use is one line."""

    def error(self, message):
        raise BadUse(f"{message} (see {self.prog} --help)")


# Types of values


def decimal(least=None, positive=False, below=None):
    """A decimal number of the command line, exactly."""

    def read(text):
        try:
            value = number(text.rstrip("% ") if below else text, "value")
        except BadInput as problem:
            raise argparse.ArgumentTypeError(str(problem).partition(": ")[2]) from None
        if (positive and value <= 0) or (least is not None and value < least):
            raise argparse.ArgumentTypeError(f"{text} is not {'more than 0' if positive else f'at least {least}'}")
        if below is not None and value >= below:
            raise argparse.ArgumentTypeError(f"{text} percent would accept anything; give less than {below}")
        return value

    return read


def whole(least, most):
    def read(text):
        if not re.fullmatch(r"[+-]?[0-9]{1,20}", text):
            raise argparse.ArgumentTypeError(f"'{text[:40]}' is not a whole number")
        if not least <= int(text) <= most:
            raise argparse.ArgumentTypeError(f"{text} is not from {least:,} to {most:,}")
        return int(text)

    return read


def several(kind):
    """Values between commas."""
    return lambda text: [kind(part) for part in text.split(",")]


def names(text):
    """Names of columns between commas."""
    made = [name.strip() for name in text.split(",")]
    if not all(made):
        raise argparse.ArgumentTypeError(f"a column has no name in '{text[:40]}'")
    return made


def side(text):
    """The two ends of a coefficient's range."""
    ends = text.split(":")
    if len(ends) != 2:
        raise argparse.ArgumentTypeError(f"'{text[:40]}' is not LOW:HIGH")
    low, high = map(decimal(), ends)
    if low > high:
        raise argparse.ArgumentTypeError(f"low {ends[0]} is over high {ends[1]}")
    return low, high


def part_of(text):
    """The first and the last row of a part; either may be left out."""
    if not re.fullmatch("[0-9]{0,9}:[0-9]{0,9}", text) or text == ":":
        raise argparse.ArgumentTypeError(f"'{text[:40]}' is not A:B, the first and the last row; the rows of the table are --table")
    first, last = (int(end) if end else None for end in text.split(":"))
    if first == 0 or last == 0 or (first or 1) > (last or 10**9):
        raise argparse.ArgumentTypeError(f"{text}: rows count from 1, and the first is not behind the last")
    return first, last


# Options that several commands have


def add_points(command):
    points = command.add_argument_group("points")
    points.add_argument("--x", required=True, type=names, metavar="COLUMN[,..]",
                        help="the columns that y depends on, by name or number from 1")
    points.add_argument("--y", required=True, metavar="COLUMN",
                        help="the column to be explained; a row where it or an x is empty is a gap: it costs nothing and is counted")
    points.add_argument("--frame", metavar="COLUMN",
                        help="frame numbers, kept modulo 65,536 (default: the column called frame, or rows counted from 0)")
    points.add_argument("--rows", type=part_of, default=(None, None), metavar="A:B", help="the rows from A to B alone, counted from 1")
    points.add_argument("--every", type=whole(1, 10**9), default=1, metavar="K", help="of these every K-th row, beginning with the first")
    points.add_argument("--x-step", type=several(decimal(positive=True)), metavar="STEP[,..]",
                        help="what x is a multiple of, one for each column (default: found from the data)")
    points.add_argument("--y-step", type=decimal(positive=True), metavar="STEP",
                        help="what y is a multiple of (default: found from the data)")
    return points


def add_lines(command):
    lines = command.add_argument_group("lines")
    lines.add_argument("--lines", type=whole(1, 4), default=1, metavar="N", help="how many lines, 1 to 4 (default 1)")
    limit = lines.add_mutually_exclusive_group(required=True)
    limit.add_argument("--epsilon", type=decimal(least=0), metavar="E",
                       help="how far from its line a point may lie, in y's units; 3 to 4 times the noise")
    limit.add_argument("--spoiled", type=whole(0, MOST_RECORDS - 1), metavar="Q",
                       help="in place of a threshold: so many samples may be spoiled; the cost is the largest distance of the others")
    lines.add_argument("--loss", choices=list(LOSSES), default=None,
                       help="what a point adds to the cost: 1 if outside epsilon, or its distance or square, cut there (default square)")
    lines.add_argument("--offset", action=argparse.BooleanOptionalAction, default=None,
                       help="lines need not pass through 0 (default: on where --x names one column)")
    return lines


def add_box(command, margin=True, where="around a first guess"):
    """What is searched; where says what a box is without one."""
    box = command.add_argument_group("what is searched")
    box.add_argument("--box", type=several(side), metavar="LOW:HIGH[,..]",
                     help="ranges of the coefficients in your units, the offset last: for each line the same, or line after line; "
                     f"rounded outward (default: {where})")
    box.add_argument("--origin", type=several(decimal()), metavar="X[,..]",
                     help="the x at which the offsets of --box and --start are a line's y (default: 0)")
    if margin:
        box.add_argument("--margin", type=decimal(positive=True), metavar="M",
                         help="the box reaches so many epsilon around the first guess (default 4)")
    box.add_argument("--start", type=several(decimal()), metavar="W[,..]",
                     help="coefficients to start from, line after line (default: the first guess)")
    box.add_argument("--scale", type=whole(0, 15), metavar="S",
                     help="0 to 15: the grid has steps of 1 / 2^S (default: by epsilon and the box)")
    return box


def add_limits(command, gap=True, each="each search", splits="splits at most (default: as many as needed)"):
    """Limits; each says what has the time, and splits what they are of."""
    limits = command.add_argument_group("limits")
    limits.add_argument("--time-limit", type=decimal(least=0), default="60", metavar="SECONDS",
                        help=f"for {each} (default 60; 0 for none)")
    if gap:
        limits.add_argument("--gap", type=decimal(least=0, below=100), default="0", metavar="PERCENT",
                            help="solved when the bound is at most so much below the cost; 0 (default) asks for the first of the best "
                            "lines")
    limits.add_argument("--table", type=whole(1, MOST_TABLE), metavar="R",
                        help="open boxes kept at most (default: as many as needed, up to half of the free memory)")
    limits.add_argument("--splits", type=whole(0, MOST_SPLITS), default=MOST_SPLITS, metavar="B",
                        help=splits)


OUTPUTS = {
    "json": "everything as JSON; without FILE in place of the summary",
    "csv": "a table as CSV",
    "labels": "the input's columns and label, fitted value and residual",
    "coefficients": "single-precision coefficients for flight software, read back and compared",
    "record": "the answer record of 40 bytes",
    "report": "one HTML page with pictures and the certificate",
    "picture": "the pictures of the report: SVG, or PNG where the name ends so",
}


def add_outputs(command, wanted=("json", "labels", "coefficients", "record", "report", "picture"), **said):
    """Files that a command writes; said has other words for some of them."""
    files = command.add_argument_group("output", "- is standard output; a file that is there is kept unless --force is given")
    for name in wanted:
        more = {"nargs": "?", "const": "-"} if name == "json" else {}
        files.add_argument(f"--{name}", metavar="FILE", help=said.get(name, OUTPUTS[name]), **more)
    files.add_argument("--force", action="store_true", help="write over files that are there")


# The commands


def add_fit(commands):
    fit = commands.add_parser("fit", help="fit lines to the points of a file, with a certificate", description=GUIDE,
                              formatter_class=argparse.RawDescriptionHelpFormatter, allow_abbrev=False)
    fit.add_argument("data", metavar="DATA.csv", nargs="+",
                     help="the points: comma, semicolon or tab between columns; - for standard input; of several files each is fitted by "
                     "itself")
    fit.add_argument("--config", metavar="FILE", help="options from a TOML file, by their names without --; those given here come first")
    points = add_points(fit)
    points.add_argument("--with", dest="other", metavar="OTHER.csv",
                        help="a second file of the same pass, such as the other polarisation: both are merged by their frames first")
    add_lines(fit)
    box = add_box(fit)
    box.add_argument("--wide", action="store_true", help="also search a wide box and say whether other lines there fit more points")
    box.add_argument("--ranges", nargs="?", const="1", type=decimal(least=0), metavar="PERCENT",
                     help="also how sure each coefficient is: its range among all lines that cost at most so much more (1 unless given)")
    add_limits(fit)
    add_outputs(fit)
    many = fit.add_argument_group("several files", "a line for each; in the names of output files {} stands for the name of its data file")
    many.add_argument("--summary", metavar="FILE", help="a table with a row for each file: JSON where the name ends so, else CSV")
    many.add_argument("--jobs", type=whole(1, 256), default=1, metavar="N", help="so many files at a time (default 1)")
    fit.add_argument("--strict", action="store_true", help="status 4 where there is a warning")
    fit.add_argument("--quiet", action="store_true", help="no progress on standard error, and no summary there")


def add_later(commands):
    """The commands on files from before."""
    label = commands.add_parser("label", help="label points by a fit from before", allow_abbrev=False)
    label.add_argument("data", metavar="DATA.csv", help="the points, any number of them; - for standard input")
    label.add_argument("--fit", required=True, metavar="FIT.json", help="what vengutari fit --json wrote")
    label.add_argument("--x", type=names, metavar="COLUMN[,..]", help="the columns, where they have other names here")
    label.add_argument("--y", metavar="COLUMN")
    label.add_argument("--frame", metavar="COLUMN")
    label.add_argument("--labels", default="-", metavar="FILE", help="where they go (default: standard output)")
    label.add_argument("--force", action="store_true", help="write over a file that is there")
    coefficients = commands.add_parser("coefficients", help="coefficients for flight software of a fit from before", allow_abbrev=False)
    coefficients.add_argument("source", metavar="FIT", help="what vengutari fit --json wrote, or an answer record")
    coefficients.add_argument("--coefficients", default="-", metavar="FILE", help="where they go (default: standard output)")
    coefficients.add_argument("--force", action="store_true", help="write over a file that is there")
    decode = commands.add_parser("decode", help="say what is in an answer record, a job, coefficients or a fit's JSON", allow_abbrev=False)
    decode.add_argument("source", metavar="FILE", help="- for standard input")
    decode.add_argument("--fit", metavar="FIT.json", help="the fit that a record is of, for your units")


def parser():
    from .request_options import add_requests

    top = Parser(prog="vengutari", description=GUIDE, formatter_class=argparse.RawDescriptionHelpFormatter)
    top.add_argument("--version", action="version", version=f"vengutari {__version__}")
    commands = top.add_subparsers(dest="command", required=True, metavar="COMMAND")
    add_fit(commands)
    add_requests(commands)
    add_later(commands)
    jobs.add_commands(commands)
    return top


def options_of(command):
    """The names of all options of a command."""
    commands = next(action for action in parser()._actions if isinstance(action, argparse._SubParsersAction))
    return list(commands.choices[command]._option_string_actions)


def joined(words):
    """A value that begins with a minus belongs to the option before it."""
    made = []
    for word in words:
        if made and re.fullmatch(r"--[a-z-]+", made[-1]) and re.match(r"-[0-9.]", word):
            made[-1] += f"={word}"
        else:
            made.append(word)
    return made


# Settings


def settings_of(options):
    """The settings of a fit, in the user's units."""
    if options.spoiled is not None and options.loss is not None:
        raise BadUse("--spoiled, --loss: a number of spoiled samples takes the place of threshold and loss; give one of the two")
    if options.margin is not None and options.box is not None:
        raise BadUse("--margin, --box: a margin is for a box that is found; give one of the two")
    limits = Limits(gap=Fraction(options.gap) / 100, seconds=float(options.time_limit) or None, rows=options.table, splits=options.splits)
    made = Settings(
        x=options.x, y=options.y, frame=options.frame, lines=options.lines, offset=options.offset, epsilon=options.epsilon,
        spoiled=options.spoiled, loss=options.loss or "square", wide=options.wide, limits=limits, x_steps=options.x_step,
        y_step=options.y_step, origin=options.origin, scale=options.scale, margin=MARGIN if options.margin is None else options.margin,
        ranges=None if options.ranges is None else Fraction(options.ranges) / 100,
    )
    check_shape(made)
    if options.box is not None:
        sides = made.each(options.box, "--box")
        made.box = [low for low, _ in sides], [high for _, high in sides]
    if options.start is not None:
        made.start = made.each(options.start, "--start")
    made.check()
    return made
