"""The command lines of peel, drift, boards, merge and bus."""

import argparse

from .library import MOST_RECORDS, MOST_SPLITS
from .options import MOST_TABLE, add_box, add_limits, add_lines, add_outputs, add_points, decimal, names, whole

PEEL = """How many modes has this board? Finds the line that holds most points, sets them aside, and goes on with those left.

  vengutari peel pass.csv --x adc_raw --y current_mA --epsilon 3 --report modes.html

Each round has its certificate: no other line of the box and grid holds more of the points then left."""

DRIFT = """A coefficient along the pass: the same fit in window after window, of any number of rows.

  vengutari drift pass.csv --x adc_raw --y current_mA --lines 2 --epsilon 3 --window 200 --hop 50 --csv drift.csv --report drift.html

fits rows 1 to 200, 51 to 250 and so on, each with its certificate."""

BOARDS = """Up to eight boards with one budget of splits: each gets its own budget or its share of those left, whichever is smaller.

  vengutari boards station.toml --splits 200000

The file has options as those of fit, for all boards and then for each:

  lines = 2
  epsilon = 3

  [[board]]
  name = "payload bus"
  data = "pass.csv"
  x = "adc_raw"
  y = "current_mA"
"""

MERGE = """One file of two of the same pass, such as its two polarisations: all frames of either, in order.

  vengutari merge left.csv right.csv --frame frame -o both.csv
  vengutari fit left.csv --with right.csv --frame frame --x adc_raw --y current_mA --epsilon 3

In each file the frames rise. A row that both have is taken once; two rows of one frame that differ are refused."""

BUS = """The fitter on the data bus, for writers of drivers: register accesses against the proved bank, and what each read gives.

  vengutari bus driver.txt --job board.job

An access a line, numbers in decimal or 0x..: w OFFSET BYTE writes, r OFFSET reads; several bytes go to, and r OFFSET COUNT comes from,
offsets one after another. # begins a comment.

  w 0x40 1 2 4 1     n, d, S and p of the job record
  w 0 2              run
  r 1                flags: done, refused, interrupt pending
  r 8 40             the answer record"""


def command(commands, name, words, description):
    return commands.add_parser(name, help=words, description=description, formatter_class=argparse.RawDescriptionHelpFormatter,
                               allow_abbrev=False)


def add_data(made):
    made.add_argument("data", metavar="DATA.csv", help="the points: comma, semicolon or tab between columns; - for standard input")
    made.add_argument("--config", metavar="FILE", help="options from a TOML file, by their names without --; those given here come first")


def add_ends(made):
    made.add_argument("--strict", action="store_true", help="status 4 where there is a warning")
    made.add_argument("--quiet", action="store_true", help="no progress on standard error, and no summary there")


def add_peel(commands):
    peel = command(commands, "peel", "peel one line after another: how many modes are there?", PEEL)
    add_data(peel)
    add_points(peel)
    lines = peel.add_argument_group("lines")
    lines.add_argument("--epsilon", type=decimal(least=0), required=True, metavar="E",
                       help="how far from its line a point may lie, in y's units; 3 to 4 times the noise")
    lines.add_argument("--most", type=whole(1, 4), default=4, metavar="ROUNDS", help="rounds at most, 1 to 4 (default 4)")
    lines.add_argument("--tolerance", type=whole(0, MOST_RECORDS), default=0, metavar="POINTS",
                       help="a round is solved when no line holds more than so many points more; 0 (default) asks for the first of the "
                       "best")
    lines.add_argument("--offset", action=argparse.BooleanOptionalAction, default=None,
                       help="lines need not pass through 0 (default: on where --x names one column)")
    add_box(peel, margin=False, where="every line that stays near the range of the data")
    add_limits(peel, gap=False, each="all rounds together", splits="splits of each round at most (default: as many as needed)")
    add_outputs(peel, ("json", "labels", "coefficients", "report", "picture"))
    add_ends(peel)
    peel.set_defaults(lines=1, loss="count", spoiled=None, margin=None, wide=False, ranges=None, gap=0)


def add_drift(commands):
    drift = command(commands, "drift", "a coefficient along the pass, window by window", DRIFT)
    add_data(drift)
    add_points(drift)
    windows = drift.add_argument_group("windows")
    windows.add_argument("--window", type=whole(1, MOST_RECORDS), required=True, metavar="K", help="rows of a window, at most 4,096")
    windows.add_argument("--hop", type=whole(1, 10**9), required=True, metavar="H", help="rows from one window to the next")
    add_lines(drift)
    add_box(drift, where="around first guesses along the pass")
    add_limits(drift, each="all windows together", splits="splits of each window at most (default: as many as needed)")
    add_outputs(drift, ("json", "csv", "report", "picture"), csv="a table with a row for each window")
    add_ends(drift)
    drift.set_defaults(wide=False, ranges=None)


def add_merge(commands):
    merge = command(commands, "merge", "one file of two of the same pass, by their frames", MERGE)
    merge.add_argument("left", metavar="LEFT.csv", help="the first file; - for standard input")
    merge.add_argument("right", metavar="RIGHT.csv", help="the second file")
    merge.add_argument("--frame", required=True, metavar="COLUMN", help="the column of frame numbers, by name or number from 1")
    merge.add_argument("--columns", type=names, metavar="COLUMN[,..]",
                       help="the columns that are compared and kept (default: all, which both files then have)")
    merge.add_argument("-o", "--output", default="-", metavar="FILE", help="where the rows go (default: standard output)")
    add_outputs(merge, ("json", "report", "picture"), json="which frame each file has, as JSON; without FILE on standard output")
    merge.add_argument("--quiet", action="store_true", help="no summary on standard error")


def add_boards(commands):
    boards = command(commands, "boards", "up to eight boards with one budget of splits", BOARDS)
    boards.add_argument("spec", metavar="SPEC.toml", help="options for all boards, then a part [[board]] for each")
    limits = boards.add_argument_group("limits")
    limits.add_argument("--splits", type=whole(0, MOST_SPLITS), required=True, metavar="T", help="the splits that all boards share")
    limits.add_argument("--time-limit", type=decimal(least=0), default="60", metavar="SECONDS",
                        help="for all boards together (default 60; 0 for none)")
    limits.add_argument("--table", type=whole(1, MOST_TABLE), metavar="R",
                        help="open boxes kept at most (default: as many as needed, up to half of the free memory)")
    add_outputs(boards, ("json", "csv", "report", "picture"), csv="a table with a row for each board")
    boards.add_argument("--quiet", action="store_true", help="no progress on standard error, and no summary there")


def add_bus(commands):
    bus = command(commands, "bus", "run register accesses against the fitter on the data bus", BUS)
    bus.add_argument("accesses", metavar="ACCESSES.txt", help="the accesses, one a line; - for standard input")
    store = bus.add_mutually_exclusive_group()
    store.add_argument("--job", metavar="FILE", help="the store is what stands behind the job record of this file (see vengutari job)")
    store.add_argument("--store", metavar="FILE", help="the store: point records of 12 bytes")
    bus.add_argument("--table", type=whole(1, MOST_TABLE), metavar="R",
                     help="rows of the table that a run is lent (default: as many as the job record asks for)")


def add_requests(commands):
    add_peel(commands)
    add_drift(commands)
    add_boards(commands)
    add_merge(commands)
    add_bus(commands)
