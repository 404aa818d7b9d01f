"""Several boards with one budget of splits.

The library shares out the budget and searches, one board after another; a board whose file cannot be used has its place in the call all
the same, with an empty store, which the library refuses: so the others' shares are what they are by its rule.
"""

import os
from dataclasses import dataclass

from . import fitting, points, preparing, run
from . import library as calls
from .config import load, word_of
from .growing import Growing, ended, marked, tolerance
from .options import joined, options_of, parser, settings_of
from .problems import BadUse, Error, Refused
from .progress import told

MOST_BOARDS = 8
# What is of the whole command, or of one fit's files.
NOT_HERE = {"config", "help", "with", "summary", "jobs", "strict", "quiet", "force", "json", "labels", "coefficients", "record", "report",
            "picture", "time-limit", "table", "wide", "ranges"}


@dataclass
class Board:
    """One board: what is asked for, why its file is refused or the fit, the splits that it got, and the library's code."""

    name: str
    path: str
    settings: object
    part: tuple
    table: object = None
    made: object = None
    problem: str = None
    code: int = 0
    budget: int = 0
    fit: object = None

    @property
    def kind(self):
        return "refused" if self.fit is None else self.fit.kind


# The file of boards


def words_of(path, where, given):
    """The options of a board as words of fit."""
    known = {option[2:] for option in options_of("fit") if option.startswith("--") and not option.startswith("--no-")} - NOT_HERE
    for key in given:
        if key not in known:
            raise BadUse(f"{path}: {where}: '{key}' is no option of a board")
    return [word for key, value in given.items() for word in word_of(path, key, value)]


def board_of(path, number, common, given):
    """One board out of its part of the file; its data lie where that says, seen from the file."""
    where = f"board {number}"
    if not isinstance(given, dict) or not isinstance(given.get("data"), str):
        raise BadUse(f"{path}: {where} names no file: data = \"pass.csv\"")
    name = str(given.get("name", os.path.basename(given["data"])))
    own = {key: value for key, value in given.items() if key not in ("name", "data")}
    words = words_of(path, where, {**{key: value for key, value in common.items() if key not in own}, **own})
    data = os.path.join(os.path.dirname(path), given["data"])
    try:
        options = parser().parse_args(joined(["fit", data, *words]))
        return Board(name, data, settings_of(options), (*options.rows, options.every))
    except BadUse as problem:
        raise BadUse(f"{path}: {where}, {name}: {str(problem).removesuffix(' (see vengutari fit --help)')}") from None


def boards_of(path):
    """The boards of a file: options for all, then a part for each."""
    made = load(path, "SPEC")
    given = made.pop("board", [])
    if not isinstance(given, list) or not 1 <= len(given) <= MOST_BOARDS:
        raise BadUse(f"{path}: {len(given) if isinstance(given, list) else 'no list of'} boards, where 1 to {MOST_BOARDS} share a budget: "
                     "each begins with [[board]]")
    found = [board_of(path, k, made, board) for k, board in enumerate(given, 1)]
    names = [board.name for board in found]
    if len(set(names)) < len(names):
        raise BadUse(f"{path}: two boards are called '{next(name for name in names if names.count(name) > 1)}': give each a name")
    return found


def prepare(library, board):
    """Reads a board's file and makes its job; what is wrong with it costs this board alone."""
    try:
        board.table = points.read_table(board.path).part(*board.part)
        preparing.check_count(len(board.table.rows))
        board.made = preparing.prepare(library, preparing.points_of(board.table, board.settings), board.settings)
    except Error as problem:
        board.problem = str(problem)


# The searches


class Shares:
    """The call, with the whole budget once all are solved with less: what each got is then said of the whole. Gives the budget too."""

    def __init__(self, library, boards, total):
        self.library, self.boards, self.total = library, boards, total
        self.settled = False
        self.tolerances = [self.first_tolerance(board) for board in boards]

    def first_tolerance(self, board):
        if board.made is None or not board.settings.limits.gap:
            return 0
        job = board.made.job
        return max(1, int(board.settings.limits.gap * self.library.cost(job.store, job.model, job.start)))

    def job(self, board, t):
        if board.made is None:
            return bytes(calls.JOB_BYTES)
        job = board.made.job
        return self.library.write_job(job.model, t, board.settings.limits.splits, 0, job.low, job.high, job.start)

    def __call__(self, splits, rows):
        total = self.total if self.settled else splits
        jobs = [self.job(board, t) for board, t in zip(self.boards, self.tolerances)]
        stores = [b"" if board.made is None else board.made.job.store for board in self.boards]
        made, gaps = [], [board.settings.limits.gap for board in self.boards]
        for board, (code, budget, answer) in zip(self.boards, self.library.boards(total, jobs, stores, rows)):
            used = None if answer is None else answer._replace(vector=answer.vector[: len(board.made.job.low)])
            made.append((code, budget, used))
        self.tolerances = [0 if answer is None else tolerance([answer], gap) for (_, _, answer), gap in zip(made, gaps)]
        made = [(code, budget, answer and marked(answer, gap)) for (code, budget, answer), gap in zip(made, gaps)]
        self.settled = all(answer is None or answer.kind == "solved" for _, _, answer in made)
        return total, made

    def done(self, given):
        total, made = given
        why = ended([answer.kind for _, _, answer in made if answer is not None])
        return None if why == "solved" and total < self.total else why


def line_of_progress(seconds, given, splits):
    _, made = given
    solved = sum(answer is not None and answer.kind == "solved" for _, _, answer in made)
    told(seconds, f"{solved} of {len(made)} boards solved", splits)


def search_all(library, boards, limits, progress=None, stop=None):
    """Gives each board what it got, and its fit or why it is refused; says of how many splits that is, why no more, and the seconds."""
    stop = stop or run.Stop()
    for board in boards:
        prepare(library, board)
    stop.begin()
    shares = Shares(library, boards, limits.splits)
    (total, made), stopped, seconds = Growing(shares, shares.done, limits, progress, stop).run()
    for board, (code, budget, answer), t in zip(boards, made, shares.tolerances):
        board.code, board.budget = code, budget
        if answer is None:
            board.problem = board.problem or str(Refused(code % 256, calls.MESSAGES[code % 256]))
            continue
        why = "solved" if answer.kind == "solved" else "rows" if answer.kind == "full" else stopped if stopped != "solved" else "splits"
        board.fit = fitting.fit_of(library, board.made, run.Outcome(answer, why, seconds, t))
        board.fit.source, board.fit.data_sum = board.table.name, board.table.sum
    return total, stopped, seconds
