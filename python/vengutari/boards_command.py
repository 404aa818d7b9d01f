"""The command boards: who got what of one budget, and who was refused and why."""

import csv
import io
import json
import os
import shlex

from . import __version__, boards, library, result, saved
from .command import NOT_SOLVED, REFUSED, SOLVED
from .fit_command import checked_outputs, picture_of, show_and_write
from .picture import Picture
from .pictures import Pictures
from .report import cells, escaped, pairs_table, shell, table, verdict, warnings_of
from .run import gap_of
from .settings import Limits

FILES = ("json", "csv", "report", "picture")
GOT, USED = "#b8c4ce", "#0072b2"


class Shared:
    """The boards after the search."""

    def __init__(self, path, made, total, shared, stopped, seconds, command):
        self.path, self.boards, self.total, self.shared = path, made, total, shared
        self.stopped, self.seconds, self.command = stopped, seconds, command

    def used(self, board):
        return 0 if board.fit is None else board.fit.answer.splits

    @property
    def status(self):
        kinds = {board.kind for board in self.boards}
        return REFUSED if "refused" in kinds else SOLVED if kinds == {"solved"} else NOT_SOLVED

    def headline(self):
        """How many boards came to what."""
        kinds = [board.kind for board in self.boards]
        counts = ", ".join(f"{kinds.count(kind)} {kind}" for kind in ("solved", "spent", "full", "refused") if kind in kinds)
        used = sum(map(self.used, self.boards))
        count = len(kinds)
        why = "" if self.stopped == "splits" else result.STOPPED[self.stopped]
        fewer = f", of which {self.shared:,} were shared out" if self.shared < self.total else ""
        return f"{count} board{'s' if count > 1 else ''}: {counts}{why}; {used:,} of {self.total:,} splits{fewer}, {self.seconds:.1f} s"

    def row(self, board):
        """Name, what it got and used, kind and gap, and its lines or why there are none."""
        if board.fit is None:
            return [board.name, f"{board.budget:,}", "0", "refused", "", board.problem]
        lines = [result.equation(board.fit.scaling, board.fit.vector, j) for j in range(board.fit.model.n)]
        answer = board.fit.answer
        return [board.name, f"{board.budget:,}", f"{answer.splits:,}", answer.kind, result.gap_text(answer), "; ".join(lines)]


HEAD = ["board", "got", "used", "kind", "gap", "lines, or why it is refused"]
NUMBERS = (1, 2, 4)


def summary(shared):
    rows = [HEAD, *(shared.row(board) for board in shared.boards)]
    widths = [max(map(len, column)) for column in zip(*rows)]
    text = [shared.headline()]
    for row in rows:
        placed = [cell.rjust(width) if k in NUMBERS else cell.ljust(width) for k, (cell, width) in enumerate(zip(row, widths))]
        text.append("  ".join(placed).rstrip())
    for board in shared.boards:
        if board.fit is not None:
            text.append(f"{board.name}: certificate: {result.certificate(board.fit)}")
            text += [f"{board.name}: warning: {warning}" for warning in board.fit.warnings]
    return "\n".join(text) + "\n"


def as_csv(shared):
    out = io.StringIO()
    writer = csv.writer(out, lineterminator="\n")
    writer.writerow(["board", "file", "got", "used", "kind", "gap_percent", "cost", "bound", "lines", "problem"])
    for board in shared.boards:
        if board.fit is None:
            writer.writerow([board.name, board.path, board.budget, 0, "refused", "", "", "", "", board.problem])
            continue
        answer, unit = board.fit.answer, board.fit.scaling.cost_unit(board.fit.model.p)
        writer.writerow([board.name, board.path, board.budget, answer.splits, answer.kind, f"{100 * gap_of(answer):.6g}",
                         f"{float(answer.cost * unit):.10g}", f"{float(answer.bound * unit):.10g}", shared.row(board)[-1], ""])
    return out.getvalue()


def as_json(shared):
    made = {
        "format": "vengutari boards 1", "version": __version__, "spec": shared.path, "command": shared.command, "splits": shared.total,
        "shared": shared.shared,
        "stopped": shared.stopped, "seconds": round(shared.seconds, 3),
        "boards": [{"name": board.name, "file": board.path, "got": board.budget, "used": shared.used(board), "kind": board.kind,
                    "code": board.code, "problem": board.problem, "fit": None if board.fit is None else saved.as_dictionary(board.fit)}
                   for board in shared.boards],
    }
    return json.dumps(made, indent=2, ensure_ascii=False) + "\n"


def shares_picture(shared):
    """What each board got of the budget, and how much of it it used."""
    count = len(shared.boards)
    most = max(1, *(board.budget for board in shared.boards))
    ticks = [(count - k - 0.5, board.name if len(board.name) <= 24 else board.name[:22] + "..") for k, board in enumerate(shared.boards)]
    picture = Picture((0, 1.04 * most), (0, count), ("splits", ""), "what each board got, and used of it", (720, 90 + 44 * count), ticks)
    for k, board in enumerate(shared.boards):
        low, used = count - k - 0.85, shared.used(board)
        for length, ends, colour, words in ((board.budget, (low, low + 0.7), GOT, "got"), (used, (low + 0.15, low + 0.55), USED, "used")):
            if length:
                picture.bar((0, length), ends, colour, f"{board.name}: {words} {length:,}")
    return picture


def points_picture(board):
    """The points and lines of a board, under its name."""
    picture = Pictures(board.fit).points()
    picture.title = f"{board.name}: {picture.title}"
    return picture


def board_part(board):
    """One board on the page."""
    head = f"<h2>{escaped(board.name)}</h2>\n"
    if board.fit is None:
        return head + verdict(False, [f"<strong>refused: {escaped(board.problem)}</strong>"]) + "\n"
    fit = board.fit
    lines = [escaped(result.equation(fit.scaling, fit.vector, j)) for j in range(fit.model.n)]
    certificate = f"Certificate: {escaped(result.certificate(fit))}."
    parts = [f"<strong>{escaped(result.headline(fit))}</strong>", *lines, certificate, *warnings_of(fit)]
    return head + verdict(fit.kind == "solved", parts) + "\n" + points_picture(board).svg("wide") + "\n"


def page(shared):
    rows = [cells([(name, k in NUMBERS) for k, name in enumerate(HEAD)], "th")]
    rows += [cells([(text, k in NUMBERS) for k, text in enumerate(shared.row(board))]) for board in shared.boards]
    pairs = [("spec", shared.path), ("splits", f"{shared.total:,}"), ("command", shared.command), ("tool", f"vengutari {__version__}")]
    pairs += [(f"SHA-256 of {board.name}", board.table.sum) for board in shared.boards if board.table is not None]
    body = [verdict(shared.status == SOLVED, [f"<strong>{escaped(shared.headline())}</strong>"]), table("boards", rows), "<h2>Shares</h2>",
            shares_picture(shared).svg("wide"), *(board_part(board) for board in shared.boards), "<h2>Settings</h2>",
            pairs_table(pairs), ""]
    return shell(f"{os.path.basename(shared.path)}: {len(shared.boards)} boards", "\n".join(body))


def pictures(shared):
    return [shares_picture(shared), *(points_picture(board) for board in shared.boards if board.fit is not None)]


def command_boards(options, stop):
    made = boards.boards_of(options.spec)
    outputs = checked_outputs(options, [options.spec, *(board.path for board in made)], FILES)
    limits = Limits(seconds=float(options.time_limit) or None, rows=options.table, splits=options.splits)
    progress = None if options.quiet else boards.line_of_progress
    total, stopped, seconds = boards.search_all(library.find(), made, limits, progress, stop)
    shared = Shared(options.spec, made, options.splits, total, stopped, seconds, shlex.join(["vengutari", *options.words]))
    whole = show_and_write(options, outputs, summary(shared), {
        "--json": lambda: as_json(shared),
        "--csv": lambda: as_csv(shared),
        "--report": lambda: page(shared),
        "--picture": lambda: picture_of(pictures(shared), options.picture),
    })
    return shared.status if whole else REFUSED
