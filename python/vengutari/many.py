"""Several files, each fitted by itself in a process of its own: a line for each, and a table of all."""

import csv
import io
import json
import multiprocessing
import multiprocessing.connection
import os
import pathlib
import signal
from argparse import Namespace

from . import result
from .command import INTERRUPTED, REFUSED, SOLVED, Interrupts, complain
from .fit_command import FILES, checked_outputs, fit_file, inputs_of, made_files, status_of
from .options import settings_of
from .outputs import Outputs, say
from .problems import BadUse, Error
from .run import gap_of

COLUMNS = ("file", "status", "kind", "gap_percent", "cost", "bound", "splits", "seconds", "rows", "outliers", "undecided", "gaps",
           "lines", "warnings", "problem")
# From the best to the worst.
WORST = (0, 3, 4, INTERRUPTED, 1)
GLANCE = 0.05


def placed(options, path):
    """The options for one file: in the names of output files {} stands for its name."""
    stem = "standard-input" if path == "-" else pathlib.Path(path).stem
    made = {name: getattr(options, name).replace("{}", stem) for name in FILES if getattr(options, name) is not None}
    return Namespace(**{**vars(options), **made, "data": [path], "inputs": options.data})


def check(options):
    """What can be said before the first search."""
    settings_of(options)
    if options.other is not None and len(options.data) > 1:
        raise BadUse("--with: a second file belongs to one file of points; give one")
    for name in FILES:
        place = getattr(options, name)
        if place == "-":
            raise BadUse(f"--{name}: with several files, or --summary, it needs a file, not standard output")
        if place is not None and "{}" not in place and len(options.data) > 1:
            raise BadUse(f"--{name}: several files need a place each: write {{}} where the file's name belongs")
    outputs = Outputs(options.data, options.force)
    if options.summary:
        outputs.check("--summary", options.summary)
    taken = {}
    for path in options.data:
        task = placed(options, path)
        for option, place in checked_outputs(task, inputs_of(task)).paths.items():
            if taken.setdefault(os.path.abspath(place), path) != path and place != "-":
                raise BadUse(f"{option}: {place} would be written for {taken[os.path.abspath(place)]} and for {path}")
    return outputs


def row_of(found, status):
    """What the table says of a fit."""
    counts, answer = result.counts_of(found.labels, 0), found.answer
    lines = [result.equation(found.scaling, found.vector, j) for j in range(found.model.n)]
    unit = found.scaling.cost_unit(found.model.p)
    return {"status": status, "kind": answer.kind, "gap_percent": 100 * gap_of(answer), "cost": float(answer.cost * unit),
            "bound": float(answer.bound * unit), "splits": answer.splits, "seconds": round(found.outcome.seconds, 3),
            "rows": len(found.labels), **counts, "lines": lines, "warnings": found.warnings, "problem": ""}


def fit_one(options):
    """One file with its outputs, as a row of the table."""
    stop, problems = Interrupts(), []
    try:
        outputs = checked_outputs(options, inputs_of(options))
        calls, table, found = fit_file(options, None, stop)
        written = outputs.write_all(made_files(options, calls, table, found), problems.append)
        row = row_of(found, status_of(options, found) if written else REFUSED)
        return {**row, "problem": "; ".join(map(str, problems))}
    except Error as problem:
        return {"status": REFUSED, "problem": str(problem).removeprefix(f"{options.data[0]}: ")}
    except KeyboardInterrupt:
        return {"status": INTERRUPTED, "problem": "interrupted"}
    except MemoryError:
        return {"status": REFUSED, "problem": "not enough memory; --table keeps fewer boxes open"}
    except OSError as error:
        return {"status": REFUSED, "problem": str(error.strerror or error)}


def work(options, pipe):
    pipe.send(fit_one(options))
    pipe.close()


class Workers:
    """At most so many processes at a time; a request to end is handed to them, and no more are begun."""

    def __init__(self, tasks, jobs, stop):
        methods = multiprocessing.get_all_start_methods()
        self.context = multiprocessing.get_context("fork" if "fork" in methods else "spawn")
        self.tasks, self.jobs, self.stop = tasks, jobs, stop
        self.running, self.rows, self.told = {}, {}, False

    def begin(self, k):
        ours, theirs = self.context.Pipe(duplex=False)
        process = self.context.Process(target=work, args=(self.tasks[k], theirs))
        process.start()
        theirs.close()
        self.running[ours] = k, process

    def tell(self):
        if self.stop is not None and self.stop.asked and not self.told:
            self.told = True
            for _, process in self.running.values():
                if process.is_alive():
                    os.kill(process.pid, signal.SIGTERM)

    def take(self, pipe):
        k, process = self.running.pop(pipe)
        try:
            self.rows[k] = pipe.recv()
        except EOFError:
            self.rows[k] = {"status": REFUSED, "problem": "the process that fitted it was ended"}
        process.join()

    def run(self):
        """The rows in the order of the files, each as soon as those before it are there."""
        shown = waiting = 0
        while shown < len(self.tasks):
            ended = self.stop is not None and self.stop.asked
            while waiting < len(self.tasks) and (ended or len(self.running) < self.jobs):
                if ended:
                    self.rows[waiting] = {"status": INTERRUPTED, "problem": "not begun: interrupted"}
                else:
                    self.begin(waiting)
                waiting += 1
            self.tell()
            for pipe in multiprocessing.connection.wait(list(self.running), GLANCE) if self.running else []:
                self.take(pipe)
            while shown in self.rows:
                yield self.rows[shown]
                shown += 1


def line_of(path, row):
    if "kind" not in row:
        return f"{path}: {row['problem']}"
    several = f", {len(row['warnings'])} warning{'s' if len(row['warnings']) > 1 else ''}" if row["warnings"] else ""
    words = f"{path}: {row['kind']}, gap {row['gap_percent']:.3g} %, {row['outliers']} of {row['rows']} rows outliers{several}"
    return words + (f"; {row['problem']}" if row["problem"] else "") + "".join(f"; {line}" for line in row["lines"])


def table_of(rows, name):
    """All rows as JSON or CSV, by the ending of the name."""
    whole = [{column: row.get(column) for column in COLUMNS} for row in rows]
    if name.endswith(".json"):
        return json.dumps(whole, indent=2, ensure_ascii=False) + "\n"
    out = io.StringIO()
    writer = csv.writer(out, lineterminator="\n")
    writer.writerow(COLUMNS)
    for row in whole:
        writer.writerow("; ".join(value) if isinstance(value, list) else "" if value is None else value for value in row.values())
    return out.getvalue()


def command_many(options, stop):
    outputs = check(options)
    if stop is not None:
        stop.begin()
    made, taken = [], options.summary == "-"
    for path, row in zip(options.data, Workers([placed(options, path) for path in options.data], options.jobs, stop).run()):
        made.append({"file": path, **row})
        if not taken:
            say(line_of(path, row) + "\n")
    written = outputs.write_all({"--summary": lambda: table_of(made, options.summary)}, complain)
    statuses = [row["status"] for row in made] + ([] if written else [REFUSED])
    return max(statuses, key=WORST.index, default=SOLVED)
