"""The command fit: the answer on the screen first, then each file by itself."""

import shlex

from . import fitting, library, points, preparing, result, run, saved
from .command import NOT_SOLVED, REFUSED, SOLVED, WARNED, complain
from .options import settings_of
from .outputs import Outputs, say, tell
from .problems import BadUse, Error

FILES = ("json", "labels", "coefficients", "record", "report", "picture")


def labels_text(table, rows):
    """The labels file. A row without y has neither a fitted value nor a residual."""
    label = [str(row.label) for row in rows]
    fitted, residual = [["" if value is None else f"{value:.6g}" for value in values]
                        for values in ([row.fitted for row in rows], [row.residual for row in rows])]
    return points.with_columns(table, ["label", "fitted", "residual"], [label, fitted, residual])


def picture_of(pictures, path):
    """The pictures as SVG, or as PNG where the name ends so."""
    from .picture import figure

    drawing = figure(pictures)
    if not path.lower().endswith(".png"):
        return drawing
    from .raster import png

    return png(drawing)


def made_files(options, calls, table, found):
    """What each output is made by; nothing is made that is not asked for."""
    def coefficients():
        from .coefficients import text

        return text(calls, found)

    def report():
        from .report import page

        return page(found)

    def picture():
        from .pictures import Pictures

        return picture_of(Pictures(found).all(), options.picture)

    return {
        "--labels": lambda: labels_text(table, found.rows),
        "--coefficients": coefficients,
        "--record": lambda: calls.write_answer(found.answer, found.model.n, found.model.d, found.model.scale),
        "--report": report,
        "--picture": picture,
        "--json": lambda: saved.as_json(found),
    }


def show(text, taken, quiet):
    """The summary on standard output, or on standard error where that is taken or takes nothing."""
    if taken:
        if not quiet:
            tell(text)
        return True
    try:
        say(text)
        return True
    except Error as problem:
        complain(problem)
        tell(text)
        return False


def checked_outputs(options, inputs, files=FILES):
    """The places of the output files, looked at before the work."""
    outputs = Outputs([path for path in inputs if path is not None], options.force)
    for name in files:
        if getattr(options, name) is not None:
            outputs.check(f"--{name}", getattr(options, name))
    if options.picture is not None and options.picture.lower().endswith(".png"):
        from .raster import program_here

        program_here()
    return outputs


def inputs_of(options):
    """The files that a fit reads; of several files none is written over for another."""
    return [*getattr(options, "inputs", options.data), options.other]


def show_and_write(options, outputs, text, makers):
    """The summary on the screen first, then each file by itself; says whether all came to its place."""
    taken = "-" in outputs.paths.values()
    done = show(text, taken, options.quiet)
    written = outputs.write_all(makers, complain)
    if not written and taken and options.quiet:
        tell(text)
    return done and written


def fit_file(options, progress, stop):
    """The fit of the one file that is given, or of two that are merged, and its table."""
    calls, settings = library.find(), settings_of(options)
    table, notes = points.read_table(options.data[0]), []
    if options.other is not None:
        table, notes = merged_table(calls, table, points.read_table(options.other), settings)
    table = table.part(*options.rows, options.every)
    found = fitting.fit_table(calls, table, settings, progress, stop)
    found.notes += notes
    found.command = shlex.join(["vengutari", *options.words])
    return calls, table, found


def merged_table(calls, table, other, settings):
    """Two files as one, by their frames, and what became of their rows; of the columns those that are used are compared."""
    from .merging import merged, summary

    preparing.named(table, settings)
    if settings.frame is None:
        raise BadUse("--with: two files are merged by their frames: give --frame")
    for one in (table, other):
        points.read_points(one, settings.x, settings.y, settings.frame)
    made = merged(calls, table, other, settings.frame, [*settings.x, settings.y, settings.frame])
    return made.table, [f"merged: {summary(made)}"]


def status_of(options, found):
    if options.strict and found.warnings:
        return WARNED
    return SOLVED if found.kind == "solved" else NOT_SOLVED


def command_fit(options, stop):
    settings_of(options)
    outputs = checked_outputs(options, inputs_of(options))
    calls, table, found = fit_file(options, None if options.quiet else run.line_of_progress, stop)
    whole = show_and_write(options, outputs, result.summary(found), made_files(options, calls, table, found))
    return status_of(options, found) if whole else REFUSED
