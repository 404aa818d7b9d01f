"""The command merge: one file of two of the same pass."""

import json

from . import __version__, library, merging, points
from .command import REFUSED, SOLVED
from .fit_command import checked_outputs, picture_of, show_and_write
from .picture import Picture, reach
from .report import escaped, pairs_table, shell, verdict

FILES = ("output", "json", "report", "picture")
COLOURS = {(True, True): "#009e73", (True, False): "#0072b2", (False, True): "#d55e00"}


def picture(made):
    """The frames of the pass: those that both files have, and those of one alone."""
    names = ["in both", *(f"{side.table.name} alone" for side in made.sides)]
    shown = [name if len(name) <= 24 else f"..{name[-22:]}" for name in names]
    levels = dict(zip(COLOURS, (3, 2, 1)))
    drawing = Picture(reach(made.frames), (0.4, 3.6), ("frame", ""), "frames received", (720, 220),
                      [(level, name) for level, name in zip(levels.values(), shown)])
    for frame, held in zip(made.frames, made.held):
        drawing.mark(frame, levels[held] - 0.1, COLOURS[held], "tick", f"frame {frame}, {names[3 - levels[held]]}")
    return drawing


def page(made):
    left, right = made.sides
    pairs = [("files", f"{left.table.name}, {right.table.name}"), ("rows", f"{len(left.frames)}, {len(right.frames)}"),
             ("columns", ", ".join(made.table.names)), ("tool", f"vengutari {__version__}"),
             ("SHA-256 of the files", f"{left.table.sum}, {right.table.sum}")]
    body = [verdict(True, [f"<strong>{escaped(merging.summary(made))}</strong>"]), picture(made).svg("wide"),
            '<p class="quiet">Point at a mark for its frame.</p>', "<h2>Settings</h2>", pairs_table(pairs), ""]
    return shell(f"{left.table.name} and {right.table.name}", "\n".join(body))


def as_json(made):
    left, right = made.sides
    told = {
        "format": "vengutari merge 1", "version": __version__, "files": [left.table.name, right.table.name],
        "sha256": [left.table.sum, right.table.sum], "rows": len(made.frames), "both": made.count(True, True),
        "first_alone": made.count(True, False), "second_alone": made.count(False, True), "frames": made.frames,
        "in_first": [first for first, _ in made.held], "in_second": [second for _, second in made.held],
    }
    return json.dumps(told, indent=2, ensure_ascii=False) + "\n"


def command_merge(options, stop):
    outputs = checked_outputs(options, [options.left, options.right], FILES)
    left, right = points.read_table(options.left), points.read_table(options.right)
    made = merging.merged(library.find(), left, right, options.frame, options.columns)
    if stop is not None:
        stop.begin()
    whole = show_and_write(options, outputs, merging.summary(made) + "\n", {
        "--output": lambda: points.with_columns(made.table, [], []),
        "--json": lambda: as_json(made),
        "--report": lambda: page(made),
        "--picture": lambda: picture_of([picture(made)], options.picture),
    })
    return SOLVED if whole else REFUSED
