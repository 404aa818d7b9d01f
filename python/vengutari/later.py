"""The commands on files from before: label, coefficients and decode."""

from fractions import Fraction

from . import coefficients, fitting, library, points, result, saved, scaling
from .command import SOLVED
from .fit_command import labels_text
from .library import ANSWER_BYTES, JOB_BYTES, RECORD_BYTES
from .outputs import Outputs, say
from .problems import BadInput, BadUse


def saved_of(path):
    return saved.saved_from(points.read_text(path), path)


def command_label(options):
    outputs = Outputs([options.data, options.fit], options.force)
    outputs.check("--labels", options.labels)
    fit = saved_of(options.fit)
    x = options.x or fit.x
    if len(x) != len(fit.x):
        raise BadUse(f"--x: {len(x)} columns where the fit has {len(fit.x)}")
    table = points.read_table(options.data)
    kept = fit.frame if options.x is None and fit.frame in table.names else None
    read = points.read_points(table, x, options.y or fit.y, options.frame or kept)
    model = fit.model._replace(p=0)
    whole = scaling.whole_points(read, fit.scaling)
    far = fitting.far_on_lines(model, fit.scaling, fit.vector, read, whole)
    if far:
        raise BadInput(far[0])
    labels = fitting.row_labels(library.find(), model, fit.vector, read, whole)
    rows = result.rows_of(fit.scaling, model.n, fit.vector, read, labels)
    outputs.write("--labels", labels_text(table, rows))
    if options.labels != "-":
        counts = result.counts_of(labels, model.n)
        say(", ".join(f"{count} {name}" if name[:4] != "line" else f"{name}: {count}" for name, count in counts.items()) + "\n")
    return SOLVED


def plain_scaling(d, scale):
    """The units of a record alone: whole numbers."""
    columns = [scaling.Column(name, Fraction(1)) for name in (*(f"x{k + 1}" for k in range(d)), "y")]
    return scaling.Scaling(columns[:-1], columns[-1], scale)


def saved_or_record(calls, path):
    """A fit out of its JSON, or what an answer record alone says."""
    data = points.read_bytes(path)
    if len(data) != ANSWER_BYTES:
        return saved_of(path)
    answer, n, d, scale = calls.read_answer(data)
    return saved.Saved(plain_scaling(d, scale), library.Model(n, d, scale, 0, 0), answer.vector, [], "y", None)


def command_coefficients(options):
    outputs = Outputs([options.source], options.force)
    outputs.check("--coefficients", options.coefficients)
    calls = library.find()
    outputs.write("--coefficients", coefficients.text(calls, saved_or_record(calls, options.source)))
    return SOLVED


def record_text(calls, data, fit):
    answer, n, d, scale = calls.read_answer(data)
    if fit is not None and (fit.model.n, fit.model.d, fit.model.scale) != (n, d, scale):
        raise BadInput("--fit: the fit has another number of lines or coefficients, or another scale, than the record")
    scales = plain_scaling(d, scale) if fit is None else fit.scaling
    text = [f"answer record: {answer.kind}, C = {answer.cost}, L = {answer.bound}, gap {result.gap_text(answer)}, {answer.splits:,} splits"]
    text += [f"line {j + 1}: {result.equation(scales, answer.vector, j)}" for j in range(n)]
    return "\n".join(text) + "\n"


def job_text(calls, data):
    (n, d, scale, p, epsilon, t, budget, rows), low, high, start = calls.read_job(data)
    count = (len(data) - JOB_BYTES) // RECORD_BYTES
    limit = "spoiled" if p == library.SPOILED else "epsilon"
    text = [f"job with {count} points: {n} lines of {d}, S = {scale}, p = {p}, {limit} = {epsilon}, t = {t}, budget {budget}, {rows} rows"]
    text += [f"{name}: {', '.join(map(str, values[: n * d]))}" for name, values in (("low", low), ("high", high), ("start", start))]
    return "\n".join(text) + "\n"


def coefficients_text(data, name):
    lines = coefficients.read(data.decode("utf-8", "replace"), name)
    text = []
    for j, columns in sorted(lines.items()):
        terms = [f"{name} {coefficients.decimal(units)} ({units:08X})" for units, _, name in columns]
        text.append(f"line {j}: " + ", ".join(terms))
    return "\n".join(text) + "\n"


def command_decode(options):
    data = points.read_bytes(options.source)
    calls = library.find()
    fit = None if options.fit is None else saved_of(options.fit)
    if data.startswith(coefficients.HEAD.encode()):
        say(coefficients_text(data, options.source))
    elif len(data) == ANSWER_BYTES:
        say(record_text(calls, data, fit))
    elif data[:1] == b"{":
        made = saved.saved_from(data.decode("utf-8", "replace"), options.source)
        say("".join(f"line {j + 1}: {result.equation(made.scaling, made.vector, j)}\n" for j in range(made.model.n)))
    elif len(data) > JOB_BYTES and (len(data) - JOB_BYTES) % RECORD_BYTES == 0:
        say(job_text(calls, data))
    else:
        raise BadInput(f"{options.source}: {len(data):,} bytes that are no answer record, job, coefficients or fit")
    return SOLVED


COMMANDS = {"label": command_label, "coefficients": command_coefficients, "decode": command_decode}
