"""Files of points near known lines, with noise, outliers and gaps, and the command run on them within the test."""

import contextlib
import io
import pathlib
import random
import signal
import struct
import sys
from dataclasses import dataclass, field

ROOT = pathlib.Path(__file__).resolve().parents[2]
sys.path.insert(0, str(ROOT / "python"))

from vengutari.command import main  # noqa: E402

TOOL = str(ROOT / "tools" / "vengutari")


@dataclass
class Made:
    """Lines are (coefficients .., offset). labels has what made each row: its line from 1, 0 an outlier, None a gap."""

    lines: list
    ranges: list
    count: int
    noise: float = 0.5
    outliers: float = 0.1
    gaps: int = 0
    seed: int = 1
    y_decimals: int = 1
    x_decimals: int = 0
    delimiter: str = ","
    decimal_comma: bool = False
    x: list = field(default_factory=list)
    y: list = field(default_factory=list)
    labels: list = field(default_factory=list)

    def value(self, j, x):
        return sum(a * v for a, v in zip(self.lines[j], [*x, 1]))

    def row(self, numbers):
        x = [round(numbers.uniform(*ends), self.x_decimals) for ends in self.ranges]
        j = numbers.randrange(len(self.lines))
        y = self.value(j, x) + max(-3.0, min(3.0, numbers.gauss(0, 1))) * self.noise
        label = j + 1
        if numbers.random() < self.outliers:
            values = [self.value(k, x) for k in range(len(self.lines))]
            y, label = max(values) + numbers.uniform(20, 200), 0
        return x, round(y, self.y_decimals), label

    def text(self):
        numbers = random.Random(self.seed)
        self.x, self.y, self.labels = [], [], []
        names = ["frame", *(f"x{k + 1}" for k in range(len(self.ranges))), "y", "remark"]
        lines = ["# made by a test", self.delimiter.join(names)]
        for k in range(self.count):
            x, y, label = self.row(numbers)
            if k % 11 == 5 and self.labels.count(None) < self.gaps:
                y, label = None, None
            self.x.append(x)
            self.y.append(y)
            self.labels.append(label)
            shown = [*(f"{v:.{self.x_decimals}f}" for v in x), "" if y is None else f"{y:.{self.y_decimals}f}"]
            if self.decimal_comma:
                shown = [v.replace(".", ",") for v in shown]
            lines.append(self.delimiter.join([str(k), *shown, f"row {k}"]))
        return "\n".join(lines) + "\n"


def store_of(rows, frames=None):
    """A store of rows (x, y), with y None for a gap."""
    records = zip(rows, frames or range(len(rows)))
    return b"".join(struct.pack(">5hH", *x, *[0] * (4 - len(x)), -32768 if y is None else y, frame) for (x, y), frame in records)


def heeding():
    """In a new process: signals as a terminal leaves them, whatever the tests run under."""
    signal.signal(signal.SIGINT, signal.default_int_handler)
    for number in (signal.SIGTERM, signal.SIGHUP):
        signal.signal(number, signal.SIG_DFL)


def run(*words):
    """The command's status, standard output and standard error, in this process."""
    out, err = io.TextIOWrapper(io.BytesIO(), encoding="utf-8"), io.TextIOWrapper(io.BytesIO(), encoding="utf-8")
    with contextlib.redirect_stdout(out), contextlib.redirect_stderr(err):
        try:
            status = main([str(word) for word in words])
        except SystemExit as end:
            status = end.code
    out.flush()
    err.flush()
    return status, out.buffer.getvalue().decode(), err.buffer.getvalue().decode()
