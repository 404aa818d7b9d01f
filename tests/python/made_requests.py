"""What the tests of peel, drift, ranges, boards and merge share: a folder, refusals, and records out of a JSON of the command."""

import os
import pathlib
import struct
import subprocess
import sys
import tempfile
import unittest
from fractions import Fraction

from made_points import ROOT, heeding, run

# Plays a request to end just before a function's given call, in a process of its own.
PLAYED = """import os, signal, sys
sys.path.insert(0, {path!r})
import vengutari.{module}
owner = {owner}
real, calls = owner.{name}, []
def played(*a, **k):
    calls.append(1)
    if len(calls) == {call}:
        os.kill(os.getpid(), signal.SIGTERM)
    return real(*a, **k)
owner.{name} = played
from vengutari.command import main
sys.exit(main())"""


class Folder(unittest.TestCase):
    """A folder of the test, which is the current one."""

    def setUp(self):
        held = tempfile.TemporaryDirectory()
        self.addCleanup(held.cleanup)
        self.folder = pathlib.Path(held.name)
        before = os.getcwd()
        os.chdir(self.folder)
        self.addCleanup(os.chdir, before)

    def write(self, name, text):
        (self.folder / name).write_text(text, encoding="utf-8")
        return name

    def read(self, name):
        return (self.folder / name).read_text(encoding="utf-8")

    def refused(self, status, words, *command):
        """One line with these words, the status, nothing on standard output, and no file more than before."""
        before = sorted(os.listdir(self.folder))
        done = run(*command)
        self.assertEqual(done[:2], (status, ""), done)
        self.assertIn(words, done[2])
        self.assertTrue(done[2].startswith("vengutari: ") and done[2].count("\n") == 1, done[2])
        self.assertEqual(sorted(os.listdir(self.folder)), before)

    def ended(self, module, owner, name, call, *words):
        """The command in a process of its own, with a request to end played at a call."""
        whole = f"vengutari.{module}" + (f".{owner}" if owner else "")
        code = PLAYED.format(path=str(ROOT / "python"), module=module, owner=whole, name=name, call=call)
        words = [sys.executable, "-c", code, *map(str, words)]
        return subprocess.run(words, capture_output=True, text=True, check=False, preexec_fn=heeding)


def rounded(value):
    return int(abs(value) + Fraction(1, 2)) * (1 if value >= 0 else -1)


def records(found, rows):
    """Rows (x .., y) of text in whole numbers, by the scaling of a JSON alone; y is None for a gap."""
    columns, y_column = found["scaling"]["x"], found["scaling"]["y"]

    def counted(text, column):
        return rounded((Fraction(text) - Fraction(column["origin"])) / Fraction(column["step"])) * column["factor"]

    made = []
    for *x, y in rows:
        whole = [counted("1" if c["constant"] else v, c) for v, c in zip([*x, "1"], columns)]
        made.append((whole, None if y == "" else counted(y, y_column)))
    return made


def store(made):
    return b"".join(struct.pack(">5hH", *x, *[0] * (4 - len(x)), -32768 if y is None else y, 0) for x, y in made)


def cost(found, made, vector, epsilon, p):
    """The cost of a vector in plain arithmetic, from the papers' formula."""
    scale, d = found["scaling"]["scale"], len(found["scaling"]["x"])
    total = 0
    for x, y in made:
        if y is None:
            continue
        sizes = [abs(y * 2**scale - sum(w * v for w, v in zip(vector[k : k + d], x))) for k in range(0, len(vector), d)]
        total += (min(sizes) > epsilon) if p == 0 else min(min(sizes), epsilon) ** p
    return total
