"""The manual pages of the programs say what the programs do, and tools/package installs them with
the documents."""

import pathlib
import shutil
import subprocess
import tempfile
import unittest

from made_points import ROOT
from vengutari import manual
from vengutari.library import MESSAGES


class Pages(unittest.TestCase):
    def test_usage_is_what_the_program_says(self):
        for name, (_, usage, _, _) in manual.PROGRAMS.items():
            with self.subTest(program=name):
                done = subprocess.run([ROOT / "target" / "bin" / name, "--help"], capture_output=True, text=True, check=True)
                self.assertEqual((done.stdout, done.stderr), ("", usage + "\n"))
                self.assertIn(manual.plain(usage.removeprefix("usage: ")), manual.program_page(name))

    def test_lines_of_fit(self):
        """The lines that the page shows are those of fit G, and of it with another loss."""
        job = (ROOT / "examples" / "fits" / "G.job").read_bytes()
        for data in (job, job[:3] + b"\x09" + job[4:]):
            done = subprocess.run([ROOT / "target" / "bin" / "fit"], input=data, capture_output=True, check=True)
            self.assertIn("\n.nf\n  " + done.stdout.decode() + ".fi", manual.program_page("fit"))

    def test_refusals_are_those_of_the_table(self):
        for name in manual.PROGRAMS:
            for number in range(1, 9):
                self.assertIn(f"\\fB{number}\\fR\n{manual.plain(MESSAGES[number])}", manual.program_page(name))

    def test_the_formatter_takes_them(self):
        if shutil.which("groff"):
            for name in manual.PROGRAMS:
                page = manual.program_page(name).encode()
                done = subprocess.run(["groff", "-man", "-ww", "-Tascii"], input=page, capture_output=True, check=True)
                self.assertEqual(done.stderr, b"")

    def test_they_are_installed(self):
        with tempfile.TemporaryDirectory() as folder:
            subprocess.run([ROOT / "tools" / "package", "--built", folder], check=True, capture_output=True)
            share = pathlib.Path(folder) / "share"
            for name in ("vengutari", "fit", "bus"):
                page = (share / "man" / "man1" / f"{name}.1").read_text(encoding="utf-8")
                self.assertTrue(page.startswith(f".TH {name.upper()} 1 "), name)
            for name in ("USERS.md", "TRACE.md", "examples/cost.c", "examples/search.c", "examples/driver.in", "examples/driver.out"):
                self.assertTrue((share / "doc" / "vengutari" / name).is_file(), name)


if __name__ == "__main__":
    unittest.main()
