"""The commands of README and of docs/USERS.md do what these say, on the example that they name."""

import os
import pathlib
import re
import shlex
import subprocess
import sys
import tempfile
import unittest

from made_points import ROOT, TOOL, run

GUIDE = (ROOT / "docs" / "USERS.md").read_text(encoding="utf-8")
README = (ROOT / "README.md").read_text(encoding="utf-8")


def command_of(text):
    """The words of the first vengutari fit, which may go on over lines."""
    found = re.search(r"tools/vengutari (fit (?:[^\n]*\\\n)*[^\n]*)", text)
    return shlex.split(found.group(1).replace("\\\n", " "))


def blocks_of(text):
    """The indented parts, without their indent."""
    return [re.sub("(?m)^    ", "", part) for part in re.findall(r"(?m)(?:^    .*\n)+", text)]


def unmeasured(lines):
    """Without what is of one machine or one version: times, and how many splits were made."""
    made = [re.sub(r"[0-9.,]+ (s|splits|of [0-9,]+ splits)\b", r"\1", line) for line in lines]
    return [re.sub(" +", " ", re.sub(r"([0-9,]+ +)[0-9,]+(?= +(solved|spent|full|refused) )", r"\1", line)) for line in made]


class Guide(unittest.TestCase):
    def setUp(self):
        held = tempfile.TemporaryDirectory()
        self.addCleanup(held.cleanup)
        self.folder = pathlib.Path(held.name)

    def words(self, text):
        """The guide's words with files in a folder of the test."""
        def placed(word):
            if word.startswith("examples/"):
                return str(ROOT / word)
            return str(self.folder / word) if re.search(r"\.(html|csv|txt)$", word) else word

        return [placed(word) for word in command_of(text)]

    def test_guide_shows_what_is_printed(self):
        """But for times and splits, which are of one machine and one version."""
        status, out, _ = run(*self.words(GUIDE))
        self.assertEqual(status, 0)
        shown = next(block for block in blocks_of(GUIDE) if block.startswith("solved"))
        self.assertEqual(shown.split(",")[0], out.split(",")[0])
        self.assertEqual(shown.splitlines()[1:], out.splitlines()[1 : len(shown.splitlines())])
        upload = next(block for block in blocks_of(GUIDE) if block.startswith("1 3F"))
        self.assertIn(upload, (self.folder / "upload.txt").read_text(encoding="utf-8"))

    def test_each_command_prints_what_the_guide_shows(self):
        """The commands as they stand there, in a folder that has the examples; but for times and splits that were used."""
        (self.folder / "examples").symlink_to(ROOT / "examples")
        before = os.getcwd()
        os.chdir(self.folder)
        self.addCleanup(os.chdir, before)
        blocks, ran = blocks_of(GUIDE), []
        for place, block in enumerate(blocks):
            words = shlex.split(block.replace("\\\n", " "))
            if words[:1] != ["vengutari"] or not any(word.startswith("examples/") for word in words):
                continue
            status, out, err = run(*words[1:])
            expected = next(block for block in blocks[place + 1 :] if re.match("solved|range|[0-9]+ (boards|frames)|r 0x", block))
            self.assertEqual((status, err), (1 if words[1] == "boards" else 0, ""), words)
            told = out.splitlines()
            first = next(k for k, line in enumerate(told) if line.startswith(expected[:12]))
            self.assertEqual(unmeasured(expected.splitlines()), unmeasured(told[first : first + expected.count("\n")]), words)
            ran.append(words[1])
        self.assertEqual(ran, ["peel", "drift", "fit", "boards", "merge", "bus"])

    def test_readme_gets_to_report_labels_and_upload(self):
        """The command as it stands there, in a process of its own, against the lines that made the points."""
        done = subprocess.run([sys.executable, TOOL, *self.words(README)], capture_output=True, text=True, check=False)
        self.assertEqual(done.returncode, 0, done.stderr)
        self.assertEqual(sorted(path.name for path in self.folder.iterdir()), ["labels.csv", "pass.html", "upload.txt"])
        found = self.lines(done.stdout)
        for (slope, offset), (true_slope, true_offset) in zip(found, [(0.8062, -13.5), (0.31, 22.0)]):
            for x in (300, 4000):
                self.assertLess(abs(slope * x + offset - true_slope * x - true_offset), 1.0)

    def lines(self, text):
        """Slope and offset of each line of a summary."""
        found = re.findall(r"current_mA = ([0-9.]+) · adc_raw ([−+]) ([0-9.]+) ", text)
        self.assertEqual(len(found), 2)
        return [(float(slope), float(offset) * (-1 if sign == "−" else 1)) for slope, sign, offset in found]

    def test_options_that_the_guide_names(self):
        """Each is one that a command has."""
        commands = ("fit", "peel", "drift", "boards", "merge", "bus", "label", "coefficients", "decode")
        known = "".join(run(command, "--help")[1] for command in commands)
        for option in set(re.findall(r"`?(--[a-z][a-z-]+)", GUIDE)):
            self.assertIn(option, known)


if __name__ == "__main__":
    unittest.main()
