"""Every bad input of vengutari gets one clear line and its status, and leaves no file behind."""

import os
import pathlib
import signal
import subprocess
import sys
import tempfile
import unittest
import unittest.mock

from made_points import ROOT, TOOL, Made, heeding, run

from vengutari import command, fitting

GOOD = "adc_raw,current_mA,frame,note\n" + "".join(f"{x},{0.5 * x + 10:.1f},{x},n\n" for x in range(100, 900, 40))
ONE = ["--x", "adc_raw", "--y", "current_mA", "--epsilon", "2"]

# The file, the words behind fit FILE (None for the usual ones), the status and a part of the line.
FILES = {
    "empty": ("", None, 1, "no rows"),
    "comments alone": ("# nothing\n% here\n\n", None, 1, "no rows"),
    "header alone": ("adc_raw,current_mA\n", None, 1, "a header and no rows"),
    "no such column": (GOOD, ["--x", "adc", "--y", "current_mA", "--epsilon", "2"], 1, "no column 'adc'; there are adc_raw, current_mA"),
    "column number too large": (GOOD, ["--x", "5", "--y", "2", "--epsilon", "2"], 1, "no column '5'"),
    "column number 0": (GOOD, ["--x", "0", "--y", "2", "--epsilon", "2"], 1, "no column '0'"),
    "column used twice": (GOOD, ["--x", "adc_raw", "--y", "1", "--epsilon", "2"], 1, "used twice"),
    "two columns of one name": ("a,a,b\n1,2,3\n", ["--x", "a", "--y", "b", "--epsilon", "2"], 1, "2 columns are named 'a'"),
    "a word for a number": (GOOD + "high,3,1,n\n", None, 1, "line 22, adc_raw: 'high' is not a number"),
    "a word for y": (GOOD + "3,high,1,n\n", None, 1, "line 22, current_mA: 'high' is not a number"),
    "infinity": (GOOD + "inf,3,1,n\n", None, 1, "'inf' is not a number"),
    "a huge exponent": (GOOD + "1e999999999,3,1,n\n", None, 1, "line 22, adc_raw: '1e999999999' is out of range"),
    "a large exponent": (GOOD + "3,-1E+300,1,n\n", None, 1, "line 22, current_mA: '-1E+300' is out of range"),
    "5,000 digits": (GOOD + "7" * 5000 + ",3,1,n\n", None, 1, "of 5,000 characters is out of range"),
    "200,000 digits": (GOOD + "7" * 200000 + ",3,1,n\n", None, 1, "line 22: not a row of fields"),
    "an open quote": (GOOD + '"3,3,1,n\n', None, 1, "line 22: not a row of fields"),
    "a short row": (GOOD + "3\n", ["--x", "1", "--y", "2", "--epsilon", "2", "--frame", "frame"], 1, "line 22: 1 fields, so no frame"),
    "a long row": (GOOD + "3,3,3,n,5,6\n", None, 1, "line 22: 6 fields where 4 are due"),
    "y is empty": ("a,b\n1,\n2,\n", ["--x", "a", "--y", "b", "--epsilon", "2"], 1, "b is empty in every row"),
    "x is empty": ("a,b\n,1\nnan,2\n", ["--x", "a", "--y", "b", "--epsilon", "2"], 1, "a is empty in every row"),
    "x or y is empty": ("a,b\n,1\n2,\n", ["--x", "a", "--y", "b", "--epsilon", "2"], 1, "no row has both x and y"),
    "two decimal marks": ("a;b\n1.000;5,0\n2.000;6,0\n", ["--x", "a", "--y", "b", "--epsilon", "2"], 1,
                          "a decimal comma and a decimal point in one file: '5,0' in line 2, b; '1.000' in line 2, a; write all"),
    "two decimal marks in one column": ("a\tb\n1\t5,0\n2\t6.5\n", ["--x", "a", "--y", "b", "--epsilon", "2"], 1, "'6.5' in line 3, b"),
    "a frame that is not whole": (GOOD + "3,3,1.5,n\n", [*ONE, "--frame", "frame"], 1, "a frame is a whole number"),
    "a frame that is a time": (
        GOOD + "3,3,12:00:01,n\n", [*ONE, "--frame", "frame"], 1, "a frame is a whole number, not '12:00:01'; without --frame"),
    "not text": (b"\x00\x01\x02\x03", None, 1, "not a text file"),
    "a constant column beside the offset": ("a,b\n5,1\n5,2\n5,3\n", ["--x", "a", "--y", "b", "--epsilon", "2"], 1, "a is 5 in every row"),
    "a column of zeros": ("a,b\n0,1\n0,2\n", ["--x", "a", "--y", "b", "--epsilon", "2", "--no-offset"], 1, "a is 0 in every row"),
    "one row": ("a,b\n5,1\n", ["--x", "a", "--y", "b", "--epsilon", "2"], 1, "one sample only, which lines of any slope run through"),
    "one row with a sample": ("a,b\n5,1\n6,\n,7\n", ["--x", "a", "--y", "b", "--epsilon", "2"], 1, "one sample only"),
    "one point for two coefficients": ("a,c,b\n5,1,1\n", ["--x", "a,c", "--y", "b", "--epsilon", "2"], 1, "1 sample is too few for lines"),
    "4,097 points": ("a,b\n" + "1,2\n2,3\n" * 2048 + "3,4\n", ["--x", "a", "--y", "b", "--epsilon", "2"], 1,
                     "4,097 rows, but a search takes at most 4,096: --every 2 takes one row in 2, --rows 1:4096 a part"),
    "4,097 rows of words": ("a,b\n" + "high,2\n" * 4097, ["--x", "a", "--y", "b", "--epsilon", "2"], 1, "4,097 rows, but"),
    "a step that is too fine": (GOOD, [*ONE, "--y-step", "0.0001"], 1, "do not fit in 16 bits with a step of 0.0001"),
    "epsilon below what y tells": (GOOD, [*ONE, "--y-step", "2", "--epsilon", "0.5", "--scale", "0"], 1, "give a smaller --y-step"),
    "y rounded too much": (GOOD, [*ONE, "--y-step", "100", "--epsilon", "1"], 1, "rounded by up to 40, over a quarter of epsilon, 1:"),
    "y rounded too much, through 0": ("a,b\n1,100000.1\n2,100000.2\n9,100000.7\n",
                                      ["--x", "a", "--y", "b", "--epsilon", "0.2", "--no-offset"], 1,
                                      "--offset, with which columns are counted from their middle"),
    "x rounded too much": (GOOD, [*ONE, "--x-step", "30", "--epsilon", "1"], 1, "it moves line 1 by up to"),
}

# The words behind fit FILE, the status and a part of the line, for a good file.
WORDS = {
    "no y": (["--x", "adc_raw", "--epsilon", "2"], "--y"),
    "no epsilon": (["--x", "adc_raw", "--y", "current_mA"], "--epsilon"),
    "unknown option": ([*ONE, "--magic"], "--magic"),
    "unknown loss": ([*ONE, "--loss", "cubic"], "cubic"),
    "epsilon 0": ([*ONE, "--epsilon", "0"], "more than 0"),
    "negative epsilon": ([*ONE, "--epsilon", "-1"], "--epsilon: -1 is not at least 0"),
    "epsilon is a word": ([*ONE, "--epsilon", "small"], "'small' is not a number"),
    "five lines": ([*ONE, "--lines", "5"], "--lines: 5 is not from 1 to 4"),
    "half a line": ([*ONE, "--lines", "1.5"], "'1.5' is not a whole number"),
    "too many coefficients": (["--x", "1,3,2", "--y", "4", "--epsilon", "2", "--lines", "3"], "at most 8 are taken"),
    "five columns": (["--x", "1,2,3,4", "--y", "4", "--epsilon", "2", "--offset"], "are over 4 coefficients"),
    "a column without a name": (["--x", "adc_raw,,", "--y", "current_mA", "--epsilon", "2"], "has no name"),
    "box of one number": ([*ONE, "--box", "1,2"], "'1' is not LOW:HIGH"),
    "box of too few sides": ([*ONE, "--box", "0:1"], "1 values where there are 2 coefficients a line, the offset last"),
    "box upside down": ([*ONE, "--box", "1:0,0:20"], "low 1 is over high 0"),
    "box and margin": ([*ONE, "--box", "0:1,0:20", "--margin", "3"], "give one of the two"),
    "margin 0": ([*ONE, "--margin", "0"], "--margin: 0 is not more than 0"),
    "scale 16": ([*ONE, "--scale", "16"], "--scale: 16 is not from 0 to 15"),
    "a scale that does not fit": ([*ONE, "--scale", "15", "--box", "0:1,0:20"], "is the largest that does"),
    "gap of 100 percent": ([*ONE, "--gap", "100"], "less than 100"),
    "table 0": ([*ONE, "--table", "0"], "--table: 0 is not from 1"),
    "splits beyond 32 bits": ([*ONE, "--splits", "4294967296"], "--splits"),
    "negative time": ([*ONE, "--time-limit", "-1"], "--time-limit"),
    "steps for another number of columns": ([*ONE, "--x-step", "1,1"], "2 values where --x names 1 columns"),
    "origins for another number of columns": ([*ONE, "--origin", "1,2"], "--origin: 2 values where --x names 1 columns"),
    "an origin without an offset": ([*ONE, "--origin", "1", "--no-offset"], "--origin: lines without an offset are counted from 0"),
    "step 0": ([*ONE, "--y-step", "0"], "--y-step: 0 is not more than 0"),
    "labels in a folder that is not there": ([*ONE, "--labels", "no-such-folder/labels.csv"], "there is no folder"),
    "report is a folder": ([*ONE, "--report", "."], "is a folder"),
    "one file for two outputs": ([*ONE, "--labels", "same", "--report", "same"], "is also the file of"),
}


class BadInput(unittest.TestCase):
    def setUp(self):
        held = tempfile.TemporaryDirectory()
        self.addCleanup(held.cleanup)
        self.folder = pathlib.Path(held.name)
        self.path = self.folder / "points.csv"
        self.path.write_text(GOOD, encoding="utf-8")
        before = os.getcwd()
        os.chdir(self.folder)
        self.addCleanup(os.chdir, before)

    def refused(self, status, words, *command):
        """One line with these words, the status, nothing on standard output, and no file more than before."""
        before = sorted(os.listdir(self.folder))
        done = run(*command)
        self.assertEqual(done[0], status, done)
        self.assertEqual(done[1], "")
        self.assertIn(words, done[2])
        self.assertTrue(done[2].startswith("vengutari: ") and done[2].count("\n") == 1, done[2])
        self.assertEqual(sorted(os.listdir(self.folder)), before)

    def test_files(self):
        for name, (content, words, status, said) in FILES.items():
            with self.subTest(name):
                self.path.write_bytes(content.encode() if isinstance(content, str) else content)
                self.refused(status, said, "fit", self.path, *(ONE if words is None else words), "--report", "out.html", "--quiet")

    def test_words(self):
        for name, (words, said) in WORDS.items():
            with self.subTest(name):
                self.refused(2, said, "fit", self.path, *words)

    def test_places(self):
        self.refused(2, "No such file", "fit", "nothing.csv", *ONE)
        self.refused(2, "Is a directory", "fit", str(self.folder), *ONE)
        for option in ("--json", "--labels", "--coefficients", "--record", "--report"):
            self.refused(2, "is the input", "fit", self.path, *ONE, option, self.path)
            self.refused(2, "is the input", "fit", self.path, *ONE, option, f"./{self.path.name}", "--force")
        (self.folder / "there").write_text("kept")
        self.refused(2, "is there already; --force writes over it", "fit", self.path, *ONE, "--labels", "there")
        self.assertEqual((self.folder / "there").read_text(), "kept")
        self.assertEqual(run("fit", self.path, *ONE, "--labels", "there", "--force", "--quiet")[0], 0)
        self.assertIn("label,fitted,residual", (self.folder / "there").read_text())
        self.assertEqual(self.path.read_text(), GOOD)

    def test_a_file_that_cannot_be_written_costs_its_line(self):
        """The others are written, and the answer is on the screen."""
        words = ["fit", self.path, *ONE, "--quiet", "--labels", "labels.csv", "--report", "/dev/full", "--json", "fit.json"]
        status, out, err = run(*words)
        self.assertEqual((status, err), (1, "vengutari: --report: /dev/full: No space left on device\n"))
        self.assertTrue(out.startswith("solved: ") and "certificate: no other line" in out, out)
        self.assertEqual(sorted(os.listdir(self.folder)), ["fit.json", "labels.csv", "points.csv"])

    def test_a_file_that_comes_meanwhile_is_kept(self):
        def interfering(*given):
            (self.folder / "labels.csv").write_text("mine")
            return fitted(*given)

        fitted = fitting.fit_table
        with unittest.mock.patch.object(fitting, "fit_table", interfering):
            status, out, err = run("fit", self.path, *ONE, "--quiet", "--labels", "labels.csv", "--record", "record")
        self.assertEqual((status, err), (1, "vengutari: --labels: labels.csv is there already; --force writes over it\n"))
        self.assertIn("certificate: ", out)
        self.assertEqual((self.folder / "labels.csv").read_text(), "mine")
        self.assertEqual((self.folder / "record").stat().st_size, 40)

    def test_the_answer_comes_before_the_files(self):
        """On standard error where standard output is taken; with --quiet there only where a file is not written."""
        said = run("fit", self.path, *ONE, "--quiet")[1]
        for words, expected in (([], said), (["--quiet"], "")):
            status, out, err = run("fit", self.path, *ONE, *words, "--json")
            self.assertEqual((status, err.split(", ")[3:]), (0, expected.split(", ")[3:]))
            self.assertEqual(out[0], "{")
        status, out, err = run("fit", self.path, *ONE, "--quiet", "--json", "--report", "/dev/full")
        self.assertEqual((status, out[0]), (1, "{"))
        self.assertTrue(err.startswith("vengutari: --report: /dev/full: No space left on device\nsolved: "), err)

    def test_later_commands(self):
        other = self.folder / "other"
        for content in (b"{}", b"[1]", b'{"format": "vengutari fit 1"}', b"{"):
            other.write_bytes(content)
            self.refused(1, "not a fit", "label", self.path, "--fit", other)
            self.refused(1, "not a fit", "coefficients", other)
        other.write_bytes(b"abc")
        self.refused(1, "3 bytes that are no answer record", "decode", other)
        other.write_bytes(bytes(40))
        self.refused(1, "refused 9, answer", "decode", other)
        self.refused(1, "refused 9, answer", "coefficients", other)
        other.write_text("# vengutari coefficients 1\n1 3F800000 2 3F800000 1 x\n")
        self.refused(1, "line 2: bits and decimal number do not agree", "decode", other)
        self.refused(2, "is the input", "label", self.path, "--fit", other, "--labels", other)
        self.refused(2, "COMMAND", "")
        self.refused(2, "COMMAND")

    def test_job_keeps_its_input(self):
        job = ["job", self.path, "--lines=1", "--dimensions=1", "--loss=1", "--epsilon=2", "--box=0:3"]
        self.path.write_text("1,2\n1,2\n")
        self.refused(2, "is the input", *job, "--output", self.path)
        self.path.write_text("1," + "2" * 5000 + "\n")
        self.refused(2, "is not a whole number", *job, "--output", "job")
        self.refused(2, "--epsilon", *job, "--epsilon=1e999999999", "--output", "job")


class Process(unittest.TestCase):
    """What only a process of its own meets: pipes and signals."""

    def setUp(self):
        held = tempfile.TemporaryDirectory()
        self.addCleanup(held.cleanup)
        self.path = pathlib.Path(held.name) / "points.csv"
        self.path.write_text(GOOD, encoding="utf-8")

    def command(self, *words, **more):
        return subprocess.run([sys.executable, TOOL, *map(str, words)], stderr=subprocess.PIPE, check=False, **more)

    def test_standard_output_that_takes_nothing(self):
        """That is said, the files are written, and the answer is on standard error."""
        reading, writing = os.pipe()
        os.close(reading)
        labels = self.path.parent / "labels.csv"
        with open("/dev/full", "wb") as full, os.fdopen(writing, "wb", buffering=0) as closed:
            for out, words in ((full, b"No space left on device"), (closed, b"Broken pipe")):
                for extra, option in ([], b""), (["--json", "--quiet"], b"--json: "):
                    done = self.command("fit", self.path, *ONE, *extra, "--labels", labels, "--force", stdout=out)
                    line, _, rest = done.stderr.partition(b"\n")
                    self.assertEqual((done.returncode, line), (1, b"vengutari: " + option + b"standard output: " + words))
                    self.assertTrue(rest.startswith(b"solved: ") and b"certificate: " in rest, rest)
                    labels.unlink()

    def test_requests_to_end_a_search(self):
        """After the first line of progress each of them ends with the answer so far; the bound that is then given holds."""
        made = Made([(0.9, -20.0), (0.4, 100.0), (-0.3, 300.0)], [(0, 1000)], 300, noise=1.5, seed=5)
        self.path.write_text(made.text(), encoding="utf-8")
        words = ["fit", str(self.path), "--x=x1", "--y=y", "--lines=3", "--epsilon=5", "--loss=absolute", "--scale=10", "--time-limit=0"]
        pipes = {"stdout": subprocess.PIPE, "stderr": subprocess.PIPE}
        numbers = (signal.SIGINT, signal.SIGTERM, signal.SIGHUP)
        running = [subprocess.Popen([sys.executable, TOOL, *words], **pipes, preexec_fn=heeding) for _ in numbers]
        for number, process in zip(numbers, running):
            with process:
                line = process.stderr.readline()
                process.send_signal(number)
                process.send_signal(number)
                out, err = process.communicate()
            for word in (b" s ", b" splits ", b" open ", b" C ", b" L ", b" gap ", b" %"):
                self.assertIn(word, line)
            self.assertEqual(process.returncode, 3, err)
            self.assertNotIn(b"Traceback", err)
            self.assertTrue(out.startswith(b"spent, interrupted: gap "), out)
            self.assertIn(b"the cost is at least", out)
            self.assertIn(b"next: ", out)

    def test_signals_together_are_one(self):
        """A second one does not cut off the answer that the first leads to; a later one is heeded; where Ctrl-C is ignored it stays so."""
        for number in (signal.SIGINT, signal.SIGTERM, signal.SIGHUP):
            self.addCleanup(signal.signal, number, signal.getsignal(number))
        signal.signal(signal.SIGINT, signal.default_int_handler)
        signal.signal(signal.SIGHUP, signal.SIG_DFL)
        command.Interrupts()
        with self.assertRaises(KeyboardInterrupt):
            signal.raise_signal(signal.SIGINT)
        signal.raise_signal(signal.SIGTERM)
        signal.raise_signal(signal.SIGINT)
        with unittest.mock.patch.object(command, "TOGETHER", -1), self.assertRaises(KeyboardInterrupt):
            signal.raise_signal(signal.SIGTERM)
        signal.signal(signal.SIGINT, signal.SIG_IGN)
        stop = command.Interrupts()
        signal.raise_signal(signal.SIGINT)
        self.assertFalse(stop.asked)

    def test_signals_once_a_search_has_begun(self):
        """They are noted and no longer raised, whatever is done: searching, labelling or writing; one that comes later is raised."""
        for number in (signal.SIGTERM, signal.SIGHUP):
            self.addCleanup(signal.signal, number, signal.getsignal(number))
            signal.signal(number, signal.SIG_DFL)
            stop = command.Interrupts()
            stop.begin()
            signal.raise_signal(number)
            self.assertTrue(stop.asked)
            signal.raise_signal(number)
            with unittest.mock.patch.object(command, "TOGETHER", -1), self.assertRaises(KeyboardInterrupt):
                signal.raise_signal(number)

    def test_requests_to_end_at_any_step(self):
        """A request is played at each of the steps: before the search it is one line, from then on the answer and all files."""
        steps = [("points", "read_table"), ("scaling", "columns_for"), ("proposal", "propose"), ("run", "search"),
                 ("fitting", "row_labels"), ("result", "summary"), ("saved", "as_json"), ("fit_command", "labels_text")]
        code = ("import os, signal, sys; sys.path.insert(0, {0!r}); import vengutari.{1} as m; real = m.{2}\n"
                "def played(*a, **k):\n    os.kill(os.getpid(), signal.SIGTERM); return real(*a, **k)\n"
                "m.{2} = played\nfrom vengutari.command import main\nsys.exit(main())")
        folder = self.path.parent
        for module, name in steps:
            with self.subTest(name):
                labels, made = folder / f"{name}.csv", folder / f"{name}.json"
                words = ["fit", self.path, *ONE, "--quiet", "--labels", labels, "--json", made]
                ran = subprocess.run([sys.executable, "-c", code.format(str(ROOT / "python"), module, name), *map(str, words)],
                                     capture_output=True, text=True, check=False, preexec_fn=heeding)
                if steps.index((module, name)) < 3:
                    self.assertEqual((ran.returncode, ran.stdout, ran.stderr), (130, "", "vengutari: interrupted\n"))
                    self.assertFalse(labels.exists() or made.exists())
                else:
                    self.assertEqual((ran.returncode, ran.stderr), (3 if name == "search" else 0, ""))
                    self.assertIn("certificate: ", ran.stdout)
                    self.assertTrue(labels.exists() and made.exists())

    def test_interrupt_while_the_command_is_loaded(self):
        """A module that plays Ctrl-C stands before Python's own."""
        (self.path.parent / "fractions.py").write_text("raise KeyboardInterrupt\n")
        done = self.command("fit", self.path, *ONE, stdout=subprocess.PIPE, env={**os.environ, "PYTHONPATH": str(self.path.parent)})
        self.assertEqual((done.returncode, done.stdout, done.stderr), (130, b"", b"vengutari: interrupted\n"))

    def test_text_without_the_letters(self):
        done = self.command("fit", self.path, *ONE, stdout=subprocess.PIPE, env={**os.environ, "PYTHONIOENCODING": "ascii"})
        self.assertEqual((done.returncode, done.stderr), (0, b""))
        self.assertIn(b"current_mA = 0.5 * adc_raw + 10", done.stdout)


if __name__ == "__main__":
    unittest.main()
