"""The example files are those that their script makes, the tool makes the same jobs from the CSV files, and the program fit
writes for each job the line that stands beside it; the program bus replies to the driver's exchange as its file says."""

import pathlib
import subprocess
import sys
import tempfile
import unittest

ROOT = pathlib.Path(__file__).resolve().parents[2]
EXAMPLES = ROOT / "examples"
TOOL = ROOT / "tools" / "vengutari"
FIT = ROOT / "target" / "bin" / "fit"
BUS = ROOT / "target" / "bin" / "bus"
DRIVER = EXAMPLES / "driver.py"
FITS = ["G", "H", "I", "J"]

OPTIONS = {
    "modes_2d": ["--lines=2", "--dimensions=2", "--scale=4", "--loss=absolute", "--epsilon=1.5", "--budget=100000"]
    + ["--box=0:2,-2:2,-2:-0.0625,-2:2", "--start=0,0,-0.0625,0"],
    "modes_4d": ["--lines=2", "--dimensions=4", "--scale=1", "--loss=square", "--epsilon=2", "--budget=100000"]
    + ["--box=0:1.5,-1.5:1.5,-1.5:1.5,-1.5:1.5,-2:-0.5,-1.5:1.5,-1.5:1.5,-1.5:1.5", "--start=0,0,0,0,-0.5,0,0,0"],
}


class Examples(unittest.TestCase):
    def test_files_are_those_of_the_script(self):
        with tempfile.TemporaryDirectory() as folder:
            subprocess.run([sys.executable, str(EXAMPLES / "make_jobs.py"), folder], check=True)
            made = [str(path.relative_to(folder)) for path in pathlib.Path(folder).rglob("*") if path.is_file()]
            expected = [f"{name}.{end}" for name in OPTIONS for end in ("csv", "job")] + [f"fits/{name}.job" for name in FITS]
            expected.append("pass.csv")
            self.assertEqual(sorted(made), sorted(expected))
            for name in made:
                self.assertEqual((pathlib.Path(folder) / name).read_bytes(), (EXAMPLES / name).read_bytes(), name)

    def test_passes_are_those_of_the_script(self):
        with tempfile.TemporaryDirectory() as folder:
            subprocess.run([sys.executable, "-B", str(EXAMPLES / "make_passes.py"), folder], check=True)
            made = sorted(path.name for path in pathlib.Path(folder).iterdir())
            self.assertEqual(made, ["drift.csv", "left.csv", "right.csv"])
            for name in made:
                self.assertEqual((pathlib.Path(folder) / name).read_bytes(), (EXAMPLES / name).read_bytes(), name)

    def test_the_tool_makes_the_same_jobs(self):
        for name, options in OPTIONS.items():
            points = str(EXAMPLES / f"{name}.csv")
            words = [sys.executable, str(TOOL), "job", points, *options, "--output", "-"]
            made = subprocess.run(words, check=True, capture_output=True).stdout
            self.assertEqual(made, (EXAMPLES / f"{name}.job").read_bytes(), name)

    def test_fit_writes_the_lines(self):
        for name in [*OPTIONS, *(f"fits/{name}" for name in FITS)]:
            with open(EXAMPLES / f"{name}.job", "rb") as job:
                line = subprocess.run([str(FIT)], stdin=job, check=True, capture_output=True).stdout
            self.assertEqual(line, (EXAMPLES / f"{name}.out").read_bytes(), name)

    def test_fit_says_what_it_cannot_do(self):
        """An argument gets a usage line, and a line that is not written is said on standard error."""
        done = subprocess.run([str(FIT), "points.csv"], input=b"", capture_output=True, check=False)
        self.assertEqual((done.stdout, done.stderr), (b"", b"usage: fit < INPUT, a job record and a store; fit takes no argument\n"))
        with open(EXAMPLES / "fits" / "G.job", "rb") as job, open("/dev/full", "wb") as full:
            done = subprocess.run([str(FIT)], stdin=job, stdout=full, stderr=subprocess.PIPE, check=False)
        self.assertEqual(done.stderr, b"fit: the line could not be written\n")

    def test_the_program_runs_on_fit_g(self):
        """What the gate runs the program on is fit G."""
        for name, end in (("stdin", "job"), ("stdout", "out")):
            self.assertEqual((ROOT / "crates" / "fit" / name).read_bytes(), (EXAMPLES / "fits" / f"G.{end}").read_bytes(), name)

    def test_bus_replies_to_the_driver(self):
        """The exchange is the one that the driver makes, the replies are those beside it, and in words they are the answer of fit G."""
        made = subprocess.run([sys.executable, str(DRIVER)], check=True, capture_output=True).stdout
        self.assertEqual(made, (EXAMPLES / "driver.in").read_bytes())
        replies = subprocess.run([str(BUS)], input=made, check=True, capture_output=True).stdout
        self.assertEqual(replies, (EXAMPLES / "driver.out").read_bytes())
        told = subprocess.run([sys.executable, str(DRIVER), "--replies"], input=replies, check=True, capture_output=True).stdout.decode()
        self.assertIn("answer: solved, w = 2, C = 2, L = 2, 1 splits\n", told)
        self.assertIn("flags: refused, interrupt pending\nrefusal: 4\nanswer: zeros\n", told)
        for name, end in (("stdin", "in"), ("stdout", "out")):
            self.assertEqual((ROOT / "crates" / "bus" / name).read_bytes(), (EXAMPLES / f"driver.{end}").read_bytes(), name)

    def test_bus_says_what_it_cannot_do(self):
        """An argument gets a usage line, an input that is too long a line, and replies that are not written too."""
        usage = b"usage: bus < INPUT, a store's number of records, the store, and accesses of 4 bytes; bus takes no argument\n"
        done = subprocess.run([str(BUS), "driver.in"], input=b"", capture_output=True, check=False)
        self.assertEqual((done.stdout, done.stderr), (b"", usage))
        longest = b"\x10\x00" + bytes(49_152) + bytes(65_536)
        done = subprocess.run([str(BUS)], input=longest, capture_output=True, check=False)
        self.assertEqual((done.stdout, done.stderr), (bytes(16_384), b""))
        done = subprocess.run([str(BUS)], input=longest + b"\x00", capture_output=True, check=False)
        self.assertEqual((done.stdout, done.stderr), (b"", b"bus: the input is longer than 114,690 bytes\n"))
        with open(EXAMPLES / "driver.in", "rb") as exchange, open("/dev/full", "wb") as full:
            done = subprocess.run([str(BUS)], stdin=exchange, stdout=full, stderr=subprocess.PIPE, check=False)
        self.assertEqual(done.stderr, b"bus: the replies could not be written\n")


if __name__ == "__main__":
    unittest.main()
