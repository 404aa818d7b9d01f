"""vengutari bus: each read gives what the paper's register bank gives, by the bench fits and by the program bus on random accesses."""

import random
import subprocess
import unittest

from made_points import ROOT, run
from made_requests import Folder

FITS = ROOT / "examples" / "fits"
BUS = ROOT / "target" / "bin" / "bus"


def written(record):
    return "w 0x40 " + " ".join(map(str, record)) + "\n"


class Bus(Folder):
    def replies(self, text, *words):
        self.write("driver.txt", text)
        status, out, err = run("bus", "driver.txt", *words)
        self.assertEqual((status, err), (0, ""))
        return out.splitlines()

    def test_bench_fits(self):
        """The job record is written, the search run, and the answer read: the line that the program fit writes."""
        for name in "GHIJ":
            record = (FITS / f"{name}.job").read_bytes()[:72]
            told = self.replies(written(record) + "w 0 2\nr 1\nr 3\nr 8 40\nr 0x40 72\n", f"--job={FITS / name}.job")
            kind, *fields = (FITS / f"{name}.out").read_text().split()
            numbers = dict(field.split("=") for field in fields)
            self.assertEqual(told[:2], ["r 0x01 = 01  done", "r 0x03 = 00"])
            self.assertTrue(told[2].endswith(f"  {kind}, w = {numbers['w']}, C = {numbers['cost']}, L = {numbers['bound']}, "
                                             f"{numbers['splits']} splits"), told[2])
            self.assertEqual(told[3], "r 0x40 72 = " + " ".join(f"{byte:02X}" for byte in record))

    def test_refusals_and_the_interrupt(self):
        record = bytearray((FITS / "G.job").read_bytes()[:72])
        record[3] = 9
        told = self.replies(written(record) + "w 2 255\nr 2\nw 0 2\nr 1\nr 3\nr 8 40\nw 0 3 # clear\nr 1\nr 3\n\nr 200\nw 1 7\nr 1\n",
                            f"--job={FITS}/G.job")
        self.assertEqual(told, ["r 0x02 = 01", "r 0x01 = 06  refused, interrupt pending",
                                "r 0x03 = 04  loss: loss, threshold or number of spoiled samples out of range",
                                "r 0x08 40 = " + " ".join(["00"] * 40), "r 0x01 = 00  no flag",
                                "r 0x03 = 04  loss: loss, threshold or number of spoiled samples out of range", "r 0xC8 = 00",
                                "r 0x01 = 00  no flag"])

    def test_table_and_store(self):
        """A table of other rows than the job's is refused by 8, and no store by 1; a file of records is a store."""
        record = (FITS / "G.job").read_bytes()
        text = written(record[:72]) + "w 0 2\nr 3\n"
        self.assertEqual(self.replies(text, f"--job={FITS}/G.job", "--table=5")[0][:11], "r 0x03 = 08")
        self.assertEqual(self.replies(text)[0][:11], "r 0x03 = 01")
        (self.folder / "store").write_bytes(record[72:])
        self.assertEqual(self.replies(text, "--store=store"), ["r 0x03 = 00"])

    def test_random_accesses_against_the_program(self):
        """The proved program bus, over the same store, replies the same to any list of accesses."""
        numbers = random.Random(81)
        job = (FITS / "J.job").read_bytes()
        for _ in range(12):
            accesses = [(1, 64 + k, byte) for k, byte in enumerate(job[:72])]
            for _ in range(60):
                kind = numbers.randrange(3)
                offset = numbers.choice([0, 1, 2, 3, 8, 20, 43, 44, 64, 65, 67, 71, 83, 87, 104, 135, 136, 255])
                accesses.append((0, offset, 0) if kind == 0 else (1, offset, numbers.choice([0, 1, 2, 3, 4, 255])) if kind == 1 else
                                (1, 0, numbers.choice([2, 2, 3])))
                accesses.append((0, numbers.choice([1, 3, 44, offset]), 0))
            data = (len(job[72:]) // 12).to_bytes(2, "big") + job[72:] + b"".join(bytes([*access, 0]) for access in accesses)
            expected = subprocess.run([str(BUS)], input=data, check=True, capture_output=True).stdout
            text = "".join(f"w {offset} {value}\n" if write else f"r 0x{offset:x}\n" for write, offset, value in accesses)
            found = bytes(int(line.partition(" = ")[2][:2], 16) for line in self.replies(text, f"--job={FITS}/J.job"))
            self.assertEqual(found, expected)

    def test_a_request_to_end(self):
        """What was read before stands there, then one line."""
        self.write("driver.txt", "r 1\nw 0 2\nr 1\n")
        done = self.ended("bus_command", "Bank", "write", 1, "bus", "driver.txt")
        self.assertEqual((done.returncode, done.stdout, done.stderr), (130, "r 0x01 = 00  no flag\n", "vengutari: interrupted\n"))

    def test_bad_accesses(self):
        for text, said in (("x 1\n", "driver.txt, line 1: 'x 1' is neither"), ("r\n", "is neither"),
                           ("\nw 3\n", "line 2: 'w 3' is neither"),
                           ("r 1 2 3\n", "is neither"), ("w 0 256\n", "byte 256 is over 255"), ("w 0 -1\n", "byte '-1' is no number"),
                           ("r 0x\n", "offset '0x' is no number"), ("r 99999999999\n", "is no number"),
                           ("r 0 5000\n", "count 5000 is over 4096")):
            self.write("driver.txt", text)
            self.refused(1, said, "bus", "driver.txt")
        self.write("driver.txt", "r 1\n")
        self.refused(2, "No such file", "bus", "nothing.txt")
        self.refused(2, "No such file", "bus", "driver.txt", "--store=nothing")
        self.refused(1, "4 bytes are no job", "bus", "driver.txt", "--job=driver.txt")
        self.refused(2, "cannot both come from standard input", "bus", "-", "--store=-")
        self.refused(2, "not allowed with", "bus", "driver.txt", "--store=a", "--job=b")


if __name__ == "__main__":
    unittest.main()
