#!/usr/bin/env python3
"""Makes the examples: inputs of the program fit (NAME.job) and the same points as CSV files (NAME.csv).

Each example hides two modes, y = w . x / 2^S, in noise and outliers. What fit prints for NAME.job stands in
NAME.out. The points come from a fixed seed, so that every run writes the same files. The bench fits G to J of the
paper go into the folder fits. pass.csv is what a ground station has: the worked example of docs/USERS.md.

  make_jobs.py [FOLDER]    writes them beside this script, or into FOLDER
"""

import pathlib
import struct
import sys

MASK = 2**64 - 1

# hidden: the two lines behind the points, in units of 1 / 2^S, as the records have them.
# The first coordinate of line 1 is sought from 0 up and that of line 2 below 0, which tells the two apart.
EXAMPLES = {
    "modes_2d": {
        "seed": 1, "points": 48, "reach": 20, "noise": 1, "outliers": 12,
        "n": 2, "d": 2, "S": 4, "p": 1, "epsilon": 24, "t": 0, "budget": 100_000, "rows": 2048,
        "low": [0, -32, -32, -32],
        "high": [32, 32, -1, 32],
        "start": [0, 0, -1, 0],
        "hidden": [21, -9, -14, 17],
    },
    "modes_4d": {
        "seed": 2, "points": 40, "reach": 20, "noise": 1, "outliers": 12,
        "n": 2, "d": 4, "S": 1, "p": 2, "epsilon": 4, "t": 0, "budget": 100_000, "rows": 2048,
        "low": [0, -3, -3, -3, -4, -3, -3, -3],
        "high": [3, 3, 3, 3, -1, 3, 3, 3],
        "start": [0, 0, 0, 0, -1, 0, 0, 0],
        "hidden": [2, -1, 3, 1, -3, 2, 0, -2],
    },
}


# The bench fits G to J: one line, d = 1, x = 1, S = 0, start 0, t = 0.
FITS = {
    "G": {"y": [2, 2, 9], "high": 3, "p": 1, "epsilon": 2, "budget": 10, "rows": 4},
    "H": {"y": [2, 2, 9], "high": 3, "p": 1, "epsilon": 2, "budget": 0, "rows": 4},
    "I": {"y": [1, 6, 6], "high": 7, "p": 0, "epsilon": 0, "budget": 10, "rows": 1},
    "J": {"y": [1, 6, 6], "high": 7, "p": 0, "epsilon": 0, "budget": 10, "rows": 4},
}


# A pass as the ground station stores it: a current in tenths of a mA against raw counts, in two modes with offsets. The modes are
# (slope in ten-thousandths of a mA, offset in tenths).
PASS = {"seed": 3, "points": 120, "reach": (300, 4000), "modes": [(8062, -135), (3100, 220)], "outliers": 10, "gaps": (37, 91)}


class Numbers:
    """Splitmix64, as the tests have it."""

    def __init__(self, seed):
        self.state = seed

    def next(self):
        self.state = (self.state + 0x9E3779B97F4A7C15) & MASK
        z = self.state
        z = ((z ^ (z >> 30)) * 0xBF58476D1CE4E5B9) & MASK
        z = ((z ^ (z >> 27)) * 0x94D049BB133111EB) & MASK
        return z ^ (z >> 31)

    def between(self, low, high):
        return low + self.next() % (high - low + 1)


def points_of(example):
    """The points as tuples x1 .. xd, y: near one of the two lines, but for outliers (so many in a hundred)."""
    numbers = Numbers(example["seed"])
    n, d, scale, reach = example["n"], example["d"], example["S"], example["reach"]
    points = []
    for _ in range(example["points"]):
        x = [numbers.between(-reach, reach) for _ in range(d)]
        line = numbers.between(0, n - 1)
        on_line = sum(w * v for w, v in zip(example["hidden"][line * d :], x))
        y = (on_line + 2**scale // 2 >> scale) + numbers.between(-example["noise"], example["noise"])
        if numbers.between(1, 100) <= example["outliers"]:
            y = numbers.between(-3 * reach, 3 * reach)
        points.append((*x, y))
    return points


def job_of(example):
    settings = [example[name] for name in ("n", "d", "S", "p", "epsilon", "t", "budget", "rows")]
    vectors = [w for name in ("low", "high", "start") for w in example[name] + [0] * (8 - len(example[name]))]
    return struct.pack(">4BIQII24h", *settings, *vectors)


def store_of(points):
    fields = ((*x, *[0] * (4 - len(x)), y, frame) for frame, (*x, y) in enumerate(points))
    return b"".join(struct.pack(">5hH", *record) for record in fields)


def csv_of(points):
    header = ",".join([f"x{k}" for k in range(1, len(points[0]))] + ["y"])
    return "\n".join([header] + [",".join(map(str, point)) for point in points]) + "\n"


def fit_of(fit):
    job = {**fit, "n": 1, "d": 1, "S": 0, "t": 0, "low": [0], "high": [fit["high"]], "start": [0]}
    return job_of(job) + store_of([(1, y) for y in fit["y"]])


def pass_csv():
    """Rows of time, frame, counts, current and temperature; some currents are outliers, and two were not sent."""
    numbers = Numbers(PASS["seed"])
    rows = ["# pass 412, board 3: current of the payload bus", "time,frame,adc_raw,current_mA,temp_C"]
    for k in range(PASS["points"]):
        x = numbers.between(*PASS["reach"])
        slope, offset = PASS["modes"][numbers.between(1, 10) > 6]
        noise = sum(numbers.between(-8, 8) for _ in range(3)) // 2
        tenths = (slope * x + 500) // 1000 + offset + noise
        if numbers.between(1, 100) <= PASS["outliers"]:
            tenths = numbers.between(0, 32000)
        current = "" if k in PASS["gaps"] else f"{'-' if tenths < 0 else ''}{abs(tenths) // 10}.{abs(tenths) % 10}"
        rows.append(f"10:{42 + k // 60}:{k % 60:02},{1200 + k},{x},{current},{21 + k // 20}.{k % 20 // 2}")
    return "\n".join(rows) + "\n"


def main():
    folder = pathlib.Path(sys.argv[1] if len(sys.argv) > 1 else pathlib.Path(__file__).parent)
    for name, example in EXAMPLES.items():
        points = points_of(example)
        (folder / f"{name}.job").write_bytes(job_of(example) + store_of(points))
        (folder / f"{name}.csv").write_bytes(csv_of(points).encode())
    (folder / "pass.csv").write_bytes(pass_csv().encode())
    (folder / "fits").mkdir(exist_ok=True)
    for name, fit in FITS.items():
        (folder / "fits" / f"{name}.job").write_bytes(fit_of(fit))


if __name__ == "__main__":
    main()
