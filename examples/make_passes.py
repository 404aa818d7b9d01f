#!/usr/bin/env python3
"""Makes the passes of the guide that come of pass.csv or go on for longer: two polarisations, and a slope that drifts.

left.csv and right.csv are the frames of pass.csv that each polarisation received. drift.csv has one mode, whose slope rises by 0.001 in
every 100 frames.

  make_passes.py [FOLDER]    writes them beside this script, or into FOLDER
"""

import pathlib
import sys

from make_jobs import Numbers, pass_csv

# So many frames in a hundred are lost.
LOST = {"left": (4, 25), "right": (5, 30)}
# The slope at the first frame and what a frame adds, in hundred-thousandths of a mA, and the offset in tenths.
DRIFT = {"seed": 6, "points": 500, "reach": (300, 4000), "slope": 80620, "each": 1, "offset": -135, "outliers": 8}


def polarisation(seed, lost):
    """The frames of the pass that were received."""
    numbers = Numbers(seed)
    remark, header, *rows = pass_csv().splitlines()
    return "\n".join([remark, header, *(row for row in rows if numbers.between(1, 100) > lost)]) + "\n"


def drift_csv():
    """Rows of frame, counts and current along a pass that warms up."""
    numbers, rows = Numbers(DRIFT["seed"]), ["frame,adc_raw,current_mA"]
    for k in range(DRIFT["points"]):
        x = numbers.between(*DRIFT["reach"])
        noise = sum(numbers.between(-8, 8) for _ in range(3)) // 2
        tenths = ((DRIFT["slope"] + k * DRIFT["each"]) * x + 5000) // 10000 + DRIFT["offset"] + noise
        if numbers.between(1, 100) <= DRIFT["outliers"]:
            tenths = numbers.between(0, 32000)
        rows.append(f"{2000 + k},{x},{'-' if tenths < 0 else ''}{abs(tenths) // 10}.{abs(tenths) % 10}")
    return "\n".join(rows) + "\n"


def main():
    folder = pathlib.Path(sys.argv[1] if len(sys.argv) > 1 else pathlib.Path(__file__).parent)
    for name, (seed, lost) in LOST.items():
        (folder / f"{name}.csv").write_bytes(polarisation(seed, lost).encode())
    (folder / "drift.csv").write_bytes(drift_csv().encode())


if __name__ == "__main__":
    main()
