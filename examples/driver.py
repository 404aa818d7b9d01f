#!/usr/bin/env python3
"""A driver's whole exchange with the fitter on the data bus, for the program bus: fit G of the paper by the registers.

  driver.py              writes the input of bus: the store, and the accesses
  driver.py --replies    reads what bus wrote and tells it in words

  examples/driver.py | target/bin/bus | examples/driver.py --replies
"""

import pathlib
import struct
import sys

FIT = pathlib.Path(__file__).parent / "fits" / "G.job"
COMMAND, FLAGS, ENABLE, REFUSAL, ANSWER, JOB = 0, 1, 2, 3, 8, 64
RUN, CLEAR = 2, 3
KINDS = {0: "none", 1: "solved", 2: "spent", 3: "full"}
# Where the loss p stands in a job record.
LOSS = 3


class Exchange:
    """The accesses in order, and what each group of reads is for."""

    def __init__(self, store):
        self.bytes = struct.pack(">H", len(store) // 12) + store
        self.reads = []

    def write(self, offset, value):
        self.bytes += bytes([1, offset, value, 0])

    def read(self, name, offset, count=1):
        for k in range(count):
            self.bytes += bytes([0, offset + k, 0, 0])
        self.reads.append((name, count))


def exchange():
    """Sets the job, enables the interrupt and runs; clears; runs with a loss that there is not; puts that right and runs again."""
    record, store = FIT.read_bytes()[:72], FIT.read_bytes()[72:]
    made = Exchange(store)
    made.read("flags after reset", FLAGS)
    for k, byte in enumerate(record):
        made.write(JOB + k, byte)
    made.read("job record", JOB, 72)
    made.write(ENABLE, 1)
    made.write(COMMAND, RUN)
    made.read("flags", FLAGS)
    made.read("refusal", REFUSAL)
    made.read("answer", ANSWER, 40)
    made.write(COMMAND, CLEAR)
    made.read("flags after command 3", FLAGS)
    made.read("answer after command 3", ANSWER, 40)
    made.write(JOB + LOSS, 9)
    made.read("answer with another job record", ANSWER, 40)
    made.write(COMMAND, RUN)
    made.read("flags", FLAGS)
    made.read("refusal", REFUSAL)
    made.read("answer", ANSWER, 40)
    made.write(JOB + LOSS, record[LOSS])
    made.write(ENABLE, 0)
    made.write(COMMAND, CLEAR)
    made.write(COMMAND, RUN)
    made.read("flags", FLAGS)
    made.read("answer", ANSWER, 40)
    made.read("an offset past the registers", 200)
    return made


def told(name, replies):
    """The replies of some reads in words."""
    if name.startswith("flags"):
        words = [word for bit, word in enumerate(("done", "refused", "interrupt pending")) if replies[0] >> bit & 1]
        return ", ".join(words) or "none"
    if name.startswith("answer"):
        *vector, cost, bound, splits, kind, _, _, _ = struct.unpack(">8hQQI4B", replies)
        return f"{KINDS[kind]}, w = {vector[0]}, C = {cost}, L = {bound}, {splits} splits" if kind else "zeros"
    if name == "job record":
        return "as written" if replies == FIT.read_bytes()[:72] else "other bytes"
    return str(replies[0])


def main():
    made = exchange()
    if sys.argv[1:] == ["--replies"]:
        replies = sys.stdin.buffer.read()
        for name, count in made.reads:
            print(f"{name}: {told(name, replies[:count])}")
            replies = replies[count:]
    else:
        sys.stdout.buffer.write(made.bytes)


if __name__ == "__main__":
    main()
