"""The command bus: register accesses, one a line, against the proved register bank."""

import re

from . import library, points, run
from .command import SOLVED
from .outputs import say
from .problems import BadInput, BadUse

FLAGS = ("done", "refused", "interrupt pending")
COMMAND, FLAG, REFUSAL, ANSWER, JOB_ROWS = 0, 1, 3, 8, 64 + 20
RUN = 2
NUMBER = re.compile(r"0[xX][0-9a-fA-F]{1,8}|[0-9]{1,9}")


def number(text, most, what, place):
    if not NUMBER.fullmatch(text):
        raise BadInput(f"{place}: {what} '{text[:20]}' is no number; 0x40 and 64 are")
    value = int(text, 0) if text[:2].lower() == "0x" else int(text)
    if value > most:
        raise BadInput(f"{place}: {what} {text} is over {most}")
    return value


def accesses_of(text, name):
    """The accesses in order: reads as (offset, count, None), writes as (offset, number of bytes, the bytes)."""
    made = []
    for k, line in enumerate(text.splitlines(), 1):
        word, *rest = line.partition("#")[0].split() or [""]
        place = f"{name}, line {k}"
        if not word:
            continue
        if word.lower() not in ("r", "w") or not rest or (word.lower() == "w" and len(rest) < 2) or (word.lower() == "r" and len(rest) > 2):
            raise BadInput(f"{place}: '{line.strip()[:40]}' is neither r OFFSET [COUNT] nor w OFFSET BYTE [BYTE ..]")
        offset = number(rest[0], 2**32 - 1, "offset", place)
        if word.lower() == "w":
            made.append((offset, len(rest) - 1, [number(byte, 255, "byte", place) for byte in rest[1:]]))
        else:
            made.append((offset, number(rest[1], 4096, "count", place) if len(rest) > 1 else 1, None))
    return made


def meaning(calls, offset, values):
    """What a read of the flags, of a refusal or of the whole answer says, in words."""
    if (offset, len(values)) == (FLAG, 1):
        return "  " + (", ".join(word for bit, word in enumerate(FLAGS) if values[0] >> bit & 1) or "no flag")
    if (offset, len(values)) == (REFUSAL, 1) and values[0]:
        return f"  {library.MESSAGES.get(values[0], 'no number of the table')}"
    if (offset, len(values)) == (ANSWER, library.ANSWER_BYTES) and any(values):
        answer = calls.read_answer(bytes(values))[0]
        vector = ", ".join(map(str, answer.vector))
        return f"  {answer.kind}, w = {vector}, C = {answer.cost}, L = {answer.bound}, {answer.splits} splits"
    return ""


class Bank:
    """The registers, the store behind them, and the table that a run is lent."""

    def __init__(self, calls, store, rows):
        self.calls, self.store, self.rows = calls, store, rows
        self.registers = calls.reset()

    def read(self, offset):
        return self.calls.read_register(self.registers, offset)

    def table(self):
        """The rows of the table: those given, or as many as the job record asks for."""
        if self.rows is not None:
            return self.rows
        asked = int.from_bytes(bytes(self.read(JOB_ROWS + k) for k in range(4)), "big")
        return min(asked, run.rows_in_memory())

    def write(self, offset, value):
        """A run may take long: it is waited for in small steps, so that a request to end is heeded."""
        rows = self.table() if (offset, value) == (COMMAND, RUN) else 1
        thread, results = run.in_background(lambda: self.calls.write_register(self.registers, offset, value, self.store, rows))
        while thread.is_alive():
            thread.join(run.GLANCE)
        self.registers, error = results[0]
        if error is not None:
            raise error


def store_of(options):
    """The store: that of a job's file, or of a file of records, or none."""
    if options.job is not None:
        data = points.read_bytes(options.job)
        if len(data) < library.JOB_BYTES:
            raise BadInput(f"{options.job}: {len(data)} bytes are no job: a job record has {library.JOB_BYTES}, and a store follows it")
        return data[library.JOB_BYTES :]
    return b"" if options.store is None else points.read_bytes(options.store)


def command_bus(options, stop):
    if "-" == options.accesses == (options.job or options.store):
        raise BadUse("accesses and store cannot both come from standard input")
    made = accesses_of(points.read_text(options.accesses), "standard input" if options.accesses == "-" else options.accesses)
    calls = library.find()
    bank = Bank(calls, store_of(options), options.table)
    for offset, count, written in made:
        for k, value in enumerate(written or []):
            bank.write(offset + k, value)
        if written is None:
            found = [bank.read(offset + k) for k in range(count)]
            several = f" {count}" if count > 1 else ""
            say(f"r 0x{offset:02X}{several} = {' '.join(f'{value:02X}' for value in found)}{meaning(calls, offset, found)}\n")
    return SOLVED
