"""The library, by ctypes. The signature of every call of include/vengutari.h stands here and nowhere else."""

import ctypes
import ctypes.util
import mmap
import os
import pathlib
import subprocess
import sys
import tempfile
from collections import namedtuple

from .problems import BadInput, Refused

SHARED = "libvengutari.so"
# The static library, below the source tree.
ARCHIVE = "target/staticlib/libcapi.a"
# The number goes up where a program that was linked before would no longer run.
SONAME = "libvengutari.so.0"

RECORD_BYTES = 12
BEACON_RECORDS = 19
MOST_RECORDS = 4096
JOB_BYTES = 72
ANSWER_BYTES = 40
REGISTERS = 136
ROW_NUMBERS = 16
ROW_BYTES = 2 * ROW_NUMBERS + 8
LARGEST_EPSILON = 16_777_215
MOST_SPLITS = 2**32 - 1
LARGEST_TOLERANCE = 2**64 - 1
GAP_Y = -32768

OUTLIER, UNDECIDED, GAP = 0, 5, 6
KINDS = {1: "solved", 2: "spent", 3: "full"}
LOSSES = {"count": 0, "absolute": 1, "square": 2}
# The p with a limit q on spoiled samples, which stands in the place of epsilon: the cost is the (q + 1)-th largest distance.
SPOILED = 3

MESSAGES = {
    1: "length: a store or beacon is empty, too long or not whole records, or a job record is not whole",
    2: "shape: lines, dimensions or their product out of range",
    3: "scale: over 15",
    4: "loss: loss, threshold or number of spoiled samples out of range",
    5: "box: low over high, an unused coordinate not 0, or one vector where a box is to be split",
    6: "start: outside the box, or an unused coordinate not 0",
    7: "stray: an x after the last dimension is not 0",
    8: "table: no row, or more rows than allowed",
    9: "answer: a field of the record is out of range",
    10: "short: the output is too small",
    11: "beacon: over 236 bytes",
    12: "off grid: a single-precision number that no coefficient has",
    13: "rounds: a limit outside 1 to 4",
    14: "bounds: fewer entries than rows",
    15: "order: frame numbers that do not rise",
    16: "clash: unequal records of one frame",
    17: "window: a length or hop of 0, or a window longer than the store",
    18: "jobs: not 1 to 8 jobs, or fewer job records or lengths than jobs",
    255: "a buffer has the wrong length",
}

Model = namedtuple("Model", "n d scale p epsilon")
Answer = namedtuple("Answer", "kind vector cost bound splits open peak")


_U8, _U32, _U64, _I64, _SIZE = ctypes.c_uint8, ctypes.c_uint32, ctypes.c_uint64, ctypes.c_int64, ctypes.c_size_t
_BYTES = [ctypes.POINTER(ctypes.c_uint8), _SIZE]
_NUMBERS = [ctypes.POINTER(ctypes.c_int16), _SIZE]
_PATTERNS = [ctypes.POINTER(ctypes.c_uint32), _SIZE]
_WIDE = [ctypes.POINTER(ctypes.c_uint64), _SIZE]
_VALUE = [ctypes.POINTER(ctypes.c_uint64)]
_MODEL = [_U8, _U8, _U8, _U8, _U32]

SIGNATURES = {
    "vengutari_loss": [_U8, _U32, _I64, *_VALUE],
    "vengutari_cost": [*_BYTES, *_MODEL, *_NUMBERS, *_VALUE],
    "vengutari_bound": [*_BYTES, *_MODEL, *_NUMBERS, *_VALUE],
    "vengutari_split": [_U8, _U8, *_NUMBERS, *_NUMBERS],
    "vengutari_labels": [*_BYTES, *_MODEL, *_NUMBERS, *_BYTES, *_VALUE],
    "vengutari_search": [*_BYTES, *_MODEL, _U64, _U32, *_NUMBERS, *_NUMBERS, *_NUMBERS, *_WIDE, *_NUMBERS, *_WIDE, *_VALUE],
    "vengutari_windows": [*_BYTES, *_MODEL, _U64, _U32, *_NUMBERS, *_NUMBERS, _SIZE, _SIZE, *_NUMBERS, *_WIDE, *_BYTES, *_VALUE],
    "vengutari_boards": [_U8, _U32, *_BYTES, *_BYTES, *_PATTERNS, *_NUMBERS, *_WIDE, *_PATTERNS, *_PATTERNS, *_NUMBERS, *_WIDE],
    "vengutari_reset": [*_BYTES],
    "vengutari_read_register": [*_BYTES, _SIZE, *_VALUE],
    "vengutari_write_register": [*_BYTES, _SIZE, _U8, *_BYTES, *_NUMBERS, *_WIDE],
    "vengutari_peel": [
        *_BYTES, *_MODEL, _U64, _U32, *_NUMBERS, *_NUMBERS, _U8, *_NUMBERS, *_WIDE, *_BYTES, *_NUMBERS, *_WIDE, *_VALUE
    ],
    "vengutari_ranges": [
        *_BYTES, *_MODEL, _U32, _U64, *_NUMBERS, *_NUMBERS, *_NUMBERS, *_PATTERNS, *_BYTES, *_WIDE, *_VALUE
    ],
    "vengutari_cost_by_beacon": [*_BYTES, *_MODEL, *_NUMBERS, *_WIDE, *_VALUE],
    "vengutari_take_in": [*_BYTES, _SIZE, *_BYTES, *_VALUE],
    "vengutari_merge": [*_BYTES, *_BYTES, *_BYTES, *_VALUE],
    "vengutari_read_job": [*_BYTES, *_WIDE, *_NUMBERS, *_NUMBERS],
    "vengutari_write_job": [*_MODEL, _U64, _U32, _U32, *_NUMBERS, *_NUMBERS, *_BYTES],
    "vengutari_read_answer": [*_BYTES, *_NUMBERS, *_WIDE],
    "vengutari_write_answer": [*_NUMBERS, _U64, _U64, _U32, _U8, _U8, _U8, _U8, *_BYTES],
    "vengutari_write_line": [_U8, _U8, *_NUMBERS, *_PATTERNS],
    "vengutari_read_line": [_U8, _U8, *_PATTERNS, *_NUMBERS],
}


def _array(kind, values):
    return (kind * len(values))(*values)


def _numbers(values, length=8):
    """Signed 16-bit numbers, filled up with 0."""
    return _array(ctypes.c_int16, [*values, *[0] * (length - len(values))])


def _corners(low, high):
    return _array(ctypes.c_int16, [*low, *[0] * (8 - len(low)), *high, *[0] * (8 - len(high))])


def _bytes(data):
    return (ctypes.c_uint8 * len(data)).from_buffer_copy(data)


def _zeros(kind, length):
    """Memory that costs nothing until it is written, for tables of which only the front may be used."""
    return (kind * length).from_buffer(mmap.mmap(-1, max(1, length * ctypes.sizeof(kind))))


class Library:
    """The calls, with Python's numbers and bytes; a refusal is an exception."""

    def __init__(self, path):
        self.path = str(path)
        try:
            self._calls = ctypes.CDLL(self.path)
            for name, arguments in SIGNATURES.items():
                getattr(self._calls, name).argtypes = arguments
                getattr(self._calls, name).restype = _U32
        except (OSError, AttributeError) as error:
            raise BadInput(f"the library {self.path} cannot be used: {error}") from None

    def _call(self, name, *arguments):
        """Each array is handed over with its length; *value comes back where the call has one."""
        flat = [part for a in arguments for part in ((a, len(a)) if isinstance(a, ctypes.Array) else (a,))]
        value = ctypes.c_uint64()
        if SIGNATURES[name][-1] is _VALUE[0]:
            flat.append(ctypes.byref(value))
        code = getattr(self._calls, name)(*flat)
        if code != 0:
            words = MESSAGES.get(code % 256, "no number of the table")
            raise Refused(code % 256, words, code // 256 if code % 256 == 7 else None)
        return value.value

    def loss(self, p, epsilon, e):
        return self._call("vengutari_loss", p, epsilon, e)

    def cost(self, store, model, vector):
        return self._call("vengutari_cost", _bytes(store), *model, _numbers(vector))

    def cost_by_beacon(self, store, model, vector):
        """The cost of each full beacon's records, and of what is left; their sum is the cost."""
        sums = _array(ctypes.c_uint64, [0] * -(-len(store) // (RECORD_BYTES * BEACON_RECORDS)))
        self._call("vengutari_cost_by_beacon", _bytes(store), *model, _numbers(vector), sums)
        return list(sums)

    def bound(self, store, model, low, high):
        return self._call("vengutari_bound", _bytes(store), *model, _corners(low, high))

    def split(self, n, d, low, high):
        halves = _numbers([], 32)
        self._call("vengutari_split", n, d, _corners(low, high), halves)
        return [(list(halves[k : k + 8]), list(halves[k + 8 : k + 16])) for k in (0, 16)]

    def labels(self, store, model, vector):
        """One label for each record, for a store of any number of records."""
        labels = b""
        for first in range(0, len(store), RECORD_BYTES * MOST_RECORDS):
            part = store[first : first + RECORD_BYTES * MOST_RECORDS]
            made = _bytes(bytes(len(part) // RECORD_BYTES))
            self._call("vengutari_labels", _bytes(part), *model, _numbers(vector), made)
            labels += bytes(made)
        return labels

    def search(self, store, model, t, budget, low, high, start, rows):
        vector, numbers = _numbers([]), _array(ctypes.c_uint64, [0] * 5)
        table, bounds = _zeros(ctypes.c_int16, rows * ROW_NUMBERS), _zeros(ctypes.c_uint64, rows)
        given = [_bytes(store), *model, t, budget, _corners(low, high), _numbers(start), table, bounds]
        kind = self._call("vengutari_search", *given, vector, numbers)
        return Answer(KINDS[kind], list(vector[: model.n * model.d]), *numbers)

    def windows(self, store, model, t, budget, low, high, start, length, hop, rows):
        """An answer for each window of `length` records, `hop` apart, each search from the vector before it."""
        records = len(store) // RECORD_BYTES
        count = (records - length) // hop + 1 if hop and 0 < length <= records else 0
        out = _bytes(bytes(count * ANSWER_BYTES))
        table, bounds = _zeros(ctypes.c_int16, rows * ROW_NUMBERS), _zeros(ctypes.c_uint64, rows)
        given = [_bytes(store), *model, t, budget, _corners(low, high), _numbers(start), length, hop, table, bounds, out]
        self._call("vengutari_windows", *given)
        return [self.read_answer(bytes(out[k : k + ANSWER_BYTES]))[0] for k in range(0, len(out), ANSWER_BYTES)]

    def boards(self, total, jobs, stores, rows):
        """For each of 1 to 8 job records with its store: the code, the budget that it got and, where the code is 0, its answer."""
        table, bounds = _zeros(ctypes.c_int16, rows * ROW_NUMBERS), _zeros(ctypes.c_uint64, rows)
        codes, budgets = _array(ctypes.c_uint32, [0] * 8), _array(ctypes.c_uint32, [0] * 8)
        vectors, numbers = _numbers([], 64), _array(ctypes.c_uint64, [0] * 48)
        lengths = _array(ctypes.c_uint32, [len(store) for store in stores])
        given = [len(jobs), total, _bytes(b"".join(jobs)), _bytes(b"".join(stores)), lengths, table, bounds]
        self._call("vengutari_boards", *given, codes, budgets, vectors, numbers)
        return [
            (codes[i], budgets[i], None if codes[i] else Answer(KINDS[numbers[6 * i]], list(vectors[8 * i : 8 * i + 8]), *numbers[6 * i + 1 : 6 * i + 6]))
            for i in range(len(jobs))
        ]

    def peel(self, store, model, t, budget, low, high, start, limit, rows):
        """The answers of the rounds that were run, one line after another, and a label for each record."""
        vectors, numbers = _numbers([], 32), _array(ctypes.c_uint64, [0] * 24)
        labels = _bytes(bytes(len(store) // RECORD_BYTES))
        table, bounds = _zeros(ctypes.c_int16, rows * ROW_NUMBERS), _zeros(ctypes.c_uint64, rows)
        given = [_bytes(store), *model, t, budget, _corners(low, high), _numbers(start), limit, table, bounds]
        rounds = self._call("vengutari_peel", *given, labels, vectors, numbers)
        found = [
            Answer(KINDS[numbers[6 * i]], list(vectors[8 * i : 8 * i + model.d]), *numbers[6 * i + 1 : 6 * i + 6]) for i in range(rounds)
        ]
        return found, bytes(labels)

    def ranges(self, store, model, budget, ceiling, low, high, start, rows):
        """The kind, "solved" for finished, and for each used coordinate the bit patterns of its ends among all vectors of the box that
        cost at most the ceiling, or None; then the splits, the open boxes and the peak."""
        patterns, cases, numbers = _array(ctypes.c_uint32, [0] * 16), _bytes(bytes(8)), _array(ctypes.c_uint64, [0] * 3)
        table = _zeros(ctypes.c_int16, rows * ROW_NUMBERS)
        given = [_bytes(store), *model, budget, ceiling, _corners(low, high), _numbers(start), table]
        kind = self._call("vengutari_ranges", *given, patterns, cases, numbers)
        ends = [tuple(patterns[2 * k : 2 * k + 2]) if cases[k] else None for k in range(model.n * model.d)]
        return KINDS[kind], ends, list(numbers)

    def reset(self):
        """The registers of the fitter on the data bus, all of them 0."""
        registers = _bytes(bytes(REGISTERS))
        self._call("vengutari_reset", registers)
        return bytes(registers)

    def read_register(self, registers, offset):
        return self._call("vengutari_read_register", _bytes(registers), offset)

    def write_register(self, registers, offset, value, store, rows):
        """The registers after a write; a run searches the store in a table of so many rows."""
        made = _bytes(registers)
        table, bounds = _zeros(ctypes.c_int16, rows * ROW_NUMBERS), _zeros(ctypes.c_uint64, rows)
        self._call("vengutari_write_register", made, offset, value, _bytes(store), table, bounds)
        return bytes(made)

    def take_in(self, store, mark, beacon):
        lent = _bytes(store)
        mark = self._call("vengutari_take_in", lent, mark, _bytes(beacon))
        return bytes(lent), mark

    def merge(self, first, second):
        """One store of two, by rising frame numbers."""
        out = _bytes(bytes(len(first) + len(second)))
        length = self._call("vengutari_merge", _bytes(first), _bytes(second), out)
        return bytes(out)[:length]

    def read_job(self, data):
        """The eight numbers of a job record, its box and its start vector."""
        numbers, corners, start = _array(ctypes.c_uint64, [0] * 8), _numbers([], 16), _numbers([])
        self._call("vengutari_read_job", _bytes(data), numbers, corners, start)
        return list(numbers), list(corners[:8]), list(corners[8:]), list(start)

    def write_job(self, model, t, budget, rows, low, high, start):
        made = _bytes(bytes(JOB_BYTES))
        self._call("vengutari_write_job", *model, t, budget, rows, _corners(low, high), _numbers(start), made)
        return bytes(made)

    def read_answer(self, data):
        """An answer record as an answer, without its open boxes, and n, d and S."""
        vector, numbers = _numbers([]), _array(ctypes.c_uint64, [0] * 7)
        self._call("vengutari_read_answer", _bytes(data), vector, numbers)
        cost, bound, splits, kind, n, d, scale = numbers
        return Answer(KINDS[kind], list(vector[: n * d]), cost, bound, splits, None, None), n, d, scale

    def write_answer(self, answer, n, d, scale):
        made = _bytes(bytes(ANSWER_BYTES))
        kind = {word: number for number, word in KINDS.items()}[answer.kind]
        numbers = [answer.cost, answer.bound, min(answer.splits, MOST_SPLITS), kind, n, d, scale]
        self._call("vengutari_write_answer", _numbers(answer.vector), *numbers, made)
        return bytes(made)

    def write_line(self, d, scale, coordinates):
        """The bits of the four single-precision numbers of a line."""
        patterns = _array(ctypes.c_uint32, [0] * 4)
        self._call("vengutari_write_line", d, scale, _numbers(coordinates, 4), patterns)
        return list(patterns)

    def read_line(self, d, scale, patterns):
        coordinates = _numbers([], 4)
        self._call("vengutari_read_line", d, scale, _array(ctypes.c_uint32, patterns), coordinates)
        return list(coordinates[:d])


def find():
    """The shared library: by VENGUTARI_LIBRARY, as installed in or beside the package, or of the source tree."""
    named = os.environ.get("VENGUTARI_LIBRARY")
    if named:
        return Library(named)
    package = pathlib.Path(__file__).resolve().parent
    if (package / SHARED).exists():
        return Library(package / SHARED)
    installed = package.parents[2] / SHARED
    if package.parent.parent.name == "vengutari" and installed.exists():
        return Library(installed)
    archive = package.parents[1] / ARCHIVE
    if archive.exists():
        return Library(linked(archive, package.parents[1] / "target" / SHARED))
    known = ctypes.util.find_library("vengutari")
    if known:
        return Library(known)
    raise BadInput("the library is not built: run tools/package once, or set VENGUTARI_LIBRARY to libvengutari.so")


def linked(archive, shared):
    """The shared library of a static one, linked again when that is newer. It appears whole.

    The objects are position-independent: -z text refuses any that would have to be changed when they are loaded.
    """
    if shared.exists() and shared.stat().st_mtime >= archive.stat().st_mtime:
        return shared
    try:
        with tempfile.TemporaryDirectory(dir=shared.parent) as folder:
            made = pathlib.Path(folder) / shared.name
            words = ["cc", "-shared", "-Wl,-z,text", "-Wl,-z,defs", f"-Wl,-soname,{SONAME}", "-o", str(made)]
            words += ["-Wl,--whole-archive", str(archive), "-Wl,--no-whole-archive"]
            done = subprocess.run(words, capture_output=True, text=True, check=False)
            if done.returncode != 0:
                raise BadInput(f"{archive} was not linked: {done.stderr.strip()[-200:]}")
            os.replace(made, shared)
    except OSError as error:
        raise BadInput(f"{archive} was not linked: {error.strerror}") from None
    return shared


if __name__ == "__main__":
    linked(pathlib.Path(sys.argv[1]), pathlib.Path(sys.argv[2]))
