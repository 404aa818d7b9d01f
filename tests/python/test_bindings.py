"""The declarations of the header are those that are exported, and those for Rust are the header's.
Those for Python are compared with it in test_package."""

import pathlib
import re
import unittest

ROOT = pathlib.Path(__file__).resolve().parents[2]
KINDS = {"uint8_t": "u8", "uint32_t": "u32", "uint64_t": "u64", "int64_t": "i64", "int16_t": "i16", "size_t": "usize"}


def of_header(text):
    """Each call with its arguments, by name and type as Rust has them."""
    calls = {}
    for name, arguments in re.findall(r"^uint32_t (vengutari_\w+)\(([^)]*)\);", text, re.M):
        calls[name] = []
        for argument in arguments.split(","):
            const, kind, pointer, word = re.fullmatch(r"\s*(const )?(\w+) (\*?)(\w+)", argument).groups()
            mark = ("*const " if const else "*mut ") if pointer else ""
            calls[name].append((word, mark + KINDS[kind]))
    return calls


def of_rust(text):
    calls = {}
    for name, arguments in re.findall(r"^    pub fn (\w+)\(([^)]*)\)\s*-> u32;", text, re.M):
        calls[name] = [tuple(word.strip() for word in argument.split(":")) for argument in arguments.split(",") if argument.strip()]
    return calls


def of_exports(text):
    """The exported functions as C sees them: a slice is a pointer and a length behind it."""
    calls = {}
    for name, arguments in re.findall(r'^pub extern "C" fn (vengutari_\w+)\(([^)]*)\)\s*-> u32\b', text, re.M):
        calls[name] = []
        for argument in filter(None, (part.strip() for part in arguments.split(","))):
            word, mark, slice_of, alone = re.fullmatch(r"(\w+): (&mut |&|)(?:\[(\w+)\]|(\w+))", argument).groups()
            pointer = {"&mut ": "*mut ", "&": "*const ", "": ""}[mark]
            calls[name].append((word, pointer + (slice_of or alone)))
            calls[name] += [(f"{word}_len", "usize")] * (slice_of is not None)
    return calls


class Bindings(unittest.TestCase):
    def test_the_header_declares_what_is_exported(self):
        """By name, order and type of every argument; only the linking itself is taken on trust."""
        header = of_header((ROOT / "include" / "vengutari.h").read_text(encoding="utf-8"))
        exports = of_exports((ROOT / "crates" / "capi" / "src" / "lib.rt").read_text(encoding="utf-8"))
        self.assertEqual(exports, header)

    def test_declarations_for_rust_are_those_of_the_header(self):
        header = of_header((ROOT / "include" / "vengutari.h").read_text(encoding="utf-8"))
        rust = of_rust((ROOT / "tests" / "bindings" / "src" / "lib.rs").read_text(encoding="utf-8"))
        self.assertGreater(len(header), 20)
        self.assertEqual(rust, header)

    def test_they_stand_in_one_place(self):
        """No other Rust file declares a call of the library."""
        found = [path for folder in ("tests", "bench") for path in (ROOT / folder).glob("**/src/**/*.rs")
                 if re.search(r"\bfn vengutari_\w+\(", path.read_text(encoding="utf-8"))]
        self.assertEqual(found, [ROOT / "tests" / "bindings" / "src" / "lib.rs"])


if __name__ == "__main__":
    unittest.main()
