"""Every name in docs/TRACE.md stands where that page says, and what the exported contracts reach is
on the reader's list."""

import pathlib
import re
import unittest

ROOT = pathlib.Path(__file__).resolve().parents[2]
CRATES = ROOT / "crates"
COMPARE = ROOT / "tests" / "compare" / "src"
NAME = re.compile(r"`([^`]+)`(?: \(([\w-]+(?:, [\w-]+)*)\))?")


def text(path):
    return path.read_text(encoding="utf-8") if path.is_file() else ""


def declarations(source):
    """Each name that a file of definitions or proofs declares, as (kind, owner, name): a field of a
    record and a case of a data type are what is indented below it; all else has neither kind nor
    owner."""
    kind, owner, margin = None, None, -1
    for line in source.splitlines():
        indent = len(line) - len(line.lstrip())
        if line.strip() and indent <= margin:
            kind, owner, margin = None, None, -1
        if found := re.match(r" *pub (record|data) ([^\s:]+)", line):
            yield None, None, found[2]
            kind, owner, margin = found[1], found[2], indent
        elif found := re.match(r" *(?:(?:unfoldable |abbrev )?pub )?([^\s:]+) :", line):
            yield kind, owner, found[1]


def stands_in_logic(place, names, fields):
    """A field stands in brackets behind its record, not alone; a case of a data type may do
    either."""
    crate, folder, file = re.fullmatch(r"(\w+)/(?:(proofs)/)?(\w+)", place).groups()
    found = set(declarations(text(CRATES / crate / (folder or "specs") / f"{file}.antt")))
    alone = {name for kind, _, name in found if kind != "record"}
    owned = {(owner, name) for _, owner, name in found}
    return set(names.split(", ")) <= alone and all((names, field) in owned for field in fields)


def stands_in_code(crate, name, clauses):
    """A public type, or a public function with these clauses in its own contract, which goes up to
    its body's brace."""
    source = "\n".join(text(path) for path in (CRATES / crate / "src").rglob("*.rt"))
    if not clauses and re.search(rf"^ *pub (?:struct|enum) {name}\b", source, re.M):
        return True
    contracts = re.findall(rf'^( *)pub (?:extern "C" )?fn {name}\b(.*?)^\1[{{}}]', source, re.M | re.S)
    return any(all(re.search(rf"^ *ensures {clause} ", found, re.M) for clause in clauses) for _, found in contracts)


def stands(name, parts=()):
    """Whether what a name of the page means is there, with the fields or clauses in brackets behind
    it."""
    parts = list(parts)
    if found := re.fullmatch(r"(\w+(?:/proofs)?/\w+): (.+)", name):
        return stands_in_logic(*found.groups(), parts)
    if found := re.fullmatch(r"(\w+)::(\w+)", name):
        return stands_in_code(*found.groups(), parts)
    if parts:
        return False
    if found := re.fullmatch(r"must-fail (\w+)/(\w+)", name):
        return (CRATES / found[1] / "must-fail" / f"{found[2]}.edit").is_file()
    if found := re.fullmatch(r"compare ([\w-]+)", name):
        return f'group("{found[1]}", ' in text(COMPARE / "cases" / "mod.rs")
    if found := re.fullmatch(r"slip (\w+)", name):
        return re.search(rf"^ +{found[1]},$", text(COMPARE / "slips" / "mod.rs"), re.M)
    if found := re.fullmatch(r"program (\w+)", name):
        return (CRATES / found[1] / "src" / "main.rt").is_file() and (CRATES / found[1] / "stdout").is_file()
    if found := re.fullmatch(r"python (\w+)", name):
        return any(f"def {found[1]}(" in text(path) for path in (ROOT / "tests" / "python").glob("test_*.py"))
    return False


def parts_of(page):
    """The page's legend, its tables of sentences and the words between these, each as lines. The
    first heading of the second rank ends the legend; behind it a line with a bar is a row, or the
    head of a table."""
    legend, sentences = re.split(r"^(?=## )", page, maxsplit=1, flags=re.M)
    lines = sentences.splitlines()
    heads = ("| Sentence | Stated | Proved | Run |", "|---|---|---|---|")
    rows = [line for line in lines if "|" in line and line not in heads]
    return legend.splitlines(), rows, [line for line in lines if "|" not in line]


def cells(line):
    """Of a row the four cells; of a line that has not this shape none."""
    found = [cell.strip() for cell in re.split(r"(?<!\\)\|", line)]
    return found[1:-1] if len(found) == 6 and found[0] == found[-1] == "" else []


def names_of(page):
    """The names of the page: examples in the first column of the legend, those in the words, and in
    a row all but the sentence."""
    legend, rows, words = parts_of(page)
    examples = [line.split("|")[1] for line in legend if line.startswith("| `")]
    behind = [cell for row in rows for cell in cells(row)[1:]]
    return NAME.findall("\n".join(examples + behind + words))


def wrong_names(page):
    return [name for name, parts in names_of(page) if not stands(name, parts.split(", ") if parts else ())]


def wrong_rows(page):
    """Rows that are not a sentence with three cells, none of them empty, behind it."""
    return [row for row in parts_of(page)[1] if not cells(row) or not all(cells(row))]


# What is handed out: the calls for C, and all that the program fit computes.
EXPORTS = ("capi/src/lib.rt", "fit_line/src/lib.rt", "bus_exchange/src/lib.rt")
# The words of std's definitions are the language's and on no list.
USE = re.compile(r"^(?:ghost )?use Rattle\.(?!std\.)(\w+)\.specs\.(\w+)(?:\.\{([^}]*)\}| as (\w+))", re.M)


def has_one(words, names):
    """Whether a text has one of the names of a `use` line."""
    return any(re.search(rf"(?<![\w-]){re.escape(name.strip())}(?![\w-])", words) for name in names.split(","))


def used_by(source, words=None):
    """The files of definitions that the `use` lines of a source name, as CRATE/FILE; where a text
    is given, those of which it has a name. Types that the code declares are no files."""
    found = [(f"{crate}/{file}", names or whole) for crate, file, names, whole in USE.findall(source) if file != "declared"]
    return [file for file, names in found if words is None or has_one(words, names)]


def contracts(source):
    """The contracts of the public functions of a source, each up to its body's brace."""
    return "\n".join(found for _, found in re.findall(r'^( *)pub (?:extern "C" )?fn (.*?)^\1[{}]', source, re.M | re.S))


def reached_from(exports, definitions):
    """Every file of definitions that the contracts of these sources lead to, with the one that
    leads to it."""
    reached, left = {}, [(file, "an export") for source in exports for file in used_by(source, contracts(source))]
    while left:
        file, by = left.pop()
        if file not in reached:
            reached[file] = by
            left += [(other, file) for other in used_by(definitions(file))]
    return reached


def definitions_of(file):
    crate, name = file.split("/")
    return text(CRATES / crate / "specs" / f"{name}.antt")


class Reader(unittest.TestCase):
    """The reader's list of docs/ARCHITECTURE.md is exactly what a reader of the exported contracts
    must believe."""

    section = re.search(r"^## What a reader must believe\n(.*?)(?=^## )", text(ROOT / "docs" / "ARCHITECTURE.md"), re.M | re.S)[1]
    listed = re.findall(r"`(\w+/\w+)`", section)
    reached = reached_from([text(CRATES / source) for source in EXPORTS], definitions_of)

    def test_every_file_reached_is_listed(self):
        self.assertEqual({file: by for file, by in self.reached.items() if file not in self.listed}, {})

    def test_every_file_listed_is_reached(self):
        self.assertEqual([file for file in self.listed if file not in self.reached], [])
        self.assertEqual(len(self.listed), len(set(self.listed)))

    def test_the_numbers_are_right(self):
        said = re.search(r"(\d+) files, some ([\d,]+) lines", self.section)
        files, lines = (int(number.replace(",", "")) for number in said.groups())
        self.assertEqual(files, len(self.listed))
        counted = sum(len(definitions_of(file).splitlines()) for file in self.listed)
        self.assertLess(abs(counted - lines), lines / 20, f"{counted} lines")

    def test_a_way_to_the_machine_is_noticed(self):
        uses = "ghost use Rattle.a.specs.Calls.{answer};\nghost use Rattle.a.specs.Inside.{held};\n"
        uses += "ghost use Rattle.d.specs.Whole as Whole;\n"
        export = uses + "pub fn f() -> u8\n    ensures { result ≡ answer Whole.kept }\n{\n}\n"
        files = {
            "a/Calls": "use Rattle.b.specs.Words.{word}\nuse Rattle.a.specs.Other.{other}\n",
            "b/Words": "use Rattle.b.specs.declared.T.{T}\n",
            "a/Other": "use Rattle.eval_lanes.specs.Lanes.{lane}\n",
        }
        reached = reached_from([export], lambda file: files.get(file, ""))
        self.assertEqual(set(reached), {"a/Calls", "b/Words", "a/Other", "d/Whole", "eval_lanes/Lanes"})
        self.assertEqual(reached["eval_lanes/Lanes"], "a/Other")


class Trace(unittest.TestCase):
    page = text(ROOT / "docs" / "TRACE.md")

    def test_names_stand_where_the_page_says(self):
        self.assertGreater(len(names_of(self.page)), 600)
        self.assertEqual(wrong_names(self.page), [])

    def test_every_row_is_a_sentence_with_three_cells(self):
        self.assertGreater(len(parts_of(self.page)[1]), 100)
        self.assertEqual(wrong_rows(self.page), [])

    def test_a_wrong_name_is_noticed(self):
        for name in ("loss/Loss: loss_off", "loss/Lost: loss_of", "loss/proofs/Laws: loss_of", "loss::losses", "losses::loss"):
            self.assertFalse(stands(name), name)
        for name in ("must-fail loss/none", "compare none", "slip Nothing", "program loss", "python test_none", "some words"):
            self.assertFalse(stands(name), name)

    def test_a_part_of_another_owner_is_noticed(self):
        self.assertTrue(stands("capi::vengutari_search", ["numbers"]))
        self.assertFalse(stands("capi::vengutari_cost", ["numbers"]))
        self.assertFalse(stands("labels::labels", ["outcome"]))
        self.assertFalse(stands("search::Kind", ["answer"]))
        self.assertFalse(stands("compare loss", ["outcome"]))
        self.assertTrue(stands("certificate/Certificate: Finished", ["stopped"]))
        self.assertFalse(stands("certificate/Certificate: Certificate", ["stopped"]))
        self.assertFalse(stands("certificate/Certificate: Finished, Certificate", ["stopped"]))
        self.assertFalse(stands("certificate/Certificate: stopped"))
        self.assertFalse(stands("loss/Laws: LossLaws", ["falls"]))

    def test_a_wrong_page_is_noticed(self):
        head = "| Name | What is meant |\n|---|---|\n## Part\n| Sentence | Stated | Proved | Run |\n|---|---|---|---|\n"
        sound = '| A "a" | `loss/Loss: loss_of` | `loss::loss` | – |\n'
        self.assertEqual((wrong_rows(head + sound), wrong_names(head + sound)), ([], []))
        for row in ('| A "a" | b | c |', '| A "a" | b | c | d | e |', 'A "a" | b | c | d |', '| A "a" | b | c | d', '| A "a" | b | | d |'):
            self.assertEqual(wrong_rows(head + sound + row), [row])
        for line in ('| A "a" | `loss/Loss: loss_off` | c | d |', "Words of `loss/Loss: loss_off`."):
            self.assertEqual(wrong_names(head + sound + line), ["loss/Loss: loss_off"])
        self.assertEqual(wrong_names("| `loss::losses` | a function |\n" + head + sound), ["loss::losses"])


if __name__ == "__main__":
    unittest.main()
