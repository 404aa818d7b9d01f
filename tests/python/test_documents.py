"""The documents name only what is there, the map of the layers is that of crates.txt, and what is
written by a program is up to date."""

import os
import pathlib
import re
import subprocess
import sys
import unittest

ROOT = pathlib.Path(__file__).resolve().parents[2]
# docs/PORT.md, docs/DESIGN-PASS.md and docs/LOOK-BACK.md have names that are gone beside today's.
PAGES = [ROOT / "README.md", *(page for page in sorted((ROOT / "docs").glob("*.md")) if page.name not in ("PORT.md", "DESIGN-PASS.md", "LOOK-BACK.md")), *(ROOT / folder / "README.md" for folder in ("bench", "examples", "tests"))]
# Written by hand and read as text; TRACE has rows of a table as long as a sentence of the papers,
# USERS is the operators'.
NARROW = ("README.md", "docs/ARCHITECTURE.md", "docs/CHANGES.md", "docs/DECISIONS.md", "docs/LAWS.md", "docs/PERFORMANCE.md",
          "bench/README.md", "tests/README.md")
FOLDERS = ("tools", "docs", "tests", "bench", "examples", "include", "crates", "python", ".ci")
SOURCES = ("crates/**/*.rt", "crates/**/*.antt", "crates/*/must-fail/*.edit", "include/*.h", "python/vengutari/*.py", "tools/*", "bench/run",
           "bench/src/*.rs", "tests/run", "tests/*/src/**/*.rs", "tests/python/*.py", "tests/stack/*.c", "examples/*.c", "examples/*.py",
           "examples/run*", ".ci/*", "pyproject.toml")
WORD = re.compile(r"[\w′₀₁₂-]+")
# What a document may name that this repository does not hold: other programs, and what is made by
# building.
OUTSIDE = {"rt", "cc", "cargo", "python3", "valgrind", "callgrind", "numpy", "pandas", "memset", "memmove", "movaps", "movapd", "movups",
           "movupd", "mulpd", "subpd", "maxpd", "minpd", "cmpltpd", "andpd", "psubq", "objdump", "select_nth_unstable", "matplotlib"}


def text(path):
    return path.read_text(encoding="utf-8")


def dependencies():
    """crates.txt: what each crate names, in its order."""
    lines = [line.split("#")[0].split(":") for line in text(ROOT / "crates.txt").splitlines()]
    return {line[0].split()[0]: line[1].split() for line in lines if len(line) == 2}


def layers(page):
    """The map of docs/ARCHITECTURE.md: title, crates, and those marked as without functions."""
    section = re.search(r"^## Layers\n(.*?)(?=^## )", page, re.M | re.S)[1]
    rows = re.findall(r"^\d+\. \*\*(.+?)\*\*[^\n]*\n((?:   .*\n)+)", section, re.M)
    return [(title, re.findall(r"`(\w+)`", words), set(re.findall(r"`(\w+)`°", words))) for title, words in rows]


def has_functions(crate):
    return any(re.search(r'^ *(?:pub )?(?:extern "C" )?fn ', text(path), re.M) for path in (ROOT / "crates" / crate / "src").rglob("*.rt"))


def known_words():
    """Every word of every source file, and the names of files and folders."""
    words = set(OUTSIDE)
    for pattern in SOURCES:
        for path in ROOT.glob(pattern):
            words.add(path.stem)
            if path.is_file() and path != pathlib.Path(__file__).resolve():
                words.update(WORD.findall(path.read_text(encoding="utf-8", errors="replace")))
    return words | {path.name for path in (ROOT / "crates").iterdir()}


WORDS = known_words()
CRATES = {path.name for path in (ROOT / "crates").iterdir()}
HEADER = set(WORD.findall(text(ROOT / "include" / "vengutari.h")))


def source_of(crate):
    return "\n".join(text(path) for path in (ROOT / "crates" / crate / "src").rglob("*.rt"))


def there(name):
    """Whether what a name in backticks, or a command in a block, means is there. Words that are no
    name are none of its business."""
    name = name.strip()
    path = name.split()[0] if name else ""
    if path.split("/")[0] in FOLDERS and "/" in path:
        path = re.sub(r"\b(?:CRATE|FILE)\b", "*", path).rstrip("/")
        found = list(ROOT.glob(path)) if "*" in path else [ROOT / path] * (ROOT / path).exists()
        return bool(found) and (path != "bench/run" or bench_word(name))
    if found := re.fullmatch(r"must-fail (\w+)/(\w+)", name):
        return (ROOT / "crates" / found[1] / "must-fail" / f"{found[2]}.edit").is_file()
    if found := re.match(r"(\w+)::(\w+)", name):
        return found[1] not in CRATES or re.search(rf"\b(?:fn|struct|enum|mod|const) {found[2]}\b", source_of(found[1])) is not None
    if found := re.fullmatch(r"(\w+)/(?:(proofs)/)?([A-Z]\w*)(?:: .*)?", name):
        return (ROOT / "crates" / found[1] / (found[2] or "specs") / f"{found[3]}.antt").is_file()
    if found := re.fullmatch(r"(vengutari_\w+|VENGUTARI_\w+)(?:\(.*\))?", name):
        return found[1] in HEADER
    if re.fullmatch(r"[A-Za-z][\w-]*", name):
        return name in WORDS
    return True


def bench_word(command):
    """The first word behind bench/run is one that it knows."""
    word = re.match(r"bench/run ([a-z-]+)", command)
    return word is None or re.search(rf"^#   bench/run {word[1]}\b", text(ROOT / "bench" / "run"), re.M) is not None


def names_of(page):
    """Names in backticks, files of definitions and proofs without them, and the commands of blocks
    that begin with a path. A name may go on over the end of a line."""
    prose = " ".join(line.strip() for line in page.splitlines() if not line.startswith("    "))
    names = re.findall(r"`([^`]+)`", prose)
    names += [found for found in re.findall(r"(?<![\w/.`])([a-z]\w*/(?:proofs/)?[A-Z]\w*)(?![\w/.])", prose) if found.split("/")[0] in CRATES]
    blocks = [line.strip() for line in page.splitlines() if line.startswith("    ")]
    names += re.findall(r"\bvengutari_\w+", "\n".join(blocks))
    return names + [line for line in blocks if re.match(r"(?:\.ci|tools|tests|bench|examples)/", line)]


def wrong_names(page):
    return [name for name in names_of(page) if not there(name)]


def wrong_links(page, folder):
    links = re.findall(r"\]\(([^)#]+)(?:#[^)]*)?\)", page)
    return [link for link in links if "://" not in link and not (folder / link).exists()]


class Documents(unittest.TestCase):
    def test_every_name_is_there(self):
        """A path, a crate, a function, a definition, a law, a file of proofs, an edit, a call for
        C, a word of bench/run."""
        for path in PAGES:
            with self.subTest(page=path.relative_to(ROOT)):
                self.assertEqual(wrong_names(text(path)), [])

    def test_every_link_leads_somewhere(self):
        for path in PAGES:
            with self.subTest(page=path.relative_to(ROOT)):
                self.assertEqual(wrong_links(text(path), path.parent), [])

    def test_every_document_is_linked(self):
        """Each is one link from README, or two."""
        linked = re.findall(r"\]\(([^)#]+)", text(ROOT / "README.md"))
        near = set(linked) | {f"docs/{link}" for page in linked if page.startswith("docs/") for link in re.findall(r"\]\(([^)#]+)", text(ROOT / page))}
        for path in (ROOT / "docs").glob("*.md"):
            self.assertIn(f"docs/{path.name}", near)

    def test_no_line_is_long(self):
        for name in NARROW:
            long = [number for number, line in enumerate(text(ROOT / name).splitlines(), 1) if len(line) > 100]
            self.assertEqual((name, long), (name, []))

    def test_no_time_is_told_by_hand(self):
        """Times stand in what bench/run writes; the check's seconds of a request stand in CHANGES,
        as document 02 asks."""
        time = re.compile(r"\b\d[\d.,]* (?:ns|nanoseconds?|µs|microseconds?|ms|milliseconds?|min|minutes?|s|seconds?|percent)\b")
        for name in ("README.md", "docs/ARCHITECTURE.md", "docs/DECISIONS.md", "docs/PERFORMANCE.md", "bench/README.md", "tests/README.md"):
            self.assertEqual((name, time.findall(text(ROOT / name))), (name, []))

    def test_a_wrong_name_is_noticed(self):
        page = "`docs/NONE.md`, `costs::none_such`, certificate/proofs/NoneSuch, `loss/Lost`, `vengutari_none`, `noneSuchName`,\n"
        page += "`must-fail loss/none_such`, `bench/run nothing`, `crates/*/none/*`.\n\n    tools/none PREFIX\n"
        wanted = {"docs/NONE.md", "costs::none_such", "certificate/proofs/NoneSuch", "loss/Lost", "vengutari_none", "noneSuchName",
                  "must-fail loss/none_such", "bench/run nothing", "crates/*/none/*", "tools/none PREFIX"}
        self.assertEqual(set(wrong_names(page)), wanted)
        sound = "`docs/TRACE.md`, `costs::cost`, certificate/proofs/Cover, `loss/Loss`, `vengutari_loss(p, ..)`, `bench/run search`, `certificate`.\n"
        self.assertEqual(wrong_names(sound), [])
        self.assertEqual(wrong_links("[a](NONE.md) [b](TRACE.md)", ROOT / "docs"), ["NONE.md"])


class Readme(unittest.TestCase):
    """The lines for programs are right; the operator's command is run by test_guide."""

    blocks = re.findall(r"(?m)(?:^    .*\n)+", text(ROOT / "README.md"))

    def test_calls_have_the_arguments_of_the_header(self):
        header = re.sub(r"\s+", " ", text(ROOT / "include" / "vengutari.h"))
        calls = re.findall(r"= (vengutari_\w+)\(([^)]*)\);", "".join(self.blocks))
        self.assertEqual(len(calls), 2)
        for name, arguments in calls:
            declared = re.search(rf"uint32_t {name}\(([^)]*)\);", header)[1]
            self.assertEqual(arguments.count(","), declared.count(","), name)

    def test_the_lines_of_python_run(self):
        code = next(block for block in self.blocks if "import vengutari" in block).replace("\n    ", "\n").strip()
        done = subprocess.run([sys.executable, "-c", code], cwd=ROOT, env={**os.environ, "PYTHONPATH": str(ROOT / "python")},
                              capture_output=True, text=True, check=False)
        self.assertTrue(done.stdout.startswith("solved"), done.stderr)

    def test_the_answer_shown_is_that_of_the_example(self):
        self.assertIn(f"    {text(ROOT / 'examples' / 'modes_2d.out')}", self.blocks)


class Measured(unittest.TestCase):
    """Every time stands in one page, which bench/run write has written whole."""

    page = text(ROOT / "docs" / "MEASURED.md")

    def test_it_says_where_it_is_from(self):
        for name in ("Commit: [0-9a-f]{40}", "Machine: .+, [0-9]+ cores", "Date: [0-9]{4}-[0-9]{2}-[0-9]{2}", "Rounds: .+"):
            self.assertTrue(re.search(rf"^- {name}", self.page, re.M), f"{name}: docs/MEASURED.md is written by bench/run write")

    def test_it_has_every_table(self):
        tables = re.search(r'^tables="([^"]+)"$', text(ROOT / "bench" / "run"), re.M)[1].split()
        self.assertEqual(re.findall(r"^## (.+)$", self.page, re.M), tables)


class Layers(unittest.TestCase):
    page = text(ROOT / "docs" / "ARCHITECTURE.md")

    def test_every_crate_stands_in_one_layer(self):
        """Add a new crate to its layer in docs/ARCHITECTURE.md, section Layers."""
        named = [crate for _, crates, _ in layers(self.page) for crate in crates]
        listed = dependencies()
        missing = [crate for crate in listed if crate not in named]
        wrong = [crate for crate in named if crate not in listed or named.count(crate) > 1]
        self.assertEqual((missing, wrong), ([], []), "missing in, and wrong in, the section Layers of docs/ARCHITECTURE.md")

    def test_a_crate_names_no_layer_above_its_own(self):
        level = {crate: number for number, (_, crates, _) in enumerate(layers(self.page)) for crate in crates}
        above = [(crate, name) for crate, names in dependencies().items() for name in names if level.get(name, 0) > level.get(crate, 0)]
        self.assertEqual(above, [])

    def test_the_marks_are_right(self):
        for _, crates, marked in layers(self.page):
            self.assertEqual(sorted(marked), sorted(crate for crate in crates if not has_functions(crate)))

    def test_readme_has_the_same_layers(self):
        section = re.search(r"^## Layers\n(.*?)(?=^## )", text(ROOT / "README.md"), re.M | re.S)[1]
        rows = re.findall(r"^\| (.+?) \|", section, re.M)[1:]
        self.assertEqual([row for row in rows if not row.startswith("-")], [title for title, _, _ in layers(self.page)])


class Laws(unittest.TestCase):
    def test_the_page_is_up_to_date(self):
        done = subprocess.run([sys.executable, ROOT / "tools" / "laws", "--check"], capture_output=True, text=True, check=False)
        self.assertEqual(done.returncode, 0, f"{done.stderr}docs/LAWS.md is written by a program: run tools/laws")


class Changes(unittest.TestCase):
    """Document 02: each request has one landing, whose note gives the check's time before and after
    and says what moved and what stayed."""

    requests, later = re.split(r"^# After document 02$", text(ROOT / "docs" / "CHANGES.md"), flags=re.M)
    entries = re.split(r"^## ", requests, flags=re.M)[1:]
    others = re.split(r"^## ", later, flags=re.M)[1:]

    def test_one_entry_for_each_request(self):
        """In their order; what is no request stands behind them, and what was done for speed in
        docs/PERFORMANCE.md."""
        numbers = [re.match(r"Request (\d+): ", entry) for entry in self.entries]
        self.assertEqual([number and int(number[1]) for number in numbers], list(range(1, 15)))
        self.assertFalse([entry for entry in self.others if entry.startswith("Request ")])

    def test_every_entry_has_its_note(self):
        for entry in self.entries + self.others:
            with self.subTest(entry=entry.splitlines()[0]):
                for part in (r"^\| Check of.*\| Before \| After \|$", r"^- Stayed: ", r"^- (?:New|Moved)"):
                    self.assertTrue(re.search(part, entry, re.M), part)


if __name__ == "__main__":
    unittest.main()
