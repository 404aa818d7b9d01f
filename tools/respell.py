#!/usr/bin/env python3
"""Brings the definitions and lemmas of this repository to snake case, once, after the kit's own port.

usage: python3 tools/respell.py [--list]      at the top of the repository; --list prints the names and changes nothing

A name is turned where a file of specs/ or proofs/ declares it at the beginning of a line: a definition, a lemma, a field or a constructor.
Types keep their capital. The names of functions in src/, strings, and what is imported from a library stay. In a .rt file only clauses and
`ghost use` lines are read, in a must-fail edit the texts of old and new as the file that it names is read.
"""
import collections
import glob
import os
import re
import sys

WORD = re.compile(r"(?<![\w◌'`-])[A-Za-zα-ωΑ-Ωκμ][\w₀-₉]*(?:-[\w₀-₉]+)*'*(?![\w◌-])")
DECL = re.compile(r"^\s*(?:(?:abbrev|unfoldable|opaque|pub)\s+)*([A-Za-zα-ω][\w₀-₉]*(?:-[\w₀-₉]+)*'*(?:\s+[A-Za-zα-ω][\w₀-₉]*(?:-[\w₀-₉]+)*'*)*)\s*:(?:\s|$)")
GIVEN = re.compile(r"/proofs/(?:.*/)?[^/]+/Proof\.antt$")
# Lemmas whose names would fall together with a definition's.
LEMMAS = """answer-lengths boards-lengths bound-up-to coordinate-of cost-up-to first-label first-least first-points half-size
is-solved job-lengths last-open least-in line-lengths loss-in on-grid opposite-end peel-lengths ranges-lengths record-at search-lengths
side-at unused-zero vector-from wrong-length with-run kept_by least_at no_size size_in row_count bytes_left""".split()
# Parameters of definitions that a reader meets in specs/.
PARAMETERS = """newValue newNumbers newVectors newVector newPatterns newOut newLabels newCodes newCases newBudgets own-low own-high""".split()
HEAD = {"module", "record", "data", "use", "where", "let", "in", "mod", "unfolding"}


def snake(name):
    if name[0].isupper():
        # a fact or a type keeps its capital: a word that is added follows with a low line
        return name.replace("-", "_") if "-" in name else name
    name = name.replace("-", "_")
    name = re.sub(r"([a-z0-9])([A-Z])", lambda m: m.group(1) + "_" + m.group(2).lower(), name)
    return re.sub(r"(?<=_)([A-Z])", lambda m: m.group(1).lower(), name)


def own_crates():
    return {os.path.basename(p) for p in glob.glob("crates/*")}


def imported(text, crates):
    """The names that a file takes from a library."""
    names = set()
    for module, listed in re.findall(r"use\s+([\w.·'-]+)\.\{([^}]*)\}", text):
        parts = module.split(".")
        if parts[0] == "Rattle" and parts[1] in crates and parts[2] in ("specs", "proofs") and not {"declared", "Tie", "Goals", "Given"} & set(parts):
            continue
        for n in listed.split(","):
            n = n.strip()
            if " as " in n:
                n = n.split(" as ")[0].strip()
            names.add(n)
    return names


def clauses(text):
    """The parts of a .rt file that are antt: the clauses in braces and the `ghost use` lines."""
    parts = []
    for m in re.finditer(r"ghost use [^;]*;", text):
        parts.append((m.start(), m.end()))
    for m in re.finditer(r"^\s*(?:requires|ensures|ghost)\*?(?:\s+\w+)?:?\s*\{", text, re.M):
        depth, i = 1, m.end()
        while depth:
            depth += {"{": 1, "}": -1}.get(text[i], 0)
            i += 1
        parts.append((m.end(), i - 1))
    return sorted(parts)


def comments_apart(text, turn):
    """Turns what is no comment and no string; a name in backquotes inside a comment is turned too."""
    out = []
    for line in text.split("\n"):
        at = re.search(r"(?:^|\s)--\s", line + " ")
        code, comment = (line[: at.start()], line[at.start():]) if at else (line, "")
        out.append(turn(code) + re.sub(r"`([^`]*)`", lambda m: "`" + turn(m.group(1)) + "`", comment))
    return "\n".join(out)


def main():
    crates = own_crates()
    antt = [p for p in glob.glob("crates/**/*.antt", recursive=True) if "/out/" not in p]
    names = collections.Counter()
    for p in antt:
        if GIVEN.search(p):
            continue
        for line in open(p, encoding="utf-8"):
            m = DECL.match(line)
            if m:
                for n in m.group(1).split():
                    if n not in HEAD and "pub" != n:
                        names[n] += 1
    table = {n: snake(n) for n in names if snake(n) != n}
    table |= {n: snake(n) for n in PARAMETERS} | {n: snake(n) + "_lem" for n in LEMMAS}
    taken = collections.Counter(table.values())
    if "--list" in sys.argv:
        for n, s in sorted(table.items()):
            print(n, s, names[n], "TWICE" if taken[s] > 1 else "", "STANDS" if s in names else "")
        return

    def turner(kept):
        def turn(code):
            def one(m):
                w = m.group(0)
                if w not in table or w in kept:
                    return w
                before = code[: m.start()]
                if re.search(r"(?:\btie|\blts|\breads?|\bgoal|[\w-]+-reads|[\w-]+-lts)\.$", before):
                    return w
                return table[w]
            return WORD.sub(one, code)
        return turn

    changed = 0
    kept_of = {}
    for p in antt:
        text = open(p, encoding="utf-8").read()
        kept_of[p] = imported(text, crates)
        new = comments_apart(text, turner(kept_of[p]))
        changed += new != text
        open(p, "w", encoding="utf-8").write(new)
    for p in glob.glob("crates/*/src/**/*.rt", recursive=True):
        text = open(p, encoding="utf-8").read()
        kept_of[p] = imported(text, crates)
        turn, out, at = turner(kept_of[p]), [], 0
        for a, b in clauses(text):
            out += [text[at:a], turn(text[a:b])]
            at = b
        new = "".join(out) + text[at:]
        changed += new != text
        open(p, "w", encoding="utf-8").write(new)
    for p in glob.glob("crates/*/must-fail/*.edit"):
        text = open(p, encoding="utf-8").read()
        f = re.search(r"^file:\s*(\S+)", text, re.M).group(1)
        target = os.path.join(os.path.dirname(os.path.dirname(p)), f)
        if not f.endswith(".antt"):
            continue
        turn = turner(kept_of.get(target, set()))
        new = re.sub(r"^((?:old|new): )(.*)$", lambda m: m.group(1) + turn(m.group(2)), text, flags=re.M)
        changed += new != text
        open(p, "w", encoding="utf-8").write(new)
    print(f"{len(table)} names, {changed} files")


main()
