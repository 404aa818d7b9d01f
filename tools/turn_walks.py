#!/usr/bin/env python3
"""Turns what a walk, a Proof.antt over `Tie`, takes from the code to the names that this kit makes: goals, places and steps.

usage: tools/turn_walks.py CRATE_FOLDER NAMES_FOLDER [FUNCTION..]

NAMES_FOLDER is of `rt check --generated NAMES_FOLDER --old-names`, run in the crate's folder, which says each older name beside today's.
Each path of `.before` is followed through the older places and written for today's: the arms of a match are one place now, and a place
opens those before it. It is run once on a crate that port.py and tools/respell.py have turned. What it cannot turn it prints; what it
gets wrong the check refuses.
"""
import json
import os
import re
import sys

crate_dir, names_dir, only = os.path.abspath(sys.argv[1]), sys.argv[2], sys.argv[3:]
crate = os.path.basename(crate_dir)
table = json.load(open(os.path.join(names_dir, "names.json")))
ID = r"[A-Za-zα-ωμκ][\w₀-₉'-]*"
ONE = r"\(" + ID + r"(?: " + ID + r"(?:\.before)*)+\)"
PATH = re.compile(r"(?<![\w.'-])(" + ID + r"|\(" + ID + r"(?: (?:" + ID + r"(?:\.before)*|" + ONE + r"))+\))((?:\.[\w₀-₉'-]+)+)")


def norm(s):
    s = s.replace("_", "-").lower()
    return re.sub(r"-lem(?=\d*$)", "", s)


def typed(f, name):
    i = f.index[norm(name)]
    return (i, f.lifted(i))


class Fn:
    def __init__(self, e):
        self.e = e
        self.places = [norm(p[0]) for p in e["places"]]
        self.index = {p: i for i, p in enumerate(self.places)}
        self.parent = [self.index.get(norm(p[1])) if p[1] else None for p in e["places"]]
        self.step = [norm(p[2][0]) for p in e["places"]]
        self.new_step = [p[2][1] for p in e["places"]]
        self.renames = [dict(map(tuple, p[4])) for p in e["places"]]
        self.new = e["places_by_name"]
        self.arms = e["arms"]
        self.args = {}
        for o, n in e["args"]:
            o, n = o.replace(" ", ""), n.replace(" ", "")
            self.args[o] = n
        self.loops = {norm(a[0]): a[1] for a, v in e["loops"]}

    def final(self, i):
        a = self.arms[i] if i < len(self.arms) else None
        return bool(a) and self.new[i].lower() == a[0].lower() if a else False

    def levels(self, i):
        return self.arms[i][1]

    def new_parent(self, i):
        n = self.levels(i) if self.final(i) else 1
        for _ in range(n):
            i = self.parent[i]
        return i

    def lifted(self, i):
        """The merged arm that place i has gone into, or i."""
        for k in range(len(self.places)):
            if self.final(k):
                j = k
                for _ in range(self.levels(k)):
                    if j == i:
                        return k
                    j = self.parent[j]
        return i

    def climb(self, i, j):
        """How many `.before` lead from place i to place j in the new chain, or None."""
        n = 0
        while i is not None and i != j:
            i = self.new_parent(i)
            n += 1
        return n if i == j else None

    def arm_over(self, top, j):
        """The merged arm on the way from place `top` that place j has gone into."""
        i = top
        while i is not None:
            if self.final(i):
                k, inside = i, []
                for _ in range(self.levels(i)):
                    inside.append(k)
                    k = self.parent[k]
                if j in inside:
                    return i
                i = k
            else:
                if i == j:
                    return None
                i = self.parent[i]
        return None


def tokens_in_call(text, at):
    depth, i, out, cur = 0, at, [], ""
    while i < len(text):
        ch = text[i]
        if ch == "(":
            depth += 1
            cur += ch
        elif ch == ")":
            if depth == 0:
                break
            depth -= 1
            cur += ch
        elif ch.isspace() and depth == 0:
            if cur:
                out.append(cur)
            cur = ""
        else:
            cur += ch
        i += 1
    if cur:
        out.append(cur)
    return out, i


def resolve(f, head, place, segs, said):
    """The new text of head(.segs), and the place where it is one."""
    place, top = place if isinstance(place, tuple) else (place, place)
    cur, i = place, 0
    while i < len(segs) and segs[i] == "before":
        if f.parent[cur] is not None:
            cur = f.parent[cur]
        elif "before" == segs[-1]:
            said.append("past the start: " + head)
        i += 1
    if i == len(segs):
        n = f.climb(top, cur)
        if n is None:
            up = f.lifted(cur)
            n = f.climb(top, up)
            if n is None:
                return None, ("inside", cur)
            return head + ".before" * n, ("place", (cur, up))
        return head + ".before" * n, ("place", (cur, cur))
    s, rest = segs[i], segs[i + 1:]
    # the place whose step this is
    j = cur
    while j is not None and f.step[j] != norm(s):
        j = f.parent[j]
    if j is None and s not in ("args", "blocks", "ranges", "requires", "well_formed", "fits", "good", "pre"):
        j = place
        while j is not None and f.step[j] != norm(s):
            j = f.parent[j]
    if j is None or s in ("args", "blocks", "ranges", "requires", "well_formed", "fits", "good", "pre"):
        s = {"fits": "ranges", "good": "well_formed"}.get(s, s)
        if s == "pre":
            s = "requires"
        text = "." + ".".join([s] + rest)
        for o, n in f.args.items():
            text = re.sub(re.escape(o) + r"(?![\w'-])", n, text)
        return head + text, None
    arm = f.arm_over(top, j)
    if arm is not None:
        best = None
        for name, step, path in f.arms[arm][2]:
            if norm(step) == f.step[j] and rest[: len(path)] == path and (best is None or len(path) > len(best[1])):
                best = (name, path)
        if best is None:
            return None, ("step", j)
        return ".".join([head, f.arms[arm][0], best[0]] + rest[len(best[1]):]), None
    ren = f.renames[j]
    if len(rest) > 1 and rest[0] in ("last", "new") and rest[1] in ("0", "1"):
        params = f.e["params"].get(f.e["places"][j][3]) or []
        k, n = 1, 0
        while k < len(rest) and rest[k] == "1":
            n += 1
            k += 1
        if k < len(rest) and rest[k] == "0" and n < len(params):
            rest = ["new", params[n]] + rest[k + 1:]
        elif params and n == len(params) - 1:
            rest = ["new", params[n]] + rest[k:]
        else:
            said.append("last? " + ".".join(rest))
    rest = ["type_inv" if r == "type-inv" else r for r in rest]
    if rest:
        first = rest[0]
        first = {"taken": "true", "left": "false", "inv": "invariant", "last": "new"}.get(first, first)
        if first in ren:
            first = ren[first]
        elif rest[0] in ren:
            first = ren[rest[0]]
        rest = [first] + rest[1:]
    return ".".join([head, f.new_step[j]] + rest), None


CHAIN = re.compile(r"^(\s*" + ID + r" = )(" + ID + r")((?:\.before)+)\s*$", re.M)


def turn_body(f, text, env, said, local=None):
    """Turns the paths of one declaration; env: names of places known there."""
    env = dict(env)
    m = CHAIN.match(text)
    if m and m.group(2) in env:
        name = m.group(1).strip().split(" ")[0]
        if name in env:
            (_, top), (_, aim) = env[m.group(2)], env[name]
            n = f.climb(top, aim)
            if n is not None:
                return m.group(1) + m.group(2) + ".before" * n + text[m.end():] + ("" if text[m.end():] else "\n\n")
    alias = {}
    out, at = [], 0
    # let NAME = PATH in
    pattern = re.compile(r"(?P<let>\blet (?P<name>" + ID + r") = (?P<rhs>" + PATH.pattern + r") in)(?P<end>[ \n]*)|(?P<call>\blet (?P<cname>" + ID + r") = (?P<cfn>" + ID + r")(?P<cargs>(?: " + ID + r"(?:\.before)*)*) in\b)|(?P<path>" + PATH.pattern + r")|(?P<lam>\((?P<lname>" + ID + r") : tie\.(?P<lplace>[\w'-]+)[^()]*\))", re.U)
    # groups of PATH are unnamed: handle by re-matching
    while True:
        m = pattern.search(text, at)
        if not m:
            out.append(text[at:])
            break
        out.append(text[at: m.start()])
        at = m.end()
        if m.group("lam"):
            if norm(m.group("lplace")) in f.index:
                env[m.group("lname")] = typed(f, m.group("lplace"))
            out.append(m.group(0))
            continue
        if m.group("call"):
            name, called = m.group("cname"), m.group("cfn")
            words = []
            for w in m.group("cargs").split():
                h, *ss = w.split(".")
                if ss:
                    n, k, q = one_path(f, h, ss, env, alias, said)
                    words.append(n or w)
                else:
                    words.append(w)
            alias.pop(name, None)
            place = env.get(called)
            env.pop(name, None)
            if place is not None:
                env[name] = place
            out.append(f"let {name} = " + " ".join([called] + words) + " in")
            continue
        src = m.group("rhs") or m.group("path")
        pm = PATH.fullmatch(src)
        head, segs = pm.group(1), pm.group(2)[1:].split(".")
        new, kind, place = one_path(f, head, segs, env, alias, said)
        if m.group("let"):
            name = m.group("name")
            alias.pop(name, None)
            env.pop(name, None)
            if new is None or kind == "alias":
                h, p, ss = place
                alias[name] = (h, p, ss)
                # the line goes
                tail = out[-1]
                if tail.endswith(("\n", " ")) and m.group("end").startswith("\n"):
                    at = m.start("end") + 1
                    cut = re.search(r"[ \t]*$", tail).start()
                    out[-1] = tail[:cut]
                continue
            if kind == "place":
                env[name] = place
            out.append(f"let {name} = {new} in" + m.group("end"))
            continue
        if new is None:
            said.append(f"within an arm: {src}")
            new = src
        out.append(new)
    return "".join(out)


def head_place(f, head, env):
    if head.startswith("("):
        name = head[1:].split(" ")[0]
        return env.get(name)
    return env.get(head)


def one_path(f, head, segs, env, alias, said):
    if head in alias:
        h, p, ss = alias[head]
        head, place, segs = h, p, ss + segs
    else:
        place = head_place(f, head, env)
        if place is None:
            return head + "." + ".".join(segs), None, None
    shown = head
    if head.startswith("("):
        def inside(m):
            n, k, q = one_path(f, m.group(1), m.group(2)[1:].split("."), env, alias, said)
            return n or m.group(0)
        shown = "(" + re.sub(r"(?<![\w.'-])(" + ID + r")((?:\.before)+)", inside, head[1:-1]) + ")"
    new, info = resolve(f, shown, place, segs, said)
    if new is None:
        return None, None, (head, place, segs)
    if info and info[0] == "place":
        return new, "place", info[1]
    # a path that ends at a step that was renamed below may be an alias: keep it whole if it names a step's own record
    nb = [s for s in segs if s != "before"]
    if len(nb) <= 2 and nb and nb[0] not in ("args", "blocks", "ranges", "requires", "pre") and (len(nb) == 1 or nb[1] in ("given", "last", "new")):
        j = place
        return new, "alias", (head, place, segs)
    return new, None, None


def main():
    for key, e in table.items():
        m = re.fullmatch(r"Rattle-" + re.escape(crate) + r"-proofs\.(.*)\.Lts", key)
        if not m:
            continue
        fn = m.group(1)
        if only and fn not in only:
            continue
        path = os.path.join(crate_dir, "proofs", *fn.split("."), "Proof.antt")
        if not os.path.exists(path):
            continue
        text = open(path, encoding="utf-8").read()
        if "Tie as tie" not in text:
            print("no tie:", fn)
            continue
        said = []
        f = Fn(e)
        needs = [(norm(a), b) for a, b in e["needs"]]
        places_of = {b: f.index[norm(p[0])] for (_, b), p in zip(e["needs"], e["asked_at"])}
        by_name = {}
        for a, b in needs:
            by_name.setdefault(a, b)
        call = re.search(r"tie\.spec\b", text)
        args, end = tokens_in_call(text, call.end())
        decl = {d.group(1): d.group(2) for d in re.finditer(r"^([\w'-]+) : tie\.Need-([\w'-]+)", text, re.M)}
        goal_args = [a for a in args if a in decl]

        def alt(n):
            n = norm(n)
            yield n
            for pre in ("overflow-", "offset-", "bounds-"):
                if n.startswith(pre):
                    yield n[len(pre):]
        chosen = {}
        if len(goal_args) == len(needs):
            for a, (o, b) in zip(goal_args, needs):
                if o not in list(alt(decl[a])):
                    said.append(f"by place: {decl[a]} -> {b} ({o})")
                chosen[a] = b
        else:
            for a in goal_args:
                for n in alt(decl[a]):
                    if n in by_name:
                        chosen[a] = by_name[n]
                        break
        missing_new = [b for a, b in needs if b not in chosen.values()]
        missing_old = [a for a in goal_args if a not in chosen]
        if missing_new or missing_old:
            said.append(f"goals: new {missing_new}, gone {missing_old}")
        for a in missing_old:
            text = re.sub(r"^" + re.escape(a) + r" : tie\.Need-.*\n(?:unfolding .*\n)?(?:" + re.escape(a) + r" .*\n(?:[ \t].*\n)*)+\n?", "", text, flags=re.M)
        call = re.search(r"tie\.spec\b", text)
        args, end = tokens_in_call(text, call.end())
        heads = [a for a in args if a not in decl]
        order = {b: a for a, b in chosen.items()}
        new_args, added = [], []
        for _, b in needs:
            if b in order:
                new_args.append(order[b])
            else:
                added.append(b)
                new_args.append("new-" + b)
        words = heads + new_args
        body = " " + " ".join(words)
        if len(body) > 100:
            body = "\n    " + "\n    ".join(words)
        text = text[: call.end()] + (body if words else "") + text[end:]
        # top-level declarations, one after another
        chunks = re.split(r"(?m)^(?=\S)", text)
        # place-typed names
        base = {}
        for d in re.finditer(r"^\s*(?:abbrev )?(?:pub )?(" + ID + r") : tie\.([A-Z][\w'-]*)", text, re.M):
            if norm(d.group(2)) in f.index:
                base[d.group(1)] = typed(f, d.group(2))
        out, current = [], None
        goal_env = {}
        for ch in chunks:
            mm = re.match(r"(?:pub )?([\w'-]+) : tie\.Need-([\w'-]+)", ch)
            if mm and mm.group(1) in chosen:
                current = mm.group(1)
                ch = re.sub(r"^((?:pub )?[\w'-]+ : tie\.Need-)[\w'-]+", lambda q: q.group(1) + chosen[current], ch)
                out.append(ch)
                continue
            mm = re.match(r"([\w'-]+)((?: [\w'₀-₉-]+)*) =", ch)
            env = dict(base)
            if mm and mm.group(1) == current and mm.group(2):
                env[mm.group(2).split()[0]] = places_of[chosen[current]]
                out.append(turn_body(f, ch, env, said))
                continue
            if ch.startswith("module _"):
                for q in re.finditer(r"\((" + ID + r") : tie\.([A-Z][\w'-]*)", ch):
                    if norm(q.group(2)) in f.index:
                        env[q.group(1)] = typed(f, q.group(2))
                # each definition inside on its own
                parts = re.split(r"(?m)^(?=  \S)", ch)
                done, local_env = [], dict(env)
                for p in parts:
                    q = re.match(r"\s*(?:abbrev )?(?:pub )?(" + ID + r") :.*?tie\.([A-Z][\w'-]*)", p)
                    done.append(turn_body(f, p, local_env, said))
                out.append("".join(done))
                continue
            for q in re.finditer(r"\((" + ID + r") : tie\.([A-Z][\w'-]*)", ch):
                if norm(q.group(2)) in f.index:
                    env[q.group(1)] = typed(f, q.group(2))
            mm2 = re.match(r"(?:abbrev )?(?:pub )?(" + ID + r") :\s", ch)
            if mm2:
                sig = re.findall(r"\((" + ID + r") : tie\.([A-Z][\w'-]*)", ch)
                goal_env[mm2.group(1)] = {a: typed(f, b) for a, b in sig if norm(b) in f.index}
                # unnamed place arguments, in order
                tys = re.findall(r"tie\.([A-Z][\w'-]*)[^→]*→", ch)
                goal_env[mm2.group(1) + "/order"] = [f.index.get(norm(b)) for b in tys]
                arrows = [b for b in re.findall(r"tie\.([A-Z][\w'-]*)[^→()]*→", re.sub(r"\([^()]*\)", "", ch)) if norm(b) in f.index]
                goal_env[mm2.group(1) + "/order"] = [typed(f, b) for b in arrows]
            mm3 = re.match(r"(" + ID + r")((?: [\w'₀-₉-]+)*) =", ch)
            if mm3 and mm3.group(1) in goal_env:
                env.update(goal_env[mm3.group(1)])
                order_now = goal_env.get(mm3.group(1) + "/order") or []
                names_now = [w for w in mm3.group(2).split() if w not in goal_env[mm3.group(1)]]
                for w, q in zip(names_now, order_now):
                    env[w] = q
            out.append(turn_body(f, ch, env, said))
        text = "".join(out)
        # places and loops in types
        new_place = {p: f.new[f.lifted(i)] for i, p in enumerate(f.places)}

        def place(mm):
            n = norm(mm.group(1))
            if n in new_place:
                return "tie." + new_place[n]
            said.append("place? " + mm.group(1))
            return mm.group(0)
        text = re.sub(r"\btie\.((?!Need-)[A-Z][\w'-]*)", place, text)
        for (old, new), variables in e["loops"]:
            text = re.sub(r"\btie\.(invariant|decreases)-" + re.escape(old) + r"(?![\w-])", lambda mm: f"tie.{mm.group(1)}-{new}", text)
        for o, n in e["args"]:
            if o.startswith(".args ."):
                o1, n1 = o.split(".")[-1], n.split(".")[-1]
                text = re.sub(r"(?<![\w'-])(args|a|x)\." + re.escape(o1) + r"(?![\w'-])", lambda mm: mm.group(1) + "." + n1, text)
        if added:
            inv = " ".join(heads)
            defs = ""
            for b in added:
                defs += (f"new-{b} : tie.Need-{b} {inv}".rstrip() + f"\nnew-{b} c = search rules\n\n")
            spot = re.search(r"^pub [\w'-]+ : \{M : Type 1\}", text, re.M) or re.search(r"^pub [\w'-]+ :.*statement", text, re.M)
            text = text[: spot.start()] + defs + text[spot.start():]
        last = fn.split(".")[-1].lstrip("+")
        text = re.sub(r"^(pub )?" + last.replace("_", "[-_]") + r"[-_]spec\b", lambda q: (q.group(1) or "") + last + "_spec", text, flags=re.M)
        open(path, "w", encoding="utf-8").write(text)
        if said:
            print(fn + ": " + "; ".join(dict.fromkeys(said)))


main()
