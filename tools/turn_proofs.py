#!/usr/bin/env python3
"""Gives each proof by hand the names that today's Rattle makes for goals, places, steps and loops.

usage: turn_proofs.py NAMES [CRATE..]
       turn_proofs.py NAMES CRATE/proofs/FUNCTION..

NAMES is the folder that `rt names NAMES` writes. Each crates/CRATE/proofs/**/Proof.antt is rewritten in place: goals
(tie.Need-..) and what answers them, places (tie.After-..), and what is read off a place, as c.before.if1.true, which
becomes c.if-a-b.true. Goals that the file lacks are answered by `search rules`; what it could not find is printed.
"""
import json
import os
import re
import sys

ROOT = os.path.dirname(os.path.dirname(os.path.realpath(__file__)))
def plain(s):
    s = re.sub("-+", "-", s.replace("_", "-")).lower()
    return "kind-of" if s == "kind-of-word" else re.sub("-lem$", "", s)


CHAIN = r"(?<![\w.'-])(%s)((?:\.[^\s(){}.;,@\"«»\[\]\\]+)+)"
FIELDS = {"taken": "true", "left": "false", "inv": "invariant", "type-inv": "type_inv", "ok": "type_inv", "well-formed": "well_formed", "yielded-by": "yielded_by"}
START = {"good": "well_formed", "pre": "requires", "requires": "requires", "args": "args", "fits": "ranges", "ranges": "ranges", "lifetimes": "lifetimes", "well-formed": "well_formed", "auto": "auto", "type-inv": "type_inv"}
PREFIX = ("overflow-", "nonzero-", "offset-bounds-", "bounds-", "slice-bounds-", "shape-of-", "invariant-of-")


class Fn:
    def __init__(self, it):
        self.places = it["places"]
        self.names = it["places_by_name"]
        self.arms = it["arms"] + [None] * (len(it["places"]) - len(it["arms"]))
        self.index = {p[0]: i for i, p in enumerate(self.places)}
        self.by_plain = {}
        for i, p in enumerate(self.places):
            self.by_plain.setdefault(plain(p[0]), i)
        self.new_index = {n: i for i, n in enumerate(self.names)}
        self.needs = it["needs"]
        self.asked = [a[0] for a in it["asked_at"]] if len(it["asked_at"]) == len(it["needs"]) else [None] * len(it["needs"])
        self.need = {}
        for (old, new), at in zip(self.needs, self.asked):
            self.need.setdefault(plain(old), (new, at))
        self.loops = {plain(a[0]): a[1] for a, _ in it["loops"]}

    def find_need(self, old):
        key = plain(old)
        for cut in ("",) + PREFIX:
            if key.startswith(cut) and key[len(cut):] in self.need:
                return self.need[key[len(cut):]]
        for old_, new in self.needs:
            if new == old:
                return self.need[plain(old_)]
        return None

    def parent(self, i):
        p = self.places[i][1]
        return None if p is None else self.index.get(p)

    def deepest(self, i):
        """The last place of the arm that the place i begins."""
        while self.arms[i]:
            j = next((j for j, a in enumerate(self.arms) if a and self.parent(j) == i and a[0] == self.arms[i][0] and a[1] == self.arms[i][1] + 1), None)
            if j is None:
                break
            i = j
        return i

    def chain(self, i):
        out = []
        while i is not None:
            out.append(i)
            i = self.parent(i)
        return out

    def read(self, i, fields):
        """The fields that read today what the old fields read off the place i, or None."""
        k = 0
        while k < len(fields) and fields[k] == "before":
            k += 1
        if k == len(fields):
            return None
        first, rest = fields[k], fields[k + 1:]
        line = self.chain(i)
        if k < len(line):
            order = line[k:] + line[:k]
        else:
            order = line
        known = {plain(self.places[q][2][0]) for q in line}
        if plain(first) not in known and first not in START and re.sub(r"\d+$", "", plain(first)) in known:
            first = re.sub(r"\d+$", "", first)
        for q in order:
            old = self.places[q][2][0]
            if old == "" or plain(old) != plain(first):
                continue
            for r in line:
                arm = self.arms[r]
                best = None
                for new, step, path in arm[2] if arm else []:
                    if plain(step) == plain(first) and [plain(x) for x in path] == [plain(x) for x in rest[: len(path)]]:
                        if best is None or len(path) > len(best[1]):
                            best = (new, path)
                if best:
                    return [arm[0], best[0]] + self.tail(q, rest[len(best[1]):])
            return [self.places[q][2][1]] + self.tail(q, rest)
        if first in START:
            return [START[first]] + [x.replace("-", "_") if j == 0 and first in ("args", "fits", "ranges") else x for j, x in enumerate(rest)]
        return None

    def tail(self, q, rest):
        extra = dict(self.places[q][4]) if self.places[q][4] else {}
        out = []
        for j, f in enumerate(rest):
            f = FIELDS.get(f, f) if j == 0 else f
            if j == 0:
                f = extra.get(f, f)
            out.append(f)
        return out


def definitions(text):
    """The text cut before each top-level definition: (signature's name or None, lines)."""
    blocks, now = [], []
    for line in text.split("\n"):
        if re.match(r"(?:(?:pub|abbrev|unfoldable)\s+)*[^\s:]+\s*(?:\{[^}]*\}\s*)?:\s", line) and not line.startswith(("use ", "--", " ")):
            blocks.append(now)
            now = []
        now.append(line)
    blocks.append(now)
    return ["\n".join(b) for b in blocks]


NAMED = r"[\w'₀-₉-]+"


def flatten(b, vars_, helpers):
    """What stands for a place reached by .before is read off the innermost place, and found by its type where it is passed on."""
    for _ in range(20):
        m = None
        for v in vars_:
            starts = "|".join(helpers["start"]) or "(?!x)x"
            for hit in re.finditer(r"let (%s) = (?:(?:%s) )?(%s)((?:\.before)*) in\s*" % (NAMED, starts, re.escape(v)), b):
                others = re.findall(r"let %s = (?:(?:%s) )?([\w'-]+)(?:\.before)* in" % (re.escape(hit[1]), starts), b)
                if all(o == v for o in others):
                    m = hit
                    break
            if m:
                break
        if not m:
            break
        alias, root = m[1], m[2]
        again = re.compile(r"let %s = (?:(?:%s) )?%s((?:\.before)*) in\s*" % (re.escape(alias), "|".join(helpers["start"]) or "(?!x)x", re.escape(root)))
        rest = again.sub("", b)
        rest = re.sub(r"(?<![\w.'-])%s(?=\.)" % re.escape(alias), root, rest)
        rest = re.sub(r"(?<![\w.'-])%s(?![\w.'₀-₉-])" % re.escape(alias), "(search)", rest)
        b = rest
    if vars_:
        roots = "|".join(re.escape(v) for v in vars_)
        if helpers["start"]:
            b = re.sub(r"\((?:%s) (%s)(?:\.before)*\)(?=\.)" % ("|".join(helpers["start"]), roots), r"\1", b)
            b = re.sub(r"\((?:%s) \(search\)\)\." % "|".join(helpers["start"]), next(iter(vars_)) + ".", b)
        b = re.sub(r"(?<![\w.'-])(%s)(?:\.before)+(?![\w.'-])" % roots, "(search)", b)
    return b


def untype(b, main, typed, vars_):
    """A place that was found by its type and only read from: it is read off the goal's own record."""
    for alias in sorted(typed):
        lets = re.compile(r"let %s : tie\.[^=]*= search in\s*" % re.escape(alias))
        rest = lets.sub("", b)
        if rest == b or re.search(r"(?<![\w.'-])%s(?![\w.'-])" % re.escape(alias), rest):
            continue
        b = re.sub(r"(?<![\w.'-])%s(?=\.)" % re.escape(alias), main, rest)
        vars_.pop(alias, None)
    return b


def turn(path, fn, said):
    text = open(path, encoding="utf-8").read()
    # (c.x.given).1 is c.x.given.1
    text = re.sub(r"\(([\w'-]+(?:\.[^\s(){}.;,]+)+)\)(?=\.)", r"\1", text)
    name = os.path.basename(os.path.dirname(path))
    blocks = definitions(text)
    answers, given, out, leading = {}, {}, [], []
    heads = [m for m in (re.match(r"(?:pub )?([^\s:]+)\s*: tie\.Need-([^\s()]+)", b) for b in blocks) if m]
    goals = {m[2]: fn.find_need(m[2]) or fn.need.get(plain(m[1])) for m in heads}
    taken = {h[0] for h in goals.values() if h}
    rest = [(old, new) for old, new in fn.needs if new not in taken]
    stem = lambda s: re.sub(r"-t\d+", "-t", plain(s))
    for m in heads:
        if goals[m[2]]:
            continue
        for old, new in rest:
            if stem(old) == stem(m[1]):
                goals[m[2]] = fn.need[plain(old)]
                rest.remove((old, new))
                break
    find_need = lambda w: goals.get(w) or fn.find_need(w)
    for b in blocks:
        m = re.match(r"(?:pub )?([^\s:]+)\s*: tie\.Need-([^\s()]+)", b)
        if m:
            hit = find_need(m[2])
            if hit:
                answers[m[1]] = hit[0]
                given[hit[0]] = m[1]
            else:
                said.append(f"{path}: no goal today for {m[2]}")
                answers[m[1]] = m[1]
    # what leads from a place to an earlier one
    helpers = {"start": [m[1] for m in (re.match(r"(?:abbrev )?(?:pub )?([^\s:]+) : (?:\([\w'-]+ : tie\.[^)]*\)|tie\.[^→]*)\s*→ tie\.(?!.*→)", b) for b in blocks) if m]}
    tie_words = lambda t: re.sub(r"tie\.([^\s(){}.;,]+)", lambda m: "tie." + word(m[1]), t)

    def word(w):
        if w.startswith("Need-"):
            hit = find_need(w[5:])
            return "Need-" + hit[0] if hit else w
        m = re.match(r"(invariant|decreases)[_-](.*)$", w)
        if m:
            hit = fn.loops.get(plain(m[2]))
            return f"{m[1]}-{hit}" if hit else w
        if plain(w) in fn.by_plain and w not in ("spec", "close"):
            return fn.names[fn.deepest(fn.by_plain[plain(w)])]
        return w

    def place_of(w):
        return fn.by_plain.get(plain(w), fn.new_index.get(w))

    for b in blocks:
        vars_ = {}
        m = re.match(r"(?:pub )?([^\s:]+)\s*: tie\.Need-([^\s()]+)", b)
        head = b.split("\n", 1)[0]
        if m:
            hit = find_need(m[2])
            clause = re.search(r"(?m)^" + re.escape(m[1]) + r" (?!:)([^=:\n]*)=", b)
            if hit and hit[1] and clause and clause[1].split():
                vars_[clause[1].split()[0]] = fn.index[hit[1]]
        for v, p in re.findall(r"\(([\w'-]+) : tie\.([^\s(){}.;,]+)", b):
            if place_of(p) is not None:
                vars_[v] = place_of(p)
        typed = set()
        for v, p in re.findall(r"let ([\w'-]+) : tie\.([^\s(){}.;,]+)", b):
            typed.add(v)
            if place_of(p) is not None:
                vars_[v] = fn.deepest(place_of(p))
        # a helper's own clause may name its argument otherwise
        m2 = re.match(r"(?:pub )?([^\s:]+)\s*: \(([\w'-]+) : tie\.([^\s(){}.;,]+)", b)
        if m2 and place_of(m2[3]) is not None:
            clause = re.search(r"(?m)^" + re.escape(m2[1]) + r" (?!:)([\w'-]+)", b)
            if clause:
                vars_[clause[1]] = place_of(m2[3])

        if helpers["start"]:
            step = "|".join(re.escape(h) for h in helpers["start"])
            for _ in range(30):
                rest = re.sub(r"\((?:%s) (%s)((?:\.before)*)\)" % (step, NAMED), r"\1", b)
                rest = re.sub(r"= (?:%s) (%s)((?:\.before)*) in" % (step, NAMED), r"= \1 in", rest)
                if rest == b:
                    break
                b = rest
            for _ in range(30):
                alias = next(((x, y) for x, y in re.findall(r"let (%s) = (%s) in\s*" % (NAMED, NAMED), b) if y in typed or y in vars_), None)
                if not alias:
                    break
                b = re.sub(r"let %s = %s in\s*" % (re.escape(alias[0]), re.escape(alias[1])), "", b)
                b = re.sub(r"(?<![\w.'-])%s(?![\w'₀-₉-])" % re.escape(alias[0]), alias[1], b)
                b = re.sub(r"\((?:%s) (%s)((?:\.before)*)\)" % (step, NAMED), r"\1", b)
                b = re.sub(r"= (?:%s) (%s)((?:\.before)*) in" % (step, NAMED), r"= \1 in", b)
        main = next((v for v in vars_ if v not in typed), None)
        if main:
            b = untype(b, main, typed, vars_)
        b = flatten(b, vars_, helpers)

        def one(m):
            fields = m[2][1:].split(".")
            i = vars_[m[1]]
            got = fn.read(i, fields)
            if got is None:
                if any(f != "before" for f in fields):
                    said.append(f"{path}: {m[1]}{m[2]} at {fn.places[i][0]}")
                return m[0]
            return m[1] + "." + ".".join(got)

        if vars_:
            b = re.sub(CHAIN % "|".join(re.escape(v) for v in sorted(vars_, key=len, reverse=True)), one, b)
        out.append(tie_words(b))
    # what answers a goal is named as the goal
    text = "\n".join(out)
    m = re.search(r"(?s)(\(?tie\.spec)(.*?)(\)\s*$|\)\n)", text[text.rfind("tie.close"):])
    if not m:
        said.append(f"{path}: no tie.spec")
        return
    cut = text.rfind("tie.close")
    args = m[2].split()
    leading = [a for a in args if a not in answers]
    body, closing = text[:cut], text[cut:]
    lines = body.rstrip().split("\n")
    names_ = {a: n for a, n in answers.items() if a != n}
    token = re.compile(r"(?<![^\s()\[\]{};,])(" + "|".join(re.escape(a) for a in sorted(names_, key=len, reverse=True)) + r")(?![^\s()\[\]{};,])") if names_ else None
    if token:
        body = "\n".join(l if l.startswith(("use ", "--")) else token.sub(lambda m: names_[m[1]], l) for l in body.split("\n"))
    # the head of the theorem
    k = body.rstrip().rfind("\npub ")
    before, theorem = body[:k], body[k:]
    for _, new in fn.needs:
        if new not in given:
            said.append(f"{path}: new goal {new}")
            arg = "c κs" if new.endswith("requires") or re.search(r"requires-\d+$", new) else "c"
            before = before.rstrip("\n") + f"\n\n{new} : tie.Need-{new}{''.join(' ' + a for a in leading)}\n{new} {arg} = search rules\n"
            if "use borrow.Author.Rules.{rules}" not in before:
                before = before.replace("\nuse ", "\nuse borrow.Author.Rules.{rules}\nuse ", 1) if "\nuse " in before else "use borrow.Author.Rules.{rules}\n" + before
    spec = "tie.close\n    (tie.spec\n    " + "\n    ".join(leading + [new for _, new in fn.needs]) + ")\n"
    if len(leading) + len(fn.needs) == 0:
        spec = "tie.close tie.spec\n"
    text = before.rstrip("\n") + "\n" + theorem.rstrip(" \n") + ("\n    " if theorem.rstrip(" \n").endswith("=") else " ") + spec
    open(path, "w", encoding="utf-8").write(text)


ONLY = set()


def main():
    names = sys.argv[1]
    ONLY.update(a.rstrip("/") for a in sys.argv[2:] if "/proofs/" in a)
    crates = sorted({a.split("/")[0] for a in ONLY}) or sys.argv[2:] or sorted(os.listdir(os.path.join(ROOT, "crates")))
    said = []
    for c in crates:
        listed = os.path.join(names, "crates", c, "names.json")
        if not os.path.exists(listed):
            said.append(f"{c}: no names")
            continue
        d = json.load(open(listed, encoding="utf-8"))
        for folder, _, files in os.walk(os.path.join(ROOT, "crates", c, "proofs")):
            if "Proof.antt" not in files:
                continue
            rel = os.path.relpath(folder, os.path.join(ROOT, "crates", c, "proofs")).replace(os.sep, ".")
            if ONLY and f"{c}/proofs/{rel.replace('.', '/')}" not in ONLY:
                continue
            key = f"Rattle-{c}-proofs.{rel}.Lts"
            if key not in d:
                said.append(f"{c}: {rel}: no names")
                continue
            turn(os.path.join(folder, "Proof.antt"), Fn(d[key]), said)
    print("\n".join(x.replace(ROOT + "/crates/", "") for x in said))


if __name__ == "__main__":
    main()
