#!/usr/bin/env python3
"""Writes what each lent buffer holds where a clause named the buffer: `lent h slots ..`, `before ..` and `after ..` become
`state h slots.old ..` and `state h slots.new ..`, `.now` for a `&`; likewise `lend`, `on_entry` and `on_exit` become `lend`."""
import glob
import os
import re

ROOT = os.path.dirname(os.path.dirname(os.path.realpath(__file__)))
FN = re.compile(r"\bfn (\w+)\s*(?:<[^>]*>)?\(((?:[^()]|\([^()]*\))*)\)([^{;]*?)((?:\n?\s*(?:requires|ensures)\*?(?: \w+)? \{(?:[^{}]|\{[^{}]*\})*\})+)")
WORDS = {"lent": ("state", "old"), "before": ("state", "old"), "after": ("state", "new"), "lend": ("lend", "old"), "on_entry": ("lend", "old"), "on_exit": ("lend", "new")}


def turn(m):
    refs = {}
    for n, ty in re.findall(r"(\w+)\s*:\s*(&?\s*(?:mut\b)?)", m[2]):
        if ty.startswith("&"):
            refs[n] = "mut" in ty
    def call(c):
        word, moment = WORDS[c[1]]
        args = c[2]
        out = re.sub(r"(?<![\w.'-])([a-z_]\w*)(?![\w.'-])", lambda a: a[1] + ((f".{moment}" if refs[a[1]] else ".now") if a[1] in refs else ""), args)
        return "(" + word + out + ")"
    clauses = re.sub(r"\((lent|before|after|lend|on_entry|on_exit)((?: (?:[\w.]+|\((?:[^()]|\([^()]*\))*\)))+)\)", call, m[4])
    return m[0][: len(m[0]) - len(m[4])] + clauses


for p in sorted(glob.glob(os.path.join(ROOT, "crates", "*", "src", "**", "*.rt"), recursive=True)):
    old = open(p, encoding="utf-8").read()
    new = FN.sub(turn, old)
    if new != old:
        def uses(m):
            names = [x.strip() for x in m[2].split(",")]
            if m[1].endswith("State") and any(x in names for x in ("lent", "before", "after")):
                names = sorted({x for x in names if x not in ("lent", "before", "after")} | {"state"})
            if m[1].endswith("Turns") and any(x in names for x in ("on_entry", "on_exit")):
                names = sorted({x for x in names if x not in ("on_entry", "on_exit")} | {"lend"})
            return f"ghost use {m[1]}.{{{', '.join(names)}}};"
        new = re.sub(r"ghost use ([\w.]+)\.\{([^}]*)\};", uses, new)
        open(p, "w", encoding="utf-8").write(new)
