#!/usr/bin/env python3
"""Spells the repository's own definitions and lemmas as the language's library does: words in snake case.

usage: respell.py [--list] [--pages]

A definition, field or constructor of specs/ and a lemma of proofs/ loses its capitals and dashes: keyBits and key-bits
become key_bits. A dash stays in a lemma's name where it joins the names of two definitions, as in length-set_header, and
beside the name of a type. Goals of a Proof.antt and what is bound inside a term keep their names.
It goes by tokens, over the .antt files, the clauses and `ghost use` items of the .rt files, and the must-fail edits.
--pages turns README.md, CONTRIBUTING.md and docs/ too, between backquotes; --list prints the table and what falls together.
"""
import glob
import os
import re
import sys

ROOT = os.path.dirname(os.path.dirname(os.path.realpath(__file__)))
MARKS = r"(?:(?:pub|abbrev|unfoldable|private)\s+)*"
SIGNATURE = re.compile(r"^(\s*)" + MARKS + r"((?:data|record)\s+)?([^\s:(){}\[\].;,=\"«»λ]+)(?=\s*(?:[({][^=]*)?\s:\s)(?!.*\s=\s.*\s:\s.*\sin\s)")
TOKEN = re.compile(r"--[^\n]*|\"(?:[^\"\\]|\\.)*\"|«[^»]*»|[^\s(){}.;,@\"«»\[\]\\`]+")
NAME = re.compile(r"[a-z][\w'-]*$|[A-Z][A-Z0-9]*(?:-[A-Z0-9]+)+$|[A-Za-z][\w'-]*$")
LIBRARY = set("length take drop set append map mem get_or slice_index_or slice_set some none cond min max sum replicate reverse filter pos negsuc suc".split())


# Where two names would fall together: a function says what it returns, a lemma of a function's name gets _lem.
PICKED = {
    "boolWord": "word_of_bool",
    "charWord": "word_of_char",
    "floatWord": "word_of_float",
    "intWord": "word_of_int",
    "refWord": "word_of_ref",
    "freedCount": "count_of_freed",
    "unfreedCount": "count_of_unfreed",
    "presentCount": "count_of_present",
    "growthBytes": "bytes_of_growth",
    "isImport": "is_import_of",
    "nextKey": "key_after_noted",
    "notedKey": "noted_key_of",
    "newCoroutine": "coroutine_made",
    "kind-of": "kind_of_word",
    "same_words": "are_same_words",
    "readWord": "word_read",
    "entryIs": "stored_entry",
    "frameIs": "frame_seen",
    "open-with": "opens_with",
    "called_is": "called_is_lem",
    "has_word": "has_word_lem",
    "turn_by": "turn_by_lem",
}
LEMMAS = "entry-of field-code first-where form-code memory-code index-for own-rows scalars-of signed-bits placed-plain of-slot"
PICKED |= {n: n.replace("-", "_") + "_lem" for n in LEMMAS.split()}


def read(p):
    with open(p, encoding="utf-8") as f:
        return f.read()


def antt():
    out = []
    for part in ("specs", "proofs"):
        out += glob.glob(os.path.join(ROOT, "crates", "*", part, "**", "*.antt"), recursive=True)
    return sorted(p for p in out if "/out/" not in p)


def is_lemma(p):
    return "/proofs/" in p or re.search(r"Laws\w*\.antt$", p) is not None


def snake(s):
    s = re.sub(r"(?<=[a-z0-9])(?=[A-Z])", "_", s)
    return s.lower()


def spelled(name, words, lemma):
    if re.fullmatch(r"[A-Z][A-Z0-9]*(?:-[A-Z0-9]+)+", name):
        return name.replace("-", "_")
    parts = name.split("-")
    new = [p if re.match(r"[A-Z]", p) else snake(p) for p in parts]
    out = new[0]
    for a, b, was in zip(new, new[1:], parts[1:]):
        joins = re.match(r"[A-Z]", a) or re.match(r"[A-Z]", b) or (lemma and a in words and b in words) or not b or not a
        out += ("-" if joins else "_") + b
    return out


def defined():
    where = {}
    foreign = set()
    own = set(os.listdir(os.path.join(ROOT, "crates")))
    for p in antt():
        goals = p.endswith("/Proof.antt")
        for line in read(p).split("\n"):
            m = re.match(r"\s*(?:unfoldable )?(?:pub )?use ([\w.]+)\.\{(.*)\}", line)
            if m and not (m[1].startswith("Rattle.") and m[1].split(".")[1] in own):
                foreign.update(x.split(" as ")[0].strip() for x in m[2].split(","))
                continue
            m = SIGNATURE.match(line)
            if not m or line.lstrip().startswith(("--", "use ")) or m[2]:
                continue
            if goals and re.search(r":\s+tie\.Need", line):
                continue
            if NAME.match(m[3]):
                where.setdefault(m[3], []).append(p)
    return where, foreign


def table():
    where, foreign = defined()
    words = set(LIBRARY)
    for n, ps in where.items():
        if any(not is_lemma(p) for p in ps):
            words.add(spelled(n, set(), False))
    turned = {}
    for n, ps in sorted(where.items()):
        if n in foreign:
            continue
        if re.match(r"[A-Z]", n) and not re.fullmatch(r"[A-Z][A-Z0-9]*(?:-[A-Z0-9]+)+", n):
            continue
        new = spelled(n, words, all(is_lemma(p) for p in ps))
        if new != n:
            turned[n] = new
    turned |= PICKED
    # the theorem of a function
    for p in antt():
        if p.endswith("/Proof.antt"):
            f = os.path.basename(os.path.dirname(p))
            turned[f.replace("_", "-") + "-spec"] = f + "_spec"
    return {a: b for a, b in turned.items() if a != b}, where, foreign


def turn_tokens(text, names, comments=True):
    def one(m):
        t = m[0]
        if t.startswith("--") and (len(t) == 2 or t[2] in " -"):
            return turn_prose(t, names)
        if t.startswith(('"', "«")):
            return t
        return names.get(t, t)

    return TOKEN.sub(one, text)


def turn_prose(text, names):
    """Comments and pages: what stands between backquotes, and words with a capital inside."""
    text = re.sub(r"`[^`\n]*`", lambda m: turn_tokens(m[0], names), text)
    return re.sub(r"(?<![\w`-])[a-z]+[A-Z]\w*(?![\w`-])", lambda m: names.get(m[0], m[0]), text)


def closing(t, i):
    deep = 0
    for k in range(i, len(t)):
        deep += (t[k] == "{") - (t[k] == "}")
        if not deep:
            return k + 1
    return len(t)


def turn_source(text, names):
    out, i = [], 0
    for m in re.finditer(r"//[^\n]*|\bghost use [^;]*;|\b(?:requires|ensures)\*?(?: \w+)? \{", text):
        if m.start() < i:
            continue
        end = m.end() if not m[0].endswith("{") else closing(text, m.end() - 1)
        piece = text[m.start() : end]
        out.append(text[i : m.start()])
        out.append(turn_prose(piece, names) if piece.startswith("//") else turn_tokens(piece, names))
        i = end
    return "".join(out) + text[i:]


def turn_edit(text, names):
    return "\n".join(re.sub(r"^(old:|new:)(.*)$", lambda m: m[1] + turn_tokens(m[2], names), line) for line in text.split("\n"))


def main():
    names, where, foreign = table()
    if "--list" in sys.argv:
        seen = set()
        for p in antt():
            seen.update(m[0] for m in TOKEN.finditer(read(p)))
        back = {}
        for a, b in names.items():
            back.setdefault(b, []).append(a)
        for a, b in sorted(names.items()):
            print(a, b)
        for b, olds in sorted(back.items()):
            if len(olds) > 1 or (b in seen):
                print("together:", b, "<-", " ".join(olds), "(stands already)" if b in seen else "", sorted({os.path.relpath(p, ROOT) for a in olds + [b] for p in where.get(a, [])})[:6])
        print("foreign:", *sorted(n for n in where if n in foreign and spelled(n, set(), False) != n))
        return
    files = [(p, turn_tokens) for p in antt()]
    files += [(p, turn_source) for p in sorted(glob.glob(os.path.join(ROOT, "crates", "*", "src", "**", "*.rt"), recursive=True))]
    files += [(p, turn_edit) for p in sorted(glob.glob(os.path.join(ROOT, "crates", "*", "must-fail", "*.edit")))]
    if "--pages" in sys.argv:
        files += [(p, turn_prose) for p in [os.path.join(ROOT, "README.md"), os.path.join(ROOT, "CONTRIBUTING.md")] + sorted(glob.glob(os.path.join(ROOT, "docs", "*.md")))]
    for p, turn in files:
        old = read(p)
        new = turn(old, names)
        if new != old:
            with open(p, "w", encoding="utf-8") as f:
                f.write(new)


if __name__ == "__main__":
    main()
