#!/usr/bin/env python3
"""Writes the static libraries: crates/NAME_c/src/lib.rt from crates/NAME/src/lib.rt.

usage: exports.py [--check] [NAME ..]

A crate is built as a library or as a static library, and not as both. So NAME is the library, which Rattle crates may use and
where the functions are proved, and NAME_c is a thin static library over it, for C: each function of NAME that is exported, under
its name, with its clauses, and with a body that calls it. With no NAME: capi, heap_bench, map_bench. --check writes nothing, and
fails where a file is not what would be written. Run it after a change of an exported function, then `rt fmt` says nothing more.
"""
import os
import re
import sys

ROOT = os.path.dirname(os.path.dirname(os.path.realpath(__file__)))
NAMES = ["capi", "heap_bench", "map_bench"]
WIDTH = 100
CALL_WIDTH = 60
SECTION = re.compile(r"^// ---- [^\n]*\n", re.M)
EXPORT = re.compile(
    r"((?:^//[^\n]*\n)*)"  # what it does
    r"(?:^#\[unsafe\(no_mangle\)\]\n)?"
    r'^pub (?:extern "C" )?fn (\w+)\((.*?)\)( -> [^\n{]+?)?(?: \{\n|\n'  # its parameters and result
    r"((?:^    [^\n]*\n)*)^\{\n)",  # its clauses
    re.S | re.M,
)


def read(path):
    with open(path, encoding="utf-8") as f:
        return f.read()


def items(text):
    """The sections and exports of a library, in their order."""
    at = {m.start(): m for m in EXPORT.finditer(text)}
    at |= {m.start(): m for m in SECTION.finditer(text)}
    return [at[k] for k in sorted(at)]


def arguments(parameters):
    """The parameters' names: a type holds no comma but within brackets."""
    flat = re.sub(r"[\[<][^\[\]<>]*[\]>]", "", parameters)
    return [p.split(":")[0].strip() for p in flat.split(",") if p.strip()]


def call(name, function, args):
    """A call as rt fmt lays it out: on one line, else the arguments filled below."""
    inside = ", ".join(args)
    line = f"    {name}::{function}({inside})"
    if len(inside) <= CALL_WIDTH and len(line) <= WIDTH:
        return line + "\n"
    rows, row = [], ""
    for a in args:
        more = f"{row} {a}," if row else f"        {a},"
        if len(more) > WIDTH:
            rows.append(row)
            more = f"        {a},"
        row = more
    return f"    {name}::{function}(\n" + "\n".join(rows + [row]) + "\n    )\n"


def imports(text, used):
    """The `ghost use` lines, without the names that no clause has."""
    words = set(re.findall(r"[^\s(){}\[\].,;:]+", used)) | set(re.findall(r"[^\s(){}\[\],;:]+(?=\.)", used))
    out = []
    for m in re.finditer(r"^ghost use ([^;]*);\n", text, re.M):
        path = m.group(1)
        if " as " in path and "{" not in path:
            if path.split(" as ")[1].strip() in words:
                out.append(m.group(0))
            continue
        head, names = re.fullmatch(r"(.*)\.\{(.*)\}", path, re.S).groups()
        kept = [n.strip() for n in names.split(",") if n.strip().strip("◌") in words]
        if kept:
            out.append(f"ghost use {head}.{{{', '.join(kept)}}};\n")
    return "".join(out)


def made(name):
    text = read(f"{ROOT}/crates/{name}/src/lib.rt")
    parts, clauses, section = [], "", ""
    for m in items(text):
        if m.re is not EXPORT:
            section = m.group(0) + "\n"
            continue
        said, function, parameters, result, facts = m.groups()
        facts = facts or ""
        clauses += facts
        body = call(name, function, arguments(parameters))
        head = f'{said}#[unsafe(no_mangle)]\npub extern "C" fn {function}({parameters}){result or ""}'
        parts.append(section + head + ("\n" if facts else " ") + facts + "{\n" + body + "}\n")
        section = ""
    about = (
        f"// The functions of crate {name} for C, under their names: lib{name}_c.a. Made by tools/exports.py from\n"
        f"// crates/{name}/src/lib.rt.\n"
    )
    return f"{about}#![tactic(auto)]\n\n{imports(text, clauses)}\n" + "\n".join(parts)


def main():
    check = "--check" in sys.argv
    stale = False
    for name in [a for a in sys.argv[1:] if a != "--check"] or NAMES:
        path = f"{ROOT}/crates/{name}_c/src/lib.rt"
        text = made(name)
        if check:
            if not os.path.exists(path) or read(path) != text:
                print(f"{path}: not as tools/exports.py writes it")
                stale = True
            continue
        os.makedirs(os.path.dirname(path), exist_ok=True)
        with open(path, "w", encoding="utf-8") as f:
            f.write(text)
        print(f"{name}_c: {text.count('extern')} exports")
    sys.exit(stale)


main()
