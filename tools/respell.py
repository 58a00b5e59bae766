#!/usr/bin/env python3
"""Respells the names of this repository's own definitions and lemmas as today's Rattle spells names.

usage: python3 tools/respell.py          writes the files under crates/, and the names in backticks of README.md and docs/
       python3 tools/respell.py --list   prints each old name with its new one, and the names that would fall together

It was run once, after the toolchain's own script. Definitions and fields go from camel case to snake case, a lemma's
plain words are joined by '_', and a dash stays only between two names, as in length-revise. A fact keeps its capital.
Goals that the checker names, functions of src/ and everything printed keep their names.
"""

import os
import re
import sys

TOP = os.path.dirname(os.path.dirname(os.path.realpath(__file__)))

# names that the rule below does not give
CHOSEN = {
    "Sends-well": "SendsWell",
    "atStage": "label_at_stage",
    "bare-shape": "ring_shape-bare",
    "behind-halves": "behind_halves_lem",
    "due-or": "due_or_lem",
    "in-range": "in_range",
    "is-label": "is_label_lem",
    "is-this": "is_this_lem",
    "byLabel-put": "by_label-put",
    "getD-blank": "get_or_blank",
    "length-down": "length-down_from",
    "length-revise": "length-revise",
    "length-settle": "length-settle",
    "put-Put": "put-Put",
}

WORD = re.compile(r"[A-Za-z][\w'\u2080-\u2089-]*")


def files():
    for folder, dirs, names in os.walk(os.path.join(TOP, "crates")):
        dirs[:] = sorted(d for d in dirs if d != "out")
        for f in sorted(names):
            if f.endswith((".antt", ".rt", ".edit")):
                yield os.path.join(folder, f)


def read(path):
    with open(path, encoding="utf-8") as f:
        return f.read()


def foreign():
    """The names that our files import from the library."""
    found = set()
    for p in files():
        for where, names in re.findall(r"use ([\w.]+)\.\{([^}]*)\}", read(p)):
            if not re.match(r"Rattle\.(%s)\." % "|".join(os.listdir(os.path.join(TOP, "crates"))), where):
                found |= {n.split(" as ")[0].strip() for n in names.split(",")}
    return found


def declared():
    """The names that our files of specs/ and proofs/ declare or bind, but for answers to goals."""
    found = set()
    bound = re.compile(r"[({]([a-z][^\s:(){}]*(?: [a-z][^\s:(){}]*)*) : ")
    line = re.compile(r"^\s*(?:(?:abbrev|unfoldable|pub)\s+)*(?:record\s+|data\s+)?(?:pub\s+)?([A-Za-z][^\s:(){}\[\],;.]*)(?:\s*[({][^=]*)?\s+:\s(.*)$")
    for p in files():
        if not p.endswith(".antt"):
            continue
        for l in read(p).splitlines():
            m = line.match(l)
            if m and not l.lstrip().startswith(("--", "use ", "let ", "module ")) and not m.group(2).startswith("goal."):
                found.add(m.group(1))
            if not l.lstrip().startswith("--"):
                found |= {n for names in bound.findall(l) for n in names.split()}
    return found - foreign()


def snake(name):
    name = re.sub(r"(?<=[a-z0-9])([A-Z])(?=[a-z0-9]|$)", lambda m: "_" + m.group(1).lower(), name)
    return name.replace("-", "_")


def table():
    new = {}
    for n in sorted(declared()):
        if n in CHOSEN:
            new[n] = CHOSEN[n]
        elif n not in CHOSEN.values() and not n[0].isupper() and (re.search(r"[a-z0-9][A-Z]", n) or "-" in n):
            new[n] = snake(n)
    return {a: b for a, b in new.items() if a != b}


def main(argv):
    new = table()
    if argv == ["--list"]:
        words, rust = {}, {}
        for p in files():
            for w in WORD.findall(read(p)):
                (rust if p.endswith(".rt") else words).setdefault(w, p)
        targets = {}
        for a, b in new.items():
            other = targets.get(b) or (b in words and words[b]) or (b in rust and rust[b]) or ""
            print(a, b, *(["FALLS TOGETHER", other] if other else []))
            targets[b] = a
        return
    for p in files():
        old = read(p)
        text = WORD.sub(lambda m: new.get(m.group(0), m.group(0)), old)
        if text != old:
            with open(p, "w", encoding="utf-8") as f:
                f.write(text)
    for p in [os.path.join(TOP, "README.md")] + [os.path.join(TOP, "docs", f) for f in sorted(os.listdir(os.path.join(TOP, "docs"))) if f.endswith(".md")]:
        old = read(p)
        text = re.sub(r"`[^`\n]*`", lambda q: WORD.sub(lambda m: new.get(m.group(0), m.group(0)), q.group(0)), old)
        if text != old:
            with open(p, "w", encoding="utf-8") as f:
                f.write(text)


main(sys.argv[1:])
