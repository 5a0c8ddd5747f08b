#!/usr/bin/env python3
"""Respells the repository's own definitions, once: a definition or field that is declared in specs/ or proofs/ as `likeThis` becomes `like_this`.

usage: python3 tools/respell.py      at the top of the repository, after port.py

Types, modules, lemmas with hyphens, functions of src/, exported names, strings and files keep their names. Two lemmas would fall together with a
definition of another crate that their file names; APART gives them another name first. Names are changed in .rt, .antt and .edit files and in the documents.
"""

import os
import re
import sys

DECLARED = re.compile(r"^\s*(?:\w+\s+)*([a-z][\w'-]*)\s*:\s", re.M)
FIELD = re.compile(r"[{;(]\s*((?:[a-z][\w']*\s+)*[a-z][\w']*)\s*:\s")
CAMEL = re.compile(r"[a-z0-9][A-Z]")
WORD = re.compile(r"(?<![\w'-])[a-z][A-Za-z0-9_'-]*")

# A file, and what is another name in it before the rest is respelled.
APART = {
    "crates/conversions/proofs/Sides.antt": {"same_bytes": "same_bytes-each"},
    "crates/card/proofs/SeenTables.antt": {"moved_in": "moved_in-put"},
    "crates/card/proofs/table/card_move/Proof.antt": {"moved_in": "moved_in-put"},
}


def files(ends, *tops):
    for top in tops:
        for folder, dirs, names in os.walk(top):
            dirs[:] = sorted(d for d in dirs if d != "out")
            yield from (os.path.join(folder, n) for n in sorted(names) if n.endswith(ends))


def read(path):
    with open(path, encoding="utf-8") as f:
        return f.read()


def snake(name):
    return re.sub(r"(?<=[a-z0-9])(?=[A-Z])|(?<=[A-Z])(?=[A-Z][a-z])", "_", name).lower()


def put(path, names):
    old = read(path)
    new = WORD.sub(lambda m: names.get(m.group(), m.group()), old)
    if new != old:
        with open(path, "w", encoding="utf-8") as f:
            f.write(new)
    return new != old


def main():
    declared = set()
    for path in files((".antt",), "crates"):
        text = re.sub(r"--[ \n].*", "", read(path))
        declared.update(DECLARED.findall(text), *(f.split() for f in FIELD.findall(text)))
    names = {n: snake(n) for n in sorted(declared) if CAMEL.search(n)}
    if len(set(names.values())) < len(names):
        sys.exit("respell: two names would become one")
    for path, others in APART.items():
        put(path, others)
    changed = sum(put(p, names) for p in files((".rt", ".antt", ".edit"), "crates"))
    changed += sum(put(p, names) for p in [*files((".md",), "docs"), "README.md"])
    print(f"{len(names)} names in {changed} files")


main()
