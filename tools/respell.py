#!/usr/bin/env python3
"""Brings the definitions and lemmas of this repository to the spelling of the newer Rattle: words in snake case.

usage: python3 tools/respell.py [FOLDER]      once, after the toolchain's own scripts and before any edit by hand

A name of specs/ and proofs/ that begins small and has a capital inside, as `octetAt`, becomes `octet_at`, wherever it
stands: in .antt files, in the clauses of .rt files, in must-fail edits and in the edits of lessons, in the lists of .ci
and in the pages' code spans. Types, records and facts keep their capitals, a dash goes on joining two names, and names of
src/ are in snake case already. A lemma whose name a definition gets is listed in `APART` and gets `_lem` behind it.
"""
import os
import re
import sys

CAMEL = re.compile(r"(?<!\\)(?<![A-Za-z0-9_'])[a-z][a-z0-9]*(?:[A-Z][a-z0-9]*)+'*(?![A-Za-z0-9_'])")
# lemmas whose name a definition gets, by the folder that names them
APART = [
    ("crates/frame/proofs/", "taken_as"),
    ("crates/checks/proofs/", "value_there"),
    ("crates/controller/proofs/", "no_answer"),
    ("crates/plan/proofs/", "no_code"),
]
LISTS = ("promises", "only.except", "contracts.except")


def snake(name):
    return re.sub(r"([a-z0-9])([A-Z])", lambda m: m[1] + "_" + m[2], name).lower()


def turned(text, below=""):
    for folder, name in APART:
        if below.startswith(folder):
            text = re.sub(r"(?<![\w'.-])%s(?![\w'-])" % name, name + "_lem", text)
    return CAMEL.sub(lambda m: snake(m[0]), text)


def spans(text):
    """A page, with its code spans turned."""
    return re.sub(r"`[^`\n]+`", lambda m: turned(m[0]), text)


def paths(root):
    for folder, inner, files in os.walk(root):
        inner[:] = sorted(d for d in inner if d not in (".git", "out", "target"))
        for name in sorted(files):
            yield os.path.join(folder, name)


def main():
    root = sys.argv[1] if sys.argv[1:] else "."
    count = 0
    for path in paths(root):
        below = os.path.relpath(path, root)
        whole = below.startswith(("crates/", "lessons/")) and below.endswith((".antt", ".rt", ".edit"))
        listed = os.path.dirname(below) == ".ci" and os.path.basename(below) in LISTS or below == "diagrams/make"
        if not (whole or listed or below.endswith(".md")):
            continue
        with open(path, encoding="utf-8") as file:
            text = file.read()
        new = turned(text, below) if whole or listed else spans(text)
        if new != text:
            count += 1
            with open(path, "w", encoding="utf-8") as file:
                file.write(new)
    print("respelled: %d files" % count)


if __name__ == "__main__":
    main()
