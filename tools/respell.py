#!/usr/bin/env python3
"""Spells the repository's own definitions and lemmas as today's Rattle does: words in snake case, a dash between two names alone.

usage: tools/respell.py [FOLDER]

Run once, right after the kit's port.py, which respells only the names that its library shares. The table is respell.tsv beside this
file: old, a tab, new. Whole names turn: in .antt files, in the clauses and 'ghost use' items of .rt files, in must-fail edits, and in
the code spans of README.md and docs/. Functions of src/, exported names, strings, inputs and outputs keep theirs: none of the old
names is one of those. A lemma that would have the name of the definition that it speaks of ends in _lem.
"""
import os
import re
import sys

HERE = os.path.dirname(os.path.abspath(__file__))
ROOT = os.path.abspath(sys.argv[1]) if len(sys.argv) > 1 else os.path.dirname(HERE)
TABLE = dict(line.rstrip("\n").split("\t") for line in open(os.path.join(HERE, "respell.tsv"), encoding="utf-8"))
WORD = re.compile(r'[^\s(){}.;,@"«»`]+')
# A name with a capital inside is no Rust name here; one with a dash, or of plain words, turns only where antt is written.
CAMEL = {old: new for old, new in TABLE.items() if re.search("[a-z0-9][A-Z]", old)}
LINE = re.compile(r"^\s*(requires|ensures|ghost)\b")


def turn(text, table):
    return WORD.sub(lambda m: table.get(m[0], m[0]), text)


def rust(text):
    return "".join(turn(line, TABLE if LINE.match(line) else CAMEL) for line in text.splitlines(True))


def edit(text):
    specs = re.search(r"^file: (specs|proofs)/", text, re.M)
    return turn(text, TABLE if specs else CAMEL)


def spans(text):
    return re.sub(r"`[^`\n]+`", lambda m: turn(m[0], TABLE), text)


def how(path):
    if path.endswith(".antt"):
        return lambda text: turn(text, TABLE)
    return {".rt": rust, ".edit": edit, ".md": spans}.get(os.path.splitext(path)[1])


def main():
    tops = ["README.md", "crates", "docs"]
    for top in tops:
        top = os.path.join(ROOT, top)
        walk = os.walk(top) if os.path.isdir(top) else [(ROOT, [], [os.path.basename(top)])]
        for folder, folders, files in walk:
            folders[:] = [f for f in folders if f != "out"]
            for name in files:
                path = os.path.join(folder, name)
                by = how(path)
                if by:
                    old = open(path, encoding="utf-8").read()
                    new = by(old)
                    if new != old:
                        open(path, "w", encoding="utf-8").write(new)


main()
