#!/usr/bin/env python3
"""Writes crates.txt anew: for each crate those that its src, specs or proofs cite. Run from the repository's root after a change of what a crate cites.

    python3 tools/crates.py

Lines keep their order, in which crates of one level stand by how long they take, so that two that are proved side by side take about as long; a crate that
is not listed yet comes last among the libraries or the programs. What stands between a name and its colon, as `staticlib`, is kept."""
import glob
import os
import re

KIT = {"io", "libc", "os", "check", "bytes"}

# crates whose types a crate has by value and does not name
BY_VALUE = {
    "column_index_shuffled": ["column_index"],
    "merge_checked": ["term_walk"],
    "merge_records": ["merge_checked"],
    "jadmirus": ["merge_checked"],
    "reply": ["merge_checked"],
    "cases": ["merge_checked"],
}


def cited(crate, crates):
    names = set(BY_VALUE.get(crate, []))
    for path in glob.glob(f"crates/{crate}/src/*.rt"):
        text = re.sub(r"//[^\n]*", "", open(path, encoding="utf-8").read())
        names |= set(re.findall(r"\b([a-z_]+)::", text)) & (crates | KIT)
        names |= set(re.findall(r"\bRattle\.([a-z_]+)\.", text)) & (crates | KIT)
    for path in glob.glob(f"crates/{crate}/*/**/*.antt", recursive=True):
        names |= set(re.findall(r"\bRattle\.([a-z_]+)\.", open(path, encoding="utf-8").read())) & (crates | KIT)
    return names - {crate}


def main():
    crates = {name for name in os.listdir("crates") if os.path.isdir(f"crates/{name}/src")}
    heads = [line.split(":")[0].strip() for line in open("crates.txt", encoding="utf-8") if ":" in line and not line.startswith("#")]
    head = {text.split()[0]: text for text in heads}
    order = [name for name in head if name in crates]
    order += sorted(crates - set(order))
    place = {name: k for k, name in enumerate(order)}

    def line(name):
        names = sorted(cited(name, crates), key=lambda d: (d in KIT, place.get(d, 0), d))
        return " ".join([f"{head.get(name, name)}:"] + names)

    programs = [name for name in order if os.path.exists(f"crates/{name}/src/main.rt")]
    text = ["# NAME: the crates whose functions, types, definitions or laws it cites; the toolchain passes on what those stand on (tools/crates.py)"]
    text += [line(name) for name in order if name not in programs]
    text += ["", "# programs"] + [line(name) for name in programs]
    open("crates.txt", "w", encoding="utf-8").write("\n".join(text) + "\n")


main()
