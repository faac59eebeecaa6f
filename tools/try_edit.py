#!/usr/bin/env python3
"""Tries must-fail edits of one crate, some or all (`rt must-fail CRATE` tries all).

    tools/try_edit.py CRATE [EDIT ..]      from the repository's root; EDIT: names under crates/CRATE/must-fail, all by default

Each edit is applied to a copy of the repository in a folder of its own outside of it, and `rt check` is run there, which begins with what checks have kept
(so `rt check` in CRATE first). Printed: the edit's name, the seconds, and the first error, which must be the fact that the edit breaks."""
import glob
import os
import shutil
import subprocess
import sys
import tempfile
import time


def replacements(path):
    """The edit's (file, old, new), in the form that `rt` reads."""
    file, old = "", ""
    for line in open(path, encoding="utf-8").read().split("\n"):
        if line.startswith("file: "):
            file = line[6:]
        elif line.startswith("old: "):
            old = line[5:]
        elif line.startswith("new:"):
            yield file, old, line[4:].removeprefix(" ")


def main():
    crate = sys.argv[1]
    names = sys.argv[2:] or sorted(os.path.basename(p)[:-5] for p in glob.glob(f"crates/{crate}/must-fail/*.edit"))
    for name in names:
        room = tempfile.mkdtemp(prefix=f"{crate}.{name}.")
        shutil.copy("crates.txt", room)
        shutil.copytree("crates", f"{room}/crates", ignore=shutil.ignore_patterns("out"))
        for file, old, new in replacements(f"crates/{crate}/must-fail/{name}.edit"):
            path = f"{room}/crates/{crate}/{file}"
            text = open(path, encoding="utf-8").read()
            if text.count(old) != 1:
                shutil.rmtree(room)
                sys.exit(f"{name}: the old text stands {text.count(old)} times in {file}")
            open(path, "w", encoding="utf-8").write(text.replace(old, new))
        began = time.time()
        said = subprocess.run(["rt", "check"], cwd=f"{room}/crates/{crate}", stdout=subprocess.PIPE, stderr=subprocess.STDOUT, text=True).stdout.split("\n")
        # a function without a proof file fails with a note; that its callers have no proof then is no fact
        errors = [line for line in said if ": error" in line and "was not admitted" not in line or "it is not proved" in line]
        last = [line for line in said if line.startswith("logic=")][-1:]
        if last and last[0].startswith("logic=proved"):
            verdict = "NOT REFUSED"
        else:
            verdict = errors[0][:300] if errors else "no error line:\n" + "\n".join(said[-5:])
        print(f"{name} ({time.time() - began:.0f} s): {verdict.replace(room + '/', '')}", flush=True)
        shutil.rmtree(room)


main()
