#!/usr/bin/env python3
"""paths.py: lists what a function's proof can cite at each goal that is open. From the repository's root:

    python3 tools/paths.py CRATE FN [GOAL..]

CRATE and FN are names as in crates/CRATE/proofs/FN; a GOAL is named as in `goal.GOAL` there, and without one all are listed. A goal is open where its
answer is `?`, as `rt check --start FN --allow-holes` writes it in the crate's folder. A line is

    place: .thing .thing {.its fields} ..

so that what can be cited is `c.place.thing`; the place `c` itself has `c.thing`. Nothing is written; the names are those that `rt check` prints."""
import re
import subprocess
import sys


def load(crate, fn):
    """each open goal's places, as (place, what stands there), by what `rt check` says"""
    said = subprocess.run(["rt", "check", "--only", fn, "--allow-holes"], cwd=f"crates/{crate}", stdout=subprocess.PIPE, stderr=subprocess.STDOUT, text=True).stdout
    goals, places, listing = {}, None, False
    for line in said.split("\n"):
        goal = re.match(r"\S*proofs/(\S+)/Answers\.antt:\d+:\d+: goal \S+ in `(\S+)`", line)
        if goal:
            places = goals.setdefault(goal.group(2), []) if goal.group(1) == fn else None
        elif line.startswith("  names you can use"):
            listing = True
        elif listing and line.startswith("    "):
            place = re.match(r"    (c(?:\.\S+)?): (.*)", line)
            if place and places is not None:
                places.append((place.group(1).removeprefix("c."), place.group(2)))
        else:
            listing = False
    return goals, said


def main():
    crate, fn, wanted = sys.argv[1], sys.argv[2], sys.argv[3:]
    goals, said = load(crate, fn)
    if not goals:
        sys.exit("no goal of it is open; rt check says:\n" + "\n".join(line for line in said.strip().split("\n")[-5:]))
    for goal, places in goals.items():
        if wanted and goal not in wanted:
            continue
        print(f"{goal}:")
        for place, things in places:
            print(f"    {place}: {things}")


if __name__ == "__main__":
    main()
