#!/usr/bin/env python3
"""fill.py: writes answers into the proofs of a crate's functions. From the repository's root:

    (cd crates/CRATE && rt check --start FN --allow-holes)
    python3 tools/fill.py CRATE < answers

The first command writes proofs/FN/Answers.antt, with `?` at each goal (paths.py lists what can be cited there). The answers are parted by lines:

    # FN            a function; the lines up to the first @ are `use` lines to add
    @@              what follows goes before the first goal (helpers)
    @GOAL           what follows answers that goal; a first line `unfolding ..` goes above it

In an answer «x» stands for c.x. A goal without an answer is left out, so that the check seeks a proof of it by itself. The file as it was at first is kept
in target/skel, so that the answers may be mended and filled in again; it is taken anew where the goals have changed."""
import os
import re
import sys

CLAUSE = re.compile(r"(\S+)( .*)? =(?: \?|\n +\?)$", re.M)


def goals_of(text):
    return re.findall(r"(?m)^(?:pub )?(\S+) :\s+goal\.", text)


def skeleton(crate, fn):
    """the file of answers before any of them: what is kept, but for new goals that the file itself has open"""
    kept, proof = f"target/skel/{crate}.{fn}", f"crates/{crate}/proofs/{fn}/Answers.antt"
    with open(proof, encoding="utf-8") as f:
        now = f.read()
    if os.path.exists(kept):
        with open(kept, encoding="utf-8") as f:
            text = f.read()
        if set(goals_of(now)) <= set(goals_of(text)):
            return text
    os.makedirs("target/skel", exist_ok=True)
    with open(kept, "w", encoding="utf-8") as f:
        f.write(now)
    return now


def read_answers(text):
    uses, answers, name = [], {}, None
    for line in text.split("\n"):
        if line.startswith("@"):
            name = line[1:].strip()
            answers[name] = []
        elif name is not None:
            answers[name].append(line)
        elif line.strip():
            uses.append(line)
    return uses, {name: "\n".join(lines).strip("\n").split("\n") for name, lines in answers.items()}


def answered(goal, arguments, lines):
    """a goal's clause with its answer"""
    lines = [re.sub(r"(?<!\.)«([^»]+)»", r"c.\1", line) for line in lines]
    above = []
    if lines[0].startswith("unfolding"):
        above, lines = lines[:1], lines[1:]
    if len(lines) == 1:
        return above + [f"{goal}{arguments} = {lines[0].strip()}"]
    return above + [f"{goal}{arguments} ="] + ["    " + line for line in lines]


def fill(crate, fn, text):
    uses, answers = read_answers(text)
    parts = re.split(r"\n{2,}", skeleton(crate, fn).strip())
    uses += [line for line in parts[0].split("\n") if line not in uses]
    out, helpers, used = ["\n".join(uses)], answers.get("@"), {"@"}
    for part in parts[1:]:
        clause = CLAUSE.search(part)
        if clause:
            goal = clause.group(1)
            if goal not in answers:
                continue
            used.add(goal)
            part = part[: clause.start()] + "\n".join(answered(goal, clause.group(2) or "", answers[goal]))
        if helpers and goals_of(part):
            out.append("\n".join(helpers))
            helpers = None
        out.append(part)
    for goal in answers:
        if goal not in used:
            print(fn, "UNUSED", goal)
    with open(f"crates/{crate}/proofs/{fn}/Answers.antt", "w", encoding="utf-8") as f:
        f.write("\n\n".join(out) + "\n")


def main():
    for part in re.split(r"(?m)^# ", sys.stdin.read())[1:]:
        fn, _, text = part.partition("\n")
        fill(sys.argv[1], fn.strip(), text)


main()
