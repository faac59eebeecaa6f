#!/usr/bin/env python3
"""time_orders.py: makes crates/time_orders/stdin (the cases) and crates/time_orders/stdout (what the program must print). The same seed gives the same
files. From the repository's root:

    python3 tools/time_orders.py

A case is made as rows: for each segment the list of its rows' times (signed), which rows are alive, and a kind that can hold them. From that the sections
are laid out, as document 01 says. The expected order is Python's sort of (key, segment, row) over the alive rows, where a key is the row's time, else the
last time before it in the segment, else the first one after it there, else before all: nothing of the merge, of two's complement words or of the heap is
used. The expected answer is known by how the case was made: 0; 11 where the output is made too short; 12 and 1 to 7 where one fault is put in; 19 where a
segment is of kind 3 and nothing before it is wrong, whatever stands after it.

First come random segments, then the faults, then cases whose order is written by hand, then segments that begin with untimed rows, and last those whose
times follow one another: there the merge writes many rows of a segment in one run.

Input: hexadecimal numbers. First how many cases; each has records, ids, offsets, values, term lengths, term bytes and alive words, each after its count
(records counted whole, their last two numbers in halves), and the number of addresses lent. Output: a line for each case, the answer, the number of addresses, and the whole output, segment
and row; places that are not written keep ffffffff."""
import random

random.seed(20261120)
FOLDER = "crates/time_orders/"
KEPT = 0xFFFFFFFF


def word(t):
    return t % 2**64


def times(n):
    """n times that don't fall, negative ones and equal ones among them"""
    pool = random.choice([[-(2**63), -1, 0, 2**63 - 1], list(range(-3, 4)), list(range(5)), [random.randrange(-(2**63), 2**63) for _ in range(4)]])
    return sorted(random.choice(pool) for _ in range(n))


def segment(max_rows):
    """rows: a list of times for each row; kind; alive: None, or a bool for each row; type"""
    kind = random.choice([0, 1, 2, 4])
    rows = random.choice([0, 1, random.randrange(max_rows + 1), random.randrange(max_rows + 1)])
    if random.random() < 0.03:
        rows = random.choice([63, 64, 65, 70])
    if kind == 0:
        has = [False] * rows
    elif kind == 1:
        has = [True] * rows
    else:
        p = random.choice([0.0, 0.3, 0.5, 0.8, 1.0])
        has = [random.random() < p for _ in range(rows)]
    ts = iter(times(sum(has)))
    cells = [[next(ts)] if h else [] for h in has]
    typ = 255 if kind == 0 and random.random() < 0.5 else 7
    alive = None
    if random.random() < 0.5:
        p = random.choice([0.0, 0.4, 0.7, 1.0])
        alive = [random.random() < p for _ in range(rows)]
    return {"type": typ, "kind": kind, "cells": cells, "alive": alive}


def lay(s):
    """ids, offsets, values, alive words"""
    cells, kind = s["cells"], s["kind"]
    ids = [r for r, c in enumerate(cells) if c] if kind in (2, 4) else []
    flat = [word(t) for c in cells for t in c]
    offsets = []
    if kind == 3:
        offsets = [sum(len(c) for c in cells[:r]) for r in range(len(cells) + 1)]
    if kind == 4:
        offsets = [sum(len(cells[r]) for r in ids[:k]) for k in range(len(ids) + 1)]
    words = []
    if s["alive"] is not None:
        bits = sum(1 << r for r, a in enumerate(s["alive"]) if a)
        words = [(bits >> (64 * k)) % 2**64 for k in range((len(cells) + 63) // 64)]
    return ids, offsets, flat, words


def key(cells, r):
    """the row's time, else the last time before it, else the first one after it, else before all times; withdrawn rows count"""
    before = [t for c in cells[:r] for t in c]
    after = [t for c in cells[r + 1:] for t in c]
    found = cells[r] or before[-1:] or after[:1]
    return (1, found[0]) if found else (0, 0)


def order(segments):
    found = []
    for n, s in enumerate(segments):
        for r in range(len(s["cells"])):
            if s["alive"] is None or s["alive"][r]:
                found.append((key(s["cells"], r), n, r))
    return [(n, r) for _, n, r in sorted(found)]


def alive_rows(s):
    """a record's ninth number: the alive rows, all of them without an alive set"""
    return len(s["cells"]) if s["alive"] is None else sum(s["alive"])


def pair(typ, values):
    """a record's tenth and eleventh number: the least and the greatest value of types 0, which is signed, and 1; 0 and 0 of other types, times too, and of no values"""
    if typ > 1 or not values:
        return [0, 0]
    signed = [v - 2**64 if typ == 0 and v >= 2**63 else v for v in values]
    return [word(min(signed)), word(max(signed))]


def sections(segments):
    x = {"records": [], "ids": [], "offsets": [], "values": [], "lengths": [], "bytes": [], "alive": []}
    for s in segments:
        ids, offsets, values, words = lay(s)
        flag = 0 if s["alive"] is None else 1
        x["records"].append([s["type"], s["kind"], len(s["cells"]), len(ids), len(offsets), len(values), 0, flag, alive_rows(s)] + pair(s["type"], values))
        x["ids"] += ids
        x["offsets"] += offsets
        x["values"] += values
        x["alive"] += words
    return x


def row(r):
    """a record's numbers as the program takes them: the last two, of 64 bits, in halves, the low one first"""
    return r[:9] + [half for n in r[9:] for half in (n % 2**32, n // 2**32)]


def accepted():
    segments = [segment(random.choice([2, 4, 8])) for _ in range(random.choice([0, 1, 2, 3, 3, 4, 5]))]
    out = order(segments)
    space = len(out) + random.choice([0, 0, 1, 3])
    if out and random.random() < 0.08:
        return sections(segments), random.randrange(len(out)), 11, []
    return sections(segments), space, 0, out


def refused(fault):
    """one fault, or kind 3 with another one, in a case that has, before it, nothing to refuse; 11 comes before 12, so the output is long enough"""
    segments = [segment(4) for _ in range(2)]
    bad = {"type": 7, "kind": 1, "cells": [[5], [6]], "alive": None}
    if fault == "falling":
        bad["cells"] = [[5], [4]]
    if fault == "falling across zero":
        bad["cells"] = [[1], [-1]]
    if fault == "falling, withdrawn":
        bad["cells"], bad["alive"] = [[5], [4], [6]], [True, False, True]
    if fault == "falling, optional":
        bad["kind"], bad["cells"] = 2, [[], [2], [], [1]]
    if fault == "several":
        bad["kind"], bad["cells"] = 4, [[], [1, 1]]
    if fault == "several, withdrawn":
        bad["kind"], bad["cells"], bad["alive"] = 4, [[1, 1], [2]], [False, True]
    if fault == "type":
        bad["type"], bad["cells"] = random.choice([0, 1, 2]), random.choice([[[5], [6]], [[6], [-5]], [[2**63 - 1], [-(2**63)]]])
    old = fault.startswith("kind 3")
    if old:
        bad["kind"], bad["cells"], bad["alive"] = 3, random.choice([[], [[]], [[5], [], [6]], [[1], [1, 2]], [[5], [4]]]), None
    two = {"type": 7, "kind": 2, "cells": [[1], [2], []], "alive": None}
    if fault == "kind 3 beside ids 1 1":
        segments[1] = two
    segments.insert(random.randrange(3), bad)
    x = sections(segments)
    answer = 19 if old else 12
    at = segments.index(bad)
    if fault == "lengths":
        x["values"].append(0)
        answer = 2
    if fault == "unknown type":
        x["records"][at][0] = 8
        answer = 3
    if fault == "addresses":
        x["records"][at][0] = 6
        k = sum(r[5] for r in x["records"][:at])
        x["values"][k:k] = [random.getrandbits(64), random.getrandbits(64)]  # its two values have four words
    if fault == "addresses, a word each":
        x["records"][at][0] = 6
        answer = 2
    if fault == "kind 3, no column":
        x["records"][at][0] = 255
        answer = 3
    if fault == "kind 3 beside an unknown type":
        x["records"][at - 1][0] = 9
        answer = 3
    if fault == "kind 3, unknown flag":
        x["records"][at][7] = 2
        answer = 3
    if fault == "kind 3, lengths":
        x["offsets"].append(0)
        answer = 2
    if fault == "kind 3, wrong lists":
        x["records"][at][2] += 1
    if fault == "kind 3 beside ids 1 1":
        k = sum(r[3] for r in x["records"][:segments.index(two)])
        x["ids"][k:k + 2] = [1, 1]
    if fault == "lists":
        x["records"][at][2] += 1
        answer = 4
    if fault == "bool":
        x["records"][at][0] = 5
        answer = 5
    if fault == "past rows":
        bad["alive"] = [True, True]
        x = sections(segments)
        k = sum((r[2] + 63) // 64 for r in x["records"][:at] if r[7] == 1)
        x["alive"][k] |= 4
        x["records"][at][8] += random.choice([0, 1])  # counted or not
        answer = 6
    if fault.startswith("number"):
        x, answer = wrong_number(fault, segments, at), 6
    if fault.startswith("pair"):
        x, answer = untrue_pair(fault, segments, at), 5
    if fault == "lists, pair":
        x["records"][at][2] += 1
        x["records"][at][9:] = [5, 6]
        answer = 4
    if fault == "kind 3, pair":
        x["records"][at][9:] = [5, 6]
    if fault == "bool, number":
        x["records"][at][0] = 5
        x["records"][at][8] = 0
        answer = 5
    if fault == "kind 3, number":
        x["records"][at][8] += 1
    if fault == "many":
        x = sections([{"type": 255, "kind": 0, "cells": [], "alive": None}] * 257)
        answer = 1
    if fault == "rows":
        x = {"records": [[255, 0, 2**32 - 1, 0, 0, 0, 0, 0, 2**32 - 1, 0, 0]], "ids": [], "offsets": [], "values": [], "lengths": [], "bytes": [], "alive": []}
        answer = 7
    return x, len(order(segments)) + random.randrange(4), answer, []


def wrong_number(fault, segments, at):
    """a wrong number of alive rows, before 7, 11 and 12"""
    bad = segments[at]
    if fault == "number, alive set":
        bad["alive"] = [True, False]
    if fault == "number, falling":
        bad["cells"] = [[5], [4]]
    x = sections(segments)
    right = x["records"][at][8]
    x["records"][at][8] = random.choice([n for n in [right + 1, right - 1, 0, len(bad["cells"]), 2**32 - 1] if n != right])
    if fault == "numbers that cancel":
        x["records"][at][8] = random.randrange(right)
        x["records"][at - 1][8] += right - x["records"][at][8]
    if fault == "number, rows":
        x["records"].append([255, 0, 2**32 - 1, 0, 0, 0, 0, 0, 2**32 - 1, 0, 0])
    return x


def untrue_pair(fault, segments, at):
    """a pair that is not that of the values, before 6, 7, 11 and 12"""
    bad = segments[at]
    if fault == "pair, no column":
        bad.update({"type": 255, "kind": 0, "cells": [[], []]})
    if fault == "pair, no time":
        bad.update({"kind": 2, "cells": [[], []]})
    if fault == "pair, falling":
        bad["cells"] = [[5], [4]]
    if fault == "pair, withdrawn":
        bad["alive"] = [False, True]
    x = sections(segments)
    if fault == "pair, number type":
        bad["type"] = x["records"][at][0] = random.choice([0, 1])
        x["records"][at][9:] = random.choice([[0, 0], [5, 5], [6, 5], [4, 6], [5, 7], [5 + 2**32, 6], [5, 6 + 2**32]])
    else:
        x["records"][at][9:] = random.choice([[5, 6], [0, 1], [1, 0], [2**63, 2**63 - 1], [2**32, 0], [0, 2**32]])
    if fault == "pair, number":
        x["records"][at][8] += 1
    if fault == "pair, rows":
        x["records"].append([255, 0, 2**32 - 1, 0, 0, 0, 0, 0, 2**32 - 1, 0, 0])
    return x


def written(kind, text, typ=7):
    """a segment in words: a row's time, - for none, either in () if the row is withdrawn"""
    rows = text.split()
    cells = [[] if r.strip("()") == "-" else [int(r.strip("()"))] for r in rows]
    alive = [r[0] != "(" for r in rows] if "(" in text else None
    return {"type": typ, "kind": kind, "cells": cells, "alive": alive}


LEAST = str(-(2**63))
BY_HAND = [
    # C13, as document 02, (e), has it
    ([written(2, "10 - 30"), written(2, "- 20")], [(0, 0), (0, 1), (1, 0), (1, 1), (0, 2)]),
    # several untimed rows at the start; the one behind the time has the last time before it
    ([written(2, "- - 7 -"), written(1, "6")], [(1, 0), (0, 0), (0, 1), (0, 2), (0, 3)]),
    # the first time after them, not a later one
    ([written(2, "- 3 9"), written(1, "5")], [(0, 0), (0, 1), (1, 0), (0, 2)]),
    # after the first time an untimed row has the last time before it
    ([written(2, "- 3 - 9"), written(1, "5")], [(0, 0), (0, 1), (0, 2), (1, 0), (0, 3)]),
    # a withdrawn row's time counts, be it the only one, or the first of two
    ([written(2, "- (20)"), written(1, "10")], [(1, 0), (0, 0)]),
    ([written(2, "- (3) 9"), written(1, "5")], [(0, 0), (1, 0), (0, 2)]),
    # a withdrawn row's time is the last one before an untimed row
    ([written(2, "3 (5) -"), written(1, "4")], [(0, 0), (1, 0), (0, 2)]),
    # a withdrawn row at the start
    ([written(2, "(-) - 20"), written(1, "10")], [(1, 0), (0, 1), (0, 2)]),
    # equal keys go by segment, then by row
    ([written(1, "20"), written(2, "- 20")], [(0, 0), (1, 0), (1, 1)]),
    ([written(2, "- 20"), written(1, "20")], [(0, 0), (0, 1), (1, 0)]),
    ([written(2, "- 20"), written(2, "- 20")], [(0, 0), (0, 1), (1, 0), (1, 1)]),
    # times are signed
    ([written(1, "0"), written(2, "- -1")], [(1, 0), (1, 1), (0, 0)]),
    # a segment without any time is before all times: ids but none, no column, Empty, kind 4
    ([written(1, LEAST), written(2, "- -")], [(1, 0), (1, 1), (0, 0)]),
    ([written(0, "-", 255), written(1, LEAST), written(0, "-"), written(4, "-")], [(0, 0), (2, 0), (3, 0), (1, 0)]),
    # an untimed row that takes the least time has a time
    ([written(2, "- " + LEAST), written(0, "-", 255)], [(1, 0), (0, 0), (0, 1)]),
    # kind 4
    ([written(4, "- 5 -"), written(4, "4")], [(1, 0), (0, 0), (0, 1), (0, 2)]),
    # the untimed row goes with 20; in the first two joined it goes with 10
    ([written(1, "10"), written(2, "- 20"), written(1, "15")], [(0, 0), (2, 0), (1, 0), (1, 1)]),
    ([written(2, "10 - 20"), written(1, "15")], [(0, 0), (0, 1), (1, 0), (0, 2)]),
    # the first time stands behind an alive word, and the word is withdrawn but for one row
    ([written(2, "(-) " * 63 + "- (-) 7"), written(1, "6 7")], [(1, 0), (0, 63), (0, 65), (1, 1)]),
    # runs that meet at equal times, in the segments' order and against it
    ([written(1, "1 2 3"), written(1, "3 4 5"), written(2, "- 5 -")], [(0, 0), (0, 1), (0, 2), (1, 0), (1, 1), (1, 2), (2, 0), (2, 1), (2, 2)]),
    ([written(2, "- 5 -"), written(1, "3 4 5"), written(1, "1 2 3")], [(2, 0), (2, 1), (1, 0), (2, 2), (1, 1), (0, 0), (0, 1), (0, 2), (1, 2)]),
]


def by_hand(segments, expected):
    assert order(segments) == expected
    return sections(segments), len(expected), 0, expected


def restarted():
    """short segments that begin with untimed rows, and times that are close together"""
    segments = []
    for _ in range(random.choice([2, 3, 4])):
        cells = [[]] * random.randrange(4) + [[t] for t in sorted(random.choices([-1, 0, 1, 2], k=random.randrange(4)))]
        alive = random.choice([None, [random.random() < 0.7 for _ in cells]])
        segments.append({"type": 7, "kind": random.choice([2, 4]), "cells": cells, "alive": alive})
    out = order(segments)
    return sections(segments), len(out), 0, out


def following(long):
    """cells of segments whose times follow one another, each in one run or in several, and the first and last rows of the runs; one run may be long"""
    count = random.choice([2, 2, 3, 4])
    numbers = random.choice([list(range(count)), list(range(count))[::-1], random.sample(range(count), count)])
    has = [random.choice(["all", "all", "inner", "most", "few"]) for _ in range(count)]
    cells, ends = [[] for _ in range(count)], [set() for _ in range(count)]
    t = 0
    for turn, n in enumerate(numbers * random.choice([1, 2, 3])):
        rows = random.randrange(60, 81) if turn == long else random.randrange(1, 5)
        ends[n] |= {len(cells[n]), len(cells[n]) + rows - 1}
        for k in range(rows):
            # Also where two runs meet: half of the time their times are equal there.
            t += random.choice([0, 1])
            chance = {"all": 1, "inner": 1 if 0 < k < rows - 1 else 0.4, "most": 0.7, "few": 0.1}[has[n]]
            cells[n].append([t] if random.random() < chance else [])
    return cells, ends


def in_runs(long, lost):
    """lost: how many segments are withdrawn as a whole; -1 stands for all but one"""
    cells, ends = following(long)
    while sum(len(c) for c in cells) > 95 or sum(len(t) for c in cells for t in c) > 76:
        cells, ends = following(long)
    whole = random.sample(range(len(cells)), lost % len(cells))
    segments = []
    for n, rows in enumerate(map(len, cells)):
        gone = random.choice([None, [r for r in sorted(ends[n]) if random.random() < 0.5], [r for r in range(rows) if random.random() < 0.1]])
        if n in whole:
            gone = range(rows)
        kind = random.choice([1, 1, 2, 4]) if all(cells[n]) else random.choice([2, 4])
        segments.append({"type": 7, "kind": kind, "cells": cells[n], "alive": None if gone is None else [r not in gone for r in range(rows)]})
    out = order(segments)
    return sections(segments), len(out) + random.choice([0, 1]), 0, out


def main():
    cases = [accepted() for _ in range(361)]
    faults = ["falling", "falling across zero", "falling, withdrawn", "falling, optional", "several", "several, withdrawn", "type", "addresses", "addresses, a word each", "lengths", "unknown type", "lists", "bool", "past rows", "rows"]
    faults += ["kind 3", "kind 3, wrong lists", "kind 3 beside ids 1 1", "kind 3 beside an unknown type", "kind 3, no column", "kind 3, unknown flag", "kind 3, lengths", "kind 3, number"]
    faults += ["pair", "pair, no column", "pair, no time", "pair, falling", "pair, withdrawn", "pair, number type", "pair, number", "pair, rows", "lists, pair", "kind 3, pair"]
    faults += ["number", "number, alive set", "number, falling", "number, rows", "numbers that cancel", "bool, number"]
    cases += [refused(f) for f in faults for _ in range(3)] + [refused("many")]
    cases += [by_hand(segments, expected) for segments, expected in BY_HAND]
    cases += [restarted() for _ in range(20)]
    # The first, the second or the third run is long, or none is.
    cases += [in_runs(long, lost) for lost in [0] * 7 + [1, -1] for long in [0, 1, 2, None]]
    given, told = ["%x" % len(cases)], []
    for x, space, answer, out in cases:
        # What the program holds of a case.
        assert space <= 96 and max(len(x["ids"]), len(x["offsets"]), len(x["values"])) <= 80 and len(x["alive"]) <= 16
        line = ["%x" % len(x["records"])] + ["%x" % n for r in x["records"] for n in row(r)]
        for name in ["ids", "offsets", "values", "lengths", "bytes", "alive"]:
            line += ["%x" % len(x[name])] + ["%x" % n for n in x[name]]
        given.append(" ".join(line + ["%x" % space]))
        whole = out + [(KEPT, KEPT)] * (space - len(out))
        told.append(" ".join(["%x" % answer, "%x" % len(out)] + ["%x %x" % p for p in whole]))
    stdin, stdout = "\n".join(given) + "\n", "\n".join(told) + "\n"
    # The program reads no more.
    assert len(stdin) <= 131072
    for file, text in [("stdin", stdin), ("stdout", stdout)]:
        with open(FOLDER + file, "w") as f:
            f.write(text)
    print("%d cases, %d bytes" % (len(cases), len(stdin)))


main()
