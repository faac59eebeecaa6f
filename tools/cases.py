#!/usr/bin/env python3
"""cases.py: makes crates/cases/stdin and crates/cases/stdout of crates/cases/cases.txt. From the repository's root:

    python3 tools/cases.py

It reads the cases with what is expected of them (cases.txt says in what form), lays the segments out as records and sections, and spells the expected
output. It does not join: no list of an answer is computed from the segments, but for the terms and the map of a `dictionary`, which are a set of
byte strings, sorted, in which each old term is looked up.

Standard input is hexadecimal numbers. First how many cases; then of each case its name (its bytes, after their number), 0 for a join, 1 for a time
order, 2 for a conversion, or 3 to 6 for withdraw and reinstate of one row and of a run, mode, required type; records (each its numbers, those of 64 bits in halves), ids, offsets, values,
term lengths, term bytes, alive words and addresses, each list after its count (records and addresses counted whole); the working bytes lent and the elements lent of
ids, offsets, values, term lengths, term bytes and map, or, of a time order, the addresses lent, or, of a conversion, the ids and offsets lent, or, of withdraw and
reinstate, the rows named, after their count. This file alone knows that order, with the program: RECORD, SECTIONS and OUTPUTS below.

A case in standard output: the name, the answer and its numbers, then each output to its last element, and the working bytes; of withdraw and reinstate the
record and the alive words as they are left."""
import re
import sys

FOLDER = "crates/cases/"
TYPES = {"I64": 0, "U64": 1, "F64": 2, "Bytes": 3, "Str": 4, "Bool": 5, "IpAddr": 6, "DateTime": 7, "none": 255}
KINDS = {"Empty": 0, "Full": 1, "Optional": 2, "OldMultivalued": 3, "NewMultivalued": 4}
MODES = {"stacked": 0, "ordered": 1}


def signed(word):
    return word - 2**64 if word >= 2**63 else word


def pair(type, values):
    """the least and the greatest value, as words: of I64, which is signed, and of U64; 0 and 0 of other types and of no values"""
    if type not in (TYPES["I64"], TYPES["U64"]) or not values:
        return [0, 0]
    order = signed if type == TYPES["I64"] else (lambda word: word)
    words = [w for (w,) in values]
    return [min(words, key=order), max(words, key=order)]


# A record's numbers in their order, and what each is if the segment does not say otherwise (`announced-NAME`). The last two have 64 bits.
RECORD = [
    ("type", lambda s: s["type"]),
    ("kind", lambda s: s["kind"]),
    ("rows", lambda s: s["rows"]),
    ("ids", lambda s: len(s["ids"])),
    ("offsets", lambda s: len(s["offsets"])),
    ("values", lambda s: len(s["values"])),
    ("terms", lambda s: len(s["terms"])),
    ("flag", lambda s: 0 if s["alive"] is None else 1),
    ("alive-rows", lambda s: s["rows"] if s["alive"] is None else sum(bin(w).count("1") for w in s["alive"])),
    ("least", lambda s: pair(s["type"], s["values"])[0]),
    ("greatest", lambda s: pair(s["type"], s["values"])[1]),
]
NARROW = [name for name, _ in RECORD].index("least")  # of 32 bits
# The sections after the records, in their order, and a segment's run in each.
SECTIONS = [
    ("ids", lambda s: s["ids"]),
    ("offsets", lambda s: s["offsets"]),
    ("values", lambda s: flat(s["values"])),
    ("lengths", lambda s: [len(t) for t in s["terms"]]),
    ("bytes", lambda s: list(b"".join(s["terms"]))),
    ("alive", lambda s: s["alive"] or []),
]
# A join's outputs in their order: the name of the space, the name that is printed, and the list of an answer.
OUTPUTS = [
    ("ids", "ids", lambda a: a["ids"]),
    ("offsets", "offsets", lambda a: a["offsets"]),
    ("values", "values", lambda a: flat(a["values"])),
    ("lengths", "term lengths", lambda a: [len(t) for t in a["terms"]]),
    ("bytes", "term bytes", lambda a: list(b"".join(a["terms"]))),
    ("map", "map", lambda a: a["map"]),
]
# What the program has place for: bytes of input, bytes of a name, elements of any list and of any output.
INPUT, NAME, LIST = 65536, 100, 300
USUAL = 12  # elements lent where a case says nothing
BEFORE = 9  # every element before a call


# ---- the text of the cases


def number(word):
    return int(word, 0)


def value(word):
    """a value's words: one, or an address's two"""
    return [number(w) % 2**64 for w in word.split(",")]


def flat(values):
    return [w for words in values for w in words]


def named(names):
    return lambda word: names[word] if word in names else number(word)


def term(word):
    if not (len(word) > 1 and word[0] == word[-1] == '"'):
        raise ValueError("a term is quoted")
    return re.sub(rb"\\x([0-9a-fA-F]{2})", lambda m: bytes.fromhex(m.group(1).decode()), word[1:-1].encode())


def address(word):
    s, r = word.split(":")
    return (number(s), number(r))


ONE, MANY = False, True
JOIN = {"required": (ONE, named(TYPES)), "addresses": (MANY, address)}
SEGMENT = {
    "type": (ONE, named(TYPES)),
    "kind": (ONE, named(KINDS)),
    "rows": (ONE, number),
    "ids": (MANY, number),
    "offsets": (MANY, number),
    "values": (MANY, value),
    "terms": (MANY, term),
    "alive": (MANY, number),
}
SEGMENT.update({"announced-" + name: (ONE, lambda w: number(w) % 2**64) for name, _ in RECORD[3:]})
SPACES = ["work"] + [name for name, _, _ in OUTPUTS]
SPACE = {name: (ONE, number) for name in SPACES + ["addresses"]}
JOINED = {
    "type": (ONE, named(TYPES)),
    "class": (ONE, number),
    "rows": (ONE, number),
    "ids": (MANY, number),
    "offsets": (MANY, number),
    "values": (MANY, value),
    "terms": (MANY, term),
    "map": (MANY, number),
    "copied": (ONE, number),
    "least": (ONE, lambda w: number(w) % 2**64),
    "greatest": (ONE, lambda w: number(w) % 2**64),
}
SORTED = {"addresses": (MANY, address)}
CONVERTED = {"ids": (MANY, number), "offsets": (MANY, number), "record": (MANY, number)}
MARKED = {"changed": (ONE, number), "alive-rows": (ONE, number), "alive": (MANY, number)}
MARKS = ["withdraw", "reinstate", "withdraw-rows", "reinstate-rows"]
# The entries: their number in a stored case, what an answer of 0 has, and the spaces lent.
ENTRIES = {
    "join": (0, JOINED, SPACES),
    "time-order": (1, SORTED, ["addresses"]),
    "convert": (2, CONVERTED, ["ids", "offsets"]),
}
ENTRIES.update({name: (3 + k, MARKED, []) for k, name in enumerate(MARKS)})
DICTIONARY = {"held": (MANY, number), "kept": (MANY, term)}
PARTS = list(ENTRIES) + ["segment", "space", "answer", "dictionary", "rule"]


def entries(words, form):
    """the entries of a part: a list of elements, or a single one, by name"""
    found, name = {}, None
    for word in words:
        if word in form:
            name = word
            if name in found:
                raise ValueError(name + " twice")
            found[name] = []
        elif name is None:
            raise ValueError("what is " + word + "?")
        else:
            found[name].append(form[name][1](word))
    for name, elements in found.items():
        if form[name][0] == ONE:
            (found[name],) = elements
    return found


def segments_of(words):
    times = 1
    if words[1:2] == ["times"]:
        times, words = number(words[0]), words[2:]
    s = {"ids": [], "offsets": [], "values": [], "terms": [], "alive": None}
    s.update(entries(words, SEGMENT))
    return [s] * times


def read_case(name, words):
    case = {"name": name, "segments": [], "space": {}}
    parts = []
    for word in words:
        if word in PARTS:
            parts.append((word, []))
        elif parts:
            parts[-1][1].append(word)
        else:
            raise ValueError("what is " + word + "?")
    for part, words in parts:
        if part in ENTRIES:
            case["entry"] = part
            case["call"] = {"mode": 0, "required": TYPES["none"], "addresses": []}
        if part == "join":
            case["call"] = {"mode": named(MODES)(words[0]), "required": TYPES["none"], "addresses": []}
            case["call"].update(entries(words[1:], JOIN))
        elif part in MARKS:
            case["named"] = [number(w) for w in words]
            if not part.endswith("-rows") and len(words) != 1:
                raise ValueError("one row")
        elif part in ENTRIES:
            entries(words, {})
        elif part == "segment":
            case["segments"] += segments_of(words)
        elif part == "space":
            if words[:1] and words[0].isdigit():
                case["space"] = {n: number(words[0]) for n in SPACE}
                words = words[1:]
            case["space"].update(entries(words, SPACE))
        elif part == "answer":
            case["answer"] = number(words[0])
            form = ENTRIES[case["entry"]][1]
            case["column"] = {n: [] for n, (many, _) in form.items() if many}
            case["column"].update(entries(words[1:], {} if case["answer"] else form))
        elif part == "dictionary":
            said = entries(words, DICTIONARY)
            terms, numbers = dictionary(case["segments"], said["held"], said.get("kept"))
            if (terms, numbers) != (case["column"]["terms"], case["column"]["map"]):
                raise ValueError("the dictionary's rule gives %s %s" % (terms, numbers))
        elif part == "rule":
            case["segments"], case["column"] = RULES[words[0]]()
            case["answer"] = 0
    return case


def read_cases(text):
    cases = []
    for line in text.split("\n"):
        if line.startswith("case "):
            cases.append((line[5:].strip(), []))
        else:
            words = [w for w in re.findall(r'#.*|"[^"]*"|[^\s"#]+', line) if not w.startswith("#")]
            if words and not cases:
                sys.exit("the first case must begin with `case`")
            if words:
                cases[-1][1].extend(words)
    return [read_or_say(name, words) for name, words in cases]


def read_or_say(name, words):
    try:
        return read_case(name, words)
    except (ValueError, KeyError, IndexError) as e:
        sys.exit("case %s: %s" % (name, e))


# ---- rules


def dictionary(segments, held, kept=None):
    """the joined terms and the map: the kept terms as a set, sorted as byte strings, and each old term of the held segments looked up in it"""
    if kept is None:
        kept = [t for s in held for t in segments[s]["terms"]]
    terms = sorted(set(kept))
    return terms, [terms.index(t) if t in terms else 0 for s in held for t in segments[s]["terms"]]


def letters():
    """256 segments of one row and one term each; cases.txt has the rule"""

    def letter(n):
        return bytes([97 + n % 26])

    segments, held = [], []
    for k in range(256):
        t = [b"", letter(7 * k) + letter(7 * k + 11), letter(7 * k)][k % 3]
        s = {"type": TYPES["Str"], "rows": 1, "ids": [], "offsets": [], "terms": [t], "alive": None}
        if k % 17 == 3:
            s.update({"kind": KINDS["Optional"], "values": []})
        else:
            s.update({"kind": KINDS["Full"], "values": [[0]]})
            held.append(k)
        segments.append(s)
    terms, numbers = dictionary(segments, held)
    return segments, {"type": TYPES["Str"], "class": 1, "rows": 256, "ids": held, "offsets": [], "values": [[n] for n in numbers], "terms": terms, "map": numbers}


RULES = {"letters": letters}


# ---- the stored forms


def spaces(case):
    return [case["space"].get(n, USUAL) for n in ENTRIES[case["entry"]][2]]


def record(s):
    return [s.get("announced-" + n, usual(s)) for n, usual in RECORD]


def row(s):
    """a record's numbers as the program takes them: those of 64 bits in halves, the low one first"""
    numbers = record(s)
    return numbers[:NARROW] + [half for n in numbers[NARROW:] for half in (n % 2**32, n // 2**32)]


ROW = NARROW + 2 * (len(RECORD) - NARROW)


def stored(case):
    """the numbers of a case in their stored order"""

    def counted(elements, width=1):
        if len(elements) > LIST * width:
            sys.exit("case %s: a list is longer than the program's place for it" % case["name"])
        return [len(elements) // width] + elements

    name, segments = list(case["name"].encode()), case["segments"]
    if len(name) > NAME or max(spaces(case), default=0) > LIST:
        sys.exit("case %s: the name or a space is larger than the program's place for it" % case["name"])
    call = case["call"]
    numbers = counted(name) + [ENTRIES[case["entry"]][0], call["mode"], call["required"]]
    numbers += counted([n for s in segments for n in row(s)], ROW)
    for _, run in SECTIONS:
        numbers += counted([x for s in segments for x in run(s)])
    numbers += counted([x for a in call["addresses"] for x in a], 2)
    return numbers + (counted(case["named"]) if case["entry"] in MARKS else spaces(case))


def line(case, name, elements, space, before):
    """an output of so many elements with the list at its start"""
    if len(elements) > space:
        sys.exit("case %s: the expected list is longer than its space" % case["name"])
    return " ".join(["  " + name] + [str(x) for x in elements] + [before] * (space - len(elements)))


def printed(case):
    """the lines that the program must print for a case"""
    answer, column, lent = case["answer"], case["column"], spaces(case)
    head = "%s: answer %d" % (case["name"], answer)
    if case["entry"] == "convert":
        if answer == 0:
            head += ", record" + "".join(" %d" % n for n in column["record"])
        return [head] + [line(case, n, column[n], space, str(BEFORE)) for n, space in zip(["ids", "offsets"], lent)]
    if case["entry"] in MARKS:
        (s,) = case["segments"]
        numbers, words = record(s), s["alive"] or []
        if answer == 0:
            head += ", changed %d" % column["changed"]
            numbers, words = numbers[: NARROW - 1] + [column["alive-rows"]] + numbers[NARROW:], column["alive"]
        return [head, line(case, "record", numbers, len(RECORD), ""), line(case, "alive", words, len(words), "")]
    if case["entry"] == "time-order":
        pairs = ["%d,%d" % p for p in column["addresses"]]
        if answer == 0:
            head += ", addresses %d" % len(pairs)
        return [head, line(case, "addresses", pairs, lent[0], "%d,%d" % (BEFORE, BEFORE))]
    outputs = [(name, of(column)) for _, name, of in OUTPUTS]
    counts = [len(column["values"]) if name == "values" else len(xs) for name, xs in outputs]
    if answer == 0:
        head += ", type %d, class %d, rows %d, elements" % (column["type"], column["class"], column["rows"])
        head += "".join(" %d" % n for n in counts)
        head += ", copied %d" % column.get("copied", sum(len(t) for t in column["terms"]))
        own = pair(column["type"], column["values"])
        head += ", pair %d %d" % (column.get("least", own[0]), column.get("greatest", own[1]))
    lists = [line(case, name, xs, space, str(BEFORE)) for (name, xs), space in zip(outputs, lent[1:])]
    return [head] + lists + [line(case, "working", [0] * lent[0], lent[0], "")]


def main():
    with open(FOLDER + "cases.txt") as f:
        cases = read_cases(f.read())
    names = [c["name"] for c in cases]
    if len(set(names)) < len(names):
        sys.exit("two cases have one name")
    stdin = "".join(" ".join("%x" % n for n in numbers) + "\n" for numbers in [[len(cases)]] + [stored(c) for c in cases])
    stdout = "".join(text + "\n" for c in cases for text in printed(c))
    if len(stdin) > INPUT:
        sys.exit("the cases fill more bytes than the program reads")
    for file, text in [("stdin", stdin), ("stdout", stdout)]:
        with open(FOLDER + file, "w") as f:
            f.write(text)
    print("%d cases, %d of %d bytes" % (len(cases), len(stdin), INPUT))


main()
