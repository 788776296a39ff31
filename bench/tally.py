#!/usr/bin/env python3
"""Tells the tally of a trace in the second edition, from its text alone: an independent reading of what `sgxpage check` tells behind
its verdict. `bench/tally.py PATH..` prints the lines for each trace. The tests' expected lines come from here."""

import sys

PAGING = ("block", "track", "ewbstart", "eldstart", "eld")
# How many words stand behind each instruction's name. A page has two words.
WORDS = {
    "epa": 1, "create": 4, "add": None, "extend": 2, "init": 2, "enter": 4, "resume": 4, "exit": 0, "aex": 1, "fill": 2, "load": 1,
    "store": 2, "xadd": 2, "set": 1, "plus": 1, "pf": 2, "outload": 2, "outstore": 3, "block": 1, "track": 1, "ewbstart": 3, "ewb": 1,
    "eldstart": 5, "eld": 1,
}


def entries(path):
    with open(path, encoding="utf-8") as text:
        lines = text.read().splitlines()
    assert lines[0] == "trace 2" and lines[-1] == f"end {len(lines) - 2}"
    return [line.split(" ") for line in lines[1:-1]]


def operands(name, words):
    if name != "add":
        return WORDS[name]
    return 7 if words[5] == "words" else 8


def tally(path):
    frames = {}  # whose a frame is: (enclave, number)
    inside, held = {}, {}  # of each processor its enclave, and the numbers that it holds
    blocked, tries = {}, {}
    back, rows = set(), {}
    count = dict.fromkeys(("written", "entered", "cached", "reloaded", "again"), 0)
    vas, odd = 0, None
    all_entries = entries(path)
    for place, (actor, *words) in enumerate(all_entries):
        if words[0] in ("age", "kick", "bus"):
            continue
        if words[0] == "refused":
            name = words[1]
            why = words[2 + operands(name, words[2:])]
            count_of, first = rows.get((name, why), (0, place))
            rows[name, why] = (count_of + 1, first)
            is_odd = name in PAGING and why not in ("EpochSpent", "VersionSpent")
            if name == "ewbstart" and why == "NotTracked":
                is_odd = tries.get(words[2], 0) >= 2
                tries[words[2]] = tries.get(words[2], 0) + 1
            if is_odd and odd is None:
                odd = place
            if name == "eld":
                frames.pop(words[2], None)
            continue
        name, rest = words[0], words[1:]
        if name == "epa":
            frames[rest[0]] = ("va", str(vas))
            vas += 1
        elif name == "create":
            frames[rest[1]] = (rest[0], "secs")
        elif name == "add":
            frames[rest[2]] = (rest[0], rest[1])
        elif name in ("enter", "resume"):
            inside[actor], held[actor] = rest[0], []
        elif name in ("exit", "aex"):
            inside.pop(actor, None)
            held[actor] = []
        elif name == "fill":
            if actor in inside and rest[0] not in held[actor]:
                held[actor] = (held[actor] + [rest[0]])[-64:]
        elif name == "block":
            page = frames.get(rest[0])
            blocked[rest[0]] = page is not None and page[0] in inside.values()
            tries[rest[0]] = 0
            count["cached"] += page is not None and any(inside[p] == page[0] and page[1] in held[p] for p in inside)
        elif name == "eldstart":
            frames[rest[0]] = (rest[1], rest[2])
        elif name == "ewb":
            count["written"] += 1
            count["entered"] += blocked.get(rest[0], False)
            frames.pop(rest[0], None)
        elif name == "eld":
            page = (rest[1], rest[2])
            count["reloaded"] += 1
            count["again"] += page in back
            back.add(page)
            frames[rest[0]] = page
    print("entries", len(all_entries))
    for name, number in count.items():
        print(name, number)
    for (name, why), (number, first) in rows.items():
        print("refused", name, why, number, first)
    print("driver yes" if odd is None else f"driver no {odd}")


for argument in sys.argv[1:]:
    tally(argument)
