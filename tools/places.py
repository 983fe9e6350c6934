#!/usr/bin/env python3
"""Counts what docs/DESIGN-PASS.md, points 5 and 6, speaks of: tools/places.py [ROOT]

For each group of parameters the functions of crates/*/src that take it, then each fact that stands in a `requires` of
three functions or more.
"""
import collections
import glob
import re
import sys

root = sys.argv[1] if len(sys.argv) > 1 else "."
tables = {"place", "file", "size", "cost", "freq", "key", "stamp", "queue"}
groups = {
    "four or more of the eight tables": lambda s: len(s & tables) >= 4 and not {"policy", "inflation"} <= s,
    "the three lists of a trace": lambda s: {"files", "sizes", "costs"} <= s,
    "queue and index with keys": lambda s: {"queue", "entry"} <= s and bool(s & {"keys", "key"}),
    "file, size and cost asked for": lambda s: {"f", "z"} <= s,
    "file, size and cost written": lambda s: {"file", "size", "cost"} <= s and not s & {"place", "key"},
    "a buffer with a place in it": lambda s: "out" in s and bool(s & {"at", "from"}),
    "events with a place or a count": lambda s: "events" in s and ("at" in s or "count" in s and "part" not in s),
    "the call's own lists": lambda s: {"entry", "free"} <= s,
    "five settings as words": lambda s: {"unit", "policy", "capacity", "places", "catalogue"} <= s,
    "two keys with their stamps": lambda s: {"key_a", "stamp_a"} <= s,
}
takes = collections.defaultdict(list)
asks = collections.defaultdict(list)
for path in sorted(glob.glob(root + "/crates/*/src/*.rt")):
    crate = path.split("/crates/")[1].split("/")[0]
    text = open(path).read()
    for found in re.finditer(r"fn (\w+)(?:<[^>]*>)?\(([^{]*?)\)\s*(?:->|\n|requires|ensures|\{)", text, re.S):
        names = {p.strip().split(":")[0].strip() for p in found.group(2).split(",") if ":" in p}
        for group, holds in groups.items():
            if holds(names):
                takes[group].append(crate + "::" + found.group(1))
    for found in re.finditer(r"fn (\w+)[^{;]*?\n((?:\s+(?:requires|ensures)[^\n]*\n)+)", text):
        for fact in re.finditer(r"requires(?: \w+)? \{ (.*) \}\n", found.group(2)):
            asks[fact.group(1)].append(crate + "::" + found.group(1))
for group in groups:
    print(len(takes[group]), group + ":", " ".join(takes[group]))
for fact, functions in sorted(asks.items(), key=lambda pair: -len(pair[1])):
    if len(functions) >= 3:
        print(len(functions), "{ " + fact + " }:", " ".join(functions))
