#!/usr/bin/env python3
"""Brings the repository's own definitions and lemmas to one spelling: words in snake case, types and modules in camel case.

Run once, at the top, after the toolchain's port.py. It renames what specs/ and proofs/ declare, there and in the clauses
and `ghost use` lines of src/: `productOf` becomes `product_of`, `product-most` becomes `product_most`. Names that Rattle
makes, functions of src/ and exported names stay. Two names that would fall together are kept apart by APART.
"""
import collections
import glob
import re
import sys

WORD = r"[^\s(){}\[\],;.:λ←→∷]+"
BEFORE = r"(?<![\w'\-·])"
AFTER = r"(?![\w'\-·])"

# name before, where (a folder or file), name after: a lemma that would have its definition's name, or a field that would.
APART = [
    ("admit-totals", "crates", "admit_totals_lem"),
    ("hit-totals", "crates", "hit_totals_lem"),
    ("pass-totals", "crates", "pass_totals_lem"),
    ("cost-most", "crates", "cost_at_most"),
    ("size-most", "crates", "size_at_most"),
    ("places-most", "crates", "places_at_most"),
    ("counts-by", "crates", "counts_by_lem"),
    ("file-put", "crates", "file_put_lem"),
    ("in-range", "crates/trace", "in_range_lem"),
    ("in-range", "crates/tables", "in_range_lem"),
    ("in-range", "crates/layout", "in_range_lem"),
    ("first_out", "crates/squid/proofs/Pieces.antt", "first_out_lem"),
    ("is_digit", "crates/squid/proofs", "is_digit_lem"),
    ("is-file", "crates", "is_file_lem"),
    ("lower-at", "crates", "lower_at_lem"),
    ("on-val", "crates", "on_val_lem"),
    ("one-to", "crates", "one_to_lem"),
    ("in_place", "crates/snailstamp/proofs/Tracing.antt", "in_place_lem"),
    ("no_place", "crates/shelving/proofs/Lives.antt", "no_place_lem"),
]


def antt():
    return sorted(f for part in ("specs", "proofs") for f in glob.glob(f"crates/*/{part}/**/*.antt", recursive=True))


def declared(files):
    """Every name that a line at the margin, or a field, declares; not the answers to needs, which Rattle names."""
    names = set()
    for f in files:
        for line in open(f, encoding="utf-8"):
            if re.match(r"(use|pub use|--|mod|pub mod|open|unfolding|import)\b", line) or ": tie.Need-" in line:
                continue
            m = re.match(rf"(?:(?:abbrev|unfoldable)\s+)?(?:pub\s+)?(?:(?:record|data|ruleset)\s+)?({WORD})\s", line)
            if m and (re.search(r"\s:\s", line) or re.match(r"(pub )?(record|data|ruleset)", line)):
                names.add(m.group(1))
            m = re.match(rf"\s+(?:(?:abbrev|unfoldable)\s+)?(?:pub\s+)?({WORD})\s+:\s", line)
            if m:
                names.add(m.group(1))
    return names


def snake(name):
    return re.sub(r"(?<=[a-z0-9])([A-Z])", lambda m: "_" + m.group(1).lower(), name).replace("-", "_")


def turned(text, path, names):
    """The text with each name that the path may hold in its new spelling."""
    table = {n: snake(n) for n in names if n != snake(n) and re.match(r"[a-z]", n)}
    for name, where, after in APART:
        if path == where or path.startswith(where + "/"):
            table[name] = after
    pattern = re.compile(BEFORE + "(" + "|".join(re.escape(n) for n in sorted(table, key=lambda n: (-len(n), n))) + ")" + AFTER)
    return pattern.sub(lambda m: table[m.group(1)], text)


def main():
    files = antt()
    names = declared(files)
    seen = collections.defaultdict(set)
    for n in names:
        seen[snake(n)].add(n)
    for after, group in sorted(seen.items()):
        if len(group) > 1:
            print(f"fall together: {', '.join(sorted(group))}")
    for f in files + sorted(glob.glob("crates/*/src/**/*.rt", recursive=True)):
        text = open(f, encoding="utf-8").read()
        if f.endswith(".antt"):
            new = turned(text, f, names)
        else:
            clause = re.compile(r"^( *(?:ghost use |requires|ensures|//).*)$", re.M)
            new = clause.sub(lambda m: turned(m.group(1), f, names), text)
        if new != text:
            open(f, "w", encoding="utf-8").write(new)


if __name__ == "__main__":
    sys.exit(main())
