#!/usr/bin/env python3
"""Spells the names of this repository's own definitions and lemmas as today's Rattle does: a type in camel case, all else in snake case.

usage: python3 tools/spell_names.py [FOLDER]     (the top of a checkout that /opt/rattle/port/port.py has turned; here, if none is given)

It goes by text: a name that some file of specs/ or proofs/ declares is turned wherever it stands as a whole word, in those files and in the
clauses and comments of src/. Names that Rattle makes, names of libraries, functions and strings stay. A second run changes nothing.
"""

import collections
import glob
import os
import re
import sys

WORD = r'[^\s(){}.;,@"«»]+'
DECLARED = re.compile(
    rf"(?m)^ *(?:(?:pub|abbrev|unfoldable) )*(?:(?:record|data) )?({WORD})(?: \{{[^{{}}\n]*\}}| \((?:[^()\n]|\([^()\n]*\))*\))* :(?=\s)(?! goal\.)"
)
USE = re.compile(r"(?m)^ *(?:ghost )?use ([^\s{;]+)\{([^}]*)\}")
# What would fall together with another name, or reads badly after the rule.
OTHERWISE = {
    "sum-from": "sum_from_start",
    "least-ratio": "least_ratio_is_least",
    "in-use-le": "one_if_used_le",
    "in-use-lt": "one_if_used_lt",
    "first-within": "first_row_within",
    "second-within": "second_row_within",
    "walk-on": "walk_one_round",
    "some-large": "some_row_large",
    "first-large": "first_large_is",
    "getD-behind": "get_or_behind",
    "mem-getD": "mem_get_or",
}
# A name of one file alone, which another file's inUse comes to be spelled like.
IN_FILE = {"crates/cycle_theory/proofs/Supports.antt": {"in_use": "one_if_used"}}


def respelled(name):
    if name in OTHERWISE:
        return OTHERWISE[name]
    if name[0].isupper():
        return "".join(part[:1].upper() + part[1:] for part in name.split("-"))
    return re.sub(r"(?<=[a-z0-9])[A-Z]", lambda m: "_" + m[0].lower(), name).replace("-", "_")


def names_of(texts):
    table = {}
    for path, text in texts.items():
        if path.endswith(".antt"):
            for name in DECLARED.findall(re.sub(r"(?m)^ *--.*$", "", text)):
                if name[0].isalpha() and respelled(name) != name:
                    table[name] = respelled(name)
    return table


def of_libraries(text):
    """The names that a file takes from elsewhere."""
    names = set()
    for path, items in USE.findall(text):
        steps = path.split(".")
        if steps[0] != "Rattle" or steps[1] in ("std", "core"):
            names.update(item.split()[0] for item in items.split(",") if item.strip())
    return names


def aligned(old, new):
    """A line of a table in a comment keeps its second column."""
    grown = len(new) - len(old)
    gap = re.search(r"(?<=[^\s-])  +(?=\S)", new)
    if not new.startswith("--") or not grown or not gap:
        return new
    return new[: gap.start()] + " " * max(1, len(gap[0]) - grown) + new[gap.end() :]


def turned(path, text, table):
    table = {**table, **IN_FILE.get(path, {})}
    stay = of_libraries(text)
    proof = os.path.basename(path) in ("Answers.antt", "Invariants.antt")
    # Rattle makes the first name behind one of these.
    made = re.compile(rf"(?<![^\s(){{}};,@])(?:c|w|l|g|goal)\.{WORD}") if proof else None

    def line(old):
        kept = {m.end() for m in made.finditer(old)} if made else set()
        comment = re.search(r"(?<!\S)(?:--|//)(?: *)", old)

        def word(m):
            if m[0] in stay or m.end() in kept:
                return m[0]
            # In a comment a word with a hyphen may be plain English, but for the first of a line in a table.
            if comment and m.start() > comment.end() and m[0].islower():
                return m[0]
            return table.get(m[0], m[0])

        each = re.compile(WORD) if path.endswith(".antt") else re.compile(r"(?<![\w\"-])[A-Za-z][\w'-]*")
        return aligned(old, each.sub(word, old))

    return "\n".join(line(it) for it in text.split("\n"))


def main(argv):
    os.chdir(argv[0] if argv else ".")
    paths = sorted(p for kind in ("src/**/*.rt", "specs/*.antt", "proofs/**/*.antt") for p in glob.glob("crates/*/" + kind, recursive=True))
    texts = {}
    for path in paths:
        with open(path, encoding="utf-8") as f:
            texts[path] = f.read()
    table = names_of(texts)
    together = collections.Counter(table.values())
    for name in sorted(n for n in together if together[n] > 1):
        print(f"together: {name}")
    for path, text in texts.items():
        new = turned(path, text, table)
        if new != text:
            with open(path, "w", encoding="utf-8") as f:
                f.write(new)
    print(f"{len(table)} names turned")


if __name__ == "__main__":
    main(sys.argv[1:])
