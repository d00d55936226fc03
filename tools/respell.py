#!/usr/bin/env python3
"""Respells the names of definitions and lemmas (specs/, proofs/*.antt) in the house style of the toolchain:
words in snake case; a dash stays only in a lemma's name, between two words that are themselves defined.

Run once at the top of a tree that port.py has turned. It renames whole tokens in .antt files, in the clauses of .rt files and in
must-fail edits; names that Rattle makes from the code (goals in Answers.antt, Invariants.antt) stay as they are. It stops where
two names would fall together.
"""
import glob
import re
import sys

DECLARED = re.compile(r"^\s*((?:(?:unfoldable|abbrev|pub|record|data)\s+)*)([^\s(){}:]+)\s*(?:\s[^:]*)?:( |$)")
# Words that say something of a defined word and are no defined word themselves, whatever else bears that name.
PLAIN = set(
    "is at of in by all first more left right few most low high next down below past beyond same own each but no not has one_way "
    "its are with without before after taken added".split()
)
# Lemmas spelled as the library spells its own of that name, or whose respelling is a word of the library.
KEPT = {"zero-add", "zero-mul", "one-mul", "mul-zero", "bit-xor"}
# What snake case alone would let fall together with another name.
CHOSEN = {"digitsIn": "digits_up_to", "eqL→eq": "eq_l_eq", "U-short": "multiplier_short"}


def declared_names():
    specs, fields, names = set(), set(), set()
    for path in glob.glob("crates/*/specs/**/*.antt", recursive=True) + glob.glob("crates/*/proofs/*.antt"):
        with open(path) as file:
            inside = None  # the indentation of the record whose fields follow
            for line in file:
                indent = len(line) - len(line.lstrip())
                if inside is not None and line.strip() and indent <= inside:
                    inside = None
                found = DECLARED.match(line)
                if not found or line.lstrip().startswith("--"):
                    continue
                names.add(found.group(2))
                # what specs/ declares is a definition or a field, not a lemma
                if "/specs/" in path:
                    specs.add(found.group(2))
                elif inside is not None:
                    fields.add(found.group(2))
                if "record" in found.group(1).split() and line.rstrip().endswith("where"):
                    inside = indent
    return specs, fields, names


def snake(word):
    if not word[0].islower():
        return word
    return re.sub(r"(?<=[a-z])([A-Z])", lambda m: "_" + m.group(1).lower(), word)


def respelled(name, specs, fields):
    if name in KEPT:
        return name
    if name in CHOSEN:
        return CHOSEN[name]
    words = [snake(word) for word in name.split("-")]
    lemma = name not in specs and name not in fields
    joined = lemma and all(word in specs and word not in PLAIN for word in words)
    return ("-" if joined else "_").join(words)


def main():
    specs, fields, names = declared_names()
    table = {name: respelled(name, specs, fields) for name in sorted(names) if respelled(name, specs, fields) != name}
    targets = {}
    for name in sorted(names):
        targets.setdefault(table.get(name, name), []).append(name)
    together = {new: old for new, old in targets.items() if len(old) > 1}
    if together:
        sys.exit(f"names fall together: {together}")
    token = re.compile(
        r"(?<![\w\-'?→⊝·.])(" + "|".join(sorted(map(re.escape, table), key=len, reverse=True)) + r")(?![\w\-'?→])"
    )
    field = re.compile(r"(?<=[\w)'])\.(" + "|".join(sorted(map(re.escape, table), key=len, reverse=True)) + r")(?![\w\-'?→])")
    paths = glob.glob("crates/*/specs/**/*.antt", recursive=True) + glob.glob("crates/*/proofs/**/*.antt", recursive=True)
    paths += glob.glob("crates/*/src/**/*.rt", recursive=True) + glob.glob("crates/*/must-fail/*.edit")
    for path in paths:
        with open(path) as file:
            old = file.read()
        new = old
        if path.endswith("Answers.antt") or path.endswith("Invariants.antt"):
            goals = set(re.findall(r"goal\.([^\s(){},;]+)", old))
        else:
            goals = set()
        swap = lambda m: m.group(0) if m.group(1) in goals else m.group(0).replace(m.group(1), table[m.group(1)])
        if table:
            new = field.sub(swap, token.sub(swap, new))
        # what an import calls a word in this file
        for alias in set(re.findall(r"\bas ([a-z]+(?:-[a-z]+)+)", new)):
            new = re.sub(r"(?<![\w\-])" + alias + r"(?![\w\-])", alias.replace("-", "_"), new)
        if new != old:
            with open(path, "w") as file:
                file.write(new)
    for old, new in table.items():
        print(f"{old} {new}")


main()
