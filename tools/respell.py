#!/usr/bin/env python3
"""Spells this repository's own definitions and lemmas as the current Rattle does: words in snake case, facts and types in camel case.

usage: python3 tools/respell.py [--check]     at the top of the repository, once, after the kit's own script

A name is one that a file of specs/ or a lemma file of proofs/ declares, a record's field and a constructor included. Names that Rattle
makes (the goals of a function's proof), functions of src/ and inputs keep their spelling. It goes by text alone, so look through
strings and the library's names afterwards: it has run here, and what it garbled was mended by hand (docs/PORT.md). A lemma that would
be spelled as a function of src/ gets `_lem`. A definition may be spelled as a function of src/ is, since no clause can name a function.
It prints each name that changes, and says where a new spelling meets another word of a file; such names are not changed, but for the
field in MAY_MEET, which is read behind a dot alone. --check writes nothing.
"""

import collections
import glob
import os
import re
import sys

WORD = re.compile(r"[^\s(){}\[\].;,@\"«»:]+")
DECLARED = re.compile(r"^ *((?:pub |abbrev |unfoldable )*)(?:record |data )?([^\s(){}\[\];,.:λ→\"]+)((?: *\([^()]*(?:\([^()]*\)[^()]*)*\))*(?: *\{[^{}]*\})*)* *:(?: |$)", re.M)
# Heads behind which Rattle's own names of a function's proof stand.
OF_FUNCTION = ("Answers.antt", "Invariants.antt", "Choices.antt", "Proof.antt")
MAY_MEET = ("mass-price",)
MADE = ("goal", "c", "l", "args", "initial")


def read(path):
    with open(path, encoding="utf-8") as f:
        return f.read()


def code(text):
    """The text with comments taken out."""
    return re.sub(r"(?<!\S)--[^\n]*", "", text)


def spelled(name):
    plain = re.sub(r"(?<=[a-z])([A-Z])(?![a-z])", lambda m: "_" + m[1].lower(), name) if name[0].islower() else name
    if plain[0].isupper():
        return "".join(w[:1].upper() + w[1:] for w in plain.split("-"))
    return plain.replace("-", "_")


def declared():
    names, made, specs = set(), set(), set()
    for p in sorted(glob.glob("crates/*/specs/**/*.antt", recursive=True)) + sorted(glob.glob("crates/*/proofs/**/*.antt", recursive=True)):
        found = {m[2] for m in DECLARED.finditer(code(read(p)))}
        if os.path.basename(p) in OF_FUNCTION:
            made |= found
        else:
            names |= found
            if "/specs/" in p:
                specs |= found
    return names, made, specs


def rewritten(text, table, is_rust, of_function):
    def word(m):
        w = m[0]
        before = text[: m.start()]
        if w not in table:
            return w
        if of_function and before.endswith("."):
            head = re.search(r"([\w-]+)\.$", before)
            if head and (head[1] in MADE or head[1].startswith("loop-")):
                return w
        return table[w]

    if not is_rust:
        return WORD.sub(word, text)
    # In Rust only clauses, ghost items and ghost members have names of ours, and a name with a dash is no Rust name.
    return re.sub(r"(?<![\w-])(?=[^\s]*-)[A-Za-z_][\w'′₁?-]*", lambda m: table.get(m[0], m[0]), text)


def main(argv):
    names, made, specs = declared()
    table = {n: spelled(n) for n in names if spelled(n) != n and n not in made}
    functions = {m[1] for p in glob.glob("crates/*/src/**/*.rt", recursive=True) for m in re.finditer(r"\bfn (\w+)", read(p))}
    for n in table:
        if n not in specs and table[n] in functions and n[0].islower():
            table[n] += "_lem"
    files = sorted(glob.glob("crates/*/specs/**/*.antt", recursive=True) + glob.glob("crates/*/proofs/**/*.antt", recursive=True) + glob.glob("crates/*/src/**/*.rt", recursive=True))
    texts = {p: read(p) for p in files}
    words = {p: set(WORD.findall(code(t))) for p, t in texts.items()}
    fallen = collections.defaultdict(list)
    for old, new in table.items():
        for p, ws in words.items():
            if old in ws and new in ws and old not in MAY_MEET and not (old in specs and new in functions):
                fallen[old].append(p)
    back = collections.defaultdict(list)
    for old, new in table.items():
        back[new].append(old)
    for new, olds in back.items():
        if len(olds) > 1:
            print("two: " + ", ".join(olds) + " would be " + new)
            for o in olds:
                fallen[o].append("-")
    for old, where in sorted(fallen.items()):
        print(f"met: {old} would be {table[old]}, a word of " + ", ".join(where))
        table.pop(old)
    for old in sorted(n for n in made & names if spelled(n) != n):
        print(f"made: {old} is also a goal's name")
    for old in sorted(table):
        print(f"{old}\t{table[old]}")
    if "--check" in argv:
        return
    for p, t in texts.items():
        new = rewritten(t, table, p.endswith(".rt"), os.path.basename(p) in OF_FUNCTION)
        if new != t:
            with open(p, "w", encoding="utf-8") as f:
                f.write(new)


main(sys.argv[1:])
