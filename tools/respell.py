#!/usr/bin/env python3
"""Respells the repository's own definitions and lemmas as today's Rattle spells names.

A definition in camel case (`blockAbove`) gets snake case (`block_above`). In a lemma's name a dash
stays where it joins the names of two definitions (`length-changed`) and is an underscore where it
joins plain words (`few_blocks`). Facts and types keep their capitals; names that Rattle makes
(goals, invariants), functions of src/, strings, inputs and outputs keep theirs.

Run it once, at the top of the repository, right after port.py. `--list` shows the names and changes
nothing. It stops where two names would fall together.
"""

import re
import sys
from pathlib import Path

ROOT = Path(__file__).resolve().parents[1]
# A name as antt and Rust write it.
NAME = re.compile(r"[A-Za-z_][A-Za-z0-9_']*(?:-[A-Za-z0-9_']+)*")
DEFINED = re.compile(r"^\s*(?:abbrev |unfoldable )?(?:pub )?([^\s:(){}=,.]+) :(?!:) (.*)$")
# A name that an import gives.
ALIAS = re.compile(r" as ([a-z][A-Za-z0-9_']*)")
QUOTED = re.compile(r"`[^`\n]+`")
# Words of the library that lemmas of ours speak of.
LIBRARY = {"length", "sum", "map", "append", "take", "drop", "replicate", "leb"}
# Lemmas that would have their function's name.
APART = {"expr-at": "expr_at_lem", "last-named": "last_named_lem"}
# The same of a lemma that port.py had given that name, in the crate that has it.
APART_IN = {"run": {"in_use": "in_use_lem"}}
# Functions of src/ whose names stand in paths of proofs: a definition may have the same one.
ALSO_IN_SRC = {"block_above", "in_order", "of_block", "once_each", "stmt_bytes"}


def files(*patterns):
    return sorted(p for q in patterns for p in ROOT.glob(q) if "out" not in p.parts)


def own_names():
    """Each name that a file of specs/ or proofs/ defines, but for the goals of functions."""
    found = set()
    for path in files("crates/*/specs/**/*.antt", "crates/*/proofs/**/*.antt"):
        for line in path.read_text().splitlines():
            m = DEFINED.match(line)
            if m and not line.strip().startswith("--") and not m[2].strip().startswith("goal."):
                found.add(m[1])
            if line.startswith("use "):
                found |= set(ALIAS.findall(line))
    return found


def snake(word):
    return re.sub(r"(?<=[a-z0-9])([A-Z])", lambda m: "_" + m[1].lower(), word)


def respelled(name, functions):
    if name in APART:
        return APART[name]
    parts = name.split("-")
    if len(parts) == 1:
        return snake(name) if name[0].islower() else name
    parts = [snake(p) if p[0].islower() else p for p in parts]
    return ("-" if functions.issuperset(parts) else "_").join(parts)


def table():
    names = own_names()
    plain = {n for n in names if "-" not in n}
    functions = {snake(n) if n[0].islower() else n for n in plain} | LIBRARY
    made = {n: respelled(n, functions) for n in names}
    return {n: m for n, m in made.items() if n != m}


def collisions(changed):
    """New names that already stand somewhere, or that two old names share."""
    standing = set()
    for path in files("crates/*/specs/**/*.antt", "crates/*/proofs/**/*.antt"):
        standing |= set(NAME.findall(turn(path.read_text(), APART_IN.get(crate_of(path), {}))))
    standing -= ALSO_IN_SRC
    twice = {}
    for old, new in changed.items():
        twice.setdefault(new, []).append(old)
    return sorted((new, olds) for new, olds in twice.items() if len(olds) > 1 or new in standing)


def crate_of(path):
    return path.relative_to(ROOT / "crates").parts[0]


def turn(text, changed, tokens=NAME):
    return tokens.sub(lambda m: changed.get(m[0], m[0]), text)


def outside_strings(text, change):
    pieces = re.split(r'("(?:[^"\\\n]|\\.)*")', text)
    return "".join(p if i % 2 else change(p) for i, p in enumerate(pieces))


def main():
    changed = table()
    alike = collisions(changed)
    if "--list" in sys.argv:
        for old, new in sorted(changed.items()):
            print(old, new)
    for new, olds in alike:
        print("falls together:", new, olds)
    if "--list" in sys.argv or alike:
        return
    camel = {o: n for o, n in changed.items() if "-" not in o}
    for path in files("crates/*/specs/**/*.antt", "crates/*/proofs/**/*.antt"):
        text = turn(path.read_text(), APART_IN.get(crate_of(path), {}))
        path.write_text(turn(text, changed))
    for path in files("crates/*/src/**/*.rt"):
        text = path.read_text()
        path.write_text(outside_strings(text, lambda t: turn(t, camel)))
    # The pages name definitions between backticks, some by names that port.py has turned.
    for path in files("README.md", "docs/*.md"):
        text = path.read_text()
        path.write_text(QUOTED.sub(lambda m: in_page(m[0], own_names()), text))


def in_page(quoted, names):
    return NAME.sub(lambda m: snake(m[0]) if m[0][0].islower() and snake(m[0]) in names else m[0], quoted)


if __name__ == "__main__":
    main()
