#!/usr/bin/env python3
"""Counts the places in crates/*/src that could take another form, by eight points.

    python3 tools/places.py [POINT] [--at CHECKOUT]

Without a point it prints the count of each; with one it lists the places, a line each. A place is a candidate: that it
stands in the list says what its text looks like, not that another form is better.
"""
import argparse
import collections
import pathlib
import re

FUNCTION = re.compile(r"^( *)(?:pub(?:\(crate\))? )?(?:const )?fn (\w+)", re.M)
WORDS = set("fn let mut if else match for in while loop return self Self impl true false None Some Ok Err as ref move".split())
ABSENT = {"None", "NotFound", "No", "End", "NoQuote", "NotIterable", "Nothing"}
FAILED = {"Fault", "Refused", "Failed", "Stopped", "Exit", "Exited"}


class Function:
    """A function with its file, line, signature, contract and body."""

    def __init__(self, file, text, match):
        self.file, self.name = file, match.group(2)
        self.line = text.count("\n", 0, match.start(2)) + 1
        indent = match.group(1)
        end = re.compile(rf"^{indent}}}|^{indent}[^\n]*;\n", re.M)
        stop = end.search(text, match.end())
        whole = text[match.start():stop.end() if stop else len(text)]
        opening = re.search(rf"\{{\n(?={indent}    )|^{indent}\{{", whole, re.M)
        cut = opening.start() if opening else len(whole)
        head = whole[:cut]
        clauses = re.search(r"^ +(requires|ensures)", head, re.M)
        self.signature = head[:clauses.start()] if clauses else head
        self.clauses = re.findall(r"^ +(?:requires|ensures)(?: \w+)? \{ (.*) \}$", head, re.M)
        self.body = whole[cut:]

    def place(self):
        return f"{self.file}:{self.line} {self.name}"

    def parameters(self):
        inside = re.search(r"\((.*)\)", self.signature.split(" -> ")[0], re.S)
        return re.findall(r"(\w+): ([^,]+(?:<[^>]*>)?)", inside.group(1)) if inside else []

    def arms(self):
        return re.findall(r"^ +(.+?) => (.+?),?$", self.body, re.M)


def sources(root):
    for path in sorted(root.glob("crates/*/src/**/*.rt")):
        yield path.relative_to(root), path.read_text()


def functions(root):
    for file, text in sources(root):
        for match in FUNCTION.finditer(text):
            yield Function(file, text, match)


def lines(root, pattern):
    for file, text in sources(root):
        for number, line in enumerate(text.split("\n"), 1):
            if not line.strip().startswith("//") and re.search(pattern, line):
                yield f"{file}:{number} {line.strip()}"


def enums(root):
    for file, text in sources(root):
        for match in re.finditer(r"enum (\w+)(?:<[^>]*>)? \{\n(.*?)^\}", text, re.S | re.M):
            variants = re.findall(r"^    (\w+)", match.group(2), re.M)
            yield file, text.count("\n", 0, match.start()) + 1, match.group(1), variants


def point1(root):
    """enums shaped like Option or Result, numbers for kinds and refusals, flags beside a value"""
    for file, line, name, variants in enums(root):
        if len(variants) <= 4 and (ABSENT | FAILED) & set(variants):
            yield f"{file}:{line} enum {name} {{ {', '.join(variants)} }}"
    for f in functions(root):
        numbers = [a for a in f.arms() if re.fullmatch(r"\d+( \| \d+)*", a[0]) or re.fullmatch(r"\d+", a[1])]
        if len(numbers) >= 2:
            yield f"{f.place()} (numbers for kinds)"
        if re.search(r"-> \((bool|usize), |-> \(\w+, bool\)", f.signature):
            yield f"{f.place()} (a number or flag beside the answer)"
    yield from lines(root, r"\(u8\),$|Result<.*, u8>")


def shape(body, methods):
    """The body with its own names, types and numbers made alike, and with those of methods, if they are not to count."""
    body = re.sub(r"//.*", "", body)
    body = re.sub(r'"[^"]*"', "S", body)
    body = re.sub(r"\b\d[\d_]*\b", "N", body)
    body = re.sub(r"\b[A-Z]\w*(::\w+)*", lambda m: m.group(0) if m.group(0) in WORDS else "N", body)
    own = r"(?<![.\w])[a-z_]\w*" if methods else r"\b[a-z_]\w*"
    body = re.sub(own, lambda m: m.group(0) if m.group(0) in WORDS else "x", body)
    return re.sub(r"\s+", " ", body).strip()


def point2(root):
    """twins: bodies that are alike but for names, types and numbers, and longer ones that are alike but for methods too"""
    found = set()
    for methods, shortest in ((True, 40), (False, 60)):
        groups = collections.defaultdict(list)
        for f in functions(root):
            text = shape(f.body, methods)
            if len(text) > shortest:
                groups[text].append(f.place())
        found.update(f"{p} of {len(places)}" for places in groups.values() if len(places) > 1 for p in places)
    yield from sorted(found)


def point3(root):
    """loops that count: while, loop, for over numbers, counters"""
    yield from lines(root, r"\bwhile\b|\bloop \{|for \w+ in [^{\[]*\.\.|\+= 1;|= \w+\.saturating_add\(1\)")


def point4(root):
    """equality, order, conversion and printing by hand"""
    for f in functions(root):
        arms = f.arms()
        plain = r"(Some\()?[\w:]+(\([\w:().]*\))?\)?|\d+|\"[^\"]*\"|\"\S*\""
        if f.name != "fmt" and len(arms) >= 2 and f.body.count("match ") == 1 and all(re.fullmatch(plain, a[1]) for a in arms):
            yield f"{f.place()} (a match of cases to cases)"
        elif re.match(r"same_|agrees|all_agree|is_unit|unit_is", f.name):
            yield f.place()
    yield from lines(root, r"impl(<.*>)? (\w+::)*(PartialEq|Eq|PartialOrd|Ord|Clone|Copy|Hash|Default|Debug)(<.*>)? for")


def point5(root):
    """clauses that stand in three contracts or more, and parameters that travel together through three functions or more"""
    clauses, pairs = collections.defaultdict(list), collections.defaultdict(list)
    for f in functions(root):
        crate = f.file.parts[1]
        for clause in f.clauses:
            clauses[crate, clause].append(f.place())
        names = sorted(f"{n}: {t.strip()}" for n, t in f.parameters())
        for i, a in enumerate(names):
            for b in names[i + 1:]:
                pairs[crate, a, b].append(f.place())
    for (crate, clause), places in clauses.items():
        if len(places) >= 3:
            yield f"{crate}: {{ {clause} }} in {len(places)}: {', '.join(p.split()[-1] for p in places)}"
    for (crate, a, b), places in pairs.items():
        if len(places) >= 3:
            yield f"{crate}: ({a}, {b}) in {len(places)}: {', '.join(p.split()[-1] for p in places)}"


def point6(root):
    """bounds tested by hand, fixed buffers, rows with the number in use"""
    yield from lines(root, r"if \w+ (<|>=) (\w+\.)*\w*(len\(\)|MOST\w*)|: \[\w+; [A-Z_]+\]|= \[\w+; [A-Z_]+\]|&mut \[\w+; [A-Z_]+\]|\bused: usize,")


def point7(root):
    """a switch on which step to run"""
    for f in functions(root):
        calls = [a for a in f.arms() if re.fullmatch(r"[a-z_]+\([^()]*\)|[a-z_]+\([a-z_]+\([^()]*\)\)", a[1])]
        if len(calls) >= 2:
            yield f"{f.place()} ({len(calls)} steps)"


def point8(root):
    """files of proofs"""
    for path in sorted(root.glob("crates/*/proofs/**/*.antt")):
        yield f"{path.relative_to(root)}: {len(path.read_text().splitlines())} lines"


POINTS = [point1, point2, point3, point4, point5, point6, point7, point8]


def main():
    parser = argparse.ArgumentParser()
    parser.add_argument("point", nargs="?", type=int)
    parser.add_argument("--at", default=pathlib.Path(__file__).resolve().parent.parent, type=pathlib.Path)
    arguments = parser.parse_args()
    if arguments.point:
        print("\n".join(POINTS[arguments.point - 1](arguments.at)))
        return
    for number, point in enumerate(POINTS, 1):
        print(f"{number}  {len(list(point(arguments.at))):4}  {point.__doc__}")


main()
