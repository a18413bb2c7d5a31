#!/usr/bin/env python3
"""Writes the table of samples of the crate `samples` from recorded cases.

The cases are those that were made by hand, each for one thing: of reference/recorded/main.txt with
the answers of the original, and of differences-by-rules.txt with the answers that the rules give
where the original departs. docs/CASES.md describes their format. `rt fmt` in that crate then lays the
table out.
"""

import re
from pathlib import Path

ROOT = Path(__file__).resolve().parents[2]
RECORDED = ROOT / "reference" / "recorded"
TARGET = ROOT / "crates" / "samples" / "specs" / "Table.antt"

# Cases of the generators are numbered; those made by hand are not.
GENERATED = re.compile(r"^(random|small|generated)|-[0-9]+$")


def blocks(path):
    """The lines of each case of a file, split into words."""
    lines = []
    for line in path.read_text().splitlines():
        words = line.split()
        if not words or words[0].startswith("#"):
            continue
        lines.append(words)
        if words[0] == "end":
            yield lines
            lines = []


class Words:
    """The words of a line, taken from the front."""

    def __init__(self, words):
        self.words = list(words)

    def take(self):
        return self.words.pop(0)

    def number(self):
        return int(self.take())

    def left(self):
        return bool(self.words)


def listed(items):
    return "(" + " ∷ ".join(items + ["[]"]) + ")" if items else "[]"


def integer(n):
    return f"(pos {n})" if n >= 0 else f"(negsuc {-n - 1})"


def value(w, kind):
    """A value in the words of a host: `v` of the scripted one, `w` of the site host."""
    word = w.take()
    if word == "unit":
        return f"{kind}.Unit"
    if word in ("true", "false"):
        return f"({kind}.Truth {word})"
    if word == "int":
        return f"({kind}.Number {integer(w.number())})"
    if word == "range":
        return f"({kind}.Range {integer(w.number())} {integer(w.number())})"
    return f"({kind}.Seq {w.number()})"


def place(w):
    source = "Site" if w.number() else "Rule"
    return f"(place {source} {w.number()} {w.number()})"


def fault(w):
    code, line, column, catchable = (w.number() for _ in range(4))
    return f"(fault {code} {line} {column} {'true' if catchable else 'false'})"


def operand(w):
    if w.take() == "const":
        return f"(Constant {value(w, 'w')})"
    return f"(Variable {place(w)})"


def expression(w):
    operators = {"add": "Add", "sub": "Subtract", "less": "Less", "equal": "Equal", "span": "Range"}
    if w.words[0] in operators:
        return f"(Binary {operators[w.take()]} {operand(w)} {operand(w)})"
    return f"(Operand {operand(w)})"


def effects(w):
    found = []
    while w.words[0] in ("append", "set"):
        if w.take() == "append":
            found.append(f"(Some (Append {place(w)} {value(w, 'v')}))")
        else:
            found.append(f"(Some (Set {w.number()} {value(w, 'v')}))")
    return (found + ["None", "None"])[:2]


def eval_answer(w):
    word = w.take()
    if word == "fault":
        return f"(eval.Fault {fault(w)})"
    if word in ("value", "exit"):
        return f"(eval.{word.capitalize()} {value(w, 'v')})"
    if word == "row":
        return f"(eval.Row {w.number()})"
    return f"eval.{word.capitalize()}"


def allow_answer(w):
    word = w.take()
    if word == "fault":
        return f"(allow.Fault {fault(w)})"
    if word == "level":
        return f"(allow.Level {w.number()})"
    return f"allow.{word.capitalize()}"


def entry(name, w, answer):
    first, second = effects(w)
    return f"({name} {first} {second} {answer(w)})"


def list_entry(w):
    """An entry of the list host, whose values are numbers of 32 bits."""
    kind, word = w.take(), w.take()
    number = {"unit": 0, "false": 1, "true": 2}.get(word)
    return f"(entry.{kind.capitalize()} {w.number() + 3 if number is None else number})"


def resolved(w):
    word = w.take()
    if word == "module":
        return f"(Ok (Some {w.number()}))"
    if word == "none":
        return "(Ok None)"
    return f"(Err {fault(w)})"


def call(words, lent):
    w = Words(words)
    word = w.take()
    if word == "run":
        asked = f"run {'true' if w.number() else 'false'}"
    elif word == "put":
        asked = f"put {w.number()} {w.number()} {value(w, 'v')}"
    elif word == "read":
        asked = f"read {w.number()} {w.number()}"
    else:
        asked = f"rewind {w.number()}"
    return f"({lent}, {asked})"


def data(w):
    word = w.take()
    if word == "nothing":
        return "nothing"
    if word == "name":
        return f"(name {place(w)})"
    if word == "value":
        return f"(value {value(w, 'v')})"
    return f"({word} {w.number()})"


def name_row(words):
    w = Words(words)
    where = place(w)
    access = {"rw": "ReadWrite", "const": "ConstantAccess"}[w.take()]
    return f"(variable {where} {access} {value(w, 'v')})"


def ran(words, names, imports):
    w = Words(words)
    if w.take() == "value":
        count = w.number()
        told = f"(told 0 (value {value(w, 'v')}) 0 0)"
    else:
        number, count, line, column = (w.number() for _ in range(4))
        told = f"(told {number} {data(w)} {line} {column})"
    return f"(ran {told} {count} {listed(names)} {listed(imports)})"


def answers(lines):
    """What check, open and each call answered, as shown."""
    check, shown = None, []
    lines = [line[1:] for line in lines if line[0] == "="]
    while lines:
        words = lines.pop(0)
        if words[0] == "check":
            w = Words(words[1:])
            if w.take() == "ok":
                quote = w.take()
                check = "(passes None)" if quote == "none" else f"(passes (Some {quote}))"
            else:
                check = f"(fails {w.number()})"
        elif words[1] == "refused":
            shown.append(f"(refused {words[2]})")
        elif words[0] == "open":
            continue
        elif words[0] in ("put", "rewind"):
            shown.append("made")
        elif words[0] == "read":
            w = Words(words[1:])
            shown.append(f"(got (Some {value(w, 'v')}))" if w.take() == "value" else "(got None)")
        else:
            names = [name_row(lines.pop(0)[1:]) for _ in range(int(lines.pop(0)[1]))]
            bound = [
                f"(import {place(w)} {w.number()})"
                for w in (Words(lines.pop(0)[1:]) for _ in range(int(lines.pop(0)[1])))
            ]
            shown.append(ran(words[1:], names, bound))
    return check, shown


def host(kind, lines):
    if kind == "site":
        return f"(site {listed([expression(Words(x[1:])) for x in lines if x[0] == 'code'])})"
    if kind == "list":
        return f"(listed {listed([list_entry(Words(x[1:])) for x in lines if x[0] == 'entry'])})"
    evals = [entry("evaluation", Words(x[1:]), eval_answer) for x in lines if x[0] == "eval"]
    allows = [entry("declaration", Words(x[1:]), allow_answer) for x in lines if x[0] == "allow"]
    return f"(scripted {listed(evals)} {listed(allows)})"


def tables(lines):
    found = []
    for words in lines:
        if words[0] == "table":
            found.append([])
        elif words[0] == "path":
            w = Words(words[1:])
            found[-1].append(f"(row {w.number()} {resolved(w)})")
    return found


def bytes_of(word):
    return [] if word == "-" else [str(b) for b in bytes.fromhex(word)]


def sample(lines):
    fields = {words[0]: words[1:] for words in lines if words[0] in ("image", "site", "limits", "host")}
    lent, calls, first = "lend 128 16 64", [], None
    for words in lines:
        if words[0] == "lend":
            lent = f"lend {words[1]} {words[2]} {words[3]}"
        elif words[0] in ("put", "read", "rewind", "run"):
            calls.append(call(words, lent))
        if first is None and words[0] in ("put", "read", "rewind", "run"):
            first = lent
    check, shown = answers(lines)
    found = tables(lines)
    second = listed(found[1]) if len(found) > 1 else "[]"
    operations, names, modules = fields["limits"]
    return (
        f"-- {lines[0][1]}\n"
        f"  record {{ image = {listed(bytes_of(fields['image'][0]))};\n"
        f"    text = {listed(bytes_of(fields['site'][0]))}; operations = {operations}; names = {names}; modules = {modules};\n"
        f"    host = {host(fields['host'][0], lines)};\n"
        f"    first = {listed(found[0])}; second = {second}; opening = {first or lent};\n"
        f"    calls = {listed(calls)};\n"
        f"    check = {check}; answers = {listed(shown)} }}\n"
    )


def chosen():
    for name in ("main.txt", "differences-by-rules.txt"):
        for lines in blocks(RECORDED / name):
            if GENERATED.search(lines[0][1]):
                continue
            yield sample(lines)


HEADER = (Path(__file__).parent / "header.antt.txt").read_text()


def main():
    rows = list(chosen())
    text = HEADER + "abbrev pub table : List Sample\ntable =\n  "
    TARGET.write_text(text + "  ∷ ".join(rows) + "  ∷ []\n")
    print(len(rows), "samples")


if __name__ == "__main__":
    main()
