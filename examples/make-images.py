#!/usr/bin/env python3
"""Writes the image of each example rule from its rows and its Rhai text.

The rows are written here by hand; NAME.md says them in words. A position is
looked up in NAME.rhai: it is that of the first character of the statement or
of the expression.
"""

import sys
from pathlib import Path

sys.dont_write_bytecode = True

HERE = Path(__file__).resolve().parent
sys.path.insert(0, str(HERE.parent / "tests" / "images"))

from assembler import (
    BREAK,
    CONSTANT,
    assignment,
    break_loop,
    for_,
    host,
    if_,
    return_,
    rule,
    to_bytes,
    try_catch,
    var,
)

# Operator of `-=`
SUBTRACT = 2


def finder(text):
    """Gives, for a piece of the text, the position of its part as row fields."""

    def at(piece, part=None):
        if text.count(piece) != 1:
            sys.exit(f"not exactly once in the text: {piece!r}")
        start = text.index(piece) + piece.rindex(part or piece)
        before = text[:start]
        line = before.count("\n") + 1
        column = start - (before.rfind("\n") + 1) + 1
        return {"line": line, "column": column}

    return at


def feed_in_window(at):
    cap, surplus, feed_watts = (0, 3), (3, 7), (10, 10)
    return rule(
        [
            var(name=cap, e=0, flags=CONSTANT, **at("const cap")),
            var(name=surplus, e=1, **at("let surplus")),
            if_(e=2, p=1, q=2, **at("if hour")),
        ],
        [assignment(name=feed_watts, e=3, **at("feed_watts = 0"))],
        [
            assignment(name=feed_watts, e=4, **at("feed_watts = surplus")),
            if_(e=5, p=3, **at("if cap")),
        ],
        [assignment(name=feed_watts, e=6, **at("feed_watts = cap"))],
        expressions=[
            host(0, **at("4600")),
            host(1, **at("pv_watts - load_watts")),
            host(2, **at("hour < 17")),
            host(3, **at("feed_watts = 0", "0")),
            host(4, **at("feed_watts = surplus", "surplus")),
            host(5, **at("cap < surplus")),
            host(6, **at("feed_watts = cap", "cap")),
        ],
        names=["cap", "surplus", "feed_watts"],
    )


def cold_store(at):
    compressors, spare, stage = (0, 11), (11, 5), (16, 5)
    return rule(
        [
            assignment(name=compressors, e=0, **at("compressors = 0")),
            if_(e=1, p=1, **at("if store_temp")),
            var(name=spare, e=2, **at("let spare")),
            for_(name=stage, e=3, p=2, **at("for stage")),
        ],
        [return_(**at("return"))],
        [
            if_(e=4, p=3, **at("if spare")),
            assignment(name=spare, e=5, operator=SUBTRACT, index=2, **at("spare -=")),
            assignment(name=compressors, e=6, **at("compressors = stage")),
        ],
        [break_loop(flags=BREAK, **at("break"))],
        expressions=[
            host(0, **at("compressors = 0", "0")),
            host(1, **at("store_temp < set_point")),
            host(2, **at("pv_watts - load_watts")),
            host(3, **at("range(1, 4)")),
            host(4, **at("spare < compressor_watts")),
            host(5, **at("spare -= compressor_watts", "compressor_watts")),
            host(6, **at("compressors = stage", "stage")),
        ],
        names=["compressors", "spare", "stage"],
    )


def hold_back(at):
    room, reason, hold_reason, charge_watts = (0, 4), (4, 6), (10, 11), (21, 12)
    return rule(
        [
            var(name=room, e=0, **at("let room")),
            try_catch(p=1, q=2, name=reason, **at("try")),
            assignment(name=charge_watts, e=6, **at("charge_watts = room")),
        ],
        [
            assignment(name=room, e=1, index=1, **at("room = limit_watts")),
            if_(e=2, p=3, **at("if room")),
        ],
        [
            assignment(name=hold_reason, e=4, **at("hold_reason")),
            assignment(name=room, e=5, index=2, **at("    room = 0", "room = 0")),
        ],
        [return_(e=3, flags=BREAK, **at("throw"))],
        expressions=[
            host(0, **at("let room = 0", "0")),
            host(1, **at("limit_watts - load_watts")),
            host(2, **at("room < 0")),
            host(3, **at("throw 1", "1")),
            host(4, **at("hold_reason = reason", "reason")),
            host(0, **at("    room = 0", "0")),
            host(5, **at("charge_watts = room", "room")),
        ],
        names=["room", "reason", "hold_reason", "charge_watts"],
    )


EXAMPLES = {
    "feed-in-window": feed_in_window,
    "cold-store": cold_store,
    "hold-back": hold_back,
}


def main():
    for name, assemble in EXAMPLES.items():
        text = (HERE / f"{name}.rhai").read_text(encoding="ascii")
        written = to_bytes(assemble(finder(text)))
        (HERE / f"{name}.image").write_bytes(written)
        print(f"{name}: {len(written)} bytes")


if __name__ == "__main__":
    main()
