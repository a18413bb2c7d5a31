#!/usr/bin/env python3
"""Writes the table of images for the crate `verdicts`: its stdin and its stdout.

Each case has a name, an image and an answer. The answers are worked out by hand
from docs/REFUSALS.md and docs/QUOTE.md and stand here as literals; no program
computes them.

stdin has one case a line: the name, then segments. A segment is bytes in
hexadecimal, with `*COUNT` behind it if it is repeated. A case without segments
is empty input. stdout has one line a case: the name, then the answer.
"""

import sys
from pathlib import Path

sys.dont_write_bytecode = True

from assembler import (
    BREAK,
    CONSTANT,
    NEGATED,
    NONE,
    assignment,
    block,
    block_row,
    break_loop,
    cut,
    do,
    expr,
    expression_row,
    false,
    for_,
    host,
    if_,
    image,
    import_,
    noop,
    return_,
    rule,
    statement_row,
    to_segments,
    true,
    try_catch,
    unit,
    var,
    while_,
)

TARGET = Path(__file__).resolve().parents[2] / "crates" / "verdicts"

# The name text of most cases has 4 bytes, and this is a name in it.
TEXT = ["abcd"]
NAME = (0, 1)

# Most cases have two expression rows.
HOSTS = [host(1), host(2)]

# `let a = 5`: 14 bytes of header, then tables of 4, 20, 8 and 1 bytes, 47 in all.
LET = rule([var(name=NAME, e=0)], expressions=[host(5)], names=["a"])


def simple(*bodies):
    """A rule with the usual expressions and name text."""
    return rule(*bodies, expressions=HOSTS, names=TEXT)


def above_noop(statement):
    """The statement alone in block 0, and a Noop in block 1."""
    return simple([statement], [noop()])


def in_loop(*statements):
    """The statements as the body of a While."""
    return simple([while_(e=0, p=1)], list(statements))


def comb(count, body):
    """Block 0 names all other blocks, each of which has the same body."""
    return rule([block(p=i) for i in range(1, count)], *[body] * (count - 1))


def chain(depth, last, step=lambda p: block(p=p)):
    """Blocks of which each names the next by one statement; the last has `last`."""
    return simple(*[[step(i)] for i in range(1, depth)], last)


def two_chains(depth):
    """Two chains from block 0, one of the odd and one of the even blocks."""
    steps = [[block(p=i + 2)] for i in range(1, 2 * depth - 3)]
    return rule([block(p=1), block(p=2)], *steps, [noop()], [noop()])


# Refusal 1


def header_cases():
    return [
        ("header-empty-input", [], "refused 1"),
        ("header-cut-after-1-byte", cut(LET, 1), "refused 1"),
        ("header-cut-after-5-bytes", cut(LET, 5), "refused 1"),
        ("header-cut-after-13-bytes", cut(LET, 13), "refused 1"),
        ("header-mark-first-byte", rule([], mark=b"QHS"), "refused 1"),
        ("header-mark-second-byte", rule([], mark=b"RIS"), "refused 1"),
        ("header-mark-third-byte", rule([], mark=b"RHs"), "refused 1"),
        ("header-version-0", rule([], version=0), "refused 1"),
        ("header-version-2", rule([], version=2), "refused 1"),
        ("header-version-256", rule([], version=256), "refused 1"),
        ("header-version-257", rule([], version=257), "refused 1"),
        ("header-zero-byte-1", rule([], zero=1), "refused 1"),
        ("header-zero-byte-255", rule([], zero=255), "refused 1"),
        ("header-bytes-0-only", [b"\0" * 18], "refused 1"),
    ]


# Refusal 2


def length_cases():
    return [
        ("length-cut-after-14-bytes", cut(LET, 14), "refused 2"),
        ("length-cut-in-block-row", cut(LET, 17), "refused 2"),
        ("length-cut-before-statements", cut(LET, 18), "refused 2"),
        ("length-cut-in-statement-row", cut(LET, 37), "refused 2"),
        ("length-cut-before-expressions", cut(LET, 38), "refused 2"),
        ("length-cut-in-expression-row", cut(LET, 45), "refused 2"),
        ("length-one-byte-short", cut(LET, 46), "refused 2"),
        ("length-right", LET, "quote 2"),
        ("length-one-byte-long", LET + [b"\0"], "refused 2"),
        ("length-twice-the-image", LET + LET, "refused 2"),
        ("length-empty-rule-one-byte-short", cut(rule([]), 17), "refused 2"),
        ("length-empty-rule-one-byte-long", rule([]) + [b"\0"], "refused 2"),
    ]


def count_cases():
    return [
        ("counts-all-0", image(blocks=[]), "refused 2"),
        # no block, though the length is what the counts make
        ("counts-blocks-0", image(blocks=[], names=["abcd"]), "refused 2"),
        ("counts-blocks-1", rule([]), "quote 0"),
        ("counts-blocks-256", comb(256, []), "quote 255"),  # 255 Blocks, each 1 + 0
        ("counts-blocks-257", comb(257, []), "refused 2"),
        ("counts-blocks-65535", rule([], counts=(65535, 0, 0, 0)), "refused 2"),
        ("counts-statements-0", simple([]), "quote 0"),
        ("counts-statements-1", rule([noop()]), "quote 1"),
        ("counts-statements-1024", rule([noop()] * 1024), "quote 1024"),
        ("counts-statements-1025", rule([noop()] * 1025), "refused 2"),
        ("counts-statements-65535", rule([], counts=(1, 65535, 0, 0)), "refused 2"),
        ("counts-expressions-0", rule([return_()]), "quote 1"),
        ("counts-expressions-1", rule([expr(e=0)], expressions=[true()]), "quote 2"),
        (
            "counts-expressions-1024",
            rule([expr(e=1023)], expressions=[host(3)] * 1024),
            "quote 2",
        ),
        (
            "counts-expressions-1025",
            rule([expr(e=0)], expressions=[host(3)] * 1025),
            "refused 2",
        ),
        ("counts-expressions-65535", rule([], counts=(1, 0, 65535, 0)), "refused 2"),
        ("counts-text-0", rule([expr(e=0)], expressions=HOSTS), "quote 2"),
        (
            "counts-text-1",
            rule([assignment(name=(0, 1), e=0)], expressions=HOSTS, names=["a"]),
            "quote 3",
        ),
        (
            "counts-text-2048",
            rule([var(name=(0, 2048), e=0)], expressions=HOSTS, names=["a"] * 2048),
            "quote 2",
        ),
        (
            "counts-text-2049",
            rule([var(name=(0, 2048), e=0)], expressions=HOSTS, names=["a"] * 2049),
            "refused 2",
        ),
        ("counts-text-65535", rule([], counts=(1, 0, 0, 65535)), "refused 2"),
    ]


def largest_image():
    """31,758 bytes: 255 Blocks and 769 Noops in block 0, and 255 empty blocks."""
    named = [block(p=i) for i in range(1, 256)]
    return rule(
        named + [noop()] * 769,
        *[[]] * 255,
        expressions=[host(9)] * 1024,
        names=["a"] * 2048,
    )


def largest_cases():
    largest = largest_image()
    return [
        ("largest-image", largest, "quote 1024"),  # 255 + 769
        ("largest-image-one-byte-short", largest[:-1], "refused 2"),
        ("largest-image-one-byte-long", largest + [b"a"], "refused 2"),
        ("largest-image-and-much-more", largest + [b"\0" * 16] * 1024, "refused 2"),
        ("largest-length-and-wrong-mark", [b"\0" * 2] * 15879, "refused 1"),
        # longer than any image, with the counts of a small one
        ("empty-rule-and-much-more", rule([]) + [b"\0" * 16] * 1024, "refused 2"),
    ]


# Refusal 3


def block_row_cases():
    three = [block(p=1), noop(), noop()]
    two = [block(p=1), noop()]
    one = [block(p=1)]
    return [
        (
            "blocks-gap",
            image(blocks=[block_row(0, 1), block_row(2, 1)], statements=three),
            "refused 3",
        ),
        (
            "blocks-overlap",
            image(blocks=[block_row(0, 2), block_row(1, 1)], statements=two),
            "refused 3",
        ),
        (
            "blocks-first-not-at-0",
            image(blocks=[block_row(1, 1)], statements=[noop()] * 2),
            "refused 3",
        ),
        (
            "blocks-in-reverse-order",
            image(blocks=[block_row(1, 1), block_row(0, 1)], statements=[noop(), block(p=1)]),
            "refused 3",
        ),
        (
            "blocks-statement-left-over",
            image(blocks=[block_row(0, 1)], statements=[noop()] * 2),
            "refused 3",
        ),
        (
            "blocks-all-statements-left-over",
            image(blocks=[block_row(0, 0)], statements=[noop()]),
            "refused 3",
        ),
        (
            "blocks-count-past-table",
            image(blocks=[block_row(0, 2)], statements=[noop()]),
            "refused 3",
        ),
        (
            "blocks-count-without-statements",
            image(blocks=[block_row(0, 1)]),
            "refused 3",
        ),
        (
            "blocks-count-65535",
            image(blocks=[block_row(0, 65535)], statements=[noop()]),
            "refused 3",
        ),
        (
            # 65,535 + 2 = 65,537, which 16 bits would take for 1
            "blocks-counts-past-16-bits",
            image(blocks=[block_row(0, 65535), block_row(65535, 2)], statements=one),
            "refused 3",
        ),
        (
            "blocks-empty-row-at-0-behind-a-statement",
            image(blocks=[block_row(0, 1), block_row(0, 0)], statements=one),
            "refused 3",
        ),
        (
            "blocks-empty-row-past-the-total",
            image(blocks=[block_row(0, 1), block_row(2, 0)], statements=one),
            "refused 3",
        ),
        (
            "blocks-empty-row-at-the-total",
            image(blocks=[block_row(0, 1), block_row(1, 0)], statements=one),
            "quote 1",  # Block 1 + 0
        ),
        (
            "blocks-only-row-empty-not-at-0",
            image(blocks=[block_row(1, 0)]),
            "refused 3",
        ),
        (
            "blocks-empty-row-between",
            image(
                blocks=[block_row(0, 2), block_row(2, 0), block_row(2, 1)],
                statements=[block(p=1), block(p=2), noop()],
            ),
            "quote 3",  # (1 + 0) + (1 + 1)
        ),
        (
            "blocks-empty-row-between-not-at-the-total",
            image(
                blocks=[block_row(0, 2), block_row(3, 0), block_row(2, 1)],
                statements=[block(p=1), block(p=2), noop()],
            ),
            "refused 3",
        ),
    ]


# Refusal 4


def kind_cases():
    return [
        ("rows-kind-6", simple([statement_row(6)]), "refused 4"),
        ("rows-kind-14", simple([statement_row(14)]), "refused 4"),
        ("rows-kind-99", simple([statement_row(99)]), "refused 4"),
        ("rows-kind-255", simple([statement_row(255)]), "refused 4"),
        ("rows-kind-6-in-last-row", simple([noop(), noop(), statement_row(6)]), "refused 4"),
        ("rows-expression-kind-4", rule([expr(e=0)], expressions=[expression_row(4)]), "refused 4"),
        (
            "rows-expression-kind-255",
            rule([expr(e=0)], expressions=[expression_row(255)]),
            "refused 4",
        ),
        (
            "rows-unused-expression-kind-4",
            rule([expr(e=0)], expressions=[true(), expression_row(4)]),
            "refused 4",
        ),
        (
            "rows-unused-expression-kind-4-without-statements",
            rule([], expressions=[expression_row(4)]),
            "refused 4",
        ),
        ("rows-unused-expression-kind-3", rule([], expressions=[true()]), "quote 0"),
    ]


def flag_cases():
    return [
        ("rows-flags-15", simple([noop(flags=15)]), "quote 1"),
        ("rows-flags-16", simple([noop(flags=16)]), "refused 4"),
        ("rows-flags-17", simple([var(name=NAME, e=0, flags=17)]), "refused 4"),
        ("rows-flags-255", simple([noop(flags=255)]), "refused 4"),
        # bit 2 has no meaning, and other bits only for some kinds
        ("rows-flags-2-is-free", simple([expr(e=0, flags=2)]), "quote 2"),
        ("rows-flags-15-of-if", simple([if_(e=0, flags=15)]), "quote 2"),
        ("rows-flags-15-of-var", simple([var(name=NAME, e=0, flags=15)]), "quote 2"),
        ("rows-flags-15-of-do", simple([do(e=0, flags=15)]), "no quote"),
        ("rows-flags-15-of-return", simple([return_(e=0, flags=15)]), "quote 2"),
        ("rows-flags-15-of-break-loop", in_loop(break_loop(flags=15)), "no quote"),
    ]


def required_part_cases():
    return [
        ("required-expr-without-e", simple([expr(e=NONE)]), "refused 4"),
        ("required-assignment-without-e", simple([assignment(name=NAME, e=NONE)]), "refused 4"),
        (
            "required-assignment-without-name",
            simple([assignment(name=(0, 0), e=0)]),
            "refused 4",
        ),
        ("required-var-without-e", simple([var(name=NAME, e=NONE)]), "refused 4"),
        ("required-var-without-name", simple([var(name=(3, 0), e=0)]), "refused 4"),
        ("required-if-without-e", simple([if_(e=NONE)]), "refused 4"),
        ("required-while-without-e", simple([while_(e=NONE)]), "refused 4"),
        (
            # `while true`: the condition is never evaluated, and still required
            "required-while-without-e-beside-constant-true",
            rule([while_(e=NONE)], expressions=[true()]),
            "refused 4",
        ),
        ("required-do-without-e", simple([do(e=NONE)]), "refused 4"),
        ("required-for-without-e", simple([for_(name=NAME, e=NONE)]), "refused 4"),
        ("required-for-without-name", simple([for_(name=(1, 0), e=0)]), "refused 4"),
        (
            # a counter does not stand in for the name
            "required-for-without-name-with-counter",
            simple([for_(name=(0, 0), e=0, counter=(1, 1))]),
            "refused 4",
        ),
        ("required-import-without-e", simple([import_(e=NONE)]), "refused 4"),
    ]


def optional_part_cases():
    return [
        ("optional-break-loop-without-e", in_loop(break_loop()), "no quote"),
        ("optional-return-without-e", simple([return_()]), "quote 1"),
        ("optional-try-catch-without-name", simple([try_catch()]), "quote 1"),
        ("optional-import-without-name", simple([import_(e=0)]), "quote 2"),
        ("optional-for-without-counter", simple([for_(name=NAME, e=0)]), "no quote"),
        # a name of length 0 is none, wherever its offset points
        (
            "optional-try-catch-name-length-0-far-offset",
            simple([try_catch(name=(9, 0))]),
            "quote 1",
        ),
        (
            "optional-import-name-length-0-far-offset",
            rule([import_(e=0, name=(65535, 0))], expressions=HOSTS),
            "quote 2",
        ),
        (
            "optional-for-counter-length-0-far-offset",
            simple([for_(name=NAME, e=0, counter=(65535, 0))]),
            "no quote",
        ),
    ]


def expression_reference_cases():
    """With two expression rows, 1 is the last and 2 is one past it."""
    return [
        ("e-last-row-of-expr", simple([expr(e=1)]), "quote 2"),
        ("e-last-row-of-assignment", simple([assignment(name=NAME, e=1)]), "quote 3"),
        ("e-last-row-of-var", simple([var(name=NAME, e=1)]), "quote 2"),
        ("e-last-row-of-if", simple([if_(e=1)]), "quote 2"),
        ("e-last-row-of-while", simple([while_(e=1)]), "no quote"),
        ("e-last-row-of-do", simple([do(e=1)]), "no quote"),
        ("e-last-row-of-for", simple([for_(name=NAME, e=1)]), "no quote"),
        ("e-last-row-of-break-loop", in_loop(break_loop(e=1)), "no quote"),
        ("e-last-row-of-return", simple([return_(e=1)]), "quote 2"),
        ("e-last-row-of-import", simple([import_(e=1)]), "quote 2"),
        ("e-one-past-of-expr", simple([expr(e=2)]), "refused 4"),
        ("e-one-past-of-assignment", simple([assignment(name=NAME, e=2)]), "refused 4"),
        ("e-one-past-of-var", simple([var(name=NAME, e=2)]), "refused 4"),
        ("e-one-past-of-if", simple([if_(e=2)]), "refused 4"),
        ("e-one-past-of-while", simple([while_(e=2)]), "refused 4"),
        ("e-one-past-of-do", simple([do(e=2)]), "refused 4"),
        ("e-one-past-of-for", simple([for_(name=NAME, e=2)]), "refused 4"),
        ("e-one-past-of-break-loop", in_loop(break_loop(e=2)), "refused 4"),
        ("e-one-past-of-return", simple([return_(e=2)]), "refused 4"),
        ("e-one-past-of-import", simple([import_(e=2)]), "refused 4"),
        ("e-65534", simple([return_(e=65534)]), "refused 4"),
        ("e-0-of-no-expressions", rule([expr(e=0)]), "refused 4"),
    ]


def block_reference_cases():
    """With two block rows, 1 is the last and 2 is one past it."""
    return [
        ("p-last-row-of-block", above_noop(block(p=1)), "quote 2"),  # 1 + 1
        ("p-last-row-of-if", above_noop(if_(e=0, p=1)), "quote 3"),  # 2 + 1
        ("p-last-row-of-while", above_noop(while_(e=0, p=1)), "no quote"),
        ("p-last-row-of-do", above_noop(do(e=0, p=1)), "no quote"),
        ("p-last-row-of-for", above_noop(for_(name=NAME, e=0, p=1)), "no quote"),
        ("p-last-row-of-try-catch", above_noop(try_catch(p=1)), "quote 2"),  # 1 + 1
        ("q-last-row-of-if", above_noop(if_(e=0, q=1)), "quote 3"),  # 2 + 1
        ("q-last-row-of-try-catch", above_noop(try_catch(q=1)), "quote 2"),  # 1 + 1
        ("p-one-past-of-block", above_noop(block(p=2)), "refused 4"),
        ("p-one-past-of-if", above_noop(if_(e=0, p=2, q=1)), "refused 4"),
        ("p-one-past-of-while", above_noop(while_(e=0, p=2)), "refused 4"),
        ("p-one-past-of-do", above_noop(do(e=0, p=2)), "refused 4"),
        ("p-one-past-of-for", above_noop(for_(name=NAME, e=0, p=2)), "refused 4"),
        ("p-one-past-of-try-catch", above_noop(try_catch(p=2, q=1)), "refused 4"),
        ("q-one-past-of-if", above_noop(if_(e=0, p=1, q=2)), "refused 4"),
        ("q-one-past-of-try-catch", above_noop(try_catch(p=1, q=2)), "refused 4"),
        ("p-65534", above_noop(block(p=65534)), "refused 4"),
    ]


def name_cases():
    """The name text has 4 bytes."""
    return [
        ("name-at-the-end-of-assignment", simple([assignment(name=(1, 3), e=0)]), "quote 3"),
        ("name-at-the-end-of-var", simple([var(name=(3, 1), e=0)]), "quote 2"),
        ("name-at-the-end-of-for", simple([for_(name=(0, 4), e=0)]), "no quote"),
        ("name-at-the-end-of-try-catch", simple([try_catch(name=(2, 2))]), "quote 1"),
        ("name-at-the-end-of-import", simple([import_(e=0, name=(0, 4))]), "quote 2"),
        ("name-one-past-of-assignment", simple([assignment(name=(1, 4), e=0)]), "refused 4"),
        ("name-one-past-of-var", simple([var(name=(4, 1), e=0)]), "refused 4"),
        ("name-one-past-of-for", simple([for_(name=(0, 5), e=0)]), "refused 4"),
        ("name-one-past-of-try-catch", simple([try_catch(name=(2, 3))]), "refused 4"),
        ("name-one-past-of-import", simple([import_(e=0, name=(3, 2))]), "refused 4"),
        # sums that 16 bits would take for 0, 1 and 1
        ("name-past-16-bits-65535-1", simple([var(name=(65535, 1), e=0)]), "refused 4"),
        ("name-past-16-bits-65535-2", simple([var(name=(65535, 2), e=0)]), "refused 4"),
        ("name-past-16-bits-2-65535", simple([import_(e=0, name=(2, 65535))]), "refused 4"),
        ("name-largest-offset-and-length", simple([try_catch(name=(65535, 65535))]), "refused 4"),
        ("name-of-empty-text", rule([var(name=(0, 1), e=0)], expressions=HOSTS), "refused 4"),
        (
            # 2 + 2
            "name-parts-overlap",
            simple([var(name=(0, 3), e=0), var(name=(1, 3), e=0)]),
            "quote 4",
        ),
        (
            "name-of-any-bytes",
            rule([var(name=(0, 3), e=0)], expressions=HOSTS, names=["\x00\xff\n"]),
            "quote 2",
        ),
    ]


def counter_cases():
    """The second name of a For; the name text has 4 bytes."""
    return [
        (
            "counter-at-the-end",
            simple([for_(name=NAME, e=0, counter=(1, 3))]),
            "no quote",
        ),
        (
            "counter-one-past",
            simple([for_(name=NAME, e=0, counter=(1, 4))]),
            "refused 4",
        ),
        (
            "counter-past-16-bits",
            simple([for_(name=NAME, e=0, counter=(65535, 2))]),
            "refused 4",
        ),
        (
            "counter-same-as-name",
            simple([for_(name=NAME, e=0, counter=NAME)]),
            "no quote",
        ),
    ]


def unread_field_cases():
    """Values that would be refused if the kind read the field."""
    far = (999, 9)
    return [
        ("unread-noop", simple([noop(e=999, p=999, q=999, name=far, r=999, t=999)]), "quote 1"),
        ("unread-expr", simple([expr(e=0, p=999, q=999, name=far, r=999, t=999)]), "quote 2"),
        ("unread-block", simple([block(p=NONE, e=999, q=999, name=far, r=999, t=999)]), "quote 1"),
        ("unread-assignment", simple([assignment(name=NAME, e=0, p=999, t=999)]), "quote 3"),
        ("unread-var", simple([var(name=NAME, e=0, p=999, q=999, t=999)]), "quote 2"),
        ("unread-if", simple([if_(e=0, name=far, r=999, t=999)]), "quote 2"),
        ("unread-while", simple([while_(e=0, q=999, name=far, r=999, t=999)]), "no quote"),
        ("unread-do", simple([do(e=0, q=999, name=far, r=999, t=999)]), "no quote"),
        ("unread-for", simple([for_(name=NAME, e=0, q=999)]), "no quote"),
        (
            "unread-break-loop",
            in_loop(break_loop(p=999, q=999, name=far, r=999, t=999)),
            "no quote",
        ),
        ("unread-try-catch", simple([try_catch(e=999, r=999, t=999)]), "quote 1"),
        ("unread-return", simple([return_(p=999, q=999, name=far, r=999, t=999)]), "quote 1"),
        ("unread-import", simple([import_(e=0, p=999, q=999, r=999, t=999)]), "quote 2"),
        (
            "unread-byte-of-expression",
            rule([expr(e=0)], expressions=[expression_row(0, unread=255)]),
            "quote 2",
        ),
        (
            "unread-code-of-constant",
            rule([expr(e=0)], expressions=[true(code=65535)]),
            "quote 2",
        ),
        (
            "positions-of-any-value",
            rule(
                [expr(e=0, line=65535, column=65535), noop(line=0, column=7)],
                expressions=[host(65535, line=65535, column=0)],
            ),
            "quote 3",  # 2 + 1
        ),
        # operators and indexes are numbers, no references to a table
        (
            "assignment-operator-65535",
            simple([assignment(name=NAME, e=0, operator=65535)]),
            "quote 3",
        ),
        (
            "assignment-operator-one-past-the-blocks",
            simple([assignment(name=NAME, e=0, operator=1)]),
            "quote 3",
        ),
        ("assignment-index-65535", simple([assignment(name=NAME, e=0, index=65535)]), "quote 3"),
        ("var-index-65535", simple([var(name=NAME, e=0, index=65535)]), "quote 2"),
    ]


# Refusal 5


def naming_cases():
    return [
        ("naming-each-once", simple([block(p=1), block(p=2)], [noop()], [noop()]), "quote 4"),
        (
            # the order of naming is free: (1 + 2) + (1 + 1)
            "naming-later-block-first",
            simple([block(p=2), block(p=1)], [noop()], [expr(e=0)]),
            "quote 5",
        ),
        ("naming-twice-by-two-statements", simple([block(p=1), block(p=1)], [noop()]), "refused 5"),
        (
            "naming-twice-from-two-blocks",
            simple([block(p=1), block(p=2)], [block(p=2)], [noop()]),
            "refused 5",
        ),
        ("naming-twice-by-one-if", above_noop(if_(e=0, p=1, q=1)), "refused 5"),
        ("naming-twice-by-one-try-catch", above_noop(try_catch(p=1, q=1)), "refused 5"),
        ("naming-none-twice-by-one-if", simple([if_(e=0, p=NONE, q=NONE)]), "quote 2"),
        ("naming-empty-row-twice", simple([block(p=1), block(p=1)], []), "refused 5"),
        ("naming-by-itself", simple([noop()], [block(p=1)]), "refused 5"),
        ("naming-by-itself-and-block-0", simple([block(p=1)], [block(p=1)]), "refused 5"),
        (
            # blocks 1 and 2 are both named once, 1 by the higher 2
            "naming-by-a-higher-one",
            simple([block(p=2)], [noop()], [block(p=1)]),
            "refused 5",
        ),
        (
            "naming-each-other",
            simple([noop()], [block(p=2)], [block(p=1)]),
            "refused 5",
        ),
        ("naming-block-0-from-block-0", simple([block(p=0)]), "refused 5"),
        ("naming-block-0-from-block-1", simple([block(p=1)], [block(p=0)]), "refused 5"),
        ("naming-block-0-by-q", simple([try_catch(q=0)]), "refused 5"),
        ("naming-not-at-all", simple([noop()], [noop()]), "refused 5"),
        ("naming-empty-row-not-at-all", simple([noop()], []), "refused 5"),
        ("naming-from-empty-block-0", simple([], [noop()]), "refused 5"),
        ("naming-last-not-at-all", simple([block(p=1)], [noop()], [noop()]), "refused 5"),
        ("naming-first-not-at-all", simple([block(p=2)], [noop()], [noop()]), "refused 5"),
    ]


def unread_naming_cases():
    """Block 1 is named only through a field that the kind does not read."""
    return [
        ("naming-only-by-p-of-noop", above_noop(noop(p=1)), "refused 5"),
        ("naming-only-by-p-of-expr", above_noop(expr(e=0, p=1)), "refused 5"),
        ("naming-only-by-q-of-block", above_noop(block(p=NONE, q=1)), "refused 5"),
        ("naming-only-by-p-of-assignment", above_noop(assignment(name=NAME, e=0, p=1)), "refused 5"),
        (
            "naming-only-by-operator-of-assignment",
            above_noop(assignment(name=NAME, e=0, operator=1)),
            "refused 5",
        ),
        ("naming-only-by-p-of-var", above_noop(var(name=NAME, e=0, p=1)), "refused 5"),
        ("naming-only-by-q-of-while", above_noop(while_(e=0, q=1)), "refused 5"),
        ("naming-only-by-q-of-do", above_noop(do(e=0, q=1)), "refused 5"),
        ("naming-only-by-q-of-for", above_noop(for_(name=NAME, e=0, q=1)), "refused 5"),
        ("naming-only-by-p-of-return", above_noop(return_(p=1)), "refused 5"),
        ("naming-only-by-p-of-import", above_noop(import_(e=0, p=1)), "refused 5"),
        # the unread field does not count as a second naming either
        (
            "naming-once-and-by-p-of-noop",
            simple([block(p=1), noop(p=1)], [noop()]),
            "quote 3",  # (1 + 1) + 1
        ),
    ]


# Refusal 6


def nesting_cases():
    return [
        ("nesting-32", chain(32, [noop()]), "quote 32"),  # 31 Blocks and a Noop
        ("nesting-33", chain(33, [noop()]), "refused 6"),
        ("nesting-64", chain(64, [noop()]), "refused 6"),
        ("nesting-256", chain(256, [noop()]), "refused 6"),
        ("nesting-empty-row-at-32", chain(32, []), "quote 31"),  # 31 Blocks
        ("nesting-empty-row-at-33", chain(33, []), "refused 6"),
        ("nesting-none-named-at-32", chain(32, [block(p=NONE)]), "quote 32"),  # 32 Blocks
        (
            # 31 Blocks, an If of 2 and a TryCatch of 1
            "nesting-none-named-at-32-by-if-and-try",
            chain(32, [if_(e=0), try_catch()]),
            "quote 34",
        ),
        ("nesting-32-by-p-of-if", chain(32, [noop()], lambda p: if_(e=0, p=p)), "quote 63"),  # 31 * 2 + 1
        ("nesting-33-by-p-of-if", chain(33, [noop()], lambda p: if_(e=0, p=p)), "refused 6"),
        ("nesting-32-by-q-of-if", chain(32, [noop()], lambda p: if_(e=0, q=p)), "quote 63"),  # 31 * 2 + 1
        ("nesting-33-by-q-of-if", chain(33, [noop()], lambda p: if_(e=0, q=p)), "refused 6"),
        ("nesting-33-by-p-of-try-catch", chain(33, [noop()], lambda p: try_catch(p=p)), "refused 6"),
        ("nesting-32-by-q-of-try-catch", chain(32, [noop()], lambda p: try_catch(q=p)), "quote 32"),
        ("nesting-33-by-q-of-try-catch", chain(33, [noop()], lambda p: try_catch(q=p)), "refused 6"),
        ("nesting-32-by-while", chain(32, [break_loop()], lambda p: while_(e=0, p=p)), "no quote"),
        ("nesting-33-by-while", chain(33, [break_loop()], lambda p: while_(e=0, p=p)), "refused 6"),
        ("nesting-33-by-do", chain(33, [noop()], lambda p: do(e=0, p=p)), "refused 6"),
        (
            "nesting-33-by-for",
            chain(33, [noop()], lambda p: for_(name=NAME, e=0, p=p)),
            "refused 6",
        ),
        # depth is not the number of blocks: 63 blocks with 62 Blocks and 2 Noops
        ("nesting-32-by-two-chains", two_chains(32), "quote 64"),
        ("nesting-33-by-two-chains", two_chains(33), "refused 6"),
    ]


# Refusal 7


def stray_break_cases():
    return [
        ("break-at-top", simple([break_loop()]), "refused 7"),
        ("continue-at-top", simple([break_loop(flags=0)]), "refused 7"),
        ("break-with-value-at-top", simple([break_loop(e=0)]), "refused 7"),
        ("break-in-block-at-top", simple([block(p=1)], [break_loop()]), "refused 7"),
        ("break-in-if-at-top", simple([if_(e=0, p=1)], [break_loop()]), "refused 7"),
        ("break-in-else-at-top", simple([if_(e=0, q=1)], [break_loop()]), "refused 7"),
        ("break-in-try-at-top", simple([try_catch(p=1)], [break_loop()]), "refused 7"),
        ("break-in-handler-at-top", simple([try_catch(q=1)], [break_loop()]), "refused 7"),
        ("break-just-after-loop", simple([while_(e=0, p=1), break_loop()], [noop()]), "refused 7"),
        ("break-just-before-loop", simple([break_loop(), do(e=0, p=1)], [noop()]), "refused 7"),
        ("break-after-loop-of-no-body", simple([while_(e=0), break_loop()]), "refused 7"),
        (
            "break-in-if-beside-loop",
            simple([for_(name=NAME, e=0, p=1), if_(e=0, p=2)], [noop()], [break_loop()]),
            "refused 7",
        ),
        (
            # block 1 is no body of a loop, though the loop's body stands behind it
            "break-in-if-before-loop",
            simple([if_(e=0, p=1), while_(e=0, p=2)], [break_loop()], [noop()]),
            "refused 7",
        ),
        (
            "break-in-branch-beside-branch-with-loop",
            simple([if_(e=0, p=1, q=2)], [while_(e=0, p=3)], [break_loop()], [noop()]),
            "refused 7",
        ),
        (
            "break-in-handler-of-try-with-loop",
            simple([try_catch(p=1, q=2)], [while_(e=0, p=3)], [break_loop()], [noop()]),
            "refused 7",
        ),
    ]


def lawful_break_cases():
    return [
        ("break-in-while", simple([while_(e=0, p=1)], [break_loop()]), "no quote"),
        ("break-in-do", simple([do(e=0, p=1)], [break_loop()]), "no quote"),
        ("break-in-for", simple([for_(name=NAME, e=0, p=1)], [break_loop()]), "no quote"),
        ("continue-in-while", in_loop(break_loop(flags=0)), "no quote"),
        ("continue-in-do", simple([do(e=0, p=1)], [break_loop(flags=0)]), "no quote"),
        ("break-with-value-in-while", in_loop(break_loop(e=1)), "no quote"),
        (
            "break-in-if-in-try-in-loop",
            simple([while_(e=0, p=1)], [try_catch(p=2)], [if_(e=0, p=3)], [break_loop()]),
            "no quote",
        ),
        (
            "break-in-handler-in-loop",
            simple([for_(name=NAME, e=0, p=1)], [try_catch(q=2)], [break_loop()]),
            "no quote",
        ),
        (
            "break-in-else-in-loop",
            simple([do(e=0, p=1)], [if_(e=0, q=2)], [break_loop()]),
            "no quote",
        ),
        (
            "break-in-block-in-loop",
            simple([while_(e=0, p=1)], [block(p=2)], [break_loop()]),
            "no quote",
        ),
        (
            "break-after-inner-loop-in-outer-body",
            simple([while_(e=0, p=1)], [do(e=0, p=2), break_loop()], [noop()]),
            "no quote",
        ),
    ]


# Several faults: the lowest number is the answer.


def order_cases():
    stray = [block(p=1), break_loop()]
    return [
        ("order-1-before-2-version-and-length", cut(rule([], version=2), 17), "refused 1"),
        ("order-1-before-2-zero-byte-and-blocks-0", image(blocks=[], zero=9), "refused 1"),
        (
            "order-2-before-3-length-and-gap",
            image(blocks=[block_row(1, 0)]) + [b"\0"],
            "refused 2",
        ),
        ("order-2-before-4-statements-1025-of-kind-99", rule([statement_row(99)] * 1025), "refused 2"),
        (
            "order-3-before-4-left-over-of-kind-99",
            image(blocks=[block_row(0, 1)], statements=[noop(), statement_row(99)]),
            "refused 3",
        ),
        (
            "order-3-before-5-gap-and-unnamed-block",
            image(blocks=[block_row(0, 1), block_row(2, 1)], statements=[noop()] * 3),
            "refused 3",
        ),
        (
            "order-3-before-7-break-and-misplaced-empty-row",
            image(blocks=[block_row(0, 1), block_row(0, 0)], statements=[break_loop()]),
            "refused 3",
        ),
        (
            "order-4-before-5-unnamed-block-and-last-expression",
            rule([noop()], [noop()], expressions=[true(), expression_row(4)]),
            "refused 4",
        ),
        ("order-4-before-5-block-0-and-flags", simple([block(p=0), noop(flags=16)]), "refused 4"),
        ("order-4-before-6-bottom-of-kind-99", chain(33, [statement_row(99)]), "refused 4"),
        ("order-4-before-7-last-row-of-kind-99", simple([break_loop(), statement_row(99)]), "refused 4"),
        (
            "order-5-before-6-nesting-33-and-unnamed-block",
            rule(*[[block(p=i)] for i in range(1, 33)], [noop()], [noop()]),
            "refused 5",
        ),
        ("order-5-before-7-break-in-unnamed-block", simple([noop()], [break_loop()]), "refused 5"),
        ("order-5-before-7-break-and-unnamed-block", simple([break_loop()], [noop()]), "refused 5"),
        (
            "order-6-before-7-break-above-nesting-33",
            rule(stray, *[[block(p=i)] for i in range(2, 33)], [noop()]),
            "refused 6",
        ),
        ("order-6-before-7-break-at-33", chain(33, [break_loop()]), "refused 6"),
        ("order-7-break-at-32", chain(32, [break_loop()]), "refused 7"),
    ]


# Quotes


def kind_quote_cases():
    """Each kind alone, or with a Noop in each of its blocks."""
    return [
        ("quote-empty-rule", rule([]), "quote 0"),
        ("quote-noop", simple([noop()]), "quote 1"),
        ("quote-expr", simple([expr(e=0)]), "quote 2"),
        ("quote-block", above_noop(block(p=1)), "quote 2"),  # 1 + 1
        ("quote-block-of-none", simple([block(p=NONE)]), "quote 1"),
        ("quote-block-of-empty-row", simple([block(p=1)], []), "quote 1"),
        ("quote-assignment", simple([assignment(name=NAME, e=0)]), "quote 3"),
        ("quote-assignment-with-operator", simple([assignment(name=NAME, e=0, operator=1)]), "quote 3"),
        (
            # 2 + 3
            "quote-assignment-with-index",
            simple([var(name=NAME, e=0), assignment(name=NAME, e=1, index=1)]),
            "quote 5",
        ),
        ("quote-var", simple([var(name=NAME, e=0)]), "quote 2"),
        ("quote-var-constant", simple([var(name=NAME, e=0, flags=CONSTANT)]), "quote 2"),
        ("quote-if", simple([if_(e=0, p=1, q=2)], [noop()], [noop()]), "quote 3"),  # 2 + 1
        ("quote-while", above_noop(while_(e=0, p=1)), "no quote"),
        ("quote-do", above_noop(do(e=0, p=1)), "no quote"),
        ("quote-do-negated", above_noop(do(e=0, p=1, flags=NEGATED)), "no quote"),
        ("quote-for", above_noop(for_(name=NAME, e=0, p=1)), "no quote"),
        ("quote-for-with-counter", above_noop(for_(name=NAME, e=0, p=1, counter=(1, 1))), "no quote"),
        ("quote-break-loop", in_loop(noop(), break_loop()), "no quote"),
        (
            "quote-try-catch",
            simple([try_catch(p=1, q=2, name=NAME)], [noop()], [noop()]),
            "quote 3",  # 1 + 1 + 1
        ),
        ("quote-return", simple([return_()]), "quote 1"),
        ("quote-return-with-e", simple([return_(e=0)]), "quote 2"),
        ("quote-throw", simple([return_(flags=BREAK)]), "quote 1"),
        ("quote-throw-with-e", simple([return_(e=0, flags=BREAK)]), "quote 2"),
        ("quote-import", simple([import_(e=0)]), "quote 2"),
        ("quote-import-with-name", simple([import_(e=0, name=NAME)]), "quote 2"),
    ]


def expression_quote_cases():
    """Every kind of expression counts the same."""
    return [
        ("quote-expression-host", rule([expr(e=0)], expressions=[host(65535)]), "quote 2"),
        ("quote-expression-unit", rule([expr(e=0)], expressions=[unit()]), "quote 2"),
        ("quote-expression-false", rule([expr(e=0)], expressions=[false()]), "quote 2"),
        ("quote-expression-true", rule([expr(e=0)], expressions=[true()]), "quote 2"),
        (
            "quote-expression-used-twice",
            rule([expr(e=0), return_(e=0)], expressions=[host(1)]),
            "quote 4",  # 2 + 2
        ),
        (
            # the larger branch counts, though it can never run: 2 + 6
            "quote-if-false-with-larger-body",
            rule(
                [if_(e=0, p=1, q=2)],
                [assignment(name=NAME, e=1)] * 2,
                [noop()],
                expressions=[false(), host(1)],
                names=TEXT,
            ),
            "quote 8",
        ),
        ("quote-while-false", rule([while_(e=0)], expressions=[false()]), "no quote"),
        ("quote-while-true-without-body", rule([while_(e=0)], expressions=[true()]), "no quote"),
    ]


def sum_quote_cases():
    store = assignment(name=NAME, e=0)
    return [
        ("quote-if-takes-larger-body", simple([if_(e=0, p=1, q=2)], [store], [noop()]), "quote 5"),  # 2 + 3
        ("quote-if-takes-larger-branch", simple([if_(e=0, p=1, q=2)], [noop()], [store]), "quote 5"),
        ("quote-if-of-equal-branches", simple([if_(e=0, p=1, q=2)], [store], [store]), "quote 5"),
        ("quote-if-of-empty-rows", simple([if_(e=0, p=1, q=2)], [], []), "quote 2"),
        (
            # three Noops are more than one Expr: 2 + 3
            "quote-if-compares-sums",
            simple([if_(e=0, p=1, q=2)], [expr(e=0)], [noop()] * 3),
            "quote 5",
        ),
        (
            # 1 + 3 + 2
            "quote-try-catch-sums-both",
            simple([try_catch(p=1, q=2)], [store], [expr(e=0)]),
            "quote 6",
        ),
        ("quote-block-sums", simple([noop(), expr(e=0), store, return_()]), "quote 7"),  # 1 + 2 + 3 + 1
        (
            # block 3: 2 + 2 = 4; block 1: 3 + 1 + 4 = 8; block 2: 1
            # block 0: 2 + (2 + 8) + 2
            "quote-nested-sums",
            simple(
                [var(name=NAME, e=0), if_(e=1, p=1, q=2), return_(e=1)],
                [store, block(p=3)],
                [noop()],
                [expr(e=0), expr(e=1)],
            ),
            "quote 14",
        ),
        (
            # block 1: 2 + 2 = 4; block 2: 3 + 1 = 4; block 0: 1 + 4 + 4
            "quote-try-catch-and-import",
            simple(
                [try_catch(p=1, q=2, name=(1, 2))],
                [import_(e=0, name=(3, 1)), expr(e=1)],
                [store, return_(flags=BREAK)],
            ),
            "quote 9",
        ),
        (
            # block 3: 1; block 4: 3; block 1: 2 + 3 = 5; block 2: 2; block 0: 1 + 5 + 2
            "quote-if-in-try-catch",
            simple(
                [try_catch(p=1, q=2)],
                [if_(e=0, p=3, q=4)],
                [return_(e=1, flags=BREAK)],
                [noop()],
                [store],
            ),
            "quote 8",
        ),
        (
            # block 4: 3; block 3: 1 + 3 = 4; block 2: 2; block 1: 2 + 4 = 6; block 0: 2 + 6
            "quote-block-in-branch-of-if-in-if",
            simple(
                [if_(e=0, p=1)],
                [if_(e=0, p=2, q=3)],
                [expr(e=0)],
                [block(p=4)],
                [store],
            ),
            "quote 8",
        ),
        ("quote-after-return", simple([return_(), store, store]), "quote 7"),  # 1 + 3 + 3
        ("quote-256-blocks-of-one-noop", comb(256, [noop()]), "quote 510"),  # 255 * (1 + 1)
        (
            "quote-1024-assignments",
            rule([store] * 1024, expressions=[host(1)], names=["a"]),
            "quote 3072",  # 1,024 * 3, the largest of all quotes
        ),
        (
            # 341 * 3 in each block, two Blocks: 2 + 2 * 1,023
            "quote-two-blocks-of-341-assignments",
            rule(
                [block(p=1), block(p=2)],
                [store] * 341,
                [store] * 341,
                expressions=[host(1)],
                names=["a"],
            ),
            "quote 2048",
        ),
    ]


def absent_quote_cases():
    loop = while_(e=0)
    return [
        ("absent-loop-in-body-of-if", simple([if_(e=0, p=1, q=2)], [loop], [noop()]), "no quote"),
        ("absent-loop-in-branch-of-if", simple([if_(e=0, p=1, q=2)], [noop()], [loop]), "no quote"),
        (
            "absent-loop-in-smaller-branch",
            simple([if_(e=0, p=1, q=2)], [expr(e=0)] * 9, [for_(name=NAME, e=0)]),
            "no quote",
        ),
        ("absent-loop-in-try", simple([try_catch(p=1)], [do(e=0)]), "no quote"),
        ("absent-loop-in-handler", simple([try_catch(q=1)], [loop]), "no quote"),
        ("absent-loop-in-block", simple([block(p=1)], [loop]), "no quote"),
        ("absent-loop-after-return", simple([return_(), loop]), "no quote"),
        (
            "absent-loop-in-if-false",
            rule([if_(e=0, p=1)], [while_(e=0)], expressions=[false()]),
            "no quote",
        ),
        ("absent-loop-in-last-of-1024", rule([noop()] * 1023 + [loop], expressions=[true()]), "no quote"),
        ("absent-loop-at-depth-32", chain(32, [loop]), "no quote"),
        ("absent-loop-in-loop", in_loop(do(e=1)), "no quote"),
    ]


SECTIONS = [
    header_cases,
    length_cases,
    count_cases,
    largest_cases,
    block_row_cases,
    kind_cases,
    flag_cases,
    required_part_cases,
    optional_part_cases,
    expression_reference_cases,
    block_reference_cases,
    name_cases,
    counter_cases,
    unread_field_cases,
    naming_cases,
    unread_naming_cases,
    nesting_cases,
    stray_break_cases,
    lawful_break_cases,
    order_cases,
    kind_quote_cases,
    expression_quote_cases,
    sum_quote_cases,
    absent_quote_cases,
]


def all_cases():
    cases = [case for section in SECTIONS for case in section()]
    names = [name for name, _, _ in cases]
    repeated = {name for name in names if names.count(name) > 1}
    if repeated:
        sys.exit(f"names that are not unique: {', '.join(sorted(repeated))}")
    return cases


def write_lines(path, lines):
    path.parent.mkdir(parents=True, exist_ok=True)
    path.write_text("".join(line + "\n" for line in lines), encoding="ascii")


def main():
    cases = all_cases()
    write_lines(TARGET / "stdin", [" ".join([name, *to_segments(pieces)]) for name, pieces, _ in cases])
    write_lines(TARGET / "stdout", [f"{name} {answer}" for name, _, answer in cases])
    print(f"{len(cases)} cases")


if __name__ == "__main__":
    main()
