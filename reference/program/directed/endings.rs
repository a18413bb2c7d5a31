//! First examples, and how rules end.

use super::build::*;
use super::Draft;
use crate::rule::E;

pub fn samples() -> Vec<Draft> {
    vec![
        ("empty-rule", vec![], "limits 100 10 0"),
        (
            "let",
            vec![let_('a', H)],
            "limits 100 10 0\nhost site\ncode const int 5",
        ),
        (
            "let-with-one-operation",
            vec![let_('a', H)],
            "limits 1 10 0\nhost site\ncode const int 5",
        ),
        (
            "let-and-add",
            vec![let_('a', H), assign_with('a', 1, 1, E::host(1))],
            "limits 100 10 0\nhost site\ncode const int 5\ncode const int 1",
        ),
        (
            "while-false",
            vec![while_(E::FALSE, vec![])],
            "limits 100 10 0",
        ),
        (
            "throw-caught-and-thrown-again",
            vec![try_(vec![throw(Some(H))], Some('e'), vec![throw(None)])],
            "limits 100 10 0\nhost site\ncode const int 4",
        ),
        (
            "do-that-always-continues",
            vec![do_while(vec![continue_(None)], E::FALSE)],
            "limits 10 10 0",
        ),
        (
            "second-let-with-one-name",
            vec![let_('a', H), let_('b', E::host(1))],
            "limits 100 1 0\nhost site\ncode const int 1\ncode const int 2",
        ),
    ]
}

pub fn endings() -> Vec<Draft> {
    vec![
        (
            "expression-statement-charged-at-its-row",
            vec![noop(), expr(H)],
            "limits 1 10 0\nhost script",
        ),
        (
            "evaluation-charged-at-the-expression",
            vec![expr(H)],
            "limits 1 10 0\nhost script",
        ),
        (
            "return-through-blocks",
            vec![block(vec![
                let_('a', H),
                try_(vec![return_(Some(H))], None, vec![]),
            ])],
            "limits 50 10 0\nhost script\neval value int 4",
        ),
        (
            "return-without-value",
            vec![expr(H), return_(None), noop()],
            "limits 50 10 0\nhost script\neval value int 4",
        ),
        (
            "exit-as-fault",
            vec![try_(vec![expr(H)], Some('e'), vec![])],
            "limits 50 10 0\nhost script\neval exit int 6\nrun 0",
        ),
        (
            "exit-as-value",
            vec![try_(vec![expr(H)], Some('e'), vec![])],
            "limits 50 10 0\nhost script\neval exit int 6\nrun 1",
        ),
        (
            "list-used-up",
            vec![try_(vec![expr(H), expr(H)], None, vec![])],
            "limits 50 10 0\nhost list\nentry value int 3\nrun 0\nrun 0",
        ),
        (
            "list-exits",
            vec![expr(H)],
            "limits 50 10 0\nhost list\nentry exit true\nentry exit false\nrun 0\nrun 1",
        ),
        (
            "list-host-denies-a-present-name",
            vec![let_('a', H), let_('a', H)],
            "limits 50 10 0\nhost list\nentry value int 3\nentry value int 4",
        ),
        (
            "condition-without-truth",
            vec![if_(H, vec![noop()], vec![])],
            "limits 50 10 0\nhost list\nentry value int 3",
        ),
        (
            "if-by-a-number",
            vec![if_(H, vec![noop()], vec![])],
            "limits 50 10 0\nhost script\neval value int 3",
        ),
        (
            "if-without-else",
            vec![if_(E::FALSE, vec![noop()], vec![])],
            "limits 50 10 0",
        ),
        (
            "if-value",
            vec![if_(E::FALSE, vec![], vec![expr(E::TRUE)])],
            "limits 50 10 0",
        ),
        (
            "names-of-block-zero-stay-after-a-fault",
            vec![let_('a', H), block(vec![let_('b', H), throw(None)])],
            "limits 50 10 0\nhost script",
        ),
        (
            "site-code-past-the-table",
            vec![expr(E::host(1))],
            "limits 50 10 0\nhost site\ncode const unit",
        ),
        (
            "site-unknown-variable-before-wrong-kind",
            vec![expr(H)],
            "limits 50 10 0\nhost site\ncode add const true var 0 0 1",
        ),
        (
            "site-equal-of-two-kinds",
            vec![expr(H)],
            "limits 50 10 0\nhost site\ncode equal const unit const false",
        ),
        (
            "site-equal-of-ranges",
            vec![expr(H)],
            "limits 50 10 0\nhost site\ncode equal const range 3 1 const range 5 2",
        ),
    ]
}

pub fn sessions() -> Vec<Draft> {
    vec![
        (
            "put-read-rewind-run",
            vec![let_('a', H)],
            "limits 50 3 0\nhost site\ncode const int 5\nput 1 1 true\nrun 0\nread 0 1\n\
             read 1 1\nread 2 1\nrun 0\nrun 0\nrewind 1\nread 0 1\nrewind 9\nrun 0",
        ),
        (
            "put-refused",
            vec![],
            "limits 50 1 0\nput 0 0 unit\nput 4 1 unit\nput 3 4294967295 unit\nput 3 1 unit\n\
             put 3 1 unit\nread 4 0\nread 0 5",
        ),
        (
            "too-few-rows",
            vec![noop()],
            "limits 50 8 0\nlend 10 16 64\nput 0 1 unit\nlend 9 16 64\nput 9 1 unit\nread 0 1\n\
             rewind 0\nrun 0\nlend 10 15 64\nrun 0\nlend 10 16 63\nrun 0\nlend 10 16 64\nrun 0",
        ),
        (
            "put-of-a-present-name",
            vec![],
            "limits 50 8 0\nput 0 1 int 1\nput 0 1 int 2\nread 0 1\nrun 0\nrewind 1\nread 0 1",
        ),
        (
            "constant-can-be-read",
            vec![const_('b', H)],
            "limits 50 8 0\nhost site\ncode const int 8\nrun 0\nread 1 1",
        ),
    ]
}

/// Refused calls, and open.
pub fn refusals() -> Vec<Draft> {
    vec![
        (
            "put-of-no-name-when-full",
            vec![],
            "limits 50 1 0\nput 0 1 unit\nput 0 0 unit\nput 0 1 unit",
        ),
        (
            "calls-with-too-few-import-rows",
            vec![],
            "limits 50 8 0\nlend 10 16 64\nput 0 1 int 1\nlend 10 15 64\nput 0 1 int 2\n\
             read 0 1\nrewind 0\nlend 10 16 64\nread 0 1",
        ),
        (
            "calls-with-too-few-working-rows",
            vec![],
            "limits 50 8 0\nlend 10 16 64\nput 0 1 int 1\nlend 10 16 63\nput 0 1 int 2\n\
             read 0 1\nrewind 0\nlend 10 16 64\nread 0 1",
        ),
        ("open-without-operations", vec![], "limits 0 8 0"),
        (
            "open-with-too-many-operations",
            vec![],
            "limits 1000000001 8 0",
        ),
        ("open-without-names", vec![], "limits 1 0 0"),
        (
            "open-with-a-bad-limit-and-too-few-rows",
            vec![],
            "limits 0 8 0\nlend 9 16 64",
        ),
        ("open-with-too-many-names", vec![], "limits 1 127 0"),
        ("open-with-too-many-modules", vec![], "limits 1 126 17"),
        (
            "open-with-too-few-rows",
            vec![],
            "limits 1 126 16\nlend 127 16 64",
        ),
        (
            "open-with-too-few-import-rows",
            vec![],
            "limits 1 8 0\nlend 10 15 64",
        ),
        (
            "open-with-too-few-working-rows",
            vec![],
            "limits 1 8 0\nlend 10 16 63",
        ),
        (
            "open-with-the-largest-limits",
            vec![noop()],
            "limits 1000000000 126 16\nlend 128 16 64\nrun 0",
        ),
    ]
}
