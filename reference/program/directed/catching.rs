//! Try with catch, and imports.

use super::build::*;
use super::Draft;
use crate::rule::{Name, Node, Stmt, E};

pub fn catching() -> Vec<Draft> {
    vec![
        (
            "caught-host-fault-is-its-number",
            vec![try_(
                vec![expr(H)],
                Some('e'),
                vec![return_(Some(E::host(0)))],
            )],
            "limits 50 10 0\nhost script\neval fault 2 0 0 1\neval row 1",
        ),
        (
            "caught-unknown-name-is-its-number",
            vec![try_(
                vec![assign('a', H)],
                Some('e'),
                vec![return_(Some(E::host(1)))],
            )],
            "limits 50 10 0\nhost site\ncode const int 1\ncode var 0 4 1",
        ),
        (
            "caught-value-is-the-thrown-one",
            vec![try_(
                vec![throw(Some(H))],
                Some('e'),
                vec![return_(Some(H))],
            )],
            "limits 50 10 0\nhost script\neval value range 1 2\neval row 1",
        ),
        (
            "uncatchable-host-fault",
            vec![try_(vec![expr(H)], Some('e'), vec![])],
            "limits 50 10 0\nhost script\neval fault 2 0 0 0",
        ),
        (
            "host-fault-thrown-again-gets-the-new-position",
            vec![try_(vec![expr(H)], None, vec![noop(), throw(None)])],
            "limits 50 10 0\nhost script\neval fault 2 40 4 1",
        ),
        (
            "thrown-again-by-a-unit-of-the-host",
            vec![try_(vec![assign('a', H)], Some('e'), vec![throw(Some(H))])],
            "limits 50 10 0\nhost script",
        ),
        (
            "thrown-again-twice",
            vec![try_(
                vec![try_(vec![assign('a', H)], None, vec![throw(None)])],
                None,
                vec![block(vec![throw(None)])],
            )],
            "limits 50 10 0\nhost script",
        ),
        (
            "thrown-again-without-position",
            vec![try_(
                vec![expr(H)],
                None,
                vec![Stmt {
                    position: Some(rules::place::Position::NONE),
                    ..throw(None)
                }],
            )],
            "limits 50 10 0\nhost script\neval fault 2 40 4 1",
        ),
        (
            "catch-throws-another-value",
            vec![try_(vec![throw(None)], None, vec![throw(Some(H))])],
            "limits 50 10 0\nhost script\neval value int 3",
        ),
        (
            "catch-value-becomes-unit",
            vec![try_(vec![throw(None)], None, vec![expr(H)])],
            "limits 50 10 0\nhost script\neval value int 3",
        ),
        (
            "catch-value-becomes-unit-in-a-block",
            vec![if_(
                E::TRUE,
                vec![try_(vec![expr(H)], Some('e'), vec![expr(E::TRUE)])],
                vec![],
            )],
            "limits 50 10 0\nhost script\neval fault 3 0 0 1",
        ),
        (
            "catch-value-becomes-unit-without-name",
            vec![
                let_('a', H),
                try_(vec![assign('b', H)], None, vec![block(vec![expr(H)])]),
            ],
            "limits 50 10 0\nhost script\neval value int 3",
        ),
        (
            "try-value",
            vec![try_(vec![expr(H)], None, vec![])],
            "limits 50 10 0\nhost script\neval value int 3",
        ),
        (
            "named-catch-at-the-limit-with-empty-block",
            vec![let_('a', H), try_(vec![throw(None)], Some('e'), vec![])],
            "limits 50 1 0\nhost script",
        ),
        (
            "unnamed-catch-at-the-limit",
            vec![let_('a', H), try_(vec![throw(None)], None, vec![])],
            "limits 50 1 0\nhost script",
        ),
        (
            "catch-name-goes",
            vec![
                try_(vec![throw(None)], Some('e'), vec![assign_at(1, 'e', H)]),
                expr(H),
            ],
            "limits 50 10 0\nhost script\neval value int 1\neval names",
        ),
        (
            "refused-name-thrown-again",
            vec![try_(vec![let_('a', H)], None, vec![throw(None)])],
            "limits 50 10 0\nhost script\nallow no",
        ),
        (
            "limits-cannot-be-caught",
            vec![try_(vec![let_('a', H), let_('b', H)], None, vec![])],
            "limits 50 1 0\nhost script",
        ),
        (
            "operations-cannot-be-caught",
            vec![try_(vec![noop(), noop()], None, vec![])],
            "limits 2 10 0",
        ),
        (
            "modules-cannot-be-caught",
            vec![try_(vec![import(H, None)], None, vec![])],
            "limits 50 10 0\nhost script\neval value int 1\ntable\npath 1 module 7",
        ),
        (
            "host-fault-in-a-catch-is-no-throw",
            vec![try_(vec![throw(Some(H))], None, vec![expr(H)])],
            "limits 50 10 0\nhost script\neval value int 4\neval fault 2 0 0 1",
        ),
        (
            "named-catch-at-the-limit-without-fault",
            vec![let_('a', H), try_(vec![expr(H)], Some('e'), vec![])],
            "limits 50 1 0\nhost script\neval value int 1\neval value int 3",
        ),
        (
            "exit-in-a-catch",
            vec![try_(vec![throw(None)], Some('e'), vec![expr(H)])],
            "limits 50 10 0\nhost script\neval exit int 6\nrun 0\nrun 1",
        ),
    ]
}

/// What a caught fault has as value.
pub fn caught_values() -> Vec<Draft> {
    let caught = |body: Vec<Stmt>| try_(body, Some('e'), vec![return_(Some(H))]);
    vec![
        (
            "caught-refused-name-is-its-number",
            vec![caught(vec![let_('a', E::UNIT)])],
            "limits 50 10 0\nhost script\neval row 1\nallow no",
        ),
        (
            "caught-wrong-kind-is-its-number",
            vec![caught(vec![if_(E::UNIT, vec![], vec![])])],
            "limits 50 10 0\nhost script\neval row 1",
        ),
        (
            "caught-value-that-is-not-iterable-is-its-number",
            vec![caught(vec![for_('a', E::UNIT, vec![])])],
            "limits 50 10 0\nhost script\neval row 1",
        ),
        (
            "caught-constant-is-its-number",
            vec![const_('a', E::UNIT), caught(vec![assign('a', E::TRUE)])],
            "limits 50 10 0\nhost script\neval row 1",
        ),
        (
            "caught-unknown-operator-is-its-number",
            vec![
                let_('a', E::UNIT),
                caught(vec![assign_with('a', 65_535, 0, E::TRUE)]),
            ],
            "limits 50 10 0\nhost script\neval row 1",
        ),
        (
            "caught-import-not-found-is-its-number",
            vec![caught(vec![import(H, None)])],
            "limits 50 10 1\nhost script\neval value int 2\neval row 1",
        ),
    ]
}

pub fn imports() -> Vec<Draft> {
    vec![
        (
            "imports-with-and-without-name",
            vec![import(H, Some('a')), import(H, None)],
            "limits 50 10 2\nhost script\neval value int 1\neval value int 2\n\
             table\npath 1 module 7\npath 2 module 0",
        ),
        (
            "import-without-name-at-an-offset",
            vec![stmt(Node::Import {
                e: H,
                name: Some(Name {
                    offset: 3,
                    length: 0,
                }),
            })],
            "limits 50 10 1\nhost script\neval value int 1\ntable\npath 1 module 7",
        ),
        (
            "each-run-starts-without-modules",
            vec![import(H, Some('a'))],
            "limits 50 10 1\nhost script\neval value int 1\ntable\npath 1 module 7\nrun 0\nrun 0",
        ),
        (
            "imports-of-a-block-go-but-count",
            vec![block(vec![import(H, Some('a'))]), import(H, None)],
            "limits 50 10 1\nhost script\neval value int 1\ntable\npath 1 module 7",
        ),
        (
            "failed-import-does-not-count",
            vec![try_(vec![import(H, None)], None, vec![]), import(H, None)],
            "limits 50 10 1\nhost script\neval value int 2\neval value int 1\n\
             table\npath 1 module 7",
        ),
        (
            "import-without-modules",
            vec![import(H, None)],
            "limits 50 10 0\nhost script\neval fault 1 0 0 1",
        ),
        (
            "import-of-no-path",
            vec![import(H, None)],
            "limits 50 10 1\nhost script\neval value int -1",
        ),
        (
            "import-not-found",
            vec![import(H, None)],
            "limits 50 10 1\nhost script\neval value int 4294967295",
        ),
        (
            "first-row-counts",
            vec![import(H, None)],
            "limits 50 10 1\nhost script\neval value int 2\ntable\npath 2 none\npath 2 module 1",
        ),
        (
            "second-table-for-what-the-first-does-not-find",
            vec![import(H, None), import(H, None)],
            "limits 50 10 2\nhost script\neval value int 2\neval value int 3\n\
             table\npath 2 none\ntable\npath 2 module 1\npath 3 module 4",
        ),
        (
            "first-table-faults",
            vec![import(H, None)],
            "limits 50 10 1\nhost script\neval value int 2\n\
             table\npath 2 fault 5 0 0 1\ntable\npath 2 module 1",
        ),
        (
            "resolver-fault-with-position",
            vec![import(H, None)],
            "limits 50 10 1\nhost script\neval value int 2\ntable\npath 2 fault 5 40 1 1",
        ),
        (
            "resolver-fault-caught",
            vec![try_(
                vec![import(H, None)],
                Some('e'),
                vec![return_(Some(H))],
            )],
            "limits 50 10 1\nhost script\neval value int 2\neval row 1\n\
             table\npath 2 fault 5 40 1 1",
        ),
        (
            "resolver-fault-that-cannot-be-caught",
            vec![try_(vec![import(H, None)], Some('e'), vec![])],
            "limits 50 10 1\nhost script\neval value int 2\ntable\npath 2 fault 5 0 0 0",
        ),
        (
            "imports-of-the-run-before-go",
            vec![import(H, Some('a')), return_(Some(H))],
            "limits 50 10 1\nhost list\nentry value int 1\nentry value int 2\n\
             entry value true\ntable\npath 1 module 7\nrun 0\nrun 0",
        ),
    ]
}
