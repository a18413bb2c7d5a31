//! Variables, assignments, and the search mark.

use super::build::*;
use super::Draft;
use crate::rule::E;

pub fn variables() -> Vec<Draft> {
    vec![
        (
            "index-overwrites-a-constant",
            vec![const_('a', H), let_at(1, 'a', H)],
            "limits 100 10 0\nhost script\neval value int 1\neval value int 2",
        ),
        (
            "index-meets-no-limit",
            vec![let_('a', H), let_at(1, 'a', H)],
            "limits 100 1 0\nhost script\neval value int 1\neval value int 9",
        ),
        (
            "index-makes-a-row-constant",
            vec![let_('a', H), var('a', true, 1, H), assign('a', H)],
            "limits 100 10 0\nhost script\neval value int 1",
        ),
        (
            "index-asks-allow-too",
            vec![let_('a', H), let_at(1, 'a', H)],
            "limits 100 10 0\nhost script\neval value int 1\nallow yes\nallow no",
        ),
        (
            "allow-says-no",
            vec![let_('a', H)],
            "limits 100 10 0\nhost script\nallow no",
        ),
        (
            "allow-says-no-but-appends",
            vec![try_(vec![let_('a', H)], None, vec![]), let_('b', H)],
            "limits 100 10 0\nhost script\nallow append 1 3 1 int 1 no\nallow yes\neval mark",
        ),
        (
            "allow-faults-without-position",
            vec![let_('a', H)],
            "limits 100 10 0\nhost script\nallow fault 7 0 0 1",
        ),
        (
            "allow-faults-with-position",
            vec![let_('a', H)],
            "limits 100 10 0\nhost script\nallow fault 7 40 2 1",
        ),
        (
            "allow-is-told-the-level",
            vec![block(vec![block(vec![let_('a', H)]), let_('b', H)])],
            "limits 100 10 0\nhost script\nallow level 2",
        ),
        (
            "allow-is-told-what-is-present",
            vec![let_('a', H), block(vec![let_('a', H)]), let_('b', H)],
            "limits 100 10 0\nhost script\nallow yes\nallow present",
        ),
        (
            "allow-is-told-what-is-absent",
            vec![let_('a', H)],
            "limits 100 10 0\nhost script\nallow present",
        ),
        (
            "allow-is-told-what-is-constant",
            vec![const_('a', E::UNIT), let_('b', E::UNIT)],
            "limits 100 10 0\nhost script\nallow constant",
        ),
        (
            "allow-comes-before-the-limit",
            vec![let_('a', H)],
            "limits 100 1 0\nhost script\nallow append 1 0 1 int 1 no",
        ),
        (
            "allow-reaches-the-limit",
            vec![let_('a', H)],
            "limits 100 1 0\nhost script\nallow append 1 0 1 int 1 yes",
        ),
        (
            "appending-stops-at-the-limit",
            vec![expr(H)],
            "limits 100 1 0\nhost script\neval append 1 0 1 int 1 append 1 1 1 int 2 names",
        ),
        (
            "effects-in-their-order",
            vec![expr(H), let_('a', H)],
            "limits 100 10 0\nhost script\neval append 1 3 1 int 1 set 1 int 2 row 1\n\
             allow set 1 int 4 append 1 0 1 int 5 yes",
        ),
    ]
}

pub fn assignments() -> Vec<Draft> {
    vec![
        (
            "assignment-to-no-name",
            vec![assign('a', H)],
            "limits 100 10 0\nhost script",
        ),
        (
            "assignment-to-a-constant-of-another-name",
            vec![const_('b', H), assign_at(1, 'a', H)],
            "limits 100 10 0\nhost script",
        ),
        (
            "assignment-beyond-the-names",
            vec![try_(vec![assign_at(1, 'a', H)], None, vec![])],
            "limits 100 10 0\nhost script",
        ),
        (
            "assignment-to-a-site-name",
            vec![assign('a', H)],
            "limits 100 10 0\nhost script\neval value int 3\nput 0 1 int 1\nrun 0\nread 0 1",
        ),
        (
            "assignment-to-the-last-of-two-names",
            vec![let_('a', H), assign('a', H)],
            "limits 100 10 0\nhost script\neval value int 2\neval value int 3\n\
             put 0 1 int 1\nrun 0\nread 0 1",
        ),
        (
            "third-charge-of-an-assignment",
            vec![assign('a', H)],
            "limits 2 10 0\nhost script\nput 0 1 int 1\nrun 0",
        ),
        (
            "apply-comes-first",
            vec![let_('a', H), assign_with('a', 2, 0, H)],
            "limits 100 10 0\nhost script\neval value int 1\neval value int 2",
        ),
        (
            "binary-for-what-apply-does-not-know",
            vec![let_('a', H), assign_with('a', 7, 0, H)],
            "limits 100 10 0\nhost script\neval value int 1\neval value int 2",
        ),
        (
            "operators-that-keep-the-old-value",
            vec![
                let_('a', H),
                assign_with('a', 1, 0, H),
                let_('b', H),
                assign_with('b', 6, 0, H),
            ],
            "limits 100 10 0\nhost script\neval value int 1\neval value int 2",
        ),
        (
            "operator-that-nobody-knows",
            vec![let_('a', H), assign_with('a', 65_535, 0, H)],
            "limits 100 10 0\nhost script",
        ),
        (
            "operator-on-a-constant",
            vec![const_('a', H), assign_with('a', 7, 0, H)],
            "limits 100 10 0\nhost script",
        ),
        (
            "apply-faults-without-position",
            vec![let_('a', H), assign_with('a', 3, 0, H)],
            "limits 100 10 0\nhost script",
        ),
        (
            "apply-faults-with-position",
            vec![let_('a', H), assign_with('a', 4, 0, H)],
            "limits 100 10 0\nhost script",
        ),
        (
            "apply-faults-and-cannot-be-caught",
            vec![
                let_('a', H),
                try_(vec![assign_with('a', 5, 0, H)], None, vec![]),
            ],
            "limits 100 10 0\nhost script",
        ),
        (
            "binary-faults-without-position",
            vec![let_('a', H), assign_with('a', 8, 0, H)],
            "limits 100 10 0\nhost script",
        ),
        (
            "binary-faults-with-position",
            vec![let_('a', H), assign_with('a', 9, 0, H)],
            "limits 100 10 0\nhost script",
        ),
        (
            "operator-sees-what-evaluate-changed",
            vec![let_('a', H), assign_with('a', 1, 0, H)],
            "limits 100 10 0\nhost script\neval value int 1\neval set 1 int 6 value int 2",
        ),
        (
            "site-operator-on-a-truth",
            vec![let_('a', E::TRUE), assign_with('a', 1, 0, H)],
            "limits 100 10 0\nhost site\ncode const int 1",
        ),
        (
            "site-operator-overflows",
            vec![let_('a', H), assign_with('a', 2, 0, E::host(1))],
            "limits 100 10 0\nhost site\ncode const int -9223372036854775808\ncode const int 1",
        ),
    ]
}

pub fn marks() -> Vec<Draft> {
    vec![
        (
            "name-appended-by-its-own-expression",
            vec![let_('a', H), assign_at(1, 'a', H)],
            "limits 50 10 0\nhost script\neval value int 1\neval append 1 3 1 int 5 value int 9",
        ),
        (
            "mark-goes-with-its-block",
            vec![
                let_('a', H),
                block(vec![expr(H)]),
                assign_at(1, 'a', H),
                expr(H),
            ],
            "limits 50 10 0\nhost script\neval value int 1\n\
             eval append 1 3 1 int 5 value int 2\neval value int 3\neval mark",
        ),
        (
            "mark-stays-in-inner-blocks",
            vec![let_('a', H), expr(H), block(vec![assign_at(2, 'b', H)])],
            "limits 50 10 0\nhost script\neval value int 1\n\
             eval append 1 1 1 int 5 value int 2\neval value int 3",
        ),
        (
            "mark-is-off-in-the-next-run",
            vec![if_(H, vec![assign_at(1, 'a', H)], vec![])],
            "limits 50 10 0\nhost script\neval append 1 3 1 int 5 value false\n\
             eval value true\neval value int 4\nrun 0\nrun 0",
        ),
        (
            "catch-and-for-names-leave-the-mark-off",
            vec![for_(
                'a',
                H,
                vec![try_(
                    vec![throw(None)],
                    Some('e'),
                    vec![assign_at(2, 'b', H), expr(H)],
                )],
            )],
            "limits 50 10 0\nhost script\neval value range 0 1\neval value int 3\neval row 2",
        ),
        (
            "evaluate-faults-but-appends",
            vec![
                let_('a', H),
                try_(vec![noop()], None, vec![]),
                expr(H),
                assign_at(1, 'a', H),
            ],
            "limits 50 10 0\nhost script\neval value int 1\n\
             eval append 1 3 1 int 5 fault 1 0 0 1\neval value int 2\nrun 0\nrun 0",
        ),
        (
            "appended-name-without-text",
            vec![expr(H), let_at(1, 'a', H)],
            "limits 50 10 0\nhost script\neval append 1 3 9 int 5 append 0 0 0 int 6 names\nrun 0",
        ),
        (
            "host-changes-a-constant",
            vec![const_('a', H), expr(H), assign('a', H)],
            "limits 50 10 0\nhost script\neval value int 1\neval set 1 int 5 value int 2",
        ),
    ]
}
