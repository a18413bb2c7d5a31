//! Loops.

use super::build::*;
use super::Draft;
use crate::rule::E;

pub fn loops() -> Vec<Draft> {
    vec![
        (
            "endless-while-with-empty-body",
            vec![while_(E::TRUE, vec![])],
            "limits 5 10 0",
        ),
        (
            "endless-while-by-unit",
            vec![while_(E::UNIT, vec![break_(Some(H))])],
            "limits 50 10 0\nhost script\neval value int 3",
        ),
        (
            "while-with-empty-body",
            vec![while_(H, vec![])],
            "limits 50 10 0\nhost script\neval value true\neval value true\neval value false",
        ),
        (
            "while-by-a-unit-of-the-host",
            vec![while_(H, vec![])],
            "limits 50 10 0\nhost script\neval value unit",
        ),
        (
            "do-by-unit",
            vec![do_while(vec![], E::UNIT)],
            "limits 50 10 0",
        ),
        (
            "do-until",
            vec![do_until(vec![noop()], H)],
            "limits 50 10 0\nhost script\neval value false\neval value true",
        ),
        (
            "do-with-empty-body",
            vec![do_while(vec![], H)],
            "limits 50 10 0\nhost script\neval value true\neval value false",
        ),
        (
            "continue-with-value",
            vec![while_(H, vec![continue_(Some(H))])],
            "limits 50 10 0\nhost script\neval value true\neval value int 1\neval value false",
        ),
        (
            "break-without-value",
            vec![while_(H, vec![break_(None)])],
            "limits 50 10 0\nhost script\neval value true",
        ),
        (
            "break-through-try-and-catch",
            vec![while_(
                E::TRUE,
                vec![try_(
                    vec![throw(None)],
                    Some('e'),
                    vec![try_(vec![break_(Some(H))], None, vec![noop()])],
                )],
            )],
            "limits 50 10 0\nhost script\neval value int 8",
        ),
        (
            "continue-through-try-and-catch",
            vec![while_(
                H,
                vec![
                    try_(
                        vec![throw(None)],
                        Some('e'),
                        vec![try_(vec![continue_(None)], None, vec![noop()])],
                    ),
                    return_(None),
                ],
            )],
            "limits 50 10 0\nhost script\neval value true\neval value false",
        ),
        (
            "while-gives-unit-after-a-value",
            vec![while_(H, vec![expr(H)])],
            "limits 50 10 0\nhost script\neval value true\neval value int 3\neval value false",
        ),
        (
            "do-gives-unit-after-a-value",
            vec![do_while(vec![expr(H)], H)],
            "limits 50 10 0\nhost script\neval value int 3\neval value false",
        ),
        (
            "for-gives-unit-after-a-value",
            vec![for_('a', H, vec![expr(H)])],
            "limits 50 10 0\nhost script\neval value seq 1\neval value int 3",
        ),
        (
            "do-evaluates-a-constant-condition",
            vec![do_while(vec![], E::TRUE)],
            "limits 3 10 0",
        ),
        (
            "do-broken-with-a-value",
            vec![do_while(vec![break_(Some(H))], E::TRUE)],
            "limits 50 10 0\nhost script\neval value int 3",
        ),
        (
            "names-of-a-round-go",
            vec![while_(H, vec![let_('a', H)]), expr(H)],
            "limits 50 10 0\nhost script\neval value true\neval value int 1\n\
             eval value false\neval names",
        ),
    ]
}

pub fn for_loops() -> Vec<Draft> {
    vec![
        (
            "for-over-a-range",
            vec![let_('c', H), for_counted('a', 'b', E::host(1), vec![assign('c', E::host(2))])],
            "limits 50 10 0\nhost site\ncode const int 0\ncode const range 4 7\n\
             code add var 0 0 1 var 0 1 1",
        ),
        (
            "for-over-no-items",
            vec![for_('a', H, vec![noop()])],
            "limits 50 10 0\nhost site\ncode const range 4 4",
        ),
        (
            "for-with-empty-body",
            vec![for_('a', H, vec![])],
            "limits 50 10 0\nhost site\ncode const range 0 3",
        ),
        (
            "for-with-empty-body-struck",
            vec![for_('a', H, vec![])],
            "limits 4 10 0\nhost site\ncode const range 0 9",
        ),
        (
            "for-over-a-number",
            vec![for_('a', H, vec![])],
            "limits 50 10 0\nhost site\ncode const int 3",
        ),
        (
            "for-at-the-limit",
            vec![let_('a', H), for_('b', H, vec![])],
            "limits 50 1 0\nhost script",
        ),
        (
            "for-with-counter-and-one-name",
            vec![for_counted('a', 'b', H, vec![])],
            "limits 50 1 0\nhost script\neval value range 0 1",
        ),
        (
            "for-is-iterable-before-the-second-limit",
            vec![for_('a', H, vec![])],
            "limits 50 1 0\nhost script\neval append 1 0 1 int 1 value int 5",
        ),
        (
            "for-with-a-faulty-item",
            vec![for_('a', H, vec![noop()])],
            "limits 50 10 0\nhost script\neval value seq 113",
        ),
        (
            "for-with-a-faulty-item-of-its-own-position",
            vec![for_('a', H, vec![noop()])],
            "limits 50 10 0\nhost script\neval value seq 201",
        ),
        (
            "for-with-a-faulty-item-that-cannot-be-caught",
            vec![try_(vec![for_('a', H, vec![noop()])], Some('e'), vec![])],
            "limits 50 10 0\nhost script\neval value seq 902",
        ),
        (
            "for-with-a-faulty-item-past-the-end",
            vec![for_('a', H, vec![noop()])],
            "limits 50 10 0\nhost script\neval value seq 122",
        ),
        (
            "for-over-no-sequence",
            vec![for_('a', H, vec![noop()])],
            "limits 50 10 0\nhost script\neval value seq 1000",
        ),
        (
            "for-over-the-longest-sequence",
            vec![for_counted('a', 'b', H, vec![assign('c', H)])],
            "limits 50 10 0\nhost script\neval value seq 99\neval row 1\n\
             put 2 1 unit\nrun 0",
        ),
        (
            "for-sets-its-name-again-after-a-constant",
            vec![for_('a', H, vec![var('a', true, 1, H)]), expr(H)],
            "limits 50 10 0\nhost script\neval value range 0 2\neval value int 5",
        ),
        (
            "names-appended-by-the-subject-stay",
            vec![for_('a', H, vec![assign_at(1, 'a', H)]), expr(H)],
            "limits 50 10 0\nhost script\neval append 1 3 1 int 1 value range 0 1\n\
             eval value int 2\neval mark",
        ),
        (
            "for-broken-with-a-value",
            vec![for_('a', H, vec![break_(Some(E::host(1)))])],
            "limits 50 10 0\nhost site\ncode const range 0 5\ncode var 0 0 1",
        ),
        (
            "counter-of-the-third-item",
            vec![for_counted(
                'a',
                'b',
                H,
                vec![if_(E::host(1), vec![break_(Some(E::host(2)))], vec![])],
            )],
            "limits 50 10 0\nhost site\ncode const range 5 9\n\
             code equal var 0 0 1 const int 7\ncode var 0 1 1",
        ),
        (
            "counter-set-again-for-each-item",
            vec![for_counted('a', 'b', H, vec![assign('b', E::host(1)), expr(E::host(2))])],
            "limits 50 10 0\nhost script\neval value range 0 2\neval row 2\neval set 2 int 9 value unit\n\
             eval row 2\neval exit int 5",
        ),
        (
            "counters-in-turn",
            vec![for_counted('a', 'b', H, vec![assign('c', H)]), expr(H)],
            "limits 50 10 0\nhost script\neval value range 4 6\neval row 2\nput 2 1 unit\n\
             run 0",
        ),
        (
            "counters-of-loops-in-loops",
            vec![for_counted(
                'a',
                'b',
                H,
                vec![for_counted('c', 'd', H, vec![assign_at(1, 'e', E::host(1))])],
            )],
            "limits 90 10 0\nhost site\ncode const range 0 3\ncode add var 0 1 1 var 0 3 1",
        ),
        (
            "counter-beside-the-outer-name",
            vec![for_counted('a', 'b', H, vec![assign('c', E::host(1))])],
            "limits 90 10 0\nhost site\ncode const range 7 10\ncode sub var 0 0 1 var 0 1 1\n\
             put 2 1 unit\nrun 0\nread 2 1\nrun 0",
        ),
        (
            "counter-goes-on-after-continue",
            vec![for_counted(
                'a',
                'b',
                H,
                vec![assign('c', E::host(1)), continue_(None), noop()],
            )],
            "limits 90 10 0\nhost site\ncode const range 0 4\ncode var 0 1 1\n\
             put 2 1 unit\nrun 0",
        ),
        (
            "counter-when-the-limit-strikes",
            vec![for_counted('a', 'b', H, vec![assign('c', E::host(1))])],
            "limits 13 10 0\nhost site\ncode const range 0 9\ncode var 0 1 1\n\
             put 2 1 unit\nrun 0",
        ),
        (
            "counter-when-caught",
            vec![try_(
                vec![for_counted('a', 'b', H, vec![throw(Some(E::host(1)))])],
                Some('c'),
                vec![return_(Some(E::host(2)))],
            )],
            "limits 90 10 0\nhost site\ncode const range 5 9\ncode var 0 1 1\ncode var 0 2 1",
        ),
        (
            "counter-starts-at-zero",
            vec![for_counted('a', 'b', H, vec![return_(Some(H))])],
            "limits 50 10 0\nhost script\neval value seq 1\neval row 2",
        ),
        (
            "faulty-item-after-two-rounds",
            vec![try_(
                vec![for_counted('a', 'b', H, vec![expr(H)])],
                Some('e'),
                vec![throw(None)],
            )],
            "limits 50 10 0\nhost script\neval value seq 123",
        ),
        (
            "faulty-item-of-its-own-position-after-two-rounds",
            vec![try_(
                vec![for_('a', H, vec![noop()])],
                Some('e'),
                vec![return_(Some(H))],
            )],
            "limits 50 10 0\nhost script\neval value seq 224\neval row 1",
        ),
        (
            "faulty-item-that-cannot-be-caught-after-two-rounds",
            vec![try_(
                vec![for_counted('a', 'b', H, vec![noop()])],
                Some('e'),
                vec![],
            )],
            "limits 50 10 0\nhost script\neval value seq 323",
        ),
        (
            "faulty-item-of-its-own-position-after-eight-rounds",
            vec![for_('a', H, vec![noop()])],
            "limits 50 10 0\nhost script\neval value seq 289",
        ),
        (
            "faulty-item-at-the-end-of-a-long-sequence",
            vec![for_counted('a', 'b', H, vec![noop()])],
            "limits 50 10 0\nhost script\neval value seq 189",
        ),
        (
            "counter-and-name-alike",
            vec![for_counted('a', 'a', H, vec![assign_at(2, 'a', H), expr(H)])],
            "limits 50 10 0\nhost script\neval value range 3 4\neval row 1\neval row 2",
        ),
    ]
}
