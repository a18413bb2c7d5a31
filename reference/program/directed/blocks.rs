//! Blocks: their values, empty ones, what they put back, and levels.

use super::build::*;
use super::Draft;
use crate::rule::{Node, E};

pub fn blocks() -> Vec<Draft> {
    vec![
        (
            "block-gives-its-value",
            vec![block(vec![expr(H)])],
            "limits 50 10 0\nhost script\neval value int 3",
        ),
        (
            "empty-block-gives-unit",
            vec![block(vec![])],
            "limits 50 10 0",
        ),
        (
            "noop-gives-unit-after-a-value",
            vec![expr(H), noop()],
            "limits 50 10 0\nhost script\neval value int 3",
        ),
        (
            "names-of-block-zero-stay-after-a-return",
            vec![let_('a', H), return_(None)],
            "limits 50 10 0\nhost script\neval value int 1",
        ),
        (
            "imports-of-block-zero-stay-after-a-throw",
            vec![import(H, Some('a')), throw(None)],
            "limits 50 10 1\nhost script\neval value int 1\ntable\npath 1 module 7",
        ),
        (
            "names-of-a-block-go-on-break",
            vec![while_(E::TRUE, vec![let_('a', H), break_(None)]), expr(H)],
            "limits 50 10 0\nhost script\neval value int 1\neval names",
        ),
        (
            "names-of-a-block-go-on-continue",
            vec![while_(H, vec![let_('a', H), continue_(None)]), expr(H)],
            "limits 50 10 0\nhost script\neval value true\neval value int 1\n\
             eval value false\neval names",
        ),
    ]
}

/// A row of no statements is as empty as no block.
pub fn empty_rows() -> Vec<Draft> {
    vec![
        (
            "block-of-an-empty-row",
            vec![stmt(Node::Block(empty_row()))],
            "limits 50 10 0",
        ),
        (
            "if-with-an-empty-row",
            vec![stmt(Node::If(E::TRUE, empty_row(), vec![expr(H)].into()))],
            "limits 50 10 0\nhost script\neval value int 3",
        ),
        (
            "endless-while-with-an-empty-row",
            vec![stmt(Node::While(E::TRUE, empty_row()))],
            "limits 5 10 0",
        ),
        (
            "for-with-an-empty-row",
            vec![stmt(Node::For {
                name: name('a'),
                counter: None,
                e: H,
                body: empty_row(),
            })],
            "limits 50 10 0\nhost script\neval value seq 2",
        ),
        (
            "catch-with-an-empty-row",
            vec![stmt(Node::TryCatch {
                body: vec![throw(None)].into(),
                name: None,
                catch: empty_row(),
            })],
            "limits 50 10 0",
        ),
    ]
}

pub fn levels() -> Vec<Draft> {
    vec![
        (
            "level-of-block-zero",
            vec![let_('a', H)],
            "limits 50 10 0\nhost script\nallow level 0",
        ),
        (
            "level-in-a-for",
            vec![for_('b', H, vec![let_('a', H)])],
            "limits 50 10 0\nhost script\neval value seq 1\nallow level 1",
        ),
        (
            "level-in-a-catch",
            vec![try_(vec![throw(None)], Some('e'), vec![let_('a', H)])],
            "limits 50 10 0\nhost script\nallow level 1",
        ),
        (
            "level-after-a-fault-in-a-block",
            vec![try_(vec![throw(None)], None, vec![]), let_('a', H)],
            "limits 50 10 0\nhost script\nallow level 0",
        ),
    ]
}
