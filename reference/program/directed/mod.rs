//! Cases made by hand: one for each thing that has to be kept, under the name of the thing.

mod blocks;
mod build;
mod catching;
mod differences;
mod endings;
mod loops;
mod variables;

use crate::rule::{assemble, Node, Stmt};
use build::{block, break_, empty_row, noop, stmt, TEXT};
use rules::case::{parse_cases, Case};
use rules::session::Call;
use rules::text::to_hex;

const SITE_TEXT: &[u8] = b"abcq";

/// A case: its name, its rule, and the lines that follow image and site. Without calls it is run
/// once.
type Draft = (&'static str, Vec<Stmt>, &'static str);

fn finish((case_name, rule, lines): Draft) -> Case {
    let (image, site) = (to_hex(&assemble(&rule, TEXT)), to_hex(SITE_TEXT));
    let text = format!("case {case_name}\nimage {image}\nsite {site}\n{lines}\nend\n");
    let mut cases = parse_cases(&text).expect("a well-formed case");
    let mut case = cases.remove(0).case;
    if case.calls.is_empty() {
        case.calls.push(Call::Run {
            exit_is_value: false,
        });
    }
    case
}

pub fn cases() -> Vec<Case> {
    let drafts = [
        endings::samples(),
        variables::variables(),
        variables::assignments(),
        variables::marks(),
        blocks::blocks(),
        blocks::empty_rows(),
        blocks::levels(),
        loops::loops(),
        loops::for_loops(),
        catching::catching(),
        catching::caught_values(),
        catching::imports(),
        endings::endings(),
        endings::sessions(),
        endings::refusals(),
        differences::differences(),
    ];
    drafts.into_iter().flatten().map(finish).collect()
}

/// Images that the check refuses, one for each refusal, and some that it only just accepts.
pub fn image_cases() -> Vec<Case> {
    let good = assemble(&[block(vec![noop()])], TEXT);
    let changed = |at: usize, byte: u8| {
        let mut image = good.clone();
        image[at] = byte;
        image
    };
    // Behind the header of 14 bytes lie two block rows of 4, then two statement rows of 20.
    let first_row = 14 + 2 * 4;
    let images = [
        ("refused-short", good[..13].to_vec()),
        ("refused-mark", changed(2, b'T')),
        ("refused-version", changed(3, 2)),
        ("refused-zero-byte", changed(5, 1)),
        ("refused-no-blocks", changed(6, 0)),
        ("refused-length", good[..good.len() - 1].to_vec()),
        ("refused-block-order", changed(18, 0)),
        ("refused-kind", changed(first_row, 6)),
        ("refused-flags", changed(first_row + 1, 16)),
        ("accepted-unread-flags", changed(first_row + 1, 15)),
        ("refused-block-outside", changed(first_row + 8, 2)),
        ("refused-block-not-higher", changed(first_row + 8, 0)),
        ("refused-block-not-named", changed(first_row, 0)),
        (
            "refused-break-outside-loops",
            assemble(&[break_(None)], TEXT),
        ),
        ("refused-nesting", assemble(&nested(32), TEXT)),
        ("accepted-nesting", assemble(&nested(31), TEXT)),
    ];
    let case = |(name, image): (&str, Vec<u8>)| {
        let mut case = finish(("x", vec![], "limits 100 10 0"));
        case.name = name.to_string();
        case.image = image;
        case
    };
    images.into_iter().map(case).collect()
}

/// Blocks one inside the other, so many below block 0.
fn nested(depth: usize) -> Vec<Stmt> {
    let mut rule = vec![stmt(Node::Block(empty_row()))];
    for _ in 1..depth {
        rule = vec![block(rule)];
    }
    rule
}
