//! All rules of up to three statements over a small alphabet.

use crate::rule::{assemble, Body, Name, Node, Stmt, E};
use rules::case::{parse_cases, Case};
use rules::check::check;
use rules::text::to_hex;

const TEXT: &[u8] = b"abm";
const A: Name = Name {
    offset: 0,
    length: 1,
};
const B: Name = Name {
    offset: 1,
    length: 1,
};
const M: Name = Name {
    offset: 2,
    length: 1,
};

/// Codes of the site host's table below.
const NUMBER: E = E::host(0);
const TRUTH: E = E::host(1);
const ITEMS: E = E::host(2);

/// A case for each rule that the check accepts, over a site host and over a scripted host.
pub fn cases() -> impl Iterator<Item = Case> {
    let rules = (0..=3).flat_map(forests);
    rules.enumerate().flat_map(|(number, rule)| {
        let image = assemble(&rule, TEXT);
        let accepted = check(&image).is_ok();
        let hosts = if accepted { &HOSTS[..] } else { &[] };
        let case = move |&(name, lines): &(&str, &str)| case(name, number, &image, lines);
        hosts.iter().map(case).collect::<Vec<_>>()
    })
}

const HOSTS: [(&str, &str); 2] = [
    (
        "site",
        "host site\n\
         code add const int 1 var 0 0 1\n\
         code less var 0 0 1 const int 3\n\
         code span const int 0 const int 2\n\
         table\npath 1 module 5\npath 2 module 6\nput 0 1 int 1\nrun 0\nrun 0\n",
    ),
    (
        "script",
        "host script\n\
         eval value true\n\
         eval append 1 1 1 int 3 value int 1\n\
         eval value seq 213\n\
         eval fault 7 0 0 1\n\
         eval set 1 int 4 value false\n\
         allow append 1 2 1 int 8 yes\n\
         allow yes\nallow yes\nallow no\n\
         table\npath 1 module 5\nput 0 1 int 1\nrun 0\nrun 0\n",
    ),
];

fn case(host: &str, number: usize, image: &[u8], lines: &str) -> Case {
    let text = format!(
        "case small-{host}-{number}\nimage {}\nsite {}\nlimits 60 4 2\n{lines}end\n",
        to_hex(image),
        to_hex(b"aqr"),
    );
    let mut cases = parse_cases(&text).expect("a well-formed case");
    cases.remove(0).case
}

fn leaves() -> Vec<Node> {
    let var = |name, constant, index, e| Node::Var {
        name,
        constant,
        index,
        e,
    };
    let assignment = |name, operator, index, e| Node::Assignment {
        name,
        operator,
        index,
        e,
    };
    vec![
        Node::Noop,
        Node::Expr(NUMBER),
        var(A, false, 0, E::TRUE),
        var(B, true, 0, NUMBER),
        var(A, false, 1, NUMBER),
        var(B, true, 2, E::UNIT),
        assignment(A, 0, 0, NUMBER),
        assignment(B, 0, 1, E::FALSE),
        assignment(A, 2, 2, NUMBER),
        assignment(B, 7, 0, NUMBER),
        Node::Return {
            e: Some(NUMBER),
            throws: false,
        },
        Node::Return {
            e: None,
            throws: true,
        },
        Node::Return {
            e: Some(NUMBER),
            throws: true,
        },
        Node::Import {
            e: NUMBER,
            name: Some(M),
        },
        Node::BreakLoop {
            e: Some(NUMBER),
            is_break: true,
        },
        Node::BreakLoop {
            e: None,
            is_break: false,
        },
    ]
}

/// The statements with one block that is not always empty.
fn with_one_body(body: &[Stmt]) -> Vec<Node> {
    let p = || Body::from(body.to_vec());
    vec![
        Node::Block(p()),
        Node::While(TRUTH, p()),
        Node::While(E::TRUE, p()),
        Node::Do {
            body: p(),
            e: TRUTH,
            negated: true,
        },
        Node::For {
            name: A,
            counter: None,
            e: ITEMS,
            body: p(),
        },
        Node::For {
            name: A,
            counter: Some(B),
            e: ITEMS,
            body: p(),
        },
    ]
}

fn with_two_bodies(p: &[Stmt], q: &[Stmt]) -> Vec<Node> {
    let (p, q) = (|| Body::from(p.to_vec()), || Body::from(q.to_vec()));
    vec![
        Node::If(TRUTH, p(), q()),
        Node::TryCatch {
            body: p(),
            name: Some(B),
            catch: q(),
        },
    ]
}

/// All lists of statements that hold so many statements, inner ones counted.
fn forests(size: usize) -> Vec<Vec<Stmt>> {
    if size == 0 {
        return vec![Vec::new()];
    }
    let mut all = Vec::new();
    for first in 1..=size {
        let rests = forests(size - first);
        for tree in trees(first) {
            for rest in &rests {
                let mut forest = vec![tree.clone()];
                forest.extend(rest.iter().cloned());
                all.push(forest);
            }
        }
    }
    all
}

/// All statements that hold so many statements, themselves counted.
fn trees(size: usize) -> Vec<Stmt> {
    let mut nodes = if size == 1 { leaves() } else { Vec::new() };
    for body in forests(size - 1) {
        nodes.extend(with_one_body(&body));
    }
    for p_size in 0..size {
        for p in forests(p_size) {
            for q in forests(size - 1 - p_size) {
                nodes.extend(with_two_bodies(&p, &q));
            }
        }
    }
    nodes.into_iter().map(Stmt::from).collect()
}
