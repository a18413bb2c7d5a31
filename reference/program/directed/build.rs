//! Short names for statements.

use crate::rule::{Body, Name, Node, Stmt, E};

/// The text of every rule made by hand.
pub const TEXT: &[u8] = b"abcdefabc";

/// The expression of code 0; a scripted host does not look at the code.
pub const H: E = E::host(0);

pub fn name(letter: char) -> Name {
    let offset = TEXT.iter().position(|&byte| char::from(byte) == letter);
    Name {
        offset: offset.expect("a letter of the text") as u16,
        length: 1,
    }
}

pub fn stmt(node: Node) -> Stmt {
    node.into()
}

/// A block that is a row of no statements.
pub fn empty_row() -> Body {
    Body {
        statements: Vec::new(),
        empty_row: true,
    }
}

pub fn var(letter: char, constant: bool, index: u16, e: E) -> Stmt {
    stmt(Node::Var {
        name: name(letter),
        constant,
        index,
        e,
    })
}

pub fn let_(letter: char, e: E) -> Stmt {
    var(letter, false, 0, e)
}

pub fn const_(letter: char, e: E) -> Stmt {
    var(letter, true, 0, e)
}

pub fn let_at(index: u16, letter: char, e: E) -> Stmt {
    var(letter, false, index, e)
}

pub fn assign_with(letter: char, operator: u16, index: u16, e: E) -> Stmt {
    stmt(Node::Assignment {
        name: name(letter),
        operator,
        index,
        e,
    })
}

pub fn assign(letter: char, e: E) -> Stmt {
    assign_with(letter, 0, 0, e)
}

pub fn assign_at(index: u16, letter: char, e: E) -> Stmt {
    assign_with(letter, 0, index, e)
}

pub fn expr(e: E) -> Stmt {
    stmt(Node::Expr(e))
}

pub fn block(body: Vec<Stmt>) -> Stmt {
    stmt(Node::Block(body.into()))
}

pub fn if_(e: E, yes: Vec<Stmt>, no: Vec<Stmt>) -> Stmt {
    stmt(Node::If(e, yes.into(), no.into()))
}

pub fn while_(e: E, body: Vec<Stmt>) -> Stmt {
    stmt(Node::While(e, body.into()))
}

pub fn do_while(body: Vec<Stmt>, e: E) -> Stmt {
    stmt(Node::Do {
        body: body.into(),
        e,
        negated: false,
    })
}

pub fn do_until(body: Vec<Stmt>, e: E) -> Stmt {
    stmt(Node::Do {
        body: body.into(),
        e,
        negated: true,
    })
}

pub fn for_(letter: char, e: E, body: Vec<Stmt>) -> Stmt {
    stmt(Node::For {
        name: name(letter),
        counter: None,
        e,
        body: body.into(),
    })
}

pub fn for_counted(letter: char, counter: char, e: E, body: Vec<Stmt>) -> Stmt {
    stmt(Node::For {
        name: name(letter),
        counter: Some(name(counter)),
        e,
        body: body.into(),
    })
}

pub fn break_(e: Option<E>) -> Stmt {
    stmt(Node::BreakLoop { e, is_break: true })
}

pub fn continue_(e: Option<E>) -> Stmt {
    stmt(Node::BreakLoop { e, is_break: false })
}

pub fn try_(body: Vec<Stmt>, letter: Option<char>, catch: Vec<Stmt>) -> Stmt {
    stmt(Node::TryCatch {
        body: body.into(),
        name: letter.map(name),
        catch: catch.into(),
    })
}

pub fn return_(e: Option<E>) -> Stmt {
    stmt(Node::Return { e, throws: false })
}

pub fn throw(e: Option<E>) -> Stmt {
    stmt(Node::Return { e, throws: true })
}

pub fn import(e: E, letter: Option<char>) -> Stmt {
    stmt(Node::Import {
        e,
        name: letter.map(name),
    })
}

pub fn noop() -> Stmt {
    stmt(Node::Noop)
}
