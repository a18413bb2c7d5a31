//! A small assembler: from rules as trees to images.

use rules::image::{
    BlockRow, ExprKind, ExpressionRow, Image, Kind, StatementRow, ABSENT, FLAG_BREAK,
    FLAG_CONSTANT, FLAG_NEGATED,
};
use rules::place::Position;
use std::collections::VecDeque;

/// A name by its place in the rule's text.
#[derive(Debug, Clone, Copy, PartialEq, Eq)]
pub struct Name {
    pub offset: u16,
    pub length: u16,
}

/// An expression: its kind, the host's code, and its position if not the usual one.
#[derive(Debug, Clone, Copy)]
pub struct E {
    pub kind: ExprKind,
    pub code: u16,
    pub position: Option<Position>,
}

impl E {
    pub const UNIT: Self = Self::of_kind(ExprKind::Unit);
    pub const FALSE: Self = Self::of_kind(ExprKind::False);
    pub const TRUE: Self = Self::of_kind(ExprKind::True);

    pub const fn of_kind(kind: ExprKind) -> Self {
        Self {
            kind,
            code: 0,
            position: None,
        }
    }

    pub const fn host(code: u16) -> Self {
        Self {
            kind: ExprKind::Host,
            code,
            position: None,
        }
    }
}

/// A block inside a statement. An empty one is written as absent, or as a row of no statements.
#[derive(Debug, Clone, Default)]
pub struct Body {
    pub statements: Vec<Stmt>,
    pub empty_row: bool,
}

impl From<Vec<Stmt>> for Body {
    fn from(statements: Vec<Stmt>) -> Self {
        Self {
            statements,
            empty_row: false,
        }
    }
}

#[derive(Debug, Clone)]
pub enum Node {
    Noop,
    Expr(E),
    Block(Body),
    Assignment {
        name: Name,
        operator: u16,
        index: u16,
        e: E,
    },
    Var {
        name: Name,
        constant: bool,
        index: u16,
        e: E,
    },
    If(E, Body, Body),
    While(E, Body),
    Do {
        body: Body,
        e: E,
        negated: bool,
    },
    For {
        name: Name,
        counter: Option<Name>,
        e: E,
        body: Body,
    },
    BreakLoop {
        e: Option<E>,
        is_break: bool,
    },
    TryCatch {
        body: Body,
        name: Option<Name>,
        catch: Body,
    },
    Return {
        e: Option<E>,
        throws: bool,
    },
    Import {
        e: E,
        name: Option<Name>,
    },
}

/// A statement: what it does, its position if not the usual one, flags that its kind does not
/// read, and what stands in the fields that its kind does not read.
#[derive(Debug, Clone)]
pub struct Stmt {
    pub node: Node,
    pub position: Option<Position>,
    pub unread_flags: u8,
    pub unread_fields: u16,
}

impl From<Node> for Stmt {
    fn from(node: Node) -> Self {
        Self {
            node,
            position: None,
            unread_flags: 0,
            unread_fields: 0,
        }
    }
}

/// The image of a rule. Blocks are numbered in the order in which they are named, level by level,
/// so each is higher than its namer's. Row `i` stands in line `i` + 1, its expression in column 5.
pub fn assemble(rule: &[Stmt], text: &[u8]) -> Vec<u8> {
    let mut assembler = Assembler {
        image: Image {
            text: text.to_vec(),
            ..Image::default()
        },
        waiting: VecDeque::new(),
        named: 0,
    };
    assembler.waiting.push_back(rule);
    while let Some(statements) = assembler.waiting.pop_front() {
        assembler.block(statements);
    }
    assembler.image.to_bytes()
}

struct Assembler<'a> {
    image: Image,
    waiting: VecDeque<&'a [Stmt]>,
    named: u16,
}

impl<'a> Assembler<'a> {
    fn block(&mut self, statements: &'a [Stmt]) {
        self.image.blocks.push(BlockRow {
            first: self.image.statements.len() as u16,
            count: statements.len() as u16,
        });
        for statement in statements {
            let row = self.statement(statement);
            self.image.statements.push(row);
        }
    }

    fn body(&mut self, body: &'a Body) -> u16 {
        if body.statements.is_empty() && !body.empty_row {
            return ABSENT;
        }
        self.waiting.push_back(&body.statements);
        self.named += 1;
        self.named
    }

    fn line(&self) -> u16 {
        self.image.statements.len() as u16 + 1
    }

    fn expression(&mut self, e: &E) -> u16 {
        let position = e.position.unwrap_or(Position::new(self.line(), 5));
        self.image.expressions.push(ExpressionRow {
            kind: e.kind as u8,
            position,
            code: e.code,
        });
        self.image.expressions.len() as u16 - 1
    }

    fn statement(&mut self, statement: &'a Stmt) -> StatementRow {
        let unread = statement.unread_fields;
        let mut row = StatementRow {
            kind: kind_of(&statement.node) as u8,
            flags: statement.unread_flags & !read_flags(&statement.node),
            position: statement.position.unwrap_or(Position::new(self.line(), 1)),
            e: unread,
            p: unread,
            q: unread,
            name_offset: unread,
            name_length: unread,
            r: unread,
            t: unread,
        };
        self.simple_fields(&statement.node, &mut row);
        self.block_fields(&statement.node, &mut row);
        row
    }

    /// The fields of statements without blocks.
    fn simple_fields(&mut self, node: &'a Node, row: &mut StatementRow) {
        match node {
            Node::Expr(e) => row.e = self.expression(e),
            Node::Assignment {
                name,
                operator,
                index,
                e,
            } => {
                row.e = self.expression(e);
                row.q = *operator;
                row.r = *index;
                set_name(row, Some(*name));
            }
            Node::Var {
                name,
                constant,
                index,
                e,
            } => {
                row.e = self.expression(e);
                row.r = *index;
                set_name(row, Some(*name));
                row.flags |= flag(FLAG_CONSTANT, *constant);
            }
            Node::BreakLoop { e, is_break: set } | Node::Return { e, throws: set } => {
                row.e = e.as_ref().map_or(ABSENT, |e| self.expression(e));
                row.flags |= flag(FLAG_BREAK, *set);
            }
            Node::Import { e, name } => {
                row.e = self.expression(e);
                set_name(row, *name);
            }
            _ => (),
        }
    }

    /// The fields of statements with blocks.
    fn block_fields(&mut self, node: &'a Node, row: &mut StatementRow) {
        match node {
            Node::Block(body) => row.p = self.body(body),
            Node::If(e, yes, no) => {
                row.e = self.expression(e);
                row.p = self.body(yes);
                row.q = self.body(no);
            }
            Node::While(e, body) => {
                row.e = self.expression(e);
                row.p = self.body(body);
            }
            Node::Do { body, e, negated } => {
                row.e = self.expression(e);
                row.p = self.body(body);
                row.flags |= flag(FLAG_NEGATED, *negated);
            }
            Node::For {
                name,
                counter,
                e,
                body,
            } => {
                row.e = self.expression(e);
                row.p = self.body(body);
                set_name(row, Some(*name));
                (row.r, row.t) = counter.map_or((row.r, 0), |c| (c.offset, c.length));
            }
            Node::TryCatch { body, name, catch } => {
                row.p = self.body(body);
                row.q = self.body(catch);
                set_name(row, *name);
            }
            _ => (),
        }
    }
}

fn flag(flag: u8, set: bool) -> u8 {
    if set {
        flag
    } else {
        0
    }
}

/// No name is a length of 0; the offset is not read then.
fn set_name(row: &mut StatementRow, name: Option<Name>) {
    match name {
        Some(name) => (row.name_offset, row.name_length) = (name.offset, name.length),
        None => row.name_length = 0,
    }
}

fn kind_of(node: &Node) -> Kind {
    match node {
        Node::Noop => Kind::Noop,
        Node::Expr(..) => Kind::Expr,
        Node::Block(..) => Kind::Block,
        Node::Assignment { .. } => Kind::Assignment,
        Node::Var { .. } => Kind::Var,
        Node::If(..) => Kind::If,
        Node::While(..) => Kind::While,
        Node::Do { .. } => Kind::Do,
        Node::For { .. } => Kind::For,
        Node::BreakLoop { .. } => Kind::BreakLoop,
        Node::TryCatch { .. } => Kind::TryCatch,
        Node::Return { .. } => Kind::Return,
        Node::Import { .. } => Kind::Import,
    }
}

fn read_flags(node: &Node) -> u8 {
    match node {
        Node::Var { .. } => FLAG_CONSTANT,
        Node::Do { .. } => FLAG_NEGATED,
        Node::BreakLoop { .. } | Node::Return { .. } => FLAG_BREAK,
        _ => 0,
    }
}
