//! Rule images: reading their rows, and writing them.

use crate::place::{Place, Position};

/// A field that names no expression or no block.
pub const ABSENT: u16 = 65_535;

pub const FLAG_CONSTANT: u8 = 1;
pub const FLAG_NEGATED: u8 = 4;
pub const FLAG_BREAK: u8 = 8;

pub const HEADER_SIZE: usize = 14;
pub const BLOCK_SIZE: usize = 4;
pub const STATEMENT_SIZE: usize = 20;
pub const EXPRESSION_SIZE: usize = 8;

/// Statement kinds by their numbers in the image; 6 is not used.
#[derive(Debug, Clone, Copy, PartialEq, Eq, Hash, PartialOrd, Ord)]
pub enum Kind {
    Noop = 0,
    Expr = 1,
    Block = 2,
    Assignment = 3,
    Var = 4,
    If = 5,
    While = 7,
    Do = 8,
    For = 9,
    BreakLoop = 10,
    TryCatch = 11,
    Return = 12,
    Import = 13,
}

impl Kind {
    pub const ALL: [Self; 13] = [
        Self::Noop,
        Self::Expr,
        Self::Block,
        Self::Assignment,
        Self::Var,
        Self::If,
        Self::While,
        Self::Do,
        Self::For,
        Self::BreakLoop,
        Self::TryCatch,
        Self::Return,
        Self::Import,
    ];

    pub fn from_number(number: u8) -> Option<Self> {
        Self::ALL.into_iter().find(|&kind| kind as u8 == number)
    }
}

#[derive(Debug, Clone, Copy, PartialEq, Eq, Default)]
pub struct BlockRow {
    pub first: u16,
    pub count: u16,
}

/// Expression kinds by their numbers in the image.
#[derive(Debug, Clone, Copy, PartialEq, Eq, Hash)]
pub enum ExprKind {
    Host = 0,
    Unit = 1,
    False = 2,
    True = 3,
}

#[derive(Debug, Clone, Copy, PartialEq, Eq, Default)]
pub struct ExpressionRow {
    pub kind: u8,
    pub position: Position,
    pub code: u16,
}

impl ExpressionRow {
    /// The kind of a row that passed the check.
    pub fn checked_kind(&self) -> ExprKind {
        match self.kind {
            0 => ExprKind::Host,
            1 => ExprKind::Unit,
            2 => ExprKind::False,
            _ => ExprKind::True,
        }
    }
}

#[derive(Debug, Clone, Copy, PartialEq, Eq, Default)]
pub struct StatementRow {
    pub kind: u8,
    pub flags: u8,
    pub position: Position,
    pub e: u16,
    pub p: u16,
    pub q: u16,
    pub name_offset: u16,
    pub name_length: u16,
    pub r: u16,
    pub t: u16,
}

impl StatementRow {
    pub fn has_flag(&self, flag: u8) -> bool {
        self.flags & flag != 0
    }

    /// The expression, if there is one.
    pub fn expression(&self) -> Option<u16> {
        (self.e != ABSENT).then_some(self.e)
    }

    /// The name, if there is one.
    pub fn name(&self) -> Option<Place> {
        place_of(self.name_offset, self.name_length)
    }

    /// The second name, which only For has.
    pub fn second_name(&self) -> Option<Place> {
        place_of(self.r, self.t)
    }
}

fn place_of(offset: u16, length: u16) -> Option<Place> {
    (length != 0).then(|| Place::rule(offset.into(), length.into()))
}

/// A rule image that passed the check: its tables, taken apart.
#[derive(Debug, Clone, PartialEq, Eq, Default)]
pub struct Image {
    pub blocks: Vec<BlockRow>,
    pub statements: Vec<StatementRow>,
    pub expressions: Vec<ExpressionRow>,
    pub text: Vec<u8>,
}

impl Image {
    /// The statement rows of a block by number; none for an absent block.
    pub fn block(&self, number: u16) -> &[StatementRow] {
        if number == ABSENT {
            return &[];
        }
        let row = self.blocks[usize::from(number)];
        let first = usize::from(row.first);
        &self.statements[first..first + usize::from(row.count)]
    }

    /// Take the tables apart; the header's counts must agree with the length.
    pub fn from_bytes(bytes: &[u8]) -> Self {
        let count = |i: usize| usize::from(read_u16(bytes, 6 + 2 * i));
        let (b, s, e) = (count(0), count(1), count(2));
        let statements_at = HEADER_SIZE + BLOCK_SIZE * b;
        let expressions_at = statements_at + STATEMENT_SIZE * s;
        let text_at = expressions_at + EXPRESSION_SIZE * e;
        Self {
            blocks: (0..b)
                .map(|i| read_block(&bytes[HEADER_SIZE + BLOCK_SIZE * i..]))
                .collect(),
            statements: (0..s)
                .map(|i| read_statement(&bytes[statements_at + STATEMENT_SIZE * i..]))
                .collect(),
            expressions: (0..e)
                .map(|i| read_expression(&bytes[expressions_at + EXPRESSION_SIZE * i..]))
                .collect(),
            text: bytes[text_at..].to_vec(),
        }
    }

    pub fn to_bytes(&self) -> Vec<u8> {
        let mut out = b"RHS".to_vec();
        push_u16(&mut out, 1);
        out.push(0);
        push_u16(&mut out, self.blocks.len() as u16);
        push_u16(&mut out, self.statements.len() as u16);
        push_u16(&mut out, self.expressions.len() as u16);
        push_u16(&mut out, self.text.len() as u16);
        for block in &self.blocks {
            push_u16(&mut out, block.first);
            push_u16(&mut out, block.count);
        }
        for statement in &self.statements {
            write_statement(&mut out, statement);
        }
        for expression in &self.expressions {
            write_expression(&mut out, expression);
        }
        out.extend_from_slice(&self.text);
        out
    }
}

pub fn read_u16(bytes: &[u8], at: usize) -> u16 {
    u16::from_le_bytes([bytes[at], bytes[at + 1]])
}

fn push_u16(out: &mut Vec<u8>, value: u16) {
    out.extend_from_slice(&value.to_le_bytes());
}

fn read_block(row: &[u8]) -> BlockRow {
    BlockRow {
        first: read_u16(row, 0),
        count: read_u16(row, 2),
    }
}

fn read_statement(row: &[u8]) -> StatementRow {
    let field = |i: usize| read_u16(row, 2 + 2 * i);
    StatementRow {
        kind: row[0],
        flags: row[1],
        position: Position::new(field(0), field(1)),
        e: field(2),
        p: field(3),
        q: field(4),
        name_offset: field(5),
        name_length: field(6),
        r: field(7),
        t: field(8),
    }
}

fn read_expression(row: &[u8]) -> ExpressionRow {
    ExpressionRow {
        kind: row[0],
        position: Position::new(read_u16(row, 2), read_u16(row, 4)),
        code: read_u16(row, 6),
    }
}

fn write_statement(out: &mut Vec<u8>, row: &StatementRow) {
    out.push(row.kind);
    out.push(row.flags);
    for field in [
        row.position.line,
        row.position.column,
        row.e,
        row.p,
        row.q,
        row.name_offset,
        row.name_length,
        row.r,
        row.t,
    ] {
        push_u16(out, field);
    }
}

fn write_expression(out: &mut Vec<u8>, row: &ExpressionRow) {
    out.push(row.kind);
    out.push(0);
    push_u16(out, row.position.line);
    push_u16(out, row.position.column);
    push_u16(out, row.code);
}
