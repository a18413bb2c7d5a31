//! The site host: unit, truths, numbers and ranges, and a table of expressions.

use crate::host::{Allowed, Evaluated, Fault, Host, Item, Operated, Question, World};
use crate::place::{Place, Position};
use crate::text::{Line, ParseError};
use crate::value::Value;
use std::fmt;

const OVERFLOW: u16 = 1;
const UNKNOWN_VARIABLE: u16 = 2;
const WRONG_KIND: u16 = 3;
const CODE_PAST_TABLE: u16 = 4;

const PLUS: u16 = 1;
const MINUS: u16 = 2;

#[derive(Debug, Clone, Copy, PartialEq, Eq)]
pub enum Operand {
    Constant(Value),
    Variable(Place),
}

#[derive(Debug, Clone, Copy, PartialEq, Eq)]
pub enum Operator {
    Add,
    Subtract,
    Less,
    Equal,
    Range,
}

#[derive(Debug, Clone, Copy, PartialEq, Eq)]
pub enum Expression {
    Single(Operand),
    Binary(Operator, Operand, Operand),
}

/// The expression of each code.
pub type Table = Vec<Expression>;

pub struct SiteHost {
    table: Table,
}

impl SiteHost {
    pub fn new(table: Table) -> Self {
        Self { table }
    }
}

fn fault(code: u16) -> Fault {
    Fault {
        code,
        position: Position::NONE,
        catchable: true,
    }
}

impl Host for SiteHost {
    fn evaluate(&mut self, code: u16, world: &mut World) -> Evaluated {
        let result = match self.table.get(usize::from(code)) {
            None => Err(fault(CODE_PAST_TABLE)),
            Some(Expression::Single(operand)) => look_up(operand, world),
            Some(Expression::Binary(operator, left, right)) => look_up(left, world).and_then(|a| {
                let b = look_up(right, world)?;
                combine(*operator, a, b)
            }),
        };
        result.map_or_else(Evaluated::Fault, Evaluated::Value)
    }

    fn allow(&mut self, _: &Question, _: &mut World) -> Allowed {
        Allowed::Yes
    }

    fn apply(&self, operator: u16, left: Value, right: Value) -> Operated {
        match operator {
            PLUS => operated(combine(Operator::Add, left, right)),
            _ => Operated::NotFound,
        }
    }

    fn binary(&self, operator: u16, left: Value, right: Value) -> Operated {
        match operator {
            PLUS => operated(combine(Operator::Add, left, right)),
            MINUS => operated(combine(Operator::Subtract, left, right)),
            _ => Operated::NotFound,
        }
    }

    fn item(&self, value: Value, index: u64) -> Item {
        match value {
            Value::Range(first, end) => super::range_item(first, end, index),
            _ => Item::NotIterable,
        }
    }
}

fn look_up(operand: &Operand, world: &World) -> Result<Value, Fault> {
    match operand {
        Operand::Constant(value) => Ok(*value),
        Operand::Variable(place) => world
            .find(*place)
            .map(|row| row.value)
            .ok_or(fault(UNKNOWN_VARIABLE)),
    }
}

fn combine(operator: Operator, left: Value, right: Value) -> Result<Value, Fault> {
    if operator == Operator::Equal {
        return equal(left, right);
    }
    let (Value::Number(a), Value::Number(b)) = (left, right) else {
        return Err(fault(WRONG_KIND));
    };
    let number = |n: Option<i64>| n.map(Value::Number).ok_or(fault(OVERFLOW));
    match operator {
        Operator::Add => number(a.checked_add(b)),
        Operator::Subtract => number(a.checked_sub(b)),
        Operator::Less => Ok(Value::Truth(a < b)),
        Operator::Equal | Operator::Range => Ok(Value::Range(a, b)),
    }
}

fn equal(left: Value, right: Value) -> Result<Value, Fault> {
    if std::mem::discriminant(&left) == std::mem::discriminant(&right) {
        Ok(Value::Truth(left == right))
    } else {
        Err(fault(WRONG_KIND))
    }
}

fn operated(result: Result<Value, Fault>) -> Operated {
    result.map_or_else(Operated::Fault, Operated::Value)
}

const OPERATORS: [(Operator, &str); 5] = [
    (Operator::Add, "add"),
    (Operator::Subtract, "sub"),
    (Operator::Less, "less"),
    (Operator::Equal, "equal"),
    (Operator::Range, "span"),
];

impl fmt::Display for Operand {
    fn fmt(&self, f: &mut fmt::Formatter<'_>) -> fmt::Result {
        match self {
            Self::Constant(value) => write!(f, "const {value}"),
            Self::Variable(place) => write!(f, "var {place}"),
        }
    }
}

impl Operand {
    fn parse(line: &mut Line) -> Result<Self, ParseError> {
        let word = line.word()?;
        Self::parse_after(word, line)
    }

    fn parse_after(word: &str, line: &mut Line) -> Result<Self, ParseError> {
        match word {
            "const" => Ok(Self::Constant(Value::parse(line)?)),
            "var" => Ok(Self::Variable(Place::parse(line)?)),
            other => Err(line.error(&format!("no operand: {other}"))),
        }
    }
}

/// The words after `code`.
pub fn parse_expression(line: &mut Line) -> Result<Expression, ParseError> {
    let word = line.word()?;
    match OPERATORS.iter().find(|(_, name)| *name == word) {
        Some((operator, _)) => Ok(Expression::Binary(
            *operator,
            Operand::parse(line)?,
            Operand::parse(line)?,
        )),
        None => Operand::parse_after(word, line).map(Expression::Single),
    }
}

pub fn lines(table: &Table) -> Vec<String> {
    let mut lines = vec!["host site".to_string()];
    lines.extend(table.iter().map(|expression| match expression {
        Expression::Single(operand) => format!("code {operand}"),
        Expression::Binary(operator, left, right) => {
            let name = OPERATORS.iter().find(|(o, _)| o == operator);
            format!("code {} {left} {right}", name.map_or("?", |(_, n)| *n))
        }
    }));
    lines
}
