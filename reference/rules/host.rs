//! What a host is: who evaluates expressions and answers questions on values.

use crate::place::{Place, Position, Texts};
use crate::text::{Line, ParseError};
use crate::value::Value;
use std::cell::RefCell;
use std::fmt;
use std::rc::Rc;

/// A fault of a host or a resolver.
#[derive(Debug, Clone, Copy, PartialEq, Eq, Hash)]
pub struct Fault {
    pub code: u16,
    /// None if the fault has no position of its own.
    pub position: Position,
    pub catchable: bool,
}

impl Fault {
    pub fn parse(line: &mut Line) -> Result<Self, ParseError> {
        Ok(Self {
            code: line.number()?,
            position: Position::parse(line)?,
            catchable: line.flag()?,
        })
    }
}

impl fmt::Display for Fault {
    fn fmt(&self, f: &mut fmt::Formatter<'_>) -> fmt::Result {
        let catchable = u8::from(self.catchable);
        write!(f, "fault {} {} {catchable}", self.code, self.position)
    }
}

/// A variable row.
#[derive(Debug, Clone, Copy, PartialEq, Eq)]
pub struct Row {
    pub place: Place,
    pub constant: bool,
    pub value: Value,
}

/// What a host sees of a run, and what it may change: values of rows, and new names at the end.
pub struct World<'a> {
    pub rows: &'a mut Vec<Row>,
    pub texts: Texts<'a>,
    pub mark: bool,
    /// The variable limit.
    pub limit: usize,
}

impl World<'_> {
    /// Append a read-write name, unless the limit is reached.
    pub fn append(&mut self, place: Place, value: Value) {
        if self.rows.len() < self.limit {
            self.rows.push(Row {
                place,
                constant: false,
                value,
            });
        }
    }

    /// The row that counts `back` from the last, which is 1.
    pub fn row_from_last(&mut self, back: usize) -> Option<&mut Row> {
        let at = self.rows.len().checked_sub(back)?;
        self.rows.get_mut(at)
    }

    /// The last row whose name has the bytes at a place.
    pub fn find(&self, place: Place) -> Option<&Row> {
        let name = self.texts.bytes(place);
        self.rows
            .iter()
            .rev()
            .find(|row| self.texts.bytes(row.place) == name)
    }
}

#[derive(Debug, Clone, Copy, PartialEq, Eq)]
pub enum Evaluated {
    Value(Value),
    Fault(Fault),
    Exit(Value),
}

#[derive(Debug, Clone, Copy, PartialEq, Eq)]
pub enum Allowed {
    Yes,
    No,
    Fault(Fault),
}

#[derive(Debug, Clone, Copy, PartialEq, Eq)]
pub enum Operated {
    Value(Value),
    NotFound,
    Fault(Fault),
}

#[derive(Debug, Clone, Copy, PartialEq, Eq)]
pub enum Item {
    Value(Value),
    Fault(Fault),
    End,
    NotIterable,
}

/// What is asked about a new variable.
#[derive(Debug, Clone, Copy)]
pub struct Question {
    pub name: Place,
    pub constant: bool,
    pub level: usize,
    pub present: bool,
}

pub trait Host {
    fn evaluate(&mut self, code: u16, world: &mut World) -> Evaluated;
    fn allow(&mut self, question: &Question, world: &mut World) -> Allowed;
    fn apply(&self, operator: u16, left: Value, right: Value) -> Operated;
    fn binary(&self, operator: u16, left: Value, right: Value) -> Operated;
    fn item(&self, value: Value, index: u64) -> Item;

    fn truth(&self, value: Value) -> Option<bool> {
        value.as_truth()
    }

    fn path(&self, value: Value) -> Option<u32> {
        value.as_path()
    }

    /// The value of a caught fault, by the fault's number.
    fn caught(&self, number: u8) -> Value {
        Value::Number(number.into())
    }
}

/// A host that the session and the iterators of the original share.
pub type SharedHost = Rc<RefCell<Box<dyn Host>>>;
