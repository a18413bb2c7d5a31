//! The list host: evaluates to the next entry of a lent list.

use crate::host::{Allowed, Evaluated, Fault, Host, Item, Operated, Question, World};
use crate::place::Position;
use crate::text::{Line, ParseError};
use crate::value::Value;

const USED_UP: u16 = 1;

#[derive(Debug, Clone, Copy, PartialEq, Eq)]
pub enum Entry {
    Value(Value),
    Exit(Value),
}

pub struct ListHost {
    entries: Vec<Entry>,
    next: usize,
}

impl ListHost {
    pub fn new(entries: Vec<Entry>) -> Self {
        Self { entries, next: 0 }
    }
}

impl Host for ListHost {
    fn evaluate(&mut self, _code: u16, _world: &mut World) -> Evaluated {
        let Some(entry) = self.entries.get(self.next) else {
            return Evaluated::Fault(Fault {
                code: USED_UP,
                position: Position::NONE,
                catchable: false,
            });
        };
        self.next += 1;
        match *entry {
            Entry::Value(value) => Evaluated::Value(value),
            Entry::Exit(value) => Evaluated::Exit(value),
        }
    }

    fn allow(&mut self, question: &Question, _: &mut World) -> Allowed {
        if question.present {
            Allowed::No
        } else {
            Allowed::Yes
        }
    }

    fn apply(&self, _: u16, _: Value, _: Value) -> Operated {
        Operated::NotFound
    }

    fn binary(&self, _: u16, _: Value, _: Value) -> Operated {
        Operated::NotFound
    }

    fn item(&self, _: Value, _: u64) -> Item {
        Item::NotIterable
    }
}

/// A value of the list host: unit, a truth, or a number that 32 bits hold once 3 is added.
pub fn is_list_value(value: Value) -> bool {
    match value {
        Value::Unit | Value::Truth(_) => true,
        Value::Number(n) => (0..=i64::from(u32::MAX) - 3).contains(&n),
        _ => false,
    }
}

/// The words after `entry`.
pub fn parse_entry(line: &mut Line) -> Result<Entry, ParseError> {
    let word = line.word()?;
    let value = Value::parse(line)?;
    if !is_list_value(value) {
        return Err(line.error("no value of the list host"));
    }
    match word {
        "value" => Ok(Entry::Value(value)),
        "exit" => Ok(Entry::Exit(value)),
        other => Err(line.error(&format!("neither value nor exit: {other}"))),
    }
}

pub fn lines(entries: &[Entry]) -> Vec<String> {
    let mut lines = vec!["host list".to_string()];
    lines.extend(entries.iter().map(|entry| match entry {
        Entry::Value(value) => format!("entry value {value}"),
        Entry::Exit(value) => format!("entry exit {value}"),
    }));
    lines
}
