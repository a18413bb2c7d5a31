//! What can be seen to happen in a run. Cases for the recorded list are chosen by it.

use crate::value::Value;
use std::collections::BTreeSet;

/// The sorts of events. What the two numbers of an event say depends on its sort.
#[derive(Debug, Clone, Copy, PartialEq, Eq, PartialOrd, Ord, Hash)]
pub enum Sort {
    /// A statement began: kind, flags that it reads; plus 16 in an inner block.
    Statement,
    /// An expression was evaluated: kind of statement, kind of expression.
    Expression,
    /// The host evaluated: kind of statement, sort of answer; plus 8 if it appended names.
    Evaluated,
    /// The host was asked for a new variable: sort of answer, what it was asked and did.
    Allowed,
    /// A fault arose: number, kind of statement; plus 32 if its position is none.
    Fault,
    /// A fault with a position of its own arose: number, kind of statement.
    OwnPosition,
    /// The operation limit struck: the sort of charge, kind of statement.
    Struck,
    /// The variable limit struck: 1 for the first time it is met and 2 for the second, kind.
    Limit,
    /// A row was looked for: how, and what was found.
    Found,
    /// An operator was called: its number, at most 10; sort of answer, plus 4 if it is binary's.
    Operated,
    /// An inner block ended: how, and what it put back.
    BlockEnd,
    /// A loop ended: kind, how.
    LoopEnd,
    /// A fault was caught: number; 1 if named, plus 2 if the catch block is empty.
    Caught,
    /// Something passed a try block uncaught: how it ended.
    Passed,
    /// A catch block ended: how, and the number of the first fault.
    CatchEnd,
    /// A path was resolved: sort of answer; 1 if named, plus 2 with two tables.
    Resolved,
    /// A block 0 ended with a value: kind of its last statement, sort of value.
    Value,
    /// A For loop came to an item: its index, at most 3, plus 4 with a counter; what it is, with
    /// what fault, and whether the body is empty.
    Item,
    /// A run ended: how; how many names were there at its start, at most 3.
    Run,
}

/// A value by its sort.
pub fn sort_of(value: &Value) -> u32 {
    match value {
        Value::Unit => 0,
        Value::Truth(_) => 1,
        Value::Number(_) => 2,
        Value::Range(..) | Value::Sequence(_) => 3,
    }
}

#[derive(Debug, Clone, Copy, PartialEq, Eq, PartialOrd, Ord, Hash)]
pub struct Event(pub Sort, pub u32, pub u32);

/// The events of a case, and which came right after which, if they are wanted.
#[derive(Debug, Default)]
pub struct Events {
    wanted: bool,
    last: Option<Event>,
    pub single: BTreeSet<Event>,
    pub pairs: BTreeSet<(Event, Event)>,
}

impl Events {
    pub fn wanted() -> Self {
        Self {
            wanted: true,
            ..Self::default()
        }
    }

    pub fn see(&mut self, sort: Sort, a: u32, b: u32) {
        if !self.wanted {
            return;
        }
        let event = Event(sort, a, b);
        self.single.insert(event);
        if let Some(last) = self.last.replace(event) {
            self.pairs.insert((last, event));
        }
    }
}
