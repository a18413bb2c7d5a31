//! Stand-in for tokens: assignment, and operators by number.

use std::cell::RefCell;
use std::collections::HashMap;
use std::fmt;

#[derive(Clone, Debug, Eq, PartialEq, Hash)]
pub enum Token {
    Equals,
    /// An operator with assignment, as `+=` would be.
    OpAssignment(u16),
    /// The operator without assignment, as `+` would be.
    Op(u16),
}

impl Token {
    pub fn get_base_op_from_assignment(&self) -> Option<Self> {
        match self {
            Self::OpAssignment(number) => Some(Self::Op(*number)),
            _ => None,
        }
    }
    pub fn convert_to_op_assignment(&self) -> Option<Self> {
        match self {
            Self::Op(number) => Some(Self::OpAssignment(*number)),
            _ => None,
        }
    }
    pub fn lookup_symbol_from_syntax(_: &str) -> Option<Self> {
        None
    }
    /// The spelling, which tells operators apart and lasts as long as the program.
    pub fn literal_syntax(&self) -> &'static str {
        match self {
            Self::Equals => crate::engine::OP_EQUALS,
            Self::OpAssignment(number) => lasting(format!("{number}=")),
            Self::Op(number) => lasting(format!("{number}")),
        }
    }
}

impl fmt::Display for Token {
    fn fmt(&self, f: &mut fmt::Formatter<'_>) -> fmt::Result {
        f.write_str(self.literal_syntax())
    }
}

/// One copy of each spelling that is never given up.
fn lasting(spelling: String) -> &'static str {
    thread_local! {
        static SPELLINGS: RefCell<HashMap<String, &'static str>> = RefCell::default();
    }
    SPELLINGS.with(|known| {
        *known
            .borrow_mut()
            .entry(spelling)
            .or_insert_with_key(|s| Box::leak(s.clone().into_boxed_str()))
    })
}
