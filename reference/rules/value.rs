//! Values of all hosts.

use crate::text::{Line, ParseError};
use std::fmt;

/// A value of any of the three hosts. Which of these a host has is the host's affair; unit, truths
/// and numbers look alike in all of them.
#[derive(Debug, Clone, Copy, PartialEq, Eq, Hash)]
pub enum Value {
    Unit,
    Truth(bool),
    Number(i64),
    /// From the first number up to the one before the second.
    Range(i64, i64),
    /// One of the sequences of a scripted host; its number says what its items are.
    Sequence(u16),
}

impl Value {
    /// The value as a path: a number of 32 bits without sign.
    pub fn as_path(self) -> Option<u32> {
        match self {
            Self::Number(n) => u32::try_from(n).ok(),
            _ => None,
        }
    }

    pub fn as_truth(self) -> Option<bool> {
        match self {
            Self::Truth(b) => Some(b),
            _ => None,
        }
    }

    pub fn parse(line: &mut Line) -> Result<Self, ParseError> {
        match line.word()? {
            "unit" => Ok(Self::Unit),
            "false" => Ok(Self::Truth(false)),
            "true" => Ok(Self::Truth(true)),
            "int" => Ok(Self::Number(line.number()?)),
            "range" => Ok(Self::Range(line.number()?, line.number()?)),
            "seq" => Ok(Self::Sequence(line.number()?)),
            other => Err(line.error(&format!("no kind of value: {other}"))),
        }
    }
}

impl fmt::Display for Value {
    fn fmt(&self, f: &mut fmt::Formatter<'_>) -> fmt::Result {
        match self {
            Self::Unit => f.write_str("unit"),
            Self::Truth(b) => write!(f, "{b}"),
            Self::Number(n) => write!(f, "int {n}"),
            Self::Range(a, b) => write!(f, "range {a} {b}"),
            Self::Sequence(k) => write!(f, "seq {k}"),
        }
    }
}
