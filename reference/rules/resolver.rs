//! Resolvers: from paths to modules.

use crate::host::Fault;
use std::fmt;

#[derive(Debug, Clone, Copy, PartialEq, Eq, Hash)]
pub enum Resolved {
    Module(u32),
    NotFound,
    Fault(Fault),
}

impl fmt::Display for Resolved {
    fn fmt(&self, f: &mut fmt::Formatter<'_>) -> fmt::Result {
        match self {
            Self::Module(module) => write!(f, "module {module}"),
            Self::NotFound => f.write_str("none"),
            Self::Fault(fault) => write!(f, "{fault}"),
        }
    }
}

/// Paths and answers; the first row with the path counts.
pub type Table = Vec<(u32, Resolved)>;

pub fn resolve_in(table: &Table, path: u32) -> Resolved {
    table
        .iter()
        .find(|row| row.0 == path)
        .map_or(Resolved::NotFound, |row| row.1)
}

/// A table, or a pair of tables: the second is asked for what the first does not find.
#[derive(Debug, Clone, PartialEq, Eq, Default)]
pub struct Resolver {
    pub first: Table,
    pub second: Option<Table>,
}

impl Resolver {
    pub fn resolve(&self, path: u32) -> Resolved {
        match (resolve_in(&self.first, path), &self.second) {
            (Resolved::NotFound, Some(second)) => resolve_in(second, path),
            (answer, _) => answer,
        }
    }
}
