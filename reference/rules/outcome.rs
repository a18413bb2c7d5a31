//! How a run ends.

use crate::host::Row;
use crate::place::{Place, Position};
use crate::value::Value;
use std::fmt;

/// What a fault carries besides number and position.
#[derive(Debug, Clone, Copy, PartialEq, Eq)]
pub enum Data {
    None,
    Name(Place),
    Operator(u16),
    Path(u32),
    Value(Value),
    Code(u16),
}

impl fmt::Display for Data {
    fn fmt(&self, f: &mut fmt::Formatter<'_>) -> fmt::Result {
        match self {
            Self::None => f.write_str("nothing"),
            Self::Name(place) => write!(f, "name {place}"),
            Self::Operator(number) => write!(f, "operator {number}"),
            Self::Path(path) => write!(f, "path {path}"),
            Self::Value(value) => write!(f, "value {value}"),
            Self::Code(code) => write!(f, "code {code}"),
        }
    }
}

#[derive(Debug, Clone, Copy, PartialEq, Eq)]
pub enum Ending {
    Value(Value),
    Fault {
        number: u8,
        data: Data,
        position: Position,
    },
    /// The program itself came to grief. Only the original does that.
    Panic,
}

#[derive(Debug, Clone, Copy, PartialEq, Eq)]
pub struct Import {
    pub place: Place,
    pub module: u32,
}

/// All that can be seen after a run.
#[derive(Debug, Clone, PartialEq, Eq)]
pub struct RunAnswer {
    pub ending: Ending,
    pub count: u64,
    pub names: Vec<Row>,
    pub imports: Vec<Import>,
}

impl RunAnswer {
    /// The lines of an answer, as a case file has them.
    pub fn lines(&self) -> Vec<String> {
        let count = self.count;
        let mut lines = vec![match &self.ending {
            Ending::Value(value) => format!("run value {count} {value}"),
            Ending::Fault {
                number,
                data,
                position,
            } => format!("run fault {number} {count} {position} {data}"),
            Ending::Panic => return vec!["run panic".to_string()],
        }];
        lines.push(format!("names {}", self.names.len()));
        for row in &self.names {
            let access = if row.constant { "const" } else { "rw" };
            lines.push(format!("name {} {access} {}", row.place, row.value));
        }
        lines.push(format!("imports {}", self.imports.len()));
        for import in &self.imports {
            lines.push(format!("import {} {}", import.place, import.module));
        }
        lines
    }
}
