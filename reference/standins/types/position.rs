//! Stand-in for positions in a script: line and column, both 0 for none.

use std::fmt;

#[derive(Clone, Copy, Debug, Eq, PartialEq, Hash)]
pub struct Position {
    line: u16,
    column: u16,
}

impl Position {
    pub const NONE: Self = Self { line: 0, column: 0 };

    pub const fn new(line: u16, column: u16) -> Self {
        Self { line, column }
    }
    pub const fn is_none(self) -> bool {
        self.line == 0 && self.column == 0
    }
    pub const fn line(self) -> u16 {
        self.line
    }
    pub const fn column(self) -> u16 {
        self.column
    }
    pub const fn or_else(self, other: Self) -> Self {
        if self.is_none() {
            other
        } else {
            self
        }
    }
}

impl fmt::Display for Position {
    fn fmt(&self, f: &mut fmt::Formatter<'_>) -> fmt::Result {
        write!(f, "line {}, position {}", self.line, self.column)
    }
}

impl From<rules::place::Position> for Position {
    fn from(position: rules::place::Position) -> Self {
        Self::new(position.line, position.column)
    }
}

impl From<Position> for rules::place::Position {
    fn from(position: Position) -> Self {
        Self::new(position.line, position.column)
    }
}

/// Where something begins and ends.
#[derive(Clone, Copy, Debug, Eq, PartialEq, Hash)]
pub struct Span {
    start: Position,
    end: Position,
}

impl Span {
    pub const fn new(start: Position, end: Position) -> Self {
        Self { start, end }
    }
    pub const fn is_none(&self) -> bool {
        self.start.is_none() && self.end.is_none()
    }
    pub const fn start(&self) -> Position {
        self.start
    }
    pub const fn end(&self) -> Position {
        self.end
    }
}

impl Default for Span {
    fn default() -> Self {
        Self::new(Position::NONE, Position::NONE)
    }
}
