//! Places of names in the two texts, and positions in the script.

use crate::text::{Line, ParseError};
use std::fmt;

/// The two texts that names are parts of.
#[derive(Debug, Clone, Copy, PartialEq, Eq, Hash)]
pub enum Source {
    Rule,
    Site,
}

/// Where a name stands.
#[derive(Debug, Clone, Copy, PartialEq, Eq, Hash)]
pub struct Place {
    pub source: Source,
    pub offset: u32,
    pub length: u32,
}

impl Place {
    /// No name, and the place of a blank row.
    pub const NONE: Self = Self {
        source: Source::Rule,
        offset: 0,
        length: 0,
    };

    pub fn rule(offset: u32, length: u32) -> Self {
        Self {
            source: Source::Rule,
            offset,
            length,
        }
    }

    pub fn site(offset: u32, length: u32) -> Self {
        Self {
            source: Source::Site,
            offset,
            length,
        }
    }

    pub fn parse(line: &mut Line) -> Result<Self, ParseError> {
        let source = if line.flag()? {
            Source::Site
        } else {
            Source::Rule
        };
        Ok(Self {
            source,
            offset: line.number()?,
            length: line.number()?,
        })
    }
}

impl fmt::Display for Place {
    fn fmt(&self, f: &mut fmt::Formatter<'_>) -> fmt::Result {
        let source = u8::from(self.source == Source::Site);
        write!(f, "{source} {} {}", self.offset, self.length)
    }
}

/// The rule's text and the site's.
#[derive(Debug, Clone, Copy)]
pub struct Texts<'a> {
    pub rule: &'a [u8],
    pub site: &'a [u8],
}

impl<'a> Texts<'a> {
    /// The bytes at a place. A place that does not fit reads as empty.
    pub fn bytes(&self, place: Place) -> &'a [u8] {
        let text = match place.source {
            Source::Rule => self.rule,
            Source::Site => self.site,
        };
        let start = place.offset as usize;
        let end = start + place.length as usize;
        text.get(start..end).unwrap_or(&[])
    }
}

/// Line and column; 0 and 0 is no position.
#[derive(Debug, Clone, Copy, PartialEq, Eq, Hash, Default)]
pub struct Position {
    pub line: u16,
    pub column: u16,
}

impl Position {
    pub const NONE: Self = Self { line: 0, column: 0 };

    pub fn new(line: u16, column: u16) -> Self {
        Self { line, column }
    }

    pub fn is_none(self) -> bool {
        self == Self::NONE
    }

    /// This position, or the other one if this is none.
    pub fn or(self, other: Self) -> Self {
        if self.is_none() {
            other
        } else {
            self
        }
    }

    pub fn parse(line: &mut Line) -> Result<Self, ParseError> {
        Ok(Self::new(line.number()?, line.number()?))
    }
}

impl fmt::Display for Position {
    fn fmt(&self, f: &mut fmt::Formatter<'_>) -> fmt::Result {
        write!(f, "{} {}", self.line, self.column)
    }
}
