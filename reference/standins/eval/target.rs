//! Stand-in for the targets of assignments: the rows of variables.

use crate::{Dynamic, Position, RhaiResultOf};

pub enum Target<'a> {
    RefMut(&'a mut Dynamic),
    /// Never made: a search ends with a row or a fault.
    TempValue(Dynamic),
}

impl Target<'_> {
    pub fn is_ref(&self) -> bool {
        matches!(self, Self::RefMut(_))
    }
    pub fn propagate_changed_value(&mut self, _: Position) -> RhaiResultOf<()> {
        Ok(())
    }
}

impl AsRef<Dynamic> for Target<'_> {
    fn as_ref(&self) -> &Dynamic {
        match self {
            Self::RefMut(value) => value,
            Self::TempValue(value) => value,
        }
    }
}

impl AsMut<Dynamic> for Target<'_> {
    fn as_mut(&mut self) -> &mut Dynamic {
        match self {
            Self::RefMut(value) => value,
            Self::TempValue(value) => value,
        }
    }
}
