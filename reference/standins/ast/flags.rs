//! Stand-in for the flags of statements.

#[derive(Clone, Copy, Debug, Default, Eq, PartialEq, Hash)]
pub struct ASTFlags(u8);

impl ASTFlags {
    pub const NONE: Self = Self(0);
    pub const CONSTANT: Self = Self(1);
    pub const EXPORTED: Self = Self(2);
    pub const NEGATED: Self = Self(4);
    pub const BREAK: Self = Self(8);

    pub const fn empty() -> Self {
        Self::NONE
    }
    pub const fn contains(self, other: Self) -> bool {
        self.0 & other.0 == other.0
    }
    /// This flag if the condition holds, else none.
    pub const fn when(self, condition: bool) -> Self {
        if condition {
            self
        } else {
            Self::NONE
        }
    }
}
