//! Stand-in for expressions: what the host evaluates, three constants, and variables as targets.

use super::{ASTNode, StmtBlock};
use crate::{FnArgsVec, ImmutableString, Position};
use std::num::NonZeroUsize;

/// What the statement needs the value as. The original asks a `Dynamic` for a string or for an
/// iterator of its type; the host's values have neither, so evaluation makes them fit.
#[derive(Clone, Copy, Debug, Eq, PartialEq, Hash)]
pub enum Wanted {
    Value,
    Path,
    Items,
}

/// Where an expression stands, and what its value is wanted for.
#[derive(Clone, Copy, Debug, Hash)]
pub struct Evaluation {
    pub start: Position,
    pub position: Position,
    pub wanted: Wanted,
}

/// A variable as a target: its index from the last name, its name, and the place of the name as
/// text, which faults carry in place of the name.
#[derive(Clone, Debug, Hash)]
pub struct Variable(pub Option<NonZeroUsize>, pub ImmutableString, pub String);

#[derive(Clone, Debug, Hash)]
pub enum Expr {
    Unit(Evaluation),
    BoolConstant(bool, Evaluation),
    Host(u16, Evaluation),
    Variable(Box<Variable>, Position),
    /// Never made: `this`, blocks inside expressions and calls are left out.
    ThisPtr(Position),
    Stmt(Box<StmtBlock>),
    FnCall(Box<FnCallExpr>, Position),
}

impl Expr {
    pub fn position(&self) -> Position {
        match self {
            Self::Unit(at) | Self::BoolConstant(_, at) | Self::Host(_, at) => at.position,
            Self::Variable(_, pos) | Self::ThisPtr(pos) | Self::FnCall(_, pos) => *pos,
            Self::Stmt(block) => block.position(),
        }
    }
    pub fn start_position(&self) -> Position {
        match self {
            Self::Unit(at) | Self::BoolConstant(_, at) | Self::Host(_, at) => at.start,
            _ => self.position(),
        }
    }
    pub fn set_position(&mut self, new: Position) -> &mut Self {
        match self {
            Self::Unit(at) | Self::BoolConstant(_, at) | Self::Host(_, at) => at.position = new,
            Self::Variable(_, pos) | Self::ThisPtr(pos) | Self::FnCall(_, pos) => *pos = new,
            Self::Stmt(block) => block.set_position(new, Position::NONE),
        }
        self
    }
    pub fn is_unit(&self) -> bool {
        matches!(self, Self::Unit(..))
    }
    pub fn is_pure(&self) -> bool {
        !matches!(self, Self::Host(..))
    }
    pub fn get_variable_name(&self, _non_qualified: bool) -> Option<&str> {
        match self {
            Self::Variable(x, ..) => Some(&x.2),
            _ => None,
        }
    }
    pub fn walk<'a>(
        &'a self,
        path: &mut Vec<ASTNode<'a>>,
        on_node: &mut (impl FnMut(&[ASTNode]) -> bool + ?Sized),
    ) -> bool {
        path.push(self.into());
        let go_on = on_node(path);
        path.pop();
        go_on
    }
}

#[derive(Clone, Debug, Hash)]
pub struct BinaryExpr {
    pub lhs: Expr,
    pub rhs: Expr,
}

/// Never made: calls are left out.
#[derive(Clone, Debug, Hash)]
pub struct FnCallExpr {
    pub name: ImmutableString,
    pub args: FnArgsVec<Expr>,
}

impl FnCallExpr {
    pub fn is_qualified(&self) -> bool {
        false
    }
}
