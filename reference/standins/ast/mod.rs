//! Syntax trees: the original statements, and stand-ins for the rest.

mod expr;
mod flags;
mod stmt;

pub use expr::{BinaryExpr, Evaluation, Expr, FnCallExpr, Variable, Wanted};
pub use flags::ASTFlags;
pub use stmt::{FlowControl, OpAssignment, Stmt, StmtBlock, SwitchCasesCollection};

/// A node of the tree, as walks over it see it.
#[derive(Debug)]
pub enum ASTNode<'a> {
    Stmt(&'a Stmt),
    Expr(&'a Expr),
}

impl<'a> From<&'a Stmt> for ASTNode<'a> {
    fn from(stmt: &'a Stmt) -> Self {
        Self::Stmt(stmt)
    }
}

impl<'a> From<&'a Expr> for ASTNode<'a> {
    fn from(expr: &'a Expr) -> Self {
        Self::Expr(expr)
    }
}
