//! Statements of the original from the rows of an image.

use super::values::name_at;
use crate::ast::{
    ASTFlags, BinaryExpr, Evaluation, Expr, FlowControl, OpAssignment, Stmt, StmtBlock, Variable,
    Wanted,
};
use crate::engine::Engine;
use crate::types::{Ident, Token};
use crate::{ImmutableString, Position};
use rules::image::{ExprKind, Image, Kind, StatementRow, FLAG_BREAK, FLAG_CONSTANT, FLAG_NEGATED};
use rules::place::Place;
use std::num::NonZeroUsize;

/// The statements of a block by number.
pub fn statements(engine: &Engine, image: &Image, block: u16) -> Vec<Stmt> {
    let tree = Tree { engine, image };
    tree.statements(block)
}

struct Tree<'a> {
    engine: &'a Engine,
    image: &'a Image,
}

impl Tree<'_> {
    fn statements(&self, block: u16) -> Vec<Stmt> {
        let rows = self.image.block(block).iter();
        rows.map(|row| self.statement(row)).collect()
    }

    /// A block; its statement's position serves for it.
    fn block(&self, block: u16, row: &StatementRow) -> StmtBlock {
        let pos = row.position.into();
        StmtBlock::new(self.statements(block), pos, pos)
    }

    fn expression(&self, number: u16, wanted: Wanted, start: Option<Position>) -> Expr {
        let row = &self.image.expressions[usize::from(number)];
        let position = row.position.into();
        let at = Evaluation {
            start: start.unwrap_or(position),
            position,
            wanted,
        };
        match row.checked_kind() {
            ExprKind::Host => Expr::Host(row.code, at),
            ExprKind::Unit => Expr::Unit(at),
            ExprKind::False => Expr::BoolConstant(false, at),
            ExprKind::True => Expr::BoolConstant(true, at),
        }
    }

    /// The expression of any statement but an expression statement: it starts at its position.
    fn e(&self, row: &StatementRow, wanted: Wanted) -> Expr {
        self.expression(row.e, wanted, None)
    }

    fn optional_e(&self, row: &StatementRow) -> Option<Box<Expr>> {
        let number = row.expression()?;
        Some(self.expression(number, Wanted::Value, None).into())
    }

    fn string(&self, place: Place) -> ImmutableString {
        name_at(self.engine, place).into()
    }

    fn ident(&self, place: Place, pos: Position) -> Ident {
        let name = self.string(place);
        Ident { name, pos }
    }

    fn variable(&self, row: &StatementRow, index: Option<NonZeroUsize>) -> Expr {
        let place = row.name().expect("checked");
        let variable = Variable(index, self.string(place), place.to_string());
        Expr::Variable(variable.into(), row.position.into())
    }

    fn statement(&self, row: &StatementRow) -> Stmt {
        let pos: Position = row.position.into();
        match Kind::from_number(row.kind).expect("checked") {
            Kind::Noop => Stmt::Noop(pos),
            Kind::Expr => Stmt::Expr(self.expression(row.e, Wanted::Value, Some(pos)).into()),
            Kind::Block => Stmt::Block(self.block(row.p, row).into()),
            Kind::Assignment => self.assignment(row),
            Kind::Var => self.var(row),
            Kind::If => {
                let flow = self.flow(self.e(row, Wanted::Value), row.p, row.q, row);
                Stmt::If(flow.into(), pos)
            }
            Kind::While => Stmt::While(self.loop_flow(row, Wanted::Value).into(), pos),
            Kind::Do => {
                let flags = ASTFlags::NEGATED.when(row.has_flag(FLAG_NEGATED));
                Stmt::Do(self.loop_flow(row, Wanted::Value).into(), flags, pos)
            }
            Kind::For => self.for_loop(row),
            Kind::BreakLoop => Stmt::BreakLoop(self.optional_e(row), break_flag(row), pos),
            Kind::TryCatch => self.try_catch(row),
            Kind::Return => Stmt::Return(self.optional_e(row), break_flag(row), pos),
            Kind::Import => {
                let name = match row.name() {
                    Some(place) => self.string(place),
                    None => ImmutableString::new(),
                };
                Stmt::Import((self.e(row, Wanted::Path), Ident { name, pos }).into(), pos)
            }
        }
    }

    fn flow(&self, expr: Expr, body: u16, branch: u16, row: &StatementRow) -> FlowControl {
        FlowControl {
            expr,
            body: self.block(body, row),
            branch: self.block(branch, row),
        }
    }

    fn loop_flow(&self, row: &StatementRow, wanted: Wanted) -> FlowControl {
        FlowControl {
            expr: self.e(row, wanted),
            body: self.block(row.p, row),
            branch: StmtBlock::NONE,
        }
    }

    fn assignment(&self, row: &StatementRow) -> Stmt {
        let pos = row.position.into();
        let operator = match row.q {
            0 => OpAssignment::new_assignment(pos),
            q => OpAssignment::new_op_assignment_from_token(Token::OpAssignment(q), pos),
        };
        let sides = BinaryExpr {
            lhs: self.variable(row, index_of(row)),
            rhs: self.e(row, Wanted::Value),
        };
        Stmt::Assignment((operator, sides).into())
    }

    fn var(&self, row: &StatementRow) -> Stmt {
        let pos = row.position.into();
        let name = self.ident(row.name().expect("checked"), pos);
        let flags = ASTFlags::CONSTANT.when(row.has_flag(FLAG_CONSTANT));
        let parts = (name, self.e(row, Wanted::Value), index_of(row));
        Stmt::Var(parts.into(), flags, pos)
    }

    fn for_loop(&self, row: &StatementRow) -> Stmt {
        let pos = row.position.into();
        let name = self.ident(row.name().expect("checked"), pos);
        let counter = row.second_name().map(|place| self.ident(place, pos));
        Stmt::For(
            (name, counter, self.loop_flow(row, Wanted::Items)).into(),
            pos,
        )
    }

    fn try_catch(&self, row: &StatementRow) -> Stmt {
        let pos = row.position.into();
        let catch_var = match row.name() {
            Some(_) => self.variable(row, None),
            None => Expr::Unit(Evaluation {
                start: pos,
                position: pos,
                wanted: Wanted::Value,
            }),
        };
        Stmt::TryCatch(self.flow(catch_var, row.p, row.q, row).into(), pos)
    }
}

fn index_of(row: &StatementRow) -> Option<NonZeroUsize> {
    NonZeroUsize::new(usize::from(row.r))
}

fn break_flag(row: &StatementRow) -> ASTFlags {
    ASTFlags::BREAK.when(row.has_flag(FLAG_BREAK))
}
