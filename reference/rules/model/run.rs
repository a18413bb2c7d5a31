//! A run: charges, expressions, blocks and statements.

use super::{Difference, Model, Variant};
use crate::events::{sort_of, Events, Sort};
use crate::host::{Evaluated, Fault, Host, Row, World};
use crate::image::{
    ExprKind, ExpressionRow, Kind, StatementRow, FLAG_BREAK, FLAG_CONSTANT, FLAG_NEGATED,
};
use crate::outcome::{Data, Import};
use crate::place::Position;
use crate::session::Request;
use crate::value::Value;
use std::collections::BTreeSet;

#[derive(Debug, Clone, Copy)]
pub(super) struct Error {
    pub number: u8,
    pub data: Data,
    pub position: Position,
    pub catchable: bool,
}

/// Why a statement does not go on to the next one.
#[derive(Debug, Clone, Copy)]
pub(super) enum Stop {
    Error(Error),
    Exit(Value, Position),
    Return(Value),
    Break(Value),
    Continue,
    Panic,
}

pub(super) type Step<T> = Result<T, Stop>;

/// What is charged for.
#[derive(Clone, Copy)]
pub(super) enum Charge {
    Statement,
    Expression,
    Target,
    EmptyRound,
    EmptyItem,
}

/// How something ended, as a number: a fault by its own, the others by numbers below 12.
pub(super) fn how_ended<T>(result: &Step<T>) -> u32 {
    match result {
        Ok(_) => 0,
        Err(Stop::Return(_)) => 1,
        Err(Stop::Break(_)) => 2,
        Err(Stop::Continue) => 3,
        Err(Stop::Panic) => 4,
        Err(Stop::Exit(..)) => 26,
        Err(Stop::Error(error)) => error.number.into(),
    }
}

/// A run under way.
pub(super) struct Run<'a, 'r> {
    variant: Variant,
    pub noted: &'a mut BTreeSet<Difference>,
    events: &'a mut Events,
    /// The kind of the statement that runs.
    pub kind: Kind,
    pub request: &'a Request<'r>,
    pub names: Vec<Row>,
    pub imports: Vec<Import>,
    pub loaded: u64,
    pub count: u64,
    pub level: usize,
    pub mark: bool,
}

impl<'a, 'r> Run<'a, 'r> {
    /// A run at its start: nothing counted, no imports, the mark off.
    pub fn new(model: &'a mut Model, request: &'a Request<'r>, names: Vec<Row>) -> Self {
        Self {
            variant: model.variant,
            noted: &mut model.noted,
            events: &mut model.events,
            kind: Kind::Noop,
            request,
            names,
            imports: Vec::new(),
            loaded: 0,
            count: 0,
            level: 0,
            mark: false,
        }
    }

    pub(super) fn is_original(&self) -> bool {
        self.variant == Variant::Original
    }

    pub(super) fn see(&mut self, sort: Sort, a: u32, b: u32) {
        self.events.see(sort, a, b);
    }

    pub(super) fn fail<T>(&mut self, number: u8, data: Data, position: Position) -> Step<T> {
        let none = if position.is_none() { 32 } else { 0 };
        self.see(Sort::Fault, number.into(), self.kind as u32 + none);
        let catchable = !matches!(number, 12 | 14 | 18 | 21);
        Err(Stop::Error(Error {
            number,
            data,
            position,
            catchable,
        }))
    }

    pub(super) fn fail_by<T>(&mut self, number: u8, fault: Fault, otherwise: Position) -> Step<T> {
        let position = fault.position.or(otherwise);
        let none = if position.is_none() { 32 } else { 0 };
        self.see(Sort::Fault, number.into(), self.kind as u32 + none);
        if !fault.position.is_none() {
            self.see(Sort::OwnPosition, number.into(), self.kind as u32);
        }
        Err(Stop::Error(Error {
            number,
            data: Data::Code(fault.code),
            position,
            catchable: fault.catchable,
        }))
    }

    pub(super) fn charge(&mut self, position: Position, charge: Charge) -> Step<()> {
        self.count += 1;
        if self.count > self.request.limits.operations {
            self.see(Sort::Struck, charge as u32, self.kind as u32);
            return self.fail(12, Data::None, position);
        }
        Ok(())
    }

    /// Meet the variable limit, for the first or the second time in a statement.
    pub(super) fn meet_limit(&mut self, limit: usize, time: u32, position: Position) -> Step<()> {
        if self.names.len() < limit {
            return Ok(());
        }
        self.see(Sort::Limit, time, self.kind as u32);
        self.fail(14, Data::None, position)
    }

    pub(super) fn variable_limit(&self) -> usize {
        self.request.limits.variables as usize
    }

    /// Let the host act on the names; names that it adds put the mark on.
    pub(super) fn with_host<T>(&mut self, act: impl FnOnce(&mut dyn Host, &mut World) -> T) -> T {
        let before = self.names.len();
        let mut world = World {
            rows: &mut self.names,
            texts: self.request.texts(),
            mark: self.mark,
            limit: self.request.limits.variables as usize,
        };
        let answer = act(&mut **self.request.host.borrow_mut(), &mut world);
        if self.names.len() != before {
            self.mark = true;
        }
        answer
    }

    pub(super) fn expression(&self, number: u16) -> &ExpressionRow {
        &self.request.image.expressions[usize::from(number)]
    }

    /// Evaluate an expression: its value and its position.
    pub(super) fn evaluate(&mut self, number: u16) -> Step<(Value, Position)> {
        let row = *self.expression(number);
        self.charge(row.position, Charge::Expression)?;
        self.see(Sort::Expression, self.kind as u32, row.kind.into());
        let value = match row.checked_kind() {
            ExprKind::Unit => Value::Unit,
            ExprKind::False => Value::Truth(false),
            ExprKind::True => Value::Truth(true),
            ExprKind::Host => self.ask_host(&row)?,
        };
        Ok((value, row.position))
    }

    pub(super) fn ask_host(&mut self, row: &ExpressionRow) -> Step<Value> {
        let before = self.names.len();
        let answer = self.with_host(|host, world| host.evaluate(row.code, world));
        let appended = if self.names.len() > before { 8 } else { 0 };
        let sort = match answer {
            Evaluated::Value(value) => sort_of(&value),
            Evaluated::Fault(Fault {
                catchable: true, ..
            }) => 4,
            Evaluated::Fault(_) => 5,
            Evaluated::Exit(_) => 6,
        };
        self.see(Sort::Evaluated, self.kind as u32, sort + appended);
        match answer {
            Evaluated::Value(value) => Ok(value),
            Evaluated::Fault(fault) => self.fail_by(25, fault, row.position),
            Evaluated::Exit(value) => Err(Stop::Exit(value, row.position)),
        }
    }

    /// The value of an optional expression, or unit.
    pub(super) fn evaluate_or_unit(&mut self, number: Option<u16>) -> Step<Value> {
        match number {
            Some(number) => self.evaluate(number).map(|(value, _)| value),
            None => Ok(Value::Unit),
        }
    }

    pub(super) fn condition(&mut self, number: u16) -> Step<bool> {
        let (value, position) = self.evaluate(number)?;
        let truth = self.request.host.borrow().truth(value);
        match truth {
            Some(truth) => Ok(truth),
            None => self.fail(15, Data::None, position),
        }
    }

    pub(super) fn statements(&mut self, rows: &[StatementRow]) -> Step<Value> {
        let mut value = Value::Unit;
        for row in rows {
            value = self.statement(row)?;
        }
        Ok(value)
    }

    /// Run an inner block and put back what it changed of names, imports, level and mark.
    pub(super) fn block(&mut self, number: u16) -> Step<Value> {
        let image = self.request.image;
        let rows = image.block(number);
        if rows.is_empty() {
            return Ok(Value::Unit);
        }
        let (names, imports, mark) = (self.names.len(), self.imports.len(), self.mark);
        self.level += 1;
        let result = self.statements(rows);
        let put_back = u32::from(self.names.len() != names)
            + 2 * u32::from(self.imports.len() != imports)
            + 4 * u32::from(self.mark != mark);
        self.see(Sort::BlockEnd, how_ended(&result), put_back);
        self.level -= 1;
        self.names.truncate(names);
        self.imports.truncate(imports);
        self.mark = mark;
        result
    }

    pub(super) fn statement(&mut self, row: &StatementRow) -> Step<Value> {
        let kind = Kind::from_number(row.kind).expect("checked");
        let outer = std::mem::replace(&mut self.kind, kind);
        let inner = if self.level > 0 { 16 } else { 0 };
        let flags = match kind {
            Kind::Var => row.flags & FLAG_CONSTANT,
            Kind::Do => row.flags & FLAG_NEGATED,
            Kind::BreakLoop | Kind::Return => row.flags & FLAG_BREAK,
            _ => 0,
        };
        self.see(Sort::Statement, kind as u32, u32::from(flags) + inner);
        let result = self.statement_of(kind, row);
        self.kind = outer;
        result
    }

    pub(super) fn statement_of(&mut self, kind: Kind, row: &StatementRow) -> Step<Value> {
        self.charge(row.position, Charge::Statement)?;
        match kind {
            Kind::Noop => Ok(Value::Unit),
            Kind::Expr => self.evaluate(row.e).map(|(value, _)| value),
            Kind::Block => self.block(row.p),
            Kind::Assignment => self.assignment(row),
            Kind::Var => self.var(row),
            Kind::If => {
                let branch = if self.condition(row.e)? { row.p } else { row.q };
                self.block(branch)
            }
            Kind::While | Kind::Do | Kind::For => self.any_loop(kind, row),
            Kind::BreakLoop => {
                let value = self.evaluate_or_unit(row.expression())?;
                if row.has_flag(FLAG_BREAK) {
                    Err(Stop::Break(value))
                } else {
                    Err(Stop::Continue)
                }
            }
            Kind::TryCatch => self.try_catch(row),
            Kind::Return => {
                let value = self.evaluate_or_unit(row.expression())?;
                if row.has_flag(FLAG_BREAK) {
                    self.fail(24, Data::Value(value), row.position)
                } else {
                    Err(Stop::Return(value))
                }
            }
            Kind::Import => self.import(row),
        }
    }
}
