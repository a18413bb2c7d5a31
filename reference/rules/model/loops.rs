//! The three loops.

use super::run::{how_ended, Charge, Run, Step, Stop};
use super::Difference;
use crate::events::Sort;
use crate::host::{Item, Row};
use crate::image::{ExprKind, Kind, StatementRow, FLAG_NEGATED};
use crate::outcome::Data;
use crate::place::Position;
use crate::value::Value;

/// How a loop ended, and whether by a break.
struct LoopEnd {
    value: Value,
    by_break: bool,
}

impl LoopEnd {
    /// Without a break a loop gives unit.
    const FINISHED: Self = Self {
        value: Value::Unit,
        by_break: false,
    };

    fn broken(value: Value) -> Self {
        Self {
            value,
            by_break: true,
        }
    }
}

/// How the body of a loop came to its end.
enum Round {
    Ended,
    Continued,
    Broken(Value),
}

/// What a For loop goes over.
struct Subject {
    value: Value,
    position: Position,
    /// Where the first of the loop's names stands.
    first_name: usize,
}

impl Run<'_, '_> {
    pub(super) fn any_loop(&mut self, kind: Kind, row: &StatementRow) -> Step<Value> {
        let result = match kind {
            Kind::While => self.while_loop(row),
            Kind::Do => self.do_loop(row),
            _ => self.for_loop(row),
        };
        let by_break = matches!(&result, Ok(end) if end.by_break);
        let how = how_ended(&result) + if by_break { 100 } else { 0 };
        self.see(Sort::LoopEnd, kind as u32, how);
        result.map(|end| end.value)
    }

    /// Run the body of a loop once.
    fn round(&mut self, body: u16) -> Step<Round> {
        match self.block(body) {
            Ok(_) => Ok(Round::Ended),
            Err(Stop::Continue) => Ok(Round::Continued),
            Err(Stop::Break(value)) => Ok(Round::Broken(value)),
            Err(stop) => Err(stop),
        }
    }

    fn while_loop(&mut self, row: &StatementRow) -> Step<LoopEnd> {
        let kind = self.expression(row.e).checked_kind();
        let endless = matches!(kind, ExprKind::Unit | ExprKind::True);
        let is_empty = self.request.image.block(row.p).is_empty();
        loop {
            if !endless && !self.condition(row.e)? {
                return Ok(LoopEnd::FINISHED);
            }
            if is_empty && endless {
                self.charge(row.position, Charge::EmptyRound)?;
            }
            if let Round::Broken(value) = self.round(row.p)? {
                return Ok(LoopEnd::broken(value));
            }
        }
    }

    fn do_loop(&mut self, row: &StatementRow) -> Step<LoopEnd> {
        loop {
            match self.round(row.p)? {
                Round::Broken(value) => return Ok(LoopEnd::broken(value)),
                Round::Continued => continue,
                Round::Ended => (),
            }
            if self.condition(row.e)? == row.has_flag(FLAG_NEGATED) {
                return Ok(LoopEnd::FINISHED);
            }
        }
    }

    fn for_loop(&mut self, row: &StatementRow) -> Step<LoopEnd> {
        let counter = row.second_name();
        let limit = self.variable_limit() - usize::from(counter.is_some());
        self.meet_limit(limit, 1, row.position)?;
        let (value, position) = self.evaluate(row.e)?;
        let first_item = self.request.host.borrow().item(value, 0);
        if first_item == Item::NotIterable {
            return self.fail(16, Data::None, position);
        }
        if self.names.len() >= limit {
            self.noted.insert(Difference::VariableLimitNotRepeatedAtFor);
            if !self.is_original() {
                self.meet_limit(limit, 2, row.position)?;
            }
        }
        let subject = Subject {
            value,
            position,
            first_name: self.names.len(),
        };
        self.append_loop_names(row);
        let result = self.items(row, &subject);
        self.names.truncate(subject.first_name);
        result
    }

    fn append_loop_names(&mut self, row: &StatementRow) {
        let new_row = |place, value| Row {
            place,
            constant: false,
            value,
        };
        if let Some(counter) = row.second_name() {
            self.names.push(new_row(counter, Value::Number(0)));
        }
        let name = row.name().expect("checked");
        self.names.push(new_row(name, Value::Unit));
    }

    fn items(&mut self, row: &StatementRow, subject: &Subject) -> Step<LoopEnd> {
        let is_empty = self.request.image.block(row.p).is_empty();
        for index in 0u64.. {
            let item = self.request.host.borrow().item(subject.value, index);
            let which = index.min(3) as u32 + 4 * u32::from(row.second_name().is_some());
            let what = 2 * item_sort(&item) + u32::from(is_empty);
            self.see(Sort::Item, which, what);
            let value = match item {
                Item::End | Item::NotIterable => break,
                Item::Value(value) => value,
                Item::Fault(fault) => {
                    if is_empty {
                        self.noted.insert(Difference::FaultyItemOverEmptyBody);
                    }
                    if !(is_empty && self.is_original()) {
                        return self.fail_by(25, fault, subject.position);
                    }
                    Value::Unit
                }
            };
            if is_empty {
                self.charge(row.position, Charge::EmptyItem)?;
            }
            self.set_loop_names(row, subject.first_name, index, value);
            if let Round::Broken(value) = self.round(row.p)? {
                return Ok(LoopEnd::broken(value));
            }
        }
        Ok(LoopEnd::FINISHED)
    }

    fn set_loop_names(&mut self, row: &StatementRow, first: usize, index: u64, value: Value) {
        let mut at = first;
        if row.second_name().is_some() {
            self.names[at].value = Value::Number(index as i64);
            self.names[at].constant = false;
            at += 1;
        }
        self.names[at].value = value;
        self.names[at].constant = false;
    }
}

fn item_sort(item: &Item) -> u32 {
    match item {
        Item::Value(_) => 0,
        Item::End | Item::NotIterable => 1,
        Item::Fault(fault) => {
            2 + u32::from(fault.catchable) + 2 * u32::from(!fault.position.is_none())
        }
    }
}
