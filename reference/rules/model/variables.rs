//! Assignments and variables.

use super::run::{Charge, Run, Step, Stop};
use super::Difference;
use crate::events::Sort;
use crate::host::{Allowed, Operated, Question, Row};
use crate::image::{StatementRow, FLAG_CONSTANT};
use crate::outcome::Data;
use crate::place::{Place, Position};
use crate::value::Value;

/// Where a row was found.
enum Found {
    Row(usize),
    NoName,
    BeyondNames,
}

impl Run<'_, '_> {
    fn find_by_name(&self, name: Place) -> Found {
        let texts = self.request.texts();
        let wanted = texts.bytes(name);
        let found = self
            .names
            .iter()
            .rposition(|row| texts.bytes(row.place) == wanted);
        found.map_or(Found::NoName, Found::Row)
    }

    fn find_by_index(&self, index: u16) -> Found {
        let found = self.names.len().checked_sub(usize::from(index));
        found.map_or(Found::BeyondNames, Found::Row)
    }

    fn find(&mut self, name: Place, index: u16) -> Found {
        let found = if index != 0 && !self.mark {
            self.find_by_index(index)
        } else {
            self.find_by_name(name)
        };
        let how = u32::from(index != 0) + 2 * u32::from(self.mark) + 4 * self.kind as u32;
        let what = match found {
            Found::Row(at) => u32::from(self.names[at].constant),
            Found::NoName => 2,
            Found::BeyondNames => 3,
        };
        self.see(Sort::Found, how, what);
        found
    }

    pub(super) fn assignment(&mut self, row: &StatementRow) -> Step<Value> {
        let name = row.name().expect("checked");
        let (value, _) = self.evaluate(row.e)?;
        self.charge(row.position, Charge::Target)?;
        let at = match self.find(name, row.r) {
            Found::Row(at) => at,
            Found::NoName => return self.fail(17, Data::Name(name), row.position),
            Found::BeyondNames => return self.fail(18, Data::None, row.position),
        };
        if self.names[at].constant {
            return self.fail(19, Data::Name(name), row.position);
        }
        let value = if row.q == 0 {
            value
        } else {
            self.operate(row, self.names[at].value, value)?
        };
        self.names[at].value = value;
        Ok(Value::Unit)
    }

    fn operate(&mut self, row: &StatementRow, left: Value, right: Value) -> Step<Value> {
        let applied = self.request.host.borrow().apply(row.q, left, right);
        let (answer, by) = match applied {
            Operated::NotFound => (self.request.host.borrow().binary(row.q, left, right), 4),
            answer => (answer, 0),
        };
        let sort = match answer {
            Operated::Value(_) => 0,
            Operated::NotFound => 1,
            Operated::Fault(fault) => 2 + u32::from(fault.catchable),
        };
        self.see(Sort::Operated, row.q.min(10).into(), by + sort);
        match answer {
            Operated::Value(value) => Ok(value),
            Operated::NotFound => self.fail(20, Data::Operator(row.q), row.position),
            Operated::Fault(fault) => self.fail_by(25, fault, row.position),
        }
    }

    pub(super) fn var(&mut self, row: &StatementRow) -> Step<Value> {
        let name = row.name().expect("checked");
        let constant = row.has_flag(FLAG_CONSTANT);
        self.allow(row, name, constant)?;
        let appends = row.r == 0;
        if appends {
            self.meet_limit(self.variable_limit(), 1, row.position)?;
        }
        let (value, _) = self.evaluate(row.e)?;
        if !appends {
            return self.overwrite(row, name, constant, value);
        }
        if self.names.len() >= self.variable_limit() {
            self.noted.insert(Difference::VariableLimitNotRepeatedAtVar);
            if !self.is_original() {
                self.meet_limit(self.variable_limit(), 2, row.position)?;
            }
        }
        self.names.push(Row {
            place: name,
            constant,
            value,
        });
        Ok(Value::Unit)
    }

    fn allow(&mut self, row: &StatementRow, name: Place, constant: bool) -> Step<()> {
        let question = Question {
            name,
            constant,
            level: self.level,
            present: matches!(self.find_by_name(name), Found::Row(_)),
        };
        let before = self.names.len();
        let answer = self.with_host(|host, world| host.allow(&question, world));
        let sort = match answer {
            Allowed::Yes => 0,
            Allowed::No => 1,
            Allowed::Fault(fault) => 2 + u32::from(fault.catchable),
        };
        let what = u32::from(constant)
            + 2 * u32::from(question.present)
            + 4 * u32::from(self.names.len() > before)
            + 8 * self.level.min(2) as u32;
        self.see(Sort::Allowed, sort, what);
        match answer {
            Allowed::Yes => Ok(()),
            Allowed::No => self.fail(13, Data::Name(name), row.position),
            Allowed::Fault(fault) => self.fail_by(25, fault, Position::NONE),
        }
    }

    /// Var with an index: a new value and access for a row that is there.
    fn overwrite(
        &mut self,
        row: &StatementRow,
        name: Place,
        constant: bool,
        value: Value,
    ) -> Step<Value> {
        let mut found = self.find(name, row.r);
        if self.mark {
            let by_index = self.find_by_index(row.r);
            if !matches!((&found, &by_index), (Found::Row(a), Found::Row(b)) if a == b) {
                self.noted.insert(Difference::IndexKeptWhileMarkIsOn);
            }
            if self.is_original() {
                found = by_index;
            }
        }
        match found {
            Found::Row(at) => {
                self.names[at].value = value;
                self.names[at].constant = constant;
                Ok(Value::Unit)
            }
            Found::NoName => self.fail(17, Data::Name(name), row.position),
            Found::BeyondNames => {
                self.noted.insert(Difference::IndexBeyondNames);
                if self.is_original() {
                    return Err(Stop::Panic);
                }
                self.fail(18, Data::None, row.position)
            }
        }
    }
}
