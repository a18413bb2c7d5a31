//! Try with catch, and import.

use super::run::{how_ended, Error, Run, Step, Stop};
use crate::events::Sort;
use crate::host::Row;
use crate::image::StatementRow;
use crate::outcome::{Data, Import};
use crate::place::Place;
use crate::resolver::Resolved;
use crate::value::Value;

impl Run<'_, '_> {
    pub(super) fn try_catch(&mut self, row: &StatementRow) -> Step<Value> {
        let first = match self.block(row.p) {
            Err(Stop::Error(error)) if error.catchable => error,
            result => {
                self.see(Sort::Passed, how_ended(&result), 0);
                return result;
            }
        };
        let catch_is_empty = self.request.image.block(row.q).is_empty();
        let how = u32::from(row.name().is_some()) + 2 * u32::from(catch_is_empty);
        self.see(Sort::Caught, first.number.into(), how);
        let before = self.names.len();
        if let Some(name) = row.name() {
            self.meet_limit(self.variable_limit(), 1, row.position)?;
            let value = match first.data {
                Data::Value(value) if first.number == 24 => value,
                _ => self.request.host.borrow().caught(first.number),
            };
            self.names.push(Row {
                place: name,
                constant: false,
                value,
            });
        }
        let result = self.block(row.q);
        self.names.truncate(before);
        self.see(Sort::CatchEnd, how_ended(&result), first.number.into());
        match result {
            Ok(_) => Ok(Value::Unit),
            Err(Stop::Error(second)) if second.number == 24 && throws_unit(&second) => {
                Err(Stop::Error(Error {
                    position: second.position,
                    ..first
                }))
            }
            Err(stop) => Err(stop),
        }
    }

    pub(super) fn import(&mut self, row: &StatementRow) -> Step<Value> {
        if self.loaded >= self.request.limits.modules {
            return self.fail(21, Data::None, row.position);
        }
        let (value, position) = self.evaluate(row.e)?;
        let path = self.request.host.borrow().path(value);
        let Some(path) = path else {
            return self.fail(15, Data::None, position);
        };
        let answer = self.request.resolver.resolve(path);
        let sort = match answer {
            Resolved::Module(_) => 0,
            Resolved::NotFound => 1,
            Resolved::Fault(fault) => 2 + u32::from(fault.catchable),
        };
        let paired = self.request.resolver.second.is_some();
        let how = u32::from(row.name().is_some()) + 2 * u32::from(paired);
        self.see(Sort::Resolved, sort, how);
        match answer {
            Resolved::Module(module) => {
                self.imports.push(Import {
                    place: row.name().unwrap_or(Place::NONE),
                    module,
                });
                self.loaded += 1;
                Ok(Value::Unit)
            }
            Resolved::NotFound => self.fail(22, Data::Path(path), position),
            Resolved::Fault(fault) => self.fail_by(23, fault, position),
        }
    }
}

fn throws_unit(error: &Error) -> bool {
    error.data == Data::Value(Value::Unit)
}
