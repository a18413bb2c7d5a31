//! Values and rows on both sides.

use super::faults;
use crate::engine::Engine;
use crate::types::dynamic::{AccessMode, Union};
use crate::types::smart_string::SmartString;
use crate::{Dynamic, RhaiResult, Scope};
use rules::host::{Host, Item, Row, SharedHost, World};
use rules::place::{Place, Texts};
use rules::value::Value;

/// A value that the original has no type of its own for.
#[derive(Clone, Copy, Debug)]
struct HostValue(Value);

/// A value that a For loop is to iterate over.
#[derive(Clone, Copy, Debug)]
pub struct HostItems(pub Value);

pub fn dynamic_for(value: Value) -> Dynamic {
    match value {
        Value::Unit => Dynamic::UNIT,
        Value::Truth(truth) => truth.into(),
        Value::Number(number) => number.into(),
        Value::Range(..) | Value::Sequence(_) => Dynamic::from(HostValue(value)),
    }
}

/// The host's value for a value of the original. A text can only be that of a caught fault.
pub fn value_of(host: &dyn Host, value: &Dynamic) -> Value {
    match &value.0 {
        Union::Unit(..) => Value::Unit,
        Union::Bool(truth, ..) => Value::Truth(*truth),
        Union::Int(number, ..) => Value::Number(*number),
        Union::Str(text, ..) => host.caught(faults::number_of_text(text)),
        _ => match value.read_lock::<HostValue>() {
            Some(inner) => inner.0,
            None => unreachable!("no value of a host: {:?}", value),
        },
    }
}

fn access_of(constant: bool) -> AccessMode {
    if constant {
        AccessMode::ReadOnly
    } else {
        AccessMode::ReadWrite
    }
}

fn texts_of(engine: &Engine) -> Texts<'_> {
    Texts {
        rule: &engine.rule_text,
        site: &engine.site_text,
    }
}

pub fn name_at(engine: &Engine, place: Place) -> SmartString {
    SmartString::name(texts_of(engine).bytes(place), place)
}

pub fn push_row(engine: &Engine, scope: &mut Scope, row: &Row) {
    let name = name_at(engine, row.place);
    scope.push_entry(name.into(), access_of(row.constant), dynamic_for(row.value));
}

/// The variable rows that a scope stands for.
pub fn rows_of(host: &dyn Host, scope: &Scope) -> Vec<Row> {
    scope
        .iter_inner()
        .map(|(name, constant, value)| {
            let name: &SmartString = name.as_ref();
            Row {
                place: name.place().unwrap_or(Place::NONE),
                constant,
                value: value_of(host, value),
            }
        })
        .collect()
}

/// What the host answered, and whether it appended names.
pub struct HostAnswer<T> {
    pub given: T,
    pub appended: bool,
}

/// Lend the rows of a scope to the host, and put back what it changed.
pub fn lend_scope<T>(
    engine: &Engine,
    mark: bool,
    scope: &mut Scope,
    act: impl FnOnce(&mut dyn Host, &mut World) -> T,
) -> HostAnswer<T> {
    let mut host = engine.host.borrow_mut();
    let before = rows_of(&**host, scope);
    let mut rows = before.clone();
    let mut world = World {
        rows: &mut rows,
        texts: texts_of(engine),
        mark,
        limit: engine.run_limits.variables,
    };
    let given = act(&mut **host, &mut world);
    for (index, (old, new)) in before.iter().zip(&rows).enumerate() {
        if old.value != new.value {
            let mut value = dynamic_for(new.value);
            value.set_access_mode(access_of(old.constant));
            *scope.get_mut_by_index(index) = value;
        }
    }
    for row in &rows[before.len()..] {
        push_row(engine, scope, row);
    }
    HostAnswer {
        given,
        appended: rows.len() != before.len(),
    }
}

/// The host's items of a value, one after the other until the end.
pub fn iterate(host: &SharedHost, items: Dynamic) -> Box<dyn Iterator<Item = RhaiResult>> {
    let HostItems(value) = items.cast::<HostItems>();
    let host = host.clone();
    let mut next = 0u64;
    Box::new(std::iter::from_fn(move || {
        let item = host.borrow().item(value, next);
        next += 1;
        match item {
            Item::Value(value) => Some(Ok(dynamic_for(value))),
            Item::Fault(fault) => Some(Err(faults::host_fault(&fault))),
            Item::End | Item::NotIterable => None,
        }
    }))
}
