//! Faults on both sides: which error of the original stands for which fault.

use super::values::value_of;
use crate::{Dynamic, EvalAltResult, Position, ERR};
use rules::host::{Fault, Host};
use rules::outcome::{Data, Ending};
use rules::place::Place;
use rules::text::Line;

/// The token of a fault that cannot be caught and that the original has no error for.
#[derive(Clone, Copy, Debug)]
enum Uncatchable {
    Host(u16),
    Resolver(u16),
    IndexBeyondNames,
}

const HOST_FAULT: &str = "host fault ";
const RESOLVER_FAULT: &str = "resolver fault ";

fn uncatchable(token: Uncatchable, pos: Position) -> Box<EvalAltResult> {
    ERR::ErrorTerminated(Dynamic::from(token), pos).into()
}

pub fn host_fault(fault: &Fault) -> Box<EvalAltResult> {
    let pos = fault.position.into();
    if fault.catchable {
        ERR::ErrorArithmetic(format!("{}{}", HOST_FAULT, fault.code), pos).into()
    } else {
        uncatchable(Uncatchable::Host(fault.code), pos)
    }
}

pub fn resolver_fault(fault: &Fault, path: &str) -> Box<EvalAltResult> {
    let pos = fault.position.into();
    if fault.catchable {
        let text = format!("{}{}", RESOLVER_FAULT, fault.code);
        let inner = ERR::ErrorArithmetic(text, Position::NONE);
        ERR::ErrorInModule(path.to_string(), inner.into(), pos).into()
    } else {
        uncatchable(Uncatchable::Resolver(fault.code), pos)
    }
}

/// The rules' fault for an index beyond the names. The original has none; the search is not among
/// its files, so it is here.
pub fn index_beyond_names(pos: Position) -> Box<EvalAltResult> {
    uncatchable(Uncatchable::IndexBeyondNames, pos)
}

pub fn type_mismatch(pos: Position) -> Box<EvalAltResult> {
    ERR::ErrorMismatchDataType("another type".to_string(), String::new(), pos).into()
}

/// The number of the caught fault that a text stems from. Without maps the original hands a caught
/// error to the script as its text, without position.
pub fn number_of_text(text: &str) -> u8 {
    let empty = String::new;
    let none = Position::NONE;
    let beginnings = [
        (13, ERR::ErrorForbiddenVariable(empty(), none).to_string()),
        (15, type_mismatch(none).to_string()),
        (16, ERR::ErrorFor(none).to_string()),
        (17, ERR::ErrorVariableNotFound(empty(), none).to_string()),
        (
            19,
            ERR::ErrorAssignmentToConstant(empty(), none).to_string(),
        ),
        (20, ERR::ErrorFunctionNotFound(empty(), none).to_string()),
        (22, ERR::ErrorModuleNotFound(empty(), none).to_string()),
        (23, RESOLVER_FAULT.to_string()),
        (25, HOST_FAULT.to_string()),
    ];
    let known = beginnings
        .iter()
        .find(|(_, b)| text.starts_with(b.as_str()));
    known.expect("a catchable fault").0
}

/// The ending of a run by an error. The place of a refused name has to be looked up.
pub fn ending_of(
    host: &dyn Host,
    error: &EvalAltResult,
    refused_place: impl FnOnce(&str) -> Place,
) -> Ending {
    let (number, data) = match error {
        ERR::ErrorTooManyOperations(_) => (12, Data::None),
        ERR::ErrorForbiddenVariable(name, _) => (13, Data::Name(refused_place(name))),
        ERR::ErrorTooManyVariables(_) => (14, Data::None),
        ERR::ErrorMismatchDataType(..) => (15, Data::None),
        ERR::ErrorFor(_) => (16, Data::None),
        ERR::ErrorVariableNotFound(place, _) => (17, Data::Name(parse_place(place))),
        ERR::ErrorAssignmentToConstant(place, _) => (19, Data::Name(parse_place(place))),
        ERR::ErrorFunctionNotFound(name, _) => (20, Data::Operator(number_in(name))),
        ERR::ErrorTooManyModules(_) => (21, Data::None),
        ERR::ErrorModuleNotFound(path, _) => {
            (22, Data::Path(path.parse().expect("paths are numbers")))
        }
        ERR::ErrorInModule(_, inner, _) => (23, Data::Code(number_in(&inner.to_string()))),
        ERR::ErrorRuntime(value, _) => (24, Data::Value(value_of(host, value))),
        ERR::ErrorArithmetic(text, _) => (25, Data::Code(number_in(text))),
        ERR::Exit(value, _) => (26, Data::Value(value_of(host, value))),
        ERR::ErrorTerminated(token, _) => match token.clone().cast::<Uncatchable>() {
            Uncatchable::Host(code) => (25, Data::Code(code)),
            Uncatchable::Resolver(code) => (23, Data::Code(code)),
            Uncatchable::IndexBeyondNames => (18, Data::None),
        },
        other => unreachable!("no fault of a run: {:?}", other),
    };
    Ending::Fault {
        number,
        data,
        position: error.position().into(),
    }
}

/// The only number in a text.
fn number_in(text: &str) -> u16 {
    let digits: String = text.chars().filter(char::is_ascii_digit).collect();
    digits.parse().expect("one number")
}

fn parse_place(text: &str) -> Place {
    Place::parse(&mut Line::new(0, text)).expect("targets are named by their places")
}
