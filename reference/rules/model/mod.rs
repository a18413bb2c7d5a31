//! A small model of a run, written from the rules alone.
//!
//! It serves to find the cases on which the original departs from the rules. As [`Variant::Rules`]
//! it runs as the rules say and notes each step at which the original is known to do something
//! else; as [`Variant::Original`] it does at these steps, and only there, what the original does.
//! So every disagreement between the first variant and the original must carry a note, and the
//! second variant must never disagree.
//!
//! `run` has the run itself, `variables` assignments and variables, `loops` the three loops, and
//! `catching` try and import.

mod catching;
mod loops;
mod run;
mod variables;

use crate::events::{sort_of, Events, Sort};
use crate::outcome::{Data, Ending, RunAnswer};
use crate::session::{Request, Runner};
use crate::value::Value;
use run::{how_ended, Run, Step, Stop};
use std::collections::BTreeSet;

/// The steps at which the original departs from the rules.
#[derive(Debug, Clone, Copy, PartialEq, Eq, PartialOrd, Ord, Hash)]
pub enum Difference {
    VariableLimitNotRepeatedAtVar,
    VariableLimitNotRepeatedAtFor,
    IndexKeptWhileMarkIsOn,
    FaultyItemOverEmptyBody,
    IndexBeyondNames,
}

impl Difference {
    pub const ALL: [Self; 5] = [
        Self::VariableLimitNotRepeatedAtVar,
        Self::VariableLimitNotRepeatedAtFor,
        Self::IndexKeptWhileMarkIsOn,
        Self::FaultyItemOverEmptyBody,
        Self::IndexBeyondNames,
    ];

    pub fn name(self) -> &'static str {
        match self {
            Self::VariableLimitNotRepeatedAtVar => "variable-limit-not-repeated-at-var",
            Self::VariableLimitNotRepeatedAtFor => "variable-limit-not-repeated-at-for",
            Self::IndexKeptWhileMarkIsOn => "index-kept-while-mark-is-on",
            Self::FaultyItemOverEmptyBody => "faulty-item-over-empty-body",
            Self::IndexBeyondNames => "index-beyond-names",
        }
    }
}

#[derive(Debug, Clone, Copy, PartialEq, Eq)]
pub enum Variant {
    Rules,
    Original,
}

/// The model as a runner; the notes of all its runs gather in it.
pub struct Model {
    pub variant: Variant,
    pub noted: BTreeSet<Difference>,
    pub events: Events,
}

impl Model {
    pub fn new(variant: Variant) -> Self {
        Self {
            variant,
            noted: BTreeSet::new(),
            events: Events::default(),
        }
    }
}

impl Runner for Model {
    fn run(&mut self, mut request: Request) -> RunAnswer {
        let names = std::mem::take(&mut request.names);
        let names_before = names.len();
        let mut run = Run::new(self, &request, names);
        let result = run.statements(request.image.block(0));
        run.see(Sort::Run, how_ended(&result), names_before.min(3) as u32);
        if let (Ok(value), Some(last)) = (&result, request.image.block(0).last()) {
            run.see(Sort::Value, last.kind.into(), sort_of(value));
        }
        RunAnswer {
            ending: ending_of(result, request.exit_is_value),
            count: run.count,
            names: run.names,
            imports: run.imports,
        }
    }
}

fn ending_of(result: Step<Value>, exit_is_value: bool) -> Ending {
    match result {
        Ok(value) | Err(Stop::Return(value)) => Ending::Value(value),
        Err(Stop::Exit(value, _)) if exit_is_value => Ending::Value(value),
        Err(Stop::Exit(value, position)) => Ending::Fault {
            number: 26,
            data: Data::Value(value),
            position,
        },
        Err(Stop::Error(error)) => Ending::Fault {
            number: error.number,
            data: error.data,
            position: error.position,
        },
        Err(Stop::Break(_) | Stop::Continue) => unreachable!("the check forbids it"),
        Err(Stop::Panic) => Ending::Panic,
    }
}
