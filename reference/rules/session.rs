//! A session: the names that remain between runs, and the calls on it.
//!
//! The original has no sessions. Put, read, rewind and the refusals 8 to 11 are done here plainly;
//! only runs are handed to a [`Runner`].

use crate::case::Case;
use crate::check::{check, Checked};
use crate::host::{Row, SharedHost};
use crate::image::Image;
use crate::outcome::{Ending, RunAnswer};
use crate::place::{Place, Texts};
use crate::resolver::Resolver;
use crate::value::Value;

const IMPORT_ROWS: u64 = 16;
const WORKING_ROWS: u64 = 64;

#[derive(Debug, Clone, Copy, PartialEq, Eq)]
pub struct Limits {
    pub operations: u64,
    pub variables: u64,
    pub modules: u64,
}

/// How many rows of each table a call is lent.
#[derive(Debug, Clone, Copy, PartialEq, Eq)]
pub struct Lent {
    pub variables: u64,
    pub imports: u64,
    pub working: u64,
}

impl Lent {
    /// Enough for every session.
    pub const ENOUGH: Self = Self {
        variables: 128,
        imports: IMPORT_ROWS,
        working: WORKING_ROWS,
    };

    fn suffices(self, limits: Limits) -> bool {
        self.variables >= limits.variables + 2
            && self.imports >= IMPORT_ROWS
            && self.working >= WORKING_ROWS
    }
}

#[derive(Debug, Clone, Copy, PartialEq, Eq)]
pub enum Call {
    /// Not a call: the rows lent to all calls from here on (before the first call: to open too).
    Lend(Lent),
    Put(Place, Value),
    Read(Place),
    Rewind(u64),
    Run {
        exit_is_value: bool,
    },
}

/// All that a run is given.
pub struct Request<'a> {
    pub image: &'a Image,
    pub site: &'a [u8],
    pub limits: Limits,
    pub host: &'a SharedHost,
    pub resolver: &'a Resolver,
    pub names: Vec<Row>,
    pub exit_is_value: bool,
}

impl<'a> Request<'a> {
    pub fn texts(&self) -> Texts<'a> {
        Texts {
            rule: &self.image.text,
            site: self.site,
        }
    }
}

/// Whoever can run a rule.
pub trait Runner {
    fn run(&mut self, request: Request) -> RunAnswer;
}

/// What a call answers.
#[derive(Debug, Clone, PartialEq, Eq)]
pub enum Answer {
    Checked(Option<u32>),
    CheckRefused(u8),
    Done(&'static str),
    Refused(&'static str, u8),
    Read(Option<Value>),
    Run(RunAnswer),
}

impl Answer {
    pub fn lines(&self) -> Vec<String> {
        match self {
            Self::Checked(Some(quote)) => vec![format!("check ok {quote}")],
            Self::Checked(None) => vec!["check ok none".to_string()],
            Self::CheckRefused(number) => vec![format!("check refused {number}")],
            Self::Done(call) => vec![format!("{call} ok")],
            Self::Refused(call, number) => vec![format!("{call} refused {number}")],
            Self::Read(Some(value)) => vec![format!("read value {value}")],
            Self::Read(None) => vec!["read none".to_string()],
            Self::Run(answer) => answer.lines(),
        }
    }
}

struct Session<'a> {
    case: &'a Case,
    checked: &'a Checked,
    host: SharedHost,
    lent: Lent,
    names: Vec<Row>,
}

/// Run a whole case. The answers come in order: check, open, then one for each call but `lend`.
/// After a refused check or open, and after a panic, nothing more is done.
pub fn run_case(case: &Case, runner: &mut dyn Runner) -> Vec<Answer> {
    let checked = match check(&case.image) {
        Ok(checked) => checked,
        Err(number) => return vec![Answer::CheckRefused(number)],
    };
    let mut answers = vec![Answer::Checked(checked.quote)];
    let mut calls = case.calls.iter().peekable();
    let mut lent = Lent::ENOUGH;
    while let Some(Call::Lend(rows)) = calls.peek() {
        lent = *rows;
        calls.next();
    }
    if let Some(number) = refuse_open(case.limits, lent) {
        answers.push(Answer::Refused("open", number));
        return answers;
    }
    answers.push(Answer::Done("open"));
    let mut session = Session {
        case,
        checked: &checked,
        host: case.host.build(),
        lent,
        names: Vec::new(),
    };
    for call in calls {
        let answer = session.call(call, runner);
        let panicked = matches!(&answer, Some(Answer::Run(run)) if run.ending == Ending::Panic);
        answers.extend(answer);
        if panicked {
            break;
        }
    }
    answers
}

fn refuse_open(limits: Limits, lent: Lent) -> Option<u8> {
    let good = (1..=1_000_000_000).contains(&limits.operations)
        && (1..=126).contains(&limits.variables)
        && limits.modules <= 16;
    if !good {
        return Some(8);
    }
    (!lent.suffices(limits)).then_some(9)
}

impl Session<'_> {
    fn call(&mut self, call: &Call, runner: &mut dyn Runner) -> Option<Answer> {
        let name = match call {
            Call::Lend(lent) => {
                self.lent = *lent;
                return None;
            }
            Call::Put(..) => "put",
            Call::Read(..) => "read",
            Call::Rewind(..) => "rewind",
            Call::Run { .. } => "run",
        };
        if !self.lent.suffices(self.case.limits) {
            return Some(Answer::Refused(name, 9));
        }
        Some(match call {
            Call::Lend(_) => return None,
            Call::Put(place, value) => self.put(*place, *value),
            Call::Read(place) => self.read(*place),
            Call::Rewind(count) => {
                self.names
                    .truncate(usize::try_from(*count).unwrap_or(usize::MAX));
                Answer::Done(name)
            }
            Call::Run { exit_is_value } => self.run(*exit_is_value, runner),
        })
    }

    fn name_is_bad(&self, place: Place) -> bool {
        let end = u64::from(place.offset) + u64::from(place.length);
        place.length == 0 || end > self.case.site.len() as u64
    }

    fn put(&mut self, place: Place, value: Value) -> Answer {
        if self.name_is_bad(place) {
            return Answer::Refused("put", 10);
        }
        if self.names.len() as u64 >= self.case.limits.variables {
            return Answer::Refused("put", 11);
        }
        self.names.push(Row {
            place,
            constant: false,
            value,
        });
        Answer::Done("put")
    }

    fn read(&self, place: Place) -> Answer {
        if self.name_is_bad(place) {
            return Answer::Refused("read", 10);
        }
        let texts = Texts {
            rule: &self.checked.image.text,
            site: &self.case.site,
        };
        let wanted = texts.bytes(place);
        let row = self.names.iter().rev();
        let mut found = row.filter(|row| texts.bytes(row.place) == wanted);
        Answer::Read(found.next().map(|row| row.value))
    }

    fn run(&mut self, exit_is_value: bool, runner: &mut dyn Runner) -> Answer {
        let answer = runner.run(Request {
            image: &self.checked.image,
            site: &self.case.site,
            limits: self.case.limits,
            host: &self.host,
            resolver: &self.case.resolver,
            names: self.names.clone(),
            exit_is_value,
        });
        self.names.clone_from(&answer.names);
        Answer::Run(answer)
    }
}
