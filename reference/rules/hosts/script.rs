//! The scripted host: does all that a host may do. Evaluate and allow take one script entry for
//! each call; all other answers depend on the arguments alone.

use crate::host::{Allowed, Evaluated, Fault, Host, Item, Operated, Question, World};
use crate::place::{Place, Position};
use crate::text::{Line, ParseError};
use crate::value::Value;
use std::fmt;

/// How many effects an entry may have.
pub const MAX_EFFECTS: usize = 2;

/// The first number of a sequence that cannot be iterated.
pub const NO_SEQUENCE: u16 = 1_000;

/// What an entry does before it answers.
#[derive(Debug, Clone, Copy, PartialEq, Eq)]
pub enum Effect {
    Append(Place, Value),
    /// A new value for the row that counts back from the last, which is 1.
    Set(usize, Value),
}

#[derive(Debug, Clone, Copy, PartialEq, Eq)]
pub enum EvalAnswer {
    Value(Value),
    Fault(Fault),
    Exit(Value),
    /// The code that was asked for.
    Code,
    /// Whether the search mark was on when the call began.
    Mark,
    /// How many names there are, after the effects.
    Names,
    /// The value of a row that counts back from the last, after the effects; unit if there is none.
    Row(usize),
}

#[derive(Debug, Clone, Copy, PartialEq, Eq)]
pub enum AllowAnswer {
    Yes,
    No,
    Fault(Fault),
    /// Yes if the name was present.
    Present,
    /// Yes if the variable is to be constant.
    Constant,
    /// Yes at this level.
    Level(usize),
}

#[derive(Debug, Clone, PartialEq, Eq)]
pub struct EvalEntry {
    pub effects: Vec<Effect>,
    pub answer: EvalAnswer,
}

#[derive(Debug, Clone, PartialEq, Eq)]
pub struct AllowEntry {
    pub effects: Vec<Effect>,
    pub answer: AllowAnswer,
}

/// All that a scripted host is lent.
#[derive(Debug, Clone, PartialEq, Eq, Default)]
pub struct Script {
    pub evals: Vec<EvalEntry>,
    pub allows: Vec<AllowEntry>,
}

/// Its state is how many calls of each kind it has had.
pub struct ScriptHost {
    script: Script,
    evaluated: usize,
    allowed: usize,
}

impl ScriptHost {
    pub fn new(script: Script) -> Self {
        Self {
            script,
            evaluated: 0,
            allowed: 0,
        }
    }
}

/// The entry for a call; the script starts again when it is used up.
fn entry_at<T: Clone>(entries: &[T], call: usize) -> Option<T> {
    (!entries.is_empty()).then(|| entries[call % entries.len()].clone())
}

fn perform(effects: &[Effect], world: &mut World) {
    for effect in effects {
        match *effect {
            Effect::Append(place, value) => world.append(place, value),
            Effect::Set(back, value) => {
                if let Some(row) = world.row_from_last(back) {
                    row.value = value;
                }
            }
        }
    }
}

impl Host for ScriptHost {
    fn evaluate(&mut self, code: u16, world: &mut World) -> Evaluated {
        let entry = entry_at(&self.script.evals, self.evaluated);
        self.evaluated += 1;
        let Some(entry) = entry else {
            return Evaluated::Value(Value::Unit);
        };
        perform(&entry.effects, world);
        Evaluated::Value(match entry.answer {
            EvalAnswer::Fault(fault) => return Evaluated::Fault(fault),
            EvalAnswer::Exit(value) => return Evaluated::Exit(value),
            EvalAnswer::Value(value) => value,
            EvalAnswer::Code => Value::Number(code.into()),
            EvalAnswer::Mark => Value::Truth(world.mark),
            EvalAnswer::Names => Value::Number(world.rows.len() as i64),
            EvalAnswer::Row(back) => world.row_from_last(back).map_or(Value::Unit, |r| r.value),
        })
    }

    fn allow(&mut self, question: &Question, world: &mut World) -> Allowed {
        let entry = entry_at(&self.script.allows, self.allowed);
        self.allowed += 1;
        let Some(entry) = entry else {
            return Allowed::Yes;
        };
        perform(&entry.effects, world);
        let yes = match entry.answer {
            AllowAnswer::Fault(fault) => return Allowed::Fault(fault),
            AllowAnswer::Yes => true,
            AllowAnswer::No => false,
            AllowAnswer::Present => question.present,
            AllowAnswer::Constant => question.constant,
            AllowAnswer::Level(level) => question.level == level,
        };
        if yes {
            Allowed::Yes
        } else {
            Allowed::No
        }
    }

    fn apply(&self, operator: u16, left: Value, right: Value) -> Operated {
        match operator {
            1 => Operated::Value(left),
            2 => Operated::Value(right),
            3 => Operated::Fault(catchable(41, Position::NONE)),
            4 => Operated::Fault(catchable(42, Position::new(80, 81))),
            5 => Operated::Fault(uncatchable(43, Position::NONE)),
            _ => Operated::NotFound,
        }
    }

    fn binary(&self, operator: u16, left: Value, right: Value) -> Operated {
        match operator {
            2 | 6 => Operated::Value(left),
            7 => Operated::Value(right),
            8 => Operated::Fault(catchable(51, Position::NONE)),
            9 => Operated::Fault(uncatchable(52, Position::new(82, 83))),
            _ => Operated::NotFound,
        }
    }

    fn item(&self, value: Value, index: u64) -> Item {
        match value {
            Value::Range(first, end) => super::range_item(first, end, index),
            Value::Sequence(number) => sequence_item(number, index),
            _ => Item::NotIterable,
        }
    }
}

fn catchable(code: u16, position: Position) -> Fault {
    Fault {
        code,
        position,
        catchable: true,
    }
}

fn uncatchable(code: u16, position: Position) -> Fault {
    Fault {
        catchable: false,
        ..catchable(code, position)
    }
}

/// The digits of a sequence's number, from the last: its length, the index of its faulty item, and
/// the kind of that fault, of which 0 is none.
fn sequence_item(number: u16, index: u64) -> Item {
    if number >= NO_SEQUENCE {
        return Item::NotIterable;
    }
    if index >= u64::from(number % 10) {
        return Item::End;
    }
    let is_faulty = index == u64::from(number / 10 % 10);
    match number / 100 {
        1 if is_faulty => Item::Fault(catchable(61, Position::NONE)),
        2 if is_faulty => Item::Fault(catchable(62, Position::new(90, 91))),
        3.. if is_faulty => Item::Fault(uncatchable(63, Position::NONE)),
        _ => Item::Value(Value::Number(10 * index as i64)),
    }
}

impl fmt::Display for Effect {
    fn fmt(&self, f: &mut fmt::Formatter<'_>) -> fmt::Result {
        match self {
            Self::Append(place, value) => write!(f, "append {place} {value}"),
            Self::Set(back, value) => write!(f, "set {back} {value}"),
        }
    }
}

impl fmt::Display for EvalAnswer {
    fn fmt(&self, f: &mut fmt::Formatter<'_>) -> fmt::Result {
        match self {
            Self::Value(value) => write!(f, "value {value}"),
            Self::Fault(fault) => write!(f, "{fault}"),
            Self::Exit(value) => write!(f, "exit {value}"),
            Self::Code => f.write_str("code"),
            Self::Mark => f.write_str("mark"),
            Self::Names => f.write_str("names"),
            Self::Row(back) => write!(f, "row {back}"),
        }
    }
}

impl fmt::Display for AllowAnswer {
    fn fmt(&self, f: &mut fmt::Formatter<'_>) -> fmt::Result {
        match self {
            Self::Yes => f.write_str("yes"),
            Self::No => f.write_str("no"),
            Self::Fault(fault) => write!(f, "{fault}"),
            Self::Present => f.write_str("present"),
            Self::Constant => f.write_str("constant"),
            Self::Level(level) => write!(f, "level {level}"),
        }
    }
}

/// Effects up to the word that begins the answer, and that word.
fn parse_effects<'a>(line: &mut Line<'a>) -> Result<(Vec<Effect>, &'a str), ParseError> {
    let mut effects = Vec::new();
    loop {
        match line.word()? {
            "append" | "set" if effects.len() == MAX_EFFECTS => {
                return Err(line.error("more than two effects"));
            }
            "append" => effects.push(Effect::Append(Place::parse(line)?, Value::parse(line)?)),
            "set" => effects.push(Effect::Set(line.number()?, Value::parse(line)?)),
            word => return Ok((effects, word)),
        }
    }
}

fn parse_eval(line: &mut Line) -> Result<EvalEntry, ParseError> {
    let (effects, word) = parse_effects(line)?;
    let answer = match word {
        "value" => EvalAnswer::Value(Value::parse(line)?),
        "fault" => EvalAnswer::Fault(Fault::parse(line)?),
        "exit" => EvalAnswer::Exit(Value::parse(line)?),
        "code" => EvalAnswer::Code,
        "mark" => EvalAnswer::Mark,
        "names" => EvalAnswer::Names,
        "row" => EvalAnswer::Row(line.number()?),
        other => return Err(line.error(&format!("no answer of evaluate: {other}"))),
    };
    Ok(EvalEntry { effects, answer })
}

fn parse_allow(line: &mut Line) -> Result<AllowEntry, ParseError> {
    let (effects, word) = parse_effects(line)?;
    let answer = match word {
        "yes" => AllowAnswer::Yes,
        "no" => AllowAnswer::No,
        "fault" => AllowAnswer::Fault(Fault::parse(line)?),
        "present" => AllowAnswer::Present,
        "constant" => AllowAnswer::Constant,
        "level" => AllowAnswer::Level(line.number()?),
        other => return Err(line.error(&format!("no answer of allow: {other}"))),
    };
    Ok(AllowEntry { effects, answer })
}

impl Script {
    /// Read a line of the script by its first word; false if the word is another one.
    pub fn parse_line(&mut self, word: &str, line: &mut Line) -> Result<bool, ParseError> {
        match word {
            "eval" => self.evals.push(parse_eval(line)?),
            "allow" => self.allows.push(parse_allow(line)?),
            _ => return Ok(false),
        }
        Ok(true)
    }

    pub fn lines(&self) -> Vec<String> {
        let effects_text = |effects: &[Effect]| -> String {
            effects.iter().map(|effect| format!("{effect} ")).collect()
        };
        let mut lines = vec!["host script".to_string()];
        for entry in &self.evals {
            let effects = effects_text(&entry.effects);
            lines.push(format!("eval {effects}{}", entry.answer));
        }
        for entry in &self.allows {
            let effects = effects_text(&entry.effects);
            lines.push(format!("allow {effects}{}", entry.answer));
        }
        lines
    }
}
