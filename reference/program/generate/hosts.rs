//! Random hosts. A site host's table grows with the expressions of the rule; a script and a list
//! are made after it.

use super::{fault, LETTERS, RULE_TEXT, SITE_TEXT};
use crate::random::Random;
use crate::rule::E;
use rules::hosts::list::Entry;
use rules::hosts::script::{
    AllowAnswer, AllowEntry, Effect, EvalAnswer, EvalEntry, Script, MAX_EFFECTS, NO_SEQUENCE,
};
use rules::hosts::site::{Expression, Operand, Operator, Table};
use rules::hosts::HostText;
use rules::image::ExprKind;
use rules::place::{Place, Position};
use rules::value::Value;

/// What an expression is used for. A maker mostly gives what fits, and sometimes what does not.
#[derive(Debug, Clone, Copy, PartialEq, Eq)]
pub enum Role {
    /// A value that needs no variable.
    Constant,
    Value,
    Condition,
    Items,
    Path,
}

enum HostKind {
    Site,
    List,
    Script,
}

pub struct HostMaker {
    kind: HostKind,
    table: Table,
}

impl HostMaker {
    pub fn new(random: &mut Random) -> Self {
        let kind = match random.weighted(&[35, 10, 55]) {
            0 => HostKind::Site,
            1 => HostKind::List,
            _ => HostKind::Script,
        };
        Self {
            kind,
            table: Table::new(),
        }
    }

    pub fn expression(&mut self, random: &mut Random, role: Role) -> E {
        let constant_chance = if role == Role::Condition { 20 } else { 10 };
        let kind = if random.percent(constant_chance) {
            random.pick(&[ExprKind::Unit, ExprKind::False, ExprKind::True])
        } else {
            ExprKind::Host
        };
        let code = match self.kind {
            HostKind::Site if kind == ExprKind::Host => self.site_code(random, role),
            _ => random.pick(&[0, 1, 2, 5, 65_535]),
        };
        let position = random.percent(12).then(|| odd_position(random));
        E {
            kind,
            code,
            position,
        }
    }

    /// An operator of an assignment, 0 for none. A scripted host knows 1 to 9, the site host 1
    /// and 2, the list host none.
    pub fn operator(&self, random: &mut Random) -> u16 {
        let plain = random.percent(38);
        match self.kind {
            _ if plain => 0,
            HostKind::Script if random.percent(85) => random.between(1, 9) as u16,
            HostKind::Script => random.pick(&[10, 11, 65_535]),
            _ => random.pick(&[1, 1, 2, 3, 65_535]),
        }
    }

    fn site_code(&mut self, random: &mut Random, role: Role) -> u16 {
        if random.percent(3) {
            return 60_000;
        }
        self.table.push(site_expression(random, role));
        self.table.len() as u16 - 1
    }

    pub fn finish(self, random: &mut Random) -> HostText {
        match self.kind {
            HostKind::Site => HostText::Site(self.table),
            HostKind::List => HostText::List(list(random)),
            HostKind::Script => HostText::Script(script(random)),
        }
    }
}

pub fn odd_position(random: &mut Random) -> Position {
    random.pick(&[
        Position::NONE,
        Position::NONE,
        Position::new(0, 7),
        Position::new(9, 0),
        Position::new(65_535, 65_535),
    ])
}

/// A place of a name in either text; at times one that is empty or does not fit.
fn place(random: &mut Random) -> Place {
    match random.below(20) {
        0 => Place::NONE,
        1 => Place::site(random.pick(&[0, 1, 3]), 2),
        2..=10 => Place::rule(random.below(RULE_TEXT.len()) as u32, 1),
        _ => Place::site(random.below(SITE_TEXT.len()) as u32, 1),
    }
}

fn rule_letter(random: &mut Random) -> Place {
    Place::rule(random.below(LETTERS) as u32, 1)
}

fn small(random: &mut Random) -> i64 {
    random.below(5) as i64
}

pub fn constant(random: &mut Random) -> Value {
    match random.weighted(&[2, 3, 8, 1, 1]) {
        0 => Value::Unit,
        1 => Value::Truth(random.percent(50)),
        2 => Value::Number(small(random)),
        3 => Value::Range(small(random), small(random)),
        _ => Value::Number(random.pick(&[i64::MAX, i64::MIN, -1, 4_294_967_295, 4_294_967_296])),
    }
}

fn operand(random: &mut Random) -> Operand {
    if random.percent(45) {
        Operand::Variable(if random.percent(85) {
            rule_letter(random)
        } else {
            place(random)
        })
    } else {
        Operand::Constant(Value::Number(small(random)))
    }
}

fn site_expression(random: &mut Random, role: Role) -> Expression {
    if random.percent(8) {
        return Expression::Single(Operand::Constant(constant(random)));
    }
    let binary = |random: &mut Random, operator| {
        Expression::Binary(operator, operand(random), operand(random))
    };
    let known = |value| Expression::Single(Operand::Constant(value));
    match role {
        Role::Constant => known(constant(random)),
        Role::Value => match random.weighted(&[4, 4, 2, 2]) {
            0 => known(constant(random)),
            1 => binary(random, Operator::Add),
            2 => binary(random, Operator::Subtract),
            _ => Expression::Single(operand(random)),
        },
        Role::Condition => match random.weighted(&[3, 5, 2]) {
            0 => known(Value::Truth(random.percent(60))),
            1 => binary(random, Operator::Less),
            _ => binary(random, Operator::Equal),
        },
        Role::Items => match random.weighted(&[4, 4]) {
            0 => known(Value::Range(small(random), small(random))),
            _ => binary(random, Operator::Range),
        },
        Role::Path => known(Value::Number(small(random))),
    }
}

fn list(random: &mut Random) -> Vec<Entry> {
    (0..random.between(0, 14))
        .map(|_| {
            let value = match random.weighted(&[1, 5, 4]) {
                0 => Value::Unit,
                1 => Value::Truth(random.percent(60)),
                _ => Value::Number(random.pick(&[0, 1, 2, 3, 4, 4_294_967_292])),
            };
            if random.percent(6) {
                Entry::Exit(value)
            } else {
                Entry::Value(value)
            }
        })
        .collect()
}

/// How likely a script answers unit, a truth, a number, a range or a sequence.
type Weights = [usize; 5];

const MIXED: Weights = [2, 8, 6, 2, 3];
const MOSTLY_TRUTHS: Weights = [1, 14, 3, 1, 1];
const MOSTLY_ITERABLE: Weights = [1, 3, 3, 5, 10];
const ALL_SEQUENCES: Weights = [0, 1, 0, 1, 18];

fn script_value(random: &mut Random, weights: &Weights) -> Value {
    match random.weighted(weights) {
        0 => Value::Unit,
        1 => Value::Truth(random.percent(60)),
        2 => Value::Number(small(random)),
        3 => Value::Range(small(random), small(random)),
        _ => Value::Sequence(sequence(random)),
    }
}

/// The number of a sequence: mostly a short one, often with a faulty item, at times with one past
/// its end, and at times one that cannot be iterated.
fn sequence(random: &mut Random) -> u16 {
    if random.percent(12) {
        return random.pick(&[NO_SEQUENCE, NO_SEQUENCE + 101, 9_999, 65_535]);
    }
    let length = random.pick(&[0, 1, 2, 2, 3, 3, 4, 4, 5, 9]);
    let faulty_index = random.below(length + 1);
    let fault_kind = random.pick(&[0, 0, 0, 1, 1, 2, 2, 3, 5, 9]);
    (100 * fault_kind + 10 * faulty_index + length) as u16
}

fn effects(random: &mut Random, chance: usize) -> Vec<Effect> {
    let mut effects = Vec::new();
    while random.percent(chance) && effects.len() < MAX_EFFECTS {
        effects.push(if random.percent(65) {
            Effect::Append(place(random), Value::Number(small(random) + 10))
        } else {
            Effect::Set(random.below(4), Value::Number(small(random) + 20))
        });
    }
    effects
}

fn eval_entry(random: &mut Random, weights: &Weights) -> EvalEntry {
    let answer = match random.weighted(&[60, 7, 3, 3, 4, 4, 12]) {
        0 => EvalAnswer::Value(script_value(random, weights)),
        1 => EvalAnswer::Fault(fault(random)),
        2 => EvalAnswer::Exit(script_value(random, weights)),
        3 => EvalAnswer::Code,
        4 => EvalAnswer::Mark,
        5 => EvalAnswer::Names,
        _ => EvalAnswer::Row(random.below(4)),
    };
    EvalEntry {
        effects: effects(random, 22),
        answer,
    }
}

fn allow_entry(random: &mut Random) -> AllowEntry {
    let answer = match random.weighted(&[20, 2, 2, 1, 1, 2]) {
        0 => AllowAnswer::Yes,
        1 => AllowAnswer::No,
        2 => AllowAnswer::Fault(fault(random)),
        3 => AllowAnswer::Present,
        4 => AllowAnswer::Constant,
        _ => AllowAnswer::Level(random.below(3)),
    };
    AllowEntry {
        effects: effects(random, 20),
        answer,
    }
}

fn script(random: &mut Random) -> Script {
    let weights = random.pick(&[MIXED, MIXED, MOSTLY_TRUTHS, MOSTLY_ITERABLE, ALL_SEQUENCES]);
    Script {
        evals: (0..random.between(0, 9))
            .map(|_| eval_entry(random, &weights))
            .collect(),
        allows: (0..random.weighted(&[4, 2, 2, 1, 1]))
            .map(|_| allow_entry(random))
            .collect(),
    }
}
