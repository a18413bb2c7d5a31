//! Random cases, fixed by a seed and a number.

mod hosts;
mod statements;

use crate::random::Random;
use crate::rule::assemble;
use hosts::HostMaker;
use rules::case::Case;
use rules::check::check;
use rules::host::Fault;
use rules::hosts::list::is_list_value;
use rules::model::{Model, Variant};
use rules::outcome::{Ending, RunAnswer};
use rules::place::{Place, Position};
use rules::resolver::{Resolved, Resolver, Table};
use rules::session::{run_case, Answer, Call, Lent, Limits};
use rules::value::Value;

/// The text of every generated rule. Each letter stands twice, so that one name has two places;
/// one is no letter of any alphabet, for names are bytes.
pub const RULE_TEXT: &[u8] = b"ab\xc3ab\xc3";
/// How many of its letters are different.
pub const LETTERS: usize = 3;
/// The text of every generated site; `q` is no name of a rule.
pub const SITE_TEXT: &[u8] = b"ab\xc3q";

/// The case with a number, for a seed.
pub fn case(seed: u64, number: u64) -> Case {
    let mut random = Random::new(seed ^ number.wrapping_mul(0xd134_2543_de82_ef95));
    random.next();
    let mut maker = HostMaker::new(&mut random);
    let rule = statements::rule(&mut random, &mut maker);
    let mut case = Case::new(&format!("random-{seed}-{number}"));
    case.image = assemble(&rule, RULE_TEXT);
    assert!(
        check(&case.image).is_ok(),
        "the generator makes good images"
    );
    case.site = SITE_TEXT.to_vec();
    case.host = maker.finish(&mut random);
    case.resolver = resolver(&mut random);
    case.limits = limits(&mut random);
    case.calls = calls(&mut random, &case);
    if random.percent(30) {
        tighten(&mut random, &mut case);
    }
    case
}

pub fn fault(random: &mut Random) -> Fault {
    let position = match random.below(3) {
        0 => Position::new(random.between(40, 42) as u16, random.between(1, 3) as u16),
        _ => Position::NONE,
    };
    Fault {
        code: random.pick(&[1, 2, 7, 300, 65_535]),
        position,
        catchable: random.percent(70),
    }
}

fn resolver(random: &mut Random) -> Resolver {
    let first = table(random);
    let second = random.percent(40).then(|| table(random));
    Resolver { first, second }
}

fn table(random: &mut Random) -> Table {
    let rows = random.below(5);
    (0..rows)
        .map(|_| {
            let answer = match random.weighted(&[7, 1, 2]) {
                0 => Resolved::Module(random.pick(&[0, 1, 9, 77, u32::MAX])),
                1 => Resolved::NotFound,
                _ => Resolved::Fault(fault(random)),
            };
            (random.below(5) as u32, answer)
        })
        .collect()
}

fn limits(random: &mut Random) -> Limits {
    let operations = match random.weighted(&[1, 3, 6]) {
        0 => random.between(1, 8),
        1 => random.between(9, 40),
        _ => random.between(41, 250),
    };
    Limits {
        operations: operations as u64,
        variables: random.pick(&[1, 2, 3, 3, 4, 4, 5, 6, 8, 8, 10, 20, 126]),
        modules: random.pick(&[0, 1, 1, 2, 3, 16]),
    }
}

/// Set the operation limit near to what the case counts, so that it strikes at a late step, or
/// only just does not strike.
fn tighten(random: &mut Random, case: &mut Case) {
    let answers = run_case(case, &mut Model::new(Variant::Rules));
    let counts: Vec<u64> = answers.iter().filter_map(count_of).collect();
    if let Some(&count) = counts.iter().max().filter(|count| **count > 1) {
        let back = random.below(4.min(count as usize)) as u64;
        case.limits.operations = count - back;
    }
}

fn count_of(answer: &Answer) -> Option<u64> {
    match answer {
        Answer::Run(RunAnswer { count, ending, .. }) if *ending != Ending::Panic => Some(*count),
        _ => None,
    }
}

fn calls(random: &mut Random, case: &Case) -> Vec<Call> {
    let mut calls = Vec::new();
    for _ in 0..random.weighted(&[4, 3, 3, 2]) {
        calls.push(put(random, case));
    }
    for _ in 0..=random.weighted(&[6, 3, 1]) {
        if random.percent(20) {
            calls.push(other_call(random, case));
        }
        calls.push(Call::Run {
            exit_is_value: random.percent(30),
        });
    }
    if random.percent(15) {
        calls.push(Call::Read(letter(random)));
    }
    calls
}

fn letter(random: &mut Random) -> Place {
    Place::site(random.below(SITE_TEXT.len()) as u32, 1)
}

fn put(random: &mut Random, case: &Case) -> Call {
    let place = match random.below(25) {
        0 => Place::site(random.pick(&[0, 4, 9]), random.pick(&[0, 5, u32::MAX])),
        _ => letter(random),
    };
    let mut value = hosts::constant(random);
    if matches!(case.host, rules::hosts::HostText::List(_)) && !is_list_value(value) {
        value = Value::Unit;
    }
    Call::Put(place, value)
}

fn other_call(random: &mut Random, case: &Case) -> Call {
    match random.weighted(&[4, 4, 4, 1]) {
        0 => put(random, case),
        1 => Call::Read(letter(random)),
        2 => Call::Rewind(random.below(5) as u64),
        _ => Call::Lend(Lent {
            variables: random.pick(&[2, 10, 128]),
            imports: random.pick(&[15, 16]),
            working: random.pick(&[63, 64]),
        }),
    }
}
