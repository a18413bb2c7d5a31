//! The original beside the model of the rules.

use rhai::bridge::Original;
use rules::case::Case;
use rules::model::{Difference, Model, Variant};
use rules::session::{run_case, Answer};
use std::collections::{BTreeMap, BTreeSet};

/// How a case fares on both sides.
pub struct Comparison {
    pub original: Vec<Answer>,
    pub by_rules: Vec<Answer>,
    /// The steps of the run by the rules at which the original is known to depart.
    pub noted: BTreeSet<Difference>,
    pub verdict: Verdict,
}

#[derive(Debug, Clone, Copy, PartialEq, Eq, PartialOrd, Ord)]
pub enum Verdict {
    Agree,
    /// They disagree, and named differences explain it.
    Explained,
    /// They disagree, and nothing explains it.
    Unexplained,
}

fn lines(answers: &[Answer]) -> Vec<String> {
    answers.iter().flat_map(Answer::lines).collect()
}

pub fn compare(case: &Case) -> Comparison {
    let original = run_case(case, &mut Original);
    let mut model = Model::new(Variant::Rules);
    let by_rules = run_case(case, &mut model);
    let departing = run_case(case, &mut Model::new(Variant::Original));
    let verdict = if lines(&original) != lines(&departing) {
        Verdict::Unexplained
    } else if lines(&original) == lines(&by_rules) {
        Verdict::Agree
    } else if model.noted.is_empty() {
        Verdict::Unexplained
    } else {
        Verdict::Explained
    };
    Comparison {
        original,
        by_rules,
        noted: model.noted,
        verdict,
    }
}

/// What came of many comparisons.
#[derive(Default)]
pub struct Tally {
    pub cases: u64,
    pub explained: u64,
    pub by_difference: BTreeMap<Difference, u64>,
    pub endings: BTreeMap<String, u64>,
    pub unexplained: Vec<Case>,
}

impl Tally {
    pub fn add(&mut self, case: &Case) {
        let comparison = compare(case);
        self.cases += 1;
        for line in lines(&comparison.original) {
            let words: Vec<&str> = line.split(' ').take(3).collect();
            let ending = match words.as_slice() {
                ["run", "fault" | "refused", number] => format!("{} {number}", words[1]),
                ["run", ending, ..] => (*ending).to_string(),
                _ => continue,
            };
            *self.endings.entry(ending).or_default() += 1;
        }
        match comparison.verdict {
            Verdict::Agree => (),
            Verdict::Explained => {
                self.explained += 1;
                for difference in comparison.noted {
                    *self.by_difference.entry(difference).or_default() += 1;
                }
            }
            Verdict::Unexplained => self.unexplained.push(case.clone()),
        }
    }

    pub fn report(&self) -> String {
        let mut lines = vec![format!(
            "{} cases: {} agree, {} differ as named, {} differ without explanation",
            self.cases,
            self.cases - self.explained - self.unexplained.len() as u64,
            self.explained,
            self.unexplained.len()
        )];
        for difference in Difference::ALL {
            let count = self.by_difference.get(&difference).unwrap_or(&0);
            lines.push(format!("  {}: {count}", difference.name()));
        }
        let endings = self
            .endings
            .iter()
            .map(|(e, count)| format!("{e}: {count}"));
        lines.push(format!(
            "endings of runs: {}",
            endings.collect::<Vec<_>>().join(", ")
        ));
        lines.join("\n")
    }
}
