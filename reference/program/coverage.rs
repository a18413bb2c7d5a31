//! Choosing the cases of the recorded list.

use crate::compare::{compare, Verdict};
use crate::{directed, enumerate, generate};
use rules::case::Case;
use rules::events::{Event, Events, Sort};
use rules::model::{Difference, Model, Variant};
use rules::replay::recorded_text;
use rules::session::run_case;
use std::collections::{BTreeMap, BTreeSet};

/// Each event is to occur in so many cases, if it occurs in so many at all.
const CASES_FOR_EVENT: u32 = 5;
/// How many cases are wanted, and how large their text may grow.
const WANTED: usize = 3_000;
const MAX_BYTES: usize = 2_400_000;
/// How many generated cases are kept for each difference.
const CASES_FOR_DIFFERENCE: usize = 30;

/// The events that the report tells in full.
const REPORTED: [(&str, Sort); 8] = [
    (
        "statement kinds, with the flags that they read, plus 16 in inner blocks",
        Sort::Statement,
    ),
    (
        "faults, with the kinds in which they arise, plus 32 without position",
        Sort::Fault,
    ),
    (
        "faults with a position of their own, with the kinds in which they arise",
        Sort::OwnPosition,
    ),
    (
        "faults caught, with 1 for a name plus 2 for an empty catch block",
        Sort::Caught,
    ),
    (
        "charges at which operations ran out, with statement kinds \
         (0 statement, 1 expression, 2 target, 3 empty round, 4 empty item)",
        Sort::Struck,
    ),
    (
        "operators, at most 10, with their answers (0 value, 1 not found, 2 fault, \
         3 fault that can be caught), plus 4 for binary",
        Sort::Operated,
    ),
    (
        "items of For loops by index, at most 3, plus 4 with a counter, with twice what they are \
         (0 value, 1 end, 2 fault, 3 fault that can be caught, plus 2 with a position of its own), \
         plus 1 over an empty body",
        Sort::Item,
    ),
    (
        "endings of runs (0 value, 1 return, else a fault), with the names at the start, at most 3",
        Sort::Run,
    ),
];

/// A case on which the original and the rules agree.
struct Candidate {
    text: String,
    single: BTreeSet<Event>,
    pairs: BTreeSet<(Event, Event)>,
}

/// A case on which they do not.
struct Departing {
    original: String,
    by_rules: String,
    noted: BTreeSet<Difference>,
    by_hand: bool,
}

/// The texts of the recorded lists.
#[derive(Default)]
pub struct Lists {
    pub main: String,
    pub differences: String,
    pub differences_by_rules: String,
    pub images: String,
    pub report: String,
}

pub fn choose(seed: u64, random_cases: u64) -> Lists {
    let mut kept = Kept::default();
    let mut pool = Vec::new();
    let mut departing = Vec::new();
    for case in directed::cases() {
        match examine(&case, true) {
            Ok(candidate) => kept.keep(&candidate),
            Err(difference) => departing.push(difference),
        }
    }
    let random = (0..random_cases).map(|number| generate::case(seed, number));
    for case in enumerate::cases().chain(random) {
        match examine(&case, false) {
            Ok(candidate) => pool.push(candidate),
            Err(difference) => departing.push(difference),
        }
    }
    pool.sort_by_key(|candidate| candidate.text.len());
    let available = available_events(&pool);
    kept.choose(pool);
    let (differences, differences_by_rules) = choose_departing(departing);
    let images = directed::image_cases();
    Lists {
        report: kept.report(&available),
        main: kept.text,
        differences,
        differences_by_rules,
        images: images
            .iter()
            .map(|case| recorded_text(case, &compare(case).original))
            .collect(),
    }
}

fn examine(case: &Case, by_hand: bool) -> Result<Candidate, Departing> {
    let comparison = compare(case);
    let text = recorded_text(case, &comparison.original);
    match comparison.verdict {
        Verdict::Agree => {
            let events = events_of(case);
            Ok(Candidate {
                text,
                single: events.single,
                pairs: events.pairs,
            })
        }
        Verdict::Explained => Err(Departing {
            original: text,
            by_rules: recorded_text(case, &comparison.by_rules),
            noted: comparison.noted,
            by_hand,
        }),
        Verdict::Unexplained => panic!("an unexplained difference:\n{text}"),
    }
}

/// What happens in a case by the rules.
fn events_of(case: &Case) -> Events {
    let mut model = Model::new(Variant::Rules);
    model.events = Events::wanted();
    run_case(case, &mut model);
    model.events
}

fn available_events(pool: &[Candidate]) -> BTreeSet<Event> {
    pool.iter().flat_map(|c| c.single.iter().copied()).collect()
}

/// The cases that are kept so far, and what they cover.
#[derive(Default)]
struct Kept {
    text: String,
    cases: usize,
    single: BTreeMap<Event, u32>,
    pairs: BTreeSet<(Event, Event)>,
}

impl Kept {
    fn keep(&mut self, candidate: &Candidate) {
        self.text.push_str(&candidate.text);
        self.cases += 1;
        for event in &candidate.single {
            *self.single.entry(*event).or_default() += 1;
        }
        self.pairs.extend(candidate.pairs.iter().copied());
    }

    fn is_full(&self) -> bool {
        self.cases >= WANTED || self.text.len() >= MAX_BYTES
    }

    /// Small cases first: one for each event, then those with many new pairs of events, then those
    /// with fewer, then more for rare events, then those with any new pair.
    fn choose(&mut self, pool: Vec<Candidate>) {
        let mut rest = self.pass(pool, |kept, candidate| kept.has_rarer(candidate, 1));
        for new_pairs in [16, 12, 8, 6, 5, 4, 3, 2] {
            rest = self.pass(rest, |kept, candidate| {
                kept.has_new_pairs(candidate, new_pairs)
            });
        }
        rest = self.pass(rest, |kept, candidate| {
            kept.has_rarer(candidate, CASES_FOR_EVENT)
        });
        self.pass(rest, |kept, candidate| kept.has_new_pairs(candidate, 1));
    }

    /// Whether a candidate has so many pairs of events that no kept case has.
    fn has_new_pairs(&self, candidate: &Candidate, wanted: usize) -> bool {
        candidate.pairs.difference(&self.pairs).count() >= wanted
    }

    /// Whether a candidate has an event that fewer kept cases have.
    fn has_rarer(&self, candidate: &Candidate, fewer: u32) -> bool {
        let seen = |event: &Event| self.single.get(event).copied().unwrap_or(0);
        candidate.single.iter().map(seen).any(|count| count < fewer)
    }

    fn pass(
        &mut self,
        pool: Vec<Candidate>,
        wanted: impl Fn(&Self, &Candidate) -> bool,
    ) -> Vec<Candidate> {
        let mut rest = Vec::new();
        for candidate in pool {
            if !self.is_full() && wanted(self, &candidate) {
                self.keep(&candidate);
            } else {
                rest.push(candidate);
            }
        }
        rest
    }

    fn report(&self, available: &BTreeSet<Event>) -> String {
        let mut lines = vec![format!(
            "{} cases, {} bytes, {} events of {} that the pool has, {} pairs of events",
            self.cases,
            self.text.len(),
            self.single.len(),
            available
                .union(&self.single.keys().copied().collect())
                .count(),
            self.pairs.len()
        )];
        for (title, sort) in REPORTED {
            lines.push(format!("{title}:"));
            let mut by_first: BTreeMap<u32, Vec<String>> = BTreeMap::new();
            for (Event(_, a, b), count) in self.single.iter().filter(|(event, _)| event.0 == sort) {
                by_first
                    .entry(*a)
                    .or_default()
                    .push(format!("{b} ({count})"));
            }
            let lines_of = by_first
                .iter()
                .map(|(a, parts)| format!("  {a}: {}", parts.join(", ")));
            lines.extend(lines_of);
        }
        lines.join("\n") + "\n"
    }
}

/// The cases made by hand, and the smallest generated ones for each difference alone.
fn choose_departing(mut departing: Vec<Departing>) -> (String, String) {
    departing.sort_by_key(|case| (!case.by_hand, case.original.len()));
    let mut counts: BTreeMap<BTreeSet<Difference>, usize> = BTreeMap::new();
    let (mut original, mut by_rules) = (String::new(), String::new());
    for case in departing {
        let count = counts.entry(case.noted.clone()).or_default();
        *count += 1;
        if case.by_hand || *count <= CASES_FOR_DIFFERENCE {
            let names: Vec<&str> = case.noted.iter().map(|d| d.name()).collect();
            let heading = format!("# {}\n", names.join(", "));
            original.push_str(&format!("{heading}{}", case.original));
            by_rules.push_str(&format!("{heading}{}", case.by_rules));
        }
    }
    (original, by_rules)
}
