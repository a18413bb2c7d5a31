//! The reference: runs rule images over the original and records its answers.

mod compare;
mod coverage;
mod directed;
mod enumerate;
mod generate;
mod random;
mod rule;

use compare::{compare, Tally};
use rhai::bridge::Original;
use rules::case::{parse_cases, Case, RecordedCase};
use rules::model::{Model, Variant};
use rules::replay::{first_difference, recorded_text};
use rules::session::{run_case, Runner};
use std::io::Write;
use std::process::ExitCode;

const USAGE: &str = "usage:
  reference answer FILE        print the cases of a file with the answers of the original
  reference check FILE...      compare recorded answers with those of the original
  reference check-rules FILE.. compare recorded answers with those of the model of the rules
  reference generate SEED N    print N random cases with the answers of the original
  reference small              print all small rules with the answers of the original
  reference compare SEED N     run N random cases over the original and the model
  reference compare-small      the same for all small rules
  reference record SEED N DIR  choose cases from small rules and N random ones; write the lists";

fn main() -> ExitCode {
    silence_panics_of_the_original();
    let args: Vec<String> = std::env::args().skip(1).collect();
    let words: Vec<&str> = args.iter().map(String::as_str).collect();
    match execute(&words) {
        Ok(()) => ExitCode::SUCCESS,
        Err(message) => {
            eprintln!("{message}");
            ExitCode::FAILURE
        }
    }
}

fn execute(words: &[&str]) -> Result<(), String> {
    match words {
        ["answer", file] => {
            let cases = read(file)?;
            print_answers(cases.into_iter().map(|recorded| recorded.case));
            Ok(())
        }
        ["check", files @ ..] if !files.is_empty() => replay(files, &mut Original),
        ["check-rules", files @ ..] if !files.is_empty() => {
            replay(files, &mut Model::new(Variant::Rules))
        }
        ["generate", seed, count] => {
            print_answers(random_cases(seed, count)?);
            Ok(())
        }
        ["small"] => {
            print_answers(enumerate::cases());
            Ok(())
        }
        ["compare", seed, count] => compare_all(random_cases(seed, count)?),
        ["compare-small"] => compare_all(enumerate::cases()),
        ["record", seed, count, folder] => record(number(seed)?, number(count)?, folder),
        _ => Err(USAGE.to_string()),
    }
}

fn number(word: &str) -> Result<u64, String> {
    word.parse().map_err(|_| format!("no number: {word}"))
}

fn random_cases(seed: &str, count: &str) -> Result<impl Iterator<Item = Case>, String> {
    let seed = number(seed)?;
    Ok((0..number(count)?).map(move |i| generate::case(seed, i)))
}

fn read(file: &str) -> Result<Vec<RecordedCase>, String> {
    let text = std::fs::read_to_string(file).map_err(|error| format!("{file}: {error}"))?;
    parse_cases(&text).map_err(|error| format!("{file}: {error}"))
}

/// Print cases with the answers of the original, until nobody reads on.
fn print_answers(cases: impl Iterator<Item = Case>) {
    let mut out = std::io::BufWriter::new(std::io::stdout().lock());
    for case in cases {
        let text = recorded_text(&case, &run_case(&case, &mut Original));
        if out.write_all(text.as_bytes()).is_err() {
            return;
        }
    }
}

/// Compare the answers recorded in files with those of a runner.
fn replay(files: &[&str], runner: &mut dyn Runner) -> Result<(), String> {
    let mut failed = 0;
    for file in files {
        let cases = read(file)?;
        let differing: Vec<String> = cases
            .iter()
            .filter_map(|recorded| first_difference(recorded, runner))
            .collect();
        for line in differing.iter().take(5) {
            println!("{line}");
        }
        println!("{file}: {} cases, {} differ", cases.len(), differing.len());
        failed += differing.len();
    }
    if failed == 0 {
        Ok(())
    } else {
        Err(format!("{failed} cases differ"))
    }
}

/// Run cases over the original and the model; fail if a difference has no name.
fn compare_all(cases: impl Iterator<Item = Case>) -> Result<(), String> {
    let mut tally = Tally::default();
    for case in cases {
        tally.add(&case);
    }
    println!("{}", tally.report());
    for case in tally.unexplained.iter().take(3) {
        let comparison = compare(case);
        println!("original:\n{}", recorded_text(case, &comparison.original));
        println!("rules:\n{}", recorded_text(case, &comparison.by_rules));
    }
    if tally.unexplained.is_empty() {
        Ok(())
    } else {
        Err("differences without explanation".to_string())
    }
}

fn record(seed: u64, count: u64, folder: &str) -> Result<(), String> {
    let lists = coverage::choose(seed, count);
    let write = |name: &str, text: &str| {
        std::fs::write(format!("{folder}/{name}"), text).map_err(|error| error.to_string())
    };
    write("main.txt", &lists.main)?;
    write("differences.txt", &lists.differences)?;
    write("differences-by-rules.txt", &lists.differences_by_rules)?;
    write("images.txt", &lists.images)?;
    print!("{}", lists.report);
    Ok(())
}

/// A panic inside the original is an answer; only others are reported.
fn silence_panics_of_the_original() {
    let report = std::panic::take_hook();
    std::panic::set_hook(Box::new(move |info| {
        if !rhai::bridge::is_running() {
            report(info);
        }
    }));
}
