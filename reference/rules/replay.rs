//! Cases with answers as text: writing them, and comparing answers with recorded ones.

use crate::case::{call_line, Case, RecordedCase};
use crate::session::{run_case, Answer, Call, Runner};

/// The text of a case with its answers, each set of answers under the call it belongs to.
pub fn recorded_text(case: &Case, answers: &[Answer]) -> String {
    let mut lines = case.head_lines();
    let mut answers = answers.iter();
    let mut push_answer = |lines: &mut Vec<String>| {
        if let Some(answer) = answers.next() {
            lines.extend(answer.lines().iter().map(|line| format!("= {line}")));
        }
    };
    // A `lend` before the first call belongs to open, so the answers of check and open follow it.
    let opening = case
        .calls
        .iter()
        .take_while(|call| matches!(call, Call::Lend(_)))
        .count();
    lines.extend(case.calls[..opening].iter().map(call_line));
    push_answer(&mut lines);
    push_answer(&mut lines);
    for call in &case.calls[opening..] {
        lines.push(call_line(call));
        if !matches!(call, Call::Lend(_)) {
            push_answer(&mut lines);
        }
    }
    lines.push("end".to_string());
    lines.join("\n") + "\n"
}

/// The first line in which the answers of a runner differ from the recorded ones.
pub fn first_difference(recorded: &RecordedCase, runner: &mut dyn Runner) -> Option<String> {
    let answers = run_case(&recorded.case, runner);
    let given: Vec<String> = answers.iter().flat_map(Answer::lines).collect();
    if given == recorded.answers {
        return None;
    }
    let nothing = "(nothing)".to_string();
    let at = |lines: &[String], i: usize| lines.get(i).unwrap_or(&nothing).clone();
    let differs = |i: &usize| at(&given, *i) != at(&recorded.answers, *i);
    let index = (0..).find(differs)?;
    let (recorded_line, given_line) = (at(&recorded.answers, index), at(&given, index));
    Some(format!(
        "{}: recorded `{recorded_line}`, given `{given_line}`",
        recorded.case.name
    ))
}
