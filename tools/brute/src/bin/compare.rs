//! Compares two programs' answers to the same questions.
//!
//!   compare QUESTIONS BRUTE OTHER    three files, line for line
//!
//! Answers must be the same to the letter, but of two unreadable ones only the name and `?` count, and where several
//! answers will do, as the members that folding may write, each is held to what it must do.
//! Says where the answers differ; the last line is `N compared, M differ`.

use brute::calls::first_word_apart;
use brute::line::{name, question};
use std::fs;
use std::process::ExitCode;

fn main() -> ExitCode {
    if brute::help::asked(include_str!("compare.rs")) {
        return ExitCode::SUCCESS;
    }
    let paths: Vec<String> = std::env::args().skip(1).collect();
    let [questions, brute, other] = &paths[..] else {
        eprintln!("compare: takes QUESTIONS BRUTE OTHER");
        return ExitCode::FAILURE;
    };
    match (lines(questions), lines(brute), lines(other)) {
        (Ok(questions), Ok(brute), Ok(other)) => compare(&questions, &brute, &other),
        (questions, brute, other) => {
            for reason in [questions.err(), brute.err(), other.err()].into_iter().flatten() {
                eprintln!("compare: {reason}");
            }
            ExitCode::FAILURE
        }
    }
}

/// The lines of a file.
fn lines(path: &str) -> Result<Vec<String>, String> {
    let bytes = fs::read(path).map_err(|reason| format!("{path}: {reason}"))?;
    Ok(String::from_utf8_lossy(&bytes).lines().map(str::to_string).collect())
}

/// Says where the answers differ, and how many do.
fn compare(questions: &[String], brute: &[String], other: &[String]) -> ExitCode {
    let mut differ = 0;
    let count = questions.len().max(brute.len()).max(other.len());
    for i in 0..count {
        let line = |lines: &[String]| lines.get(i).cloned();
        let why = match (line(questions), line(brute), line(other)) {
            (Some(question), Some(brute), Some(other)) => difference(&question, &brute, &other),
            (question, brute, _) => {
                let lacking = if question.is_none() {
                    "question"
                } else if brute.is_none() {
                    "brute answer"
                } else {
                    "other answer"
                };
                Some(format!("no {lacking}"))
            }
        };
        if let Some(why) = why {
            differ += 1;
            println!("line {}: {why}", i + 1);
            for (who, lines) in [("asked", questions), ("brute", brute), ("other", other)] {
                println!("  {who} {}", lines.get(i).map_or("nothing", String::as_str));
            }
        }
    }
    println!("{count} compared, {differ} differ");
    if differ == 0 {
        ExitCode::SUCCESS
    } else {
        ExitCode::FAILURE
    }
}

/// In what two answers to a question differ, if they do.
fn difference(asked: &str, brute: &str, other: &str) -> Option<String> {
    let unreadable = format!("{} ?", name(asked));
    let gave_up = |answer: &str| answer == unreadable || answer.starts_with(&format!("{unreadable} "));
    let Ok(question) = question(asked) else {
        return (!(gave_up(brute) && gave_up(other))).then(|| "one answer reads what cannot be read".to_string());
    };
    if gave_up(brute) {
        return Some("brute force gave no answer".to_string());
    }
    if name(brute) != name(asked) {
        return first_word_apart(brute, other);
    }
    let asked = question.asked();
    asked.difference(brute, other)
}
