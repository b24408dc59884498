//! Writes the gate's questions and what brute force answers to them.
//!
//!   trials SEED QUESTIONS ANSWERS    two files to write
//!
//! Says how many answers have each number, and fails where some number that a call answers has none.

use brute::calls::CALLS;
use brute::trials::{trials, Trials};
use std::fs;
use std::process::ExitCode;

fn main() -> ExitCode {
    if brute::help::asked(include_str!("trials.rs")) {
        return ExitCode::SUCCESS;
    }
    let words: Vec<String> = std::env::args().skip(1).collect();
    match made(&words) {
        Ok(missing) if missing.is_empty() => ExitCode::SUCCESS,
        Ok(missing) => {
            eprintln!("trials: no answer {}", missing.join(", none "));
            ExitCode::FAILURE
        }
        Err(reason) => {
            eprintln!("trials: {reason}; takes SEED QUESTIONS ANSWERS");
            ExitCode::FAILURE
        }
    }
}

/// Writes both files, says what they hold, and names the answers that are missing.
fn made(words: &[String]) -> Result<Vec<String>, String> {
    let [seed, questions, answers] = words else { return Err("not three words".to_string()) };
    let seed = seed.parse().map_err(|_| "SEED is no number".to_string())?;
    let trials = trials(seed).map_err(|_| "too large for brute force".to_string())?;
    fs::write(questions, &trials.questions).map_err(|reason| format!("{questions}: {reason}"))?;
    fs::write(answers, &trials.answers).map_err(|reason| format!("{answers}: {reason}"))?;
    Ok(said(&trials))
}

/// Says how many answers to each call have each number, and names those that none has.
fn said(trials: &Trials) -> Vec<String> {
    let mut missing = Vec::new();
    for (call, numbers) in CALLS.iter().zip(&trials.numbers) {
        let counts: Vec<String> = numbers.iter().map(|(number, count)| format!("{number}: {count}")).collect();
        println!("{} {}", call.name, counts.join(", "));
        let lacking = call.numbers.iter().filter(|number| !numbers.contains_key(number));
        missing.extend(lacking.map(|number| format!("{number} to {}", call.name)));
    }
    println!("{} bytes of questions, {} of answers", trials.questions.len(), trials.answers.len());
    missing
}
