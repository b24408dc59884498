//! Prints a seeded run of questions, one a line.
//!
//!   generate SEED COUNT [KIND ..]    of these kinds, or of all where none is named
//!
//! The kinds:

use brute::questions::{Run, KINDS};
use std::io::{self, Write};
use std::process::ExitCode;

fn main() -> io::Result<ExitCode> {
    if brute::help::asked(include_str!("generate.rs")) {
        for kind in &KINDS {
            println!("  {:<13}{}", kind.name, kind.what);
        }
        return Ok(ExitCode::SUCCESS);
    }
    let words: Vec<String> = std::env::args().skip(1).collect();
    match asked_run(&words) {
        Ok((mut run, count)) => {
            let mut out = io::BufWriter::new(io::stdout().lock());
            for _ in 0..count {
                writeln!(out, "{}", run.line())?;
            }
            out.flush()?;
            Ok(ExitCode::SUCCESS)
        }
        Err(reason) => {
            eprintln!("generate: {reason}; takes SEED COUNT [KIND ..]");
            Ok(ExitCode::FAILURE)
        }
    }
}

/// The run that the words on the command line ask for, and its length.
fn asked_run(words: &[String]) -> Result<(Run, usize), String> {
    let [seed, count, kinds @ ..] = words else { return Err("too few words".to_string()) };
    let seed = seed.parse().map_err(|_| "SEED is no number".to_string())?;
    let count = count.parse().map_err(|_| "COUNT is no number".to_string())?;
    Ok((Run::new(seed, kinds)?, count))
}
