//! The tuned planner as a program.
//!
//!   yardstick answer    answers the lines `ID list SHEET ALLOWANCE BYTES SIZES` of standard input

use brute::line::{commas, hex, name, question, Question};
use std::io::{self, BufRead, Write};
use std::process::ExitCode;
use yardstick::search::{list, Answer};

fn main() -> ExitCode {
    let words: Vec<String> = std::env::args().skip(1).collect();
    let done = match words.iter().map(String::as_str).collect::<Vec<_>>()[..] {
        ["answer"] => answer_lines(),
        _ => Err(io::Error::other("takes `answer`")),
    };
    match done {
        Ok(()) => ExitCode::SUCCESS,
        Err(reason) => {
            eprintln!("yardstick: {reason}");
            ExitCode::FAILURE
        }
    }
}

/// Answers each line of standard input.
fn answer_lines() -> io::Result<()> {
    let mut out = io::BufWriter::new(io::stdout().lock());
    for line in io::stdin().lock().lines() {
        let line = line?;
        match question(&line) {
            Ok(Question::List { sheet, allowance, mut bytes, mut sizes }) => {
                let Answer { number, place, listed, opened, total } = list(&sheet, allowance, &mut bytes, &mut sizes);
                let (bytes, sizes) = (hex(&bytes), commas(&sizes));
                writeln!(out, "{} {number} {place} {listed} {opened} {total} {bytes} {sizes}", name(&line))?;
            }
            Ok(_) => writeln!(out, "{} ? only listings are answered", name(&line))?,
            Err(reason) => writeln!(out, "{} ? {reason}", name(&line))?,
        }
    }
    out.flush()
}
