//! Prints questions to list every prefix and every one-byte change of a sheet.
//!
//!   every SEED    the sheet that the seed settles: an accepted one of at most eighty bytes
//!
//! A prefix of length L is asked under the name `prefix-L`, the sheet with its byte at P made B under `P-B`.

use brute::chance::Chance;
use brute::line::{asked, Question};
use brute::shapes;
use std::io::{self, Write};
use std::process::ExitCode;

/// The longest sheet that is taken, the most rows that it has, and the allowance of each question.
const LONGEST: usize = 80;
const ROWS: usize = 100;
const ALLOWANCE: u64 = 200;

fn main() -> io::Result<ExitCode> {
    if brute::help::asked(include_str!("every.rs")) {
        return Ok(ExitCode::SUCCESS);
    }
    let words: Vec<String> = std::env::args().skip(1).collect();
    let [Ok(seed)] = words.iter().map(|word| word.parse()).collect::<Vec<_>>()[..] else {
        eprintln!("every: takes SEED");
        return Ok(ExitCode::FAILURE);
    };
    let mut chance = Chance::new(seed);
    let sheet = short_sheet(&mut chance);
    let (bytes, sizes) = (chance.bytes(7), chance.sizes(2));
    let mut out = io::BufWriter::new(io::stdout().lock());
    let mut print = |name: String, sheet: &[u8]| {
        let question = Question::List { sheet: sheet.to_vec(), allowance: ALLOWANCE, bytes: bytes.clone(), sizes: sizes.clone() };
        writeln!(out, "{}", asked(&name, &question))
    };
    for length in 0..=sheet.len() {
        print(format!("prefix-{length}"), &sheet[..length])?;
    }
    for place in 0..sheet.len() {
        for byte in (0..=255).filter(|&byte| byte != sheet[place]) {
            let mut changed = sheet.clone();
            changed[place] = byte;
            print(format!("{place}-{byte}"), &changed)?;
        }
    }
    out.flush()?;
    Ok(ExitCode::SUCCESS)
}

/// A sheet that is short enough.
fn short_sheet(chance: &mut Chance) -> Vec<u8> {
    loop {
        let sheet = shapes::sheet(chance, ROWS).written();
        if sheet.len() <= LONGEST {
            return sheet;
        }
    }
}
