//! Answers by brute force.
//!
//!   brute            answers the lines of standard input, one for one; client/ask.rs has the lines
//!   brute program    prints what the program prints for the sheet on standard input
//!   brute longest    prints a longest sheet
//!   brute chains     for each line `NAME k | swap ; .. | order | lengths` of standard input, holds our own
//!                    chain along 0, 1, 2, .. to the order and the orbit lengths that the line states

use brute::chance::Chance;
use brute::edges::longest;
use brute::group::{Budget, Chain};
use brute::line::answered;
use brute::program::{printed, PROGRAM_READS};
use std::io::{self, BufRead, Read, Write};
use std::process::ExitCode;

/// The steps that one question may take.
const STEPS: u64 = 1_000_000_000;

fn main() -> io::Result<ExitCode> {
    if brute::help::asked(include_str!("brute.rs")) {
        return Ok(ExitCode::SUCCESS);
    }
    let words: Vec<String> = std::env::args().skip(1).collect();
    match words.iter().map(String::as_str).collect::<Vec<_>>()[..] {
        [] => answer_lines(),
        ["program"] => print_as_program(),
        ["longest"] => io::stdout().write_all(&longest(&mut Chance::new(1)).written()).map(|()| ExitCode::SUCCESS),
        ["chains"] => hold_chains(),
        _ => {
            eprintln!("brute: takes nothing, `program`, `longest` or `chains`");
            Ok(ExitCode::FAILURE)
        }
    }
}

/// Answers each line of standard input.
fn answer_lines() -> io::Result<ExitCode> {
    let mut out = io::BufWriter::new(io::stdout().lock());
    for line in io::stdin().lock().split(b'\n') {
        let line = String::from_utf8_lossy(&line?).into_owned();
        writeln!(out, "{}", answered(&line, &mut Budget(STEPS)))?;
    }
    out.flush()?;
    Ok(ExitCode::SUCCESS)
}

/// Prints the program's output for the sheet on standard input.
fn print_as_program() -> io::Result<ExitCode> {
    let mut sheet = Vec::new();
    io::stdin().lock().take(PROGRAM_READS as u64).read_to_end(&mut sheet)?;
    match printed(&sheet, &mut Budget(STEPS)) {
        Ok(text) => {
            io::stdout().write_all(text.as_bytes())?;
            Ok(ExitCode::SUCCESS)
        }
        Err(_) => {
            eprintln!("brute: too large for brute force");
            Ok(ExitCode::FAILURE)
        }
    }
}

/// Compares our chains with those that the lines of standard input state.
fn hold_chains() -> io::Result<ExitCode> {
    let (mut held, mut differ) = (0, 0);
    for line in io::stdin().lock().lines() {
        let line = line?;
        if line.trim().is_empty() || line.starts_with('#') {
            continue;
        }
        held += 1;
        if !chain_agrees(&line).unwrap_or(false) {
            differ += 1;
            println!("differs: {line}");
        }
    }
    println!("{held} compared, {differ} differ");
    Ok(if differ == 0 && held > 0 { ExitCode::SUCCESS } else { ExitCode::FAILURE })
}

/// Whether our chain has the order and the orbit lengths that a line states; nothing where the line cannot be read.
fn chain_agrees(line: &str) -> Option<bool> {
    let parts: Vec<&str> = line.split('|').map(str::trim).collect();
    let [head, swaps, order, lengths] = parts[..] else { return None };
    let carriers: usize = head.split(' ').nth(1)?.parse().ok()?;
    let numbers = |words: &str| words.split_whitespace().map(|word| word.parse().ok()).collect::<Option<Vec<u8>>>();
    let swaps: Vec<Vec<u8>> = swaps.split(';').map(numbers).collect::<Option<_>>()?;
    let swaps: Vec<Vec<u8>> = swaps.into_iter().filter(|swap| !swap.is_empty()).collect();
    let stated: Vec<usize> = numbers(lengths)?.into_iter().map(usize::from).collect();
    let ours = Chain::new(carriers, &swaps).orbit_lengths();
    Some(ours == stated && ours.iter().map(|&length| length as u64).product::<u64>() == order.parse().ok()?)
}
