//! The proved planner beside the yardstick, on sheets that both answer alike.
//!
//!   ratio measure SHEET ..              for each sheet's file, the CPU time of both by the opened row, and their ratio
//!   ratio orders SHEET ..               the same beside the order of the sheet's group
//!   ratio repeat PLANNER TIMES SHEET    lists a sheet so many times by `planner` or `yardstick`, for an instruction counter

mod clock;
mod job;
#[allow(dead_code)]
#[path = "../../../client/saucewagon.rs"]
mod saucewagon;

use clock::{Readings, Times};
use job::{planner, yardstick, Job};
use std::io;
use std::process::ExitCode;
use yardstick::group::{Group, WHOLE};
use yardstick::read::read;

fn main() -> ExitCode {
    let words: Vec<String> = std::env::args().skip(1).collect();
    let done = match words.iter().map(String::as_str).collect::<Vec<_>>()[..] {
        ["measure", ref sheets @ ..] if !sheets.is_empty() => measure(sheets),
        ["orders", ref sheets @ ..] if !sheets.is_empty() => orders(sheets),
        ["repeat", "planner", times, sheet] => repeat(planner, times, sheet),
        ["repeat", "yardstick", times, sheet] => repeat(yardstick, times, sheet),
        _ => Err(io::Error::other("takes `measure SHEET ..`, `orders SHEET ..` or `repeat planner|yardstick TIMES SHEET`")),
    };
    match done {
        Ok(()) => ExitCode::SUCCESS,
        Err(reason) => {
            eprintln!("ratio: {reason}");
            ExitCode::FAILURE
        }
    }
}

/// How often the clock goes round all the sheets.
const PASSES: usize = 3;

/// The jobs of some sheets' files with their times. Nothing is timed before both planners have answered all of them alike.
fn timed(sheets: &[&str]) -> io::Result<Vec<(Job, Times)>> {
    let jobs = sheets.iter().map(|path| Job::new(path)).collect::<io::Result<Vec<_>>>()?;
    jobs.iter().try_for_each(Job::held)?;
    let mut readings: Vec<_> = jobs.iter().map(|_| Readings::default()).collect();
    for _ in 0..PASSES {
        for (job, readings) in jobs.iter().zip(&mut readings) {
            let (mut ours, mut theirs) = (job.lists(), job.lists());
            readings.take(|| _ = job.call(yardstick, &mut theirs), || _ = job.call(planner, &mut ours));
        }
    }
    let times: Vec<_> = jobs.iter().zip(readings).map(|(job, readings)| readings.times(job.answer.opened)).collect();
    Ok(jobs.into_iter().zip(times).collect())
}

/// Prints a line for each sheet, then how many there are, the geometric mean of the ratios and the largest.
fn measure(sheets: &[&str]) -> io::Result<()> {
    let timed = timed(sheets)?;
    println!("{:<28} {:>9} {:>9} {:>9} {:>9} {:>8}", "sheet", "opened", "listed", "yardstick", "planner", "ratio");
    let (mut logarithms, mut largest) = (0.0, (0.0, ""));
    for (Job { name, answer, .. }, Times { yardstick, planner, ratio }) in &timed {
        let (opened, listed) = (answer.opened, answer.listed);
        println!("{name:<28} {opened:>9} {listed:>9} {yardstick:>9.2} {planner:>9.2} {ratio:>8.2}");
        logarithms += ratio.ln();
        if *ratio > largest.0 {
            largest = (*ratio, name);
        }
    }
    println!("sheets {}", timed.len());
    println!("geometric mean of the ratios {:.2}", (logarithms / timed.len() as f64).exp());
    println!("largest ratio {:.2}, {}", largest.0, largest.1);
    Ok(())
}

/// Prints a line for each sheet: how many members its group has, and the times.
fn orders(sheets: &[&str]) -> io::Result<()> {
    let timed = timed(sheets)?;
    println!("{:<28} {:>14} {:>9} {:>9} {:>9} {:>8}", "sheet", "order", "opened", "yardstick", "planner", "ratio");
    for (job, Times { yardstick, planner, ratio }) in &timed {
        let (order, opened) = (order(job)?, job.answer.opened);
        println!("{:<28} {order:>14} {opened:>9} {yardstick:>9.2} {planner:>9.2} {ratio:>8.2}", job.name);
    }
    Ok(())
}

/// How many members the group of a job has: the orbit lengths along its chain, multiplied.
fn order(job: &Job) -> io::Result<u64> {
    let sheet = read(&job.sheet).map_err(|_| io::Error::other("refused"))?;
    let mut group = Group::new(sheet.carriers, &sheet.swaps);
    let (mut held, mut order) = (WHOLE, 1);
    for carrier in 0..sheet.carriers {
        order *= u64::from(group.at(held).lengths[carrier]);
        held = group.hold(held, carrier);
    }
    Ok(order)
}

/// Lists one sheet over and over.
fn repeat(planner: job::Planner, times: &str, path: &str) -> io::Result<()> {
    let times: u64 = times.parse().map_err(|_| io::Error::other("TIMES is no number"))?;
    let job = Job::new(path)?;
    let mut lists = job.lists();
    for _ in 0..times {
        job.call(planner, &mut lists);
    }
    println!("{times} listings, opened {}", job.answer.opened);
    Ok(())
}
