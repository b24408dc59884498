//! Prints the listing of the job sheet on standard input, and folds the row of each riser's last carrier.
//!
//!   rustc --edition 2024 -O -L target/staticlib client/example.rs -o target/example-rust
//!   target/example-rust < examples/A.sheet

mod saucewagon;

use saucewagon::{ACCEPTED, CARRIERS, LONGEST, RISERS};
use std::io::{self, Read};

/// Some carriers, parted by spaces.
fn words(carriers: &[u8]) -> String {
    carriers.iter().map(u8::to_string).collect::<Vec<_>>().join(" ")
}

/// The last carrier of each riser's list, of an accepted sheet.
fn last_carriers(sheet: &[u8]) -> Vec<u8> {
    let mut at = 2;
    let mut row = Vec::new();
    for _ in 0..sheet[1] {
        let count = usize::from(sheet[at]);
        row.push(sheet[at + count]);
        at += 1 + count;
    }
    row
}

fn main() -> io::Result<()> {
    let mut sheet = Vec::new();
    // one byte more than the longest sheet, so that a longer one is refused and not cut
    io::stdin().take(LONGEST as u64 + 1).read_to_end(&mut sheet)?;
    let (mut bytes, mut sizes) = (vec![0; 2048 * RISERS], vec![0; 2048]);
    let answer = saucewagon::list(&sheet, 1_000_000, &mut bytes, &mut sizes);
    if answer.number != ACCEPTED {
        println!("refused {} at {}", answer.number, answer.place);
        return Ok(());
    }
    println!("plans {} opened {} total {}", answer.listed, answer.opened, answer.total);
    let (carriers, risers) = (usize::from(sheet[0]), usize::from(sheet[1]));
    for (row, size) in bytes.chunks(risers).zip(&sizes).take(answer.listed as usize) {
        println!("{} {size}", words(row));
    }

    let row = last_carriers(&sheet);
    let (mut first, mut member) = ([0; RISERS], [0; CARRIERS]);
    let (first, member) = (&mut first[..risers], &mut member[..carriers]);
    let folding = saucewagon::fold(&sheet, &row, first, member);
    println!("{} folds to {} by {} and is one of {}", words(&row), words(first), words(member), folding.size);
    Ok(())
}
