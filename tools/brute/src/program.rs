//! What the program prints.

use crate::calls::list::list;
use crate::group::{Budget, TooLarge};
use crate::sheet::LONGEST;

/// The allowance and the lengths of the lists that the program lends, and the most bytes that it reads.
const PROGRAM_ALLOWANCE: u64 = 1_000_000;
const PROGRAM_BYTES: usize = 24_576;
const PROGRAM_SIZES: usize = 2_048;
pub const PROGRAM_READS: usize = LONGEST + 1;

/// What the program prints for a sheet on its standard input.
pub fn printed(sheet: &[u8], budget: &mut Budget) -> Result<String, TooLarge> {
    let sheet = &sheet[..sheet.len().min(PROGRAM_READS)];
    let listing = list(sheet, PROGRAM_ALLOWANCE, &[0; PROGRAM_BYTES], &[0; PROGRAM_SIZES], budget)?;
    if listing.number != 0 {
        return Ok(format!("refused {} at {}\n", listing.number, listing.place));
    }
    let mut text = format!("plans {} opened {} total {}\n", listing.listed, listing.opened, listing.total);
    let risers = sheet[1] as usize;
    for (row, size) in listing.bytes.chunks(risers).zip(&listing.sizes).take(listing.listed as usize) {
        for carrier in row {
            text += &format!("{carrier} ");
        }
        text += &format!("{size}\n");
    }
    Ok(text)
}
