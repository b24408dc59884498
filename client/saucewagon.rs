//! The planner for Rust: safe calls over the proved library that `client/make staticlib saucewagon_c` writes to `target/staticlib`.
//!
//! A job sheet is a run of bytes; every call takes any bytes at all and tests them. Its answer has the number `ACCEPTED`, or that of
//! a refusal, and the place of the fault in the sheet for the numbers 1 to 9. `docs/SHEET.md` has the layout of a sheet, and says what
//! is left in the lent lists in each case.
//!
//! Nothing is asked of the caller that Rust's types do not already say, but for the stack: `saucewagon.h` says how much a call takes.
//! It compiles in edition 2021 and 2024, from Rust 1.82 on; the linker needs the library's directory, `-L target/staticlib`.
#![allow(dead_code)]

#[link(name = "saucewagon_c", kind = "static")]
unsafe extern "C" {
    fn saucewagon_list(
        sheet: *const u8,
        sheet_length: usize,
        allowance: u64,
        bytes: *mut u8,
        bytes_length: usize,
        sizes: *mut u64,
        sizes_length: usize,
        place: &mut u64,
        listed: &mut u64,
        opened: &mut u64,
        total: &mut u64,
    ) -> u64;

    fn saucewagon_fold(
        sheet: *const u8,
        sheet_length: usize,
        row: *const u8,
        row_length: usize,
        first: *mut u8,
        first_length: usize,
        member: *mut u8,
        member_length: usize,
        place: &mut u64,
        size: &mut u64,
    ) -> u64;
}

/// The most carriers of a sheet.
pub const CARRIERS: usize = 15;
/// The most risers.
pub const RISERS: usize = 12;
/// The most rules.
pub const RULES: usize = 66;
/// The most pairs that a rule allows.
pub const PAIRS: usize = 225;
/// The most swaps.
pub const SWAPS: usize = 8;
/// The length of the longest sheet, in bytes.
pub const LONGEST: usize = 30_214;

/// The number of an answer that is no refusal.
pub const ACCEPTED: u64 = 0;
/// The sheet ends before the next field is whole.
pub const SHEET_ENDS: u64 = 1;
/// A count is outside its limits.
pub const WRONG_COUNT: u64 = 2;
/// A riser's carrier is not a carrier, or not above the one before.
pub const WRONG_CARRIER: u64 = 3;
/// A rule's two risers are not two risers in order, or don't follow the rule before.
pub const WRONG_RULE: u64 = 4;
/// An allowed pair is outside the risers' lists, or not after the pair before.
pub const WRONG_PAIR: u64 = 5;
/// A swap is not a permutation of the carriers.
pub const NO_PERMUTATION: u64 = 6;
/// A swap takes some riser's list out of itself.
pub const LIST_NOT_KEPT: u64 = 7;
/// A swap takes an allowed pair of some rule to a pair not allowed there.
pub const RULE_NOT_KEPT: u64 = 8;
/// Bytes follow the last swap.
pub const BYTES_FOLLOW: u64 = 9;
/// More rows would be opened than the allowance.
pub const BEYOND_ALLOWANCE: u64 = 10;
/// More plans would be listed than there is room for.
pub const BEYOND_ROOM: u64 = 11;
/// A row to fold has another length than the sheet has risers, or a carrier outside its riser's list.
pub const ROW_NOT_WHOLE: u64 = 12;
/// The buffers to fold into are not exactly as many bytes as risers, and as carriers.
pub const BUFFERS_NOT_FITTING: u64 = 13;

/// What a listing answers.
#[derive(Clone, Copy, Debug, Default, PartialEq, Eq)]
pub struct Listing {
    pub number: u64,
    pub place: u64,
    /// How many plans are listed: one of each kind.
    pub listed: u64,
    /// How many rows were opened.
    pub opened: u64,
    /// How many plans there are in all.
    pub total: u64,
}

/// What folding a row answers.
#[derive(Clone, Copy, Debug, Default, PartialEq, Eq)]
pub struct Folding {
    pub number: u64,
    pub place: u64,
    /// How many different images the row has.
    pub size: u64,
}

/// Lists the plans of a sheet once per kind: the rows into `bytes`, their class sizes into `sizes`.
pub fn list(sheet: &[u8], allowance: u64, bytes: &mut [u8], sizes: &mut [u64]) -> Listing {
    let mut answer = Listing::default();
    // SAFETY: each pointer is a reference's, with its slice's length, and references that may be written through overlap nothing.
    answer.number = unsafe {
        saucewagon_list(
            sheet.as_ptr(),
            sheet.len(),
            allowance,
            bytes.as_mut_ptr(),
            bytes.len(),
            sizes.as_mut_ptr(),
            sizes.len(),
            &mut answer.place,
            &mut answer.listed,
            &mut answer.opened,
            &mut answer.total,
        )
    };
    answer
}

/// Folds a row of a sheet: its first image into `first`, and a product of the swaps that takes it there into `member`.
pub fn fold(sheet: &[u8], row: &[u8], first: &mut [u8], member: &mut [u8]) -> Folding {
    let mut answer = Folding::default();
    // SAFETY: as for `list`.
    answer.number = unsafe {
        saucewagon_fold(
            sheet.as_ptr(),
            sheet.len(),
            row.as_ptr(),
            row.len(),
            first.as_mut_ptr(),
            first.len(),
            member.as_mut_ptr(),
            member.len(),
            &mut answer.place,
            &mut answer.size,
        )
    };
    answer
}
