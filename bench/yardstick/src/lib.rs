//! A tuned planner, written by hand and not proved: what speed is measured against.
//!
//!   read     the job sheet into masks, with refusals 1 to 9
//!   group    the members that hold some carriers, remembered by those carriers
//!   search   the listing
//!
//! A mask is sixteen bits, one for each carrier. Beside a row stand masks, one for each riser, of the carriers that
//! go with it there; a carrier more narrows all of them at once.

pub mod group;
pub mod read;
pub mod search;

/// A permutation of carriers; places past the last carrier hold themselves.
pub type Swap = [u8; 16];

/// The swap that leaves every carrier where it is.
pub const IDENTITY: Swap = [0, 1, 2, 3, 4, 5, 6, 7, 8, 9, 10, 11, 12, 13, 14, 15];

/// A mask of carriers for each riser.
#[derive(Clone, Copy)]
#[repr(align(32))]
pub struct Masks(pub [u16; 16]);
