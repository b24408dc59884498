//! The meanings of docs/SHEET.md by brute force: every row, every product of the swaps, the least over all images.
//!
//!   sheet      the job sheet, its reader with refusals 1 to 9, and its writer
//!   group      products of swaps, images of a row, membership
//!   count      what a listing counts
//!   calls      the calls, each with its questions, its answers and its trials
//!   line       questions and answers as lines of text
//!   program    what the program prints
//!   chance     seeded numbers
//!   shapes     swaps, lists and rules of many shapes, closed under the swaps
//!   damage     sheets cut, changed and extended
//!   edges      sheets and questions at the limits
//!   questions  the seeded run of questions
//!   trials     the questions of the gate, in a compact form
//!   help       `--help` of the programs

pub mod calls;
pub mod chance;
pub mod count;
pub mod damage;
pub mod edges;
pub mod group;
pub mod help;
pub mod line;
pub mod program;
pub mod questions;
pub mod shapes;
pub mod sheet;
pub mod trials;
