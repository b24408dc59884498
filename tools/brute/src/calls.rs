//! The calls. Each has a file of its own below, with all that there is to it: how it is asked, what it answers by brute force, when
//! another's answer will do, and its questions in the gate. A further call is such a file, and a line here in `Question`, `CALLS` and
//! `Question::asked`.

pub mod fold;
pub mod list;

use crate::group::{Budget, TooLarge};

/// A call and what is handed to it.
#[derive(Clone, Debug, PartialEq, Eq)]
pub enum Question {
    List { sheet: Vec<u8>, allowance: u64, bytes: Vec<u8>, sizes: Vec<u64> },
    Fold { sheet: Vec<u8>, row: Vec<u8>, first: Vec<u8>, member: Vec<u8> },
}

/// The calls.
pub static CALLS: [&Call; 2] = [&list::CALL, &fold::CALL];

impl Question {
    /// The question as its call has it.
    pub fn asked(&self) -> Box<dyn Asked + '_> {
        match self {
            Question::List { sheet, allowance, bytes, sizes } => {
                Box::new(list::ToList { sheet, allowance: *allowance, bytes, sizes })
            }
            Question::Fold { sheet, row, first, member } => Box::new(fold::ToFold { sheet, row, first, member }),
        }
    }
}

/// What a call is known by.
pub struct Call {
    /// Its name in a line.
    pub name: &'static str,
    /// Its kind in the gate, as crates/trials/src/main.rt has it.
    pub kind: u8,
    /// The numbers that its answers have; the gate's questions show each.
    pub numbers: &'static [u8],
    /// The question of the words after the name, or why there is none.
    pub read: fn(&[&str]) -> Result<Question, String>,
}

/// A question to some call.
pub trait Asked {
    /// The call that is asked.
    fn call(&self) -> &'static Call;

    /// The words after the call's name.
    fn words(&self) -> String;

    /// The words of the answer, by brute force.
    fn answer(&self, budget: &mut Budget) -> Result<String, TooLarge>;

    /// In what another's answer, a whole line as brute force's is, differs from that, if it does. Where several answers will do, the
    /// call says here when one does.
    fn difference(&self, brute: &str, other: &str) -> Option<String> {
        first_word_apart(brute, other)
    }

    /// The question as the gate's program reads it.
    fn parts(&self) -> Parts<'_>;

    /// The question with its lent lists filled from a byte on, as the gate's program fills them.
    fn filled(&self, from: u8) -> Question;

    /// What the gate's program prints where these are the words of the answer. Where several answers will do, the call says here what is
    /// the same for all.
    fn printed(&self, answer: String) -> String {
        answer
    }
}

/// A question as the gate's program reads it; crates/trials/src/main.rt has where each part stands.
pub struct Parts<'a> {
    pub sheet: &'a [u8],
    /// The lengths of the first and of the second lent list.
    pub lent: [usize; 2],
    /// The number at the head's end.
    pub number: u64,
    /// What follows the sheet.
    pub more: &'a [u8],
}

/// Which word of two answers is the first that differs, if one does.
pub fn first_word_apart(brute: &str, other: &str) -> Option<String> {
    let (words, others): (Vec<&str>, Vec<&str>) = (brute.split(' ').collect(), other.split(' ').collect());
    let same = words.iter().zip(&others).take_while(|(word, other)| word == other).count();
    (brute != other).then(|| format!("word {} of the answer differs", same + 1))
}

/// Different bytes, from a byte on.
fn bytes_from(from: u8, length: usize) -> Vec<u8> {
    (0..length).map(|i| from.wrapping_add((i as u8).wrapping_mul(37))).collect()
}

/// Different sizes, from a byte on.
fn sizes_from(from: u8, length: usize) -> Vec<u64> {
    (0..length as u64).map(|i| u64::from(from).wrapping_add(i.wrapping_mul(11_400_714_819_323_198_485))).collect()
}
