//! Questions for the gate: small ones in the form that crates/trials/src/main.rt has, with what that program is to print.

use crate::calls::{Asked, Parts, CALLS};
use crate::group::{Budget, TooLarge};
use crate::line::question;
use crate::questions::Run;
use crate::sheet::LONGEST;
use std::collections::BTreeMap;

/// The runs that questions are taken from, one after another: how many of which kinds. The kinds of a further call are a run of their own,
/// so that the questions before it stay as they are.
const RUNS: [(usize, &[&str]); 1] = [(4_000, &["accepted", "unsymmetric", "damaged", "edge", "fold"])];

/// A kind of question that the gate's program does not know.
const UNKNOWN: u8 = 255;

/// How large a question may be: the lengths of the sheet, of what follows it, of the first lent list, and of the second.
type Limits = [usize; 4];

/// The limits for all questions, and for a few.
const SMALL: Limits = [160, 20, 160, 15];
const LARGE: Limits = [LONGEST + 1, 20, 1_000, 120];

/// How many bytes the sheets of the few may have together.
const LARGE_BYTES: usize = 160_000;

/// Questions in their compact form, a line for each answer, and, for each call, how many answers have each number.
#[derive(Default)]
pub struct Trials {
    pub questions: Vec<u8>,
    pub answers: String,
    pub numbers: [BTreeMap<u8, usize>; CALLS.len()],
    made: usize,
}

/// The trials of a seed.
pub fn trials(seed: u64) -> Result<Trials, TooLarge> {
    let mut trials = Trials::default();
    for (count, kinds) in RUNS {
        trials.run(seed, count, kinds)?;
    }
    trials.reject();
    Ok(trials)
}

/// Whether a question keeps to the limits.
fn within(parts: &Parts, limits: &Limits) -> bool {
    let lengths = [parts.sheet.len(), parts.more.len(), parts.lent[0], parts.lent[1]];
    lengths.iter().zip(limits).all(|(length, limit)| length <= limit)
}

impl Trials {
    /// Adds so many trials of some kinds, from the run of a seed.
    fn run(&mut self, seed: u64, count: usize, kinds: &[&str]) -> Result<(), TooLarge> {
        let kinds: Vec<String> = kinds.iter().map(|kind| kind.to_string()).collect();
        let mut run = Run::new(seed, &kinds).expect("the kinds are the generator's");
        let (end, mut large) = (self.made + count, 0);
        while self.made < end {
            let Ok(question) = question(&run.line()) else { continue };
            let asked = question.asked();
            let parts = asked.parts();
            if !within(&parts, &SMALL) {
                if !within(&parts, &LARGE) || large + parts.sheet.len() > LARGE_BYTES {
                    continue;
                }
                large += parts.sheet.len();
            }
            let from = (self.made * 101) as u8;
            self.add(asked.filled(from).asked().as_ref(), from)?;
        }
        Ok(())
    }

    /// Adds a question whose lent lists are filled from a byte, and its answer.
    fn add(&mut self, asked: &dyn Asked, from: u8) -> Result<(), TooLarge> {
        let answer = asked.answer(&mut Budget(u64::MAX))?;
        let number = answer.split(' ').next().and_then(|word| word.parse().ok()).expect("an answer starts with its number");
        let place = CALLS.iter().position(|call| call.kind == asked.call().kind).expect("the call is one of the calls");
        *self.numbers[place].entry(number).or_default() += 1;
        self.ask(asked.call().kind, from, &asked.parts());
        self.answers += &asked.printed(answer);
        self.answers.push('\n');
        self.made += 1;
        Ok(())
    }

    /// Adds a question of a kind.
    fn ask(&mut self, kind: u8, from: u8, parts: &Parts) {
        self.questions.extend([kind, from]);
        for length in [parts.sheet.len(), parts.lent[0], parts.lent[1]] {
            self.questions.extend((length as u16).to_le_bytes());
        }
        self.questions.extend(parts.number.to_le_bytes());
        self.questions.extend(parts.sheet);
        self.questions.extend(parts.more);
    }

    /// Adds a question of a kind that the gate's program does not know, and one more, which it then does not come to.
    fn reject(&mut self) {
        for kind in [UNKNOWN, CALLS[0].kind] {
            self.ask(kind, 0, &Parts { sheet: &[], lent: [0, 0], number: 0, more: &[] });
        }
        self.answers += "? no such kind\n";
    }
}
