//! The two planners as one kind of call, and the sheets that they are given.

use crate::saucewagon::{self, Listing};
use std::hint::black_box;
use std::io;
use std::path::Path;
use yardstick::search;

/// The allowance of every listing here.
const ALLOWANCE: u64 = u64::MAX;

/// A planner: lists a sheet into lent lists.
pub type Planner = fn(&[u8], &mut [u8], &mut [u64]) -> Listing;

/// The proved planner.
pub fn planner(sheet: &[u8], bytes: &mut [u8], sizes: &mut [u64]) -> Listing {
    saucewagon::list(sheet, ALLOWANCE, bytes, sizes)
}

/// The yardstick.
pub fn yardstick(sheet: &[u8], bytes: &mut [u8], sizes: &mut [u64]) -> Listing {
    let search::Answer { number, place, listed, opened, total } = search::list(sheet, ALLOWANCE, bytes, sizes);
    Listing { number: u64::from(number), place: place as u64, listed, opened, total }
}

/// A sheet to be listed, and its answer.
pub struct Job {
    pub name: String,
    pub sheet: Vec<u8>,
    pub answer: Listing,
}

/// The lent lists of a job, with room for exactly its plans.
#[derive(PartialEq, Eq)]
pub struct Lists {
    bytes: Vec<u8>,
    sizes: Vec<u64>,
}

impl Job {
    /// The job of a sheet's file, answered by the yardstick.
    pub fn new(path: &str) -> io::Result<Self> {
        let sheet = std::fs::read(path)?;
        let counted = yardstick(&sheet, &mut [], &mut []);
        if counted.number != 0 && counted.number != 11 {
            return Err(io::Error::other(format!("{path} is refused {} at {}", counted.number, counted.place)));
        }
        let name = Path::new(path).file_stem().unwrap_or_default().to_string_lossy().into_owned();
        Ok(Job { name, sheet, answer: Listing { number: 0, ..counted } })
    }

    /// Lists for this job that hold nothing yet.
    pub fn lists(&self) -> Lists {
        let (listed, risers) = (self.answer.listed as usize, usize::from(self.sheet[1]));
        Lists { bytes: vec![254; listed * risers], sizes: vec![u64::MAX; listed] }
    }

    /// One call of a planner; never inlined, so that an instruction counter finds it.
    #[inline(never)]
    pub fn call(&self, planner: Planner, lists: &mut Lists) -> Listing {
        black_box(planner(black_box(&self.sheet), &mut lists.bytes, &mut lists.sizes))
    }

    /// That both planners give this job's answer and leave the same lists.
    pub fn held(&self) -> io::Result<()> {
        let (mut ours, mut theirs) = (self.lists(), self.lists());
        let answers = [self.call(planner, &mut ours), self.call(yardstick, &mut theirs)];
        if answers != [self.answer; 2] {
            return Err(io::Error::other(format!(
                "{}: the planner answers {:?}, the yardstick {:?}",
                self.name, answers[0], answers[1]
            )));
        }
        if ours != theirs {
            return Err(io::Error::other(format!("{}: the planner and the yardstick leave different lists", self.name)));
        }
        Ok(())
    }
}
