//! CPU time of two planners, taken by turns.

/// How long the calls of a round take at least when they are counted out, in nanoseconds; half of it would still be read well.
const ROUND: u64 = 8_000_000;

/// How long a planner may have at one go, in nanoseconds, where two rounds do not take longer.
const GO: u64 = 500_000_000;

/// What the clock said, round after round, in nanoseconds a call.
#[derive(Default)]
pub struct Readings {
    yardstick: Vec<f64>,
    planner: Vec<f64>,
    /// Of each two neighbouring rounds.
    ratios: Vec<f64>,
}

impl Readings {
    /// Times the two by turns, two to five rounds each. The machine's speed changes within a run, and rounds that stand side by
    /// side and are of one length have met the same speed.
    pub fn take(&mut self, mut yardstick: impl FnMut(), mut planner: impl FnMut()) {
        let least = ROUND.max(round(1, &mut planner));
        let turns = [turns(least, &mut yardstick), turns(least, &mut planner)];
        let mut before = None;
        for _ in 0..(GO / least).clamp(2, 5) {
            let theirs = round(turns[0], &mut yardstick) as f64 / turns[0] as f64;
            let ours = round(turns[1], &mut planner) as f64 / turns[1] as f64;
            self.yardstick.push(theirs);
            self.planner.push(ours);
            self.ratios.extend(before.map(|before: f64| before / theirs));
            self.ratios.push(ours / theirs);
            before = Some(ours);
        }
    }

    /// What the readings come to, for calls that open so many rows.
    pub fn times(self, opened: u64) -> Times {
        let by_row = |times: Vec<f64>| times.into_iter().fold(f64::INFINITY, f64::min) / opened as f64;
        Times { yardstick: by_row(self.yardstick), planner: by_row(self.planner), ratio: middle(self.ratios) }
    }
}

/// The least times in nanoseconds by the opened row, and the middle one of the ratios.
pub struct Times {
    pub yardstick: f64,
    pub planner: f64,
    pub ratio: f64,
}

/// How many calls take at least this long.
fn turns(least: u64, call: &mut impl FnMut()) -> u64 {
    let mut turns = 1;
    while round(turns, call) < least {
        turns *= 2;
    }
    turns
}

/// The CPU time of so many calls.
fn round(turns: u64, call: &mut impl FnMut()) -> u64 {
    let start = cpu_nanoseconds();
    for _ in 0..turns {
        call();
    }
    cpu_nanoseconds() - start
}

/// The one that stands in the middle when all are put in order.
fn middle(mut ratios: Vec<f64>) -> f64 {
    ratios.sort_by(f64::total_cmp);
    ratios[ratios.len() / 2]
}

/// A moment of the system's clocks.
#[repr(C)]
struct Moment {
    seconds: i64,
    nanoseconds: i64,
}

extern "C" {
    /// Reads one of the system's clocks.
    fn clock_gettime(clock: i32, moment: *mut Moment) -> i32;
}

/// The clock of this process's CPU time.
const PROCESS_CPU: i32 = 2;

/// The CPU time that this process has taken so far.
fn cpu_nanoseconds() -> u64 {
    let mut moment = Moment { seconds: 0, nanoseconds: 0 };
    // SAFETY: the call writes one moment of this layout and nothing else.
    unsafe { clock_gettime(PROCESS_CPU, &mut moment) };
    moment.seconds as u64 * 1_000_000_000 + moment.nanoseconds as u64
}
