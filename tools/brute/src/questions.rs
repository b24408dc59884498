//! The seeded run of questions: sheets of every kind, with allowances and lent lists that are exactly enough,
//! one too few, or more than enough. Each question is one that brute force answers within a small budget.

use crate::chance::Chance;
use crate::count::count;
use crate::damage::damaged;
use crate::edges::edge;
use crate::group::Budget;
use crate::line::{answer, asked, Question};
use crate::shapes;
use crate::sheet::{read, Sheet};
use std::collections::VecDeque;

/// A kind of questions.
pub struct Kind {
    pub name: &'static str,
    pub what: &'static str,
    /// How often it is taken beside the others; damaged sheets come many at a time.
    share: usize,
    /// Makes some lines of it, without their names.
    make: fn(&mut Chance) -> Vec<String>,
}

/// The kinds. A further one is a function like `accepted` below, and its line here.
pub static KINDS: [Kind; 6] = [
    Kind { name: "accepted", what: "to list an accepted sheet", share: 44, make: accepted },
    Kind {
        name: "unsymmetric",
        what: "to list a sheet that need not keep its swaps: 7 and 8 for the most part",
        share: 16,
        make: unsymmetric,
    },
    Kind {
        name: "damaged",
        what: "to list a sheet cut at each byte, with each byte changed, shifted, or extended",
        share: 1,
        make: all_damaged,
    },
    Kind { name: "edge", what: "to list a sheet at a limit, the longest among them", share: 8, make: at_an_edge },
    Kind { name: "fold", what: "to fold a row", share: 30, make: folding },
    Kind { name: "unreadable", what: "a line that cannot be read", share: 1, make: unreadable },
];

/// The steps that brute force may take for one question, and the most rows of all risers that a sheet is made with.
const STEPS: u64 = 400_000;
const ROWS: usize = 20_000;

/// A run of questions that its seed and its kinds settle.
pub struct Run {
    chance: Chance,
    kinds: Vec<&'static Kind>,
    waiting: VecDeque<(&'static str, String)>,
    given: usize,
}

impl Run {
    /// The run of a seed, over the named kinds, or over all where none is named.
    pub fn new(seed: u64, names: &[String]) -> Result<Self, String> {
        if let Some(name) = names.iter().find(|name| KINDS.iter().all(|kind| kind.name != **name)) {
            return Err(format!("no kind {name}"));
        }
        let wanted = |name: &str| names.is_empty() || names.iter().any(|wanted| wanted == name);
        let kinds = KINDS.iter().filter(|kind| wanted(kind.name)).collect();
        Ok(Run { chance: Chance::new(seed), kinds, waiting: VecDeque::new(), given: 0 })
    }

    /// The next line.
    pub fn line(&mut self) -> String {
        loop {
            if let Some((kind, rest)) = self.waiting.pop_front() {
                self.given += 1;
                return format!("{kind}-{}{rest}", self.given);
            }
            let kind = self.pick();
            self.waiting.extend((kind.make)(&mut self.chance).into_iter().map(|line| (kind.name, line)));
        }
    }

    /// One of the kinds, each as often as its share says.
    fn pick(&mut self) -> &'static Kind {
        let mut pick = self.chance.below(self.kinds.iter().map(|kind| kind.share).sum());
        let mut kinds = self.kinds.iter();
        loop {
            let kind = *kinds.next().unwrap();
            if pick < kind.share {
                return kind;
            }
            pick -= kind.share;
        }
    }
}

/// The lines, without their names, of those questions that brute force answers within its steps.
fn lines(questions: impl IntoIterator<Item = Question>) -> Vec<String> {
    let quick = |question: &Question| answer(question, &mut Budget(STEPS)).is_ok();
    questions.into_iter().filter(quick).map(|question| asked("", &question)).collect()
}

/// To list an accepted sheet with few or many rows.
fn accepted(chance: &mut Chance) -> Vec<String> {
    let most = *chance.one(&[10, 100, 1_000, 1_000, 5_000, ROWS]);
    let sheet = shapes::sheet(chance, most).written();
    lines(listing(chance, &sheet, None))
}

/// To list a sheet that need not keep its swaps, and nine times in ten does not.
fn unsymmetric(chance: &mut Chance) -> Vec<String> {
    let sheet = shapes::unsymmetric(chance, ROWS).written();
    if read(&sheet).is_ok() && chance.percent(90) {
        return Vec::new();
    }
    lines(listing(chance, &sheet, None))
}

/// To list damaged copies of one sheet.
fn all_damaged(chance: &mut Chance) -> Vec<String> {
    let sheet = shapes::sheet(chance, 500).written();
    let copies = damaged(chance, &sheet);
    lines(copies.iter().filter_map(|copy| listing(chance, copy, None)))
}

/// To list a sheet at some limit.
fn at_an_edge(chance: &mut Chance) -> Vec<String> {
    let edge = edge(chance);
    lines(listing(chance, &edge.sheet, edge.most_allowance))
}

/// A question to list a sheet; where `most` is given, with an allowance that is no larger.
/// Nothing where the sheet has too many rows.
fn listing(chance: &mut Chance, sheet: &[u8], most: Option<u64>) -> Option<Question> {
    let read = read(sheet);
    let (mut allowance, mut bytes, mut sizes) = (chance.below(40) as u64, chance.below(50), chance.below(8));
    match (&read, most) {
        (Err(_), _) => {}
        (Ok(_), Some(most)) => allowance = chance.between(0, most as usize) as u64,
        (Ok(read), None) => {
            let count = count(read, u64::MAX, &mut Budget(STEPS)).ok()??;
            allowance = allowance_for(chance, count.opened);
            (bytes, sizes) = room_for(chance, count.plans.len(), read.risers());
        }
    }
    let (bytes, sizes) = (chance.bytes(bytes), chance.sizes(sizes));
    Some(Question::List { sheet: sheet.to_vec(), allowance, bytes, sizes })
}

/// An allowance beside the number opened: exactly enough, one too few, none, any.
fn allowance_for(chance: &mut Chance, opened: u64) -> u64 {
    match chance.below(20) {
        0..=5 => opened,
        6..=8 => opened - 1,
        9..=11 => u64::MAX,
        12..=15 => 1_000_000,
        16 => 0,
        17 => opened + 1,
        _ => chance.below(2 * opened as usize + 1) as u64,
    }
}

/// Lengths of the lent lists beside the number listed: exactly enough, one too few, none, more in one or both.
fn room_for(chance: &mut Chance, listed: usize, risers: usize) -> (usize, usize) {
    let longest = 3_000 / risers;
    let room = match chance.below(10) {
        0..=3 => listed,
        4 => listed.saturating_sub(1),
        5 => listed + chance.between(1, 3),
        6 => 0,
        _ => chance.below(2 * listed + 2),
    };
    let room = if room > longest { chance.below(longest) } else { room };
    let (bytes, sizes) = match chance.below(5) {
        0 => (room * risers, room),
        1 => (room * risers + chance.below(risers), room + chance.below(4)),
        2 => (room * risers + chance.below(3 * risers), room),
        3 => (room * risers + risers - 1, room + 1),
        _ => (room * risers, room + 2),
    };
    (bytes, sizes)
}

/// To fold a row, most often a whole one with buffers of the right lengths.
fn folding(chance: &mut Chance) -> Vec<String> {
    let sheet = match chance.below(20) {
        0 => edge(chance).sheet,
        1 => shapes::unsymmetric(chance, ROWS).written(),
        2 => {
            let sheet = shapes::sheet(chance, 100).written();
            damaged(chance, &sheet).pop().unwrap_or(sheet)
        }
        _ => {
            let most = *chance.one(&[100, ROWS, 1_000_000, 1_000_000_000]);
            shapes::sheet(chance, most).written()
        }
    };
    let (row, risers, carriers) = match read(&sheet) {
        Ok(sheet) => (row(chance, &sheet), sheet.risers(), sheet.carriers),
        Err(_) => (chance.bytes(3), 3, 3),
    };
    let (mut first, mut member) = (risers, carriers);
    if chance.percent(12) {
        first = *chance.one(&[risers, risers - 1, risers + 1, carriers, 0]);
        member = *chance.one(&[carriers, carriers - 1, carriers + 1, risers, 0]);
    }
    let (first, member) = (chance.bytes(first), chance.bytes(member));
    lines([Question::Fold { sheet, row, first, member }])
}

/// A row of a sheet, often with few different carriers, sometimes with one fault.
fn row(chance: &mut Chance, sheet: &Sheet) -> Vec<u8> {
    let few = chance.percent(50);
    let mut row: Vec<u8> = Vec::new();
    for list in &sheet.lists {
        let used: Vec<u8> = list.iter().copied().filter(|carrier| row.contains(carrier)).collect();
        let again = few && !used.is_empty() && chance.percent(70);
        row.push(*chance.one(if again { &used } else { list }));
    }
    let at = chance.below(row.len());
    match chance.below(40) {
        0 => row.push(row[at]),
        1 => drop(row.pop()),
        2 => row.clear(),
        3 => row[at] = sheet.carriers as u8,
        4 => row[at] = 255,
        5 | 6 => row[at] = chance.below(sheet.carriers) as u8,
        _ => {}
    }
    row
}

/// What follows the name on a line that cannot be read.
fn unreadable(chance: &mut Chance) -> Vec<String> {
    let lines = [
        "",
        " ",
        " list",
        " fold",
        " plan 03 1 - -",
        " list 01 5 -",
        " list 01 5 - - -",
        " list 0 5 - -",
        " list 0G 5 - -",
        " list 0A 5 - -",
        " list 01 -1 - -",
        " list 01 18446744073709551616 - -",
        " list 01 5 - 1,,2",
        " list 01 5 - 1,18446744073709551616",
        " list 01 5 - ,",
        " list 01  - -",
        " list 01 five - -",
        " fold 01 00 0 -",
        " fold 01 00 - ",
        " fold 01 zz - -",
        " Fold 01 00 - -",
    ];
    vec![chance.one(&lines).to_string()]
}
