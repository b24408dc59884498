//! The job sheet: its parts, the reader that walks it once and names the first fault, and the writer.
//!
//! A field is one byte, but a rule's two risers are one field, a pair is one, and a swap's bytes are one.
//! Faults are taken in reading order; within a field, refusal 1 comes before the rest.

/// The most carriers, risers, rules, pairs of a rule and swaps that a sheet may have.
pub const CARRIERS: usize = 15;
pub const RISERS: usize = 12;
pub const RULES: usize = 66;
pub const PAIRS: usize = 225;
pub const SWAPS: usize = 8;

/// The length of the longest sheet.
pub const LONGEST: usize = 30_214;

/// Carriers u of riser a and v of riser b that may stand together; the pairs ascend.
#[derive(Clone, Debug, PartialEq, Eq)]
pub struct Rule {
    pub a: usize,
    pub b: usize,
    pub pairs: Vec<(u8, u8)>,
}

/// The four sections of a sheet.
#[derive(Clone, Debug, PartialEq, Eq)]
pub struct Sheet {
    pub carriers: usize,
    pub lists: Vec<Vec<u8>>,
    pub rules: Vec<Rule>,
    pub swaps: Vec<Vec<u8>>,
}

/// A refusal of the sheet: its number, and the place of the byte that it names.
#[derive(Clone, Copy, Debug, PartialEq, Eq)]
pub struct Refusal {
    pub number: u8,
    pub place: usize,
}

impl Rule {
    /// Whether the pair (u, v) is among the allowed ones.
    pub fn allows(&self, u: u8, v: u8) -> bool {
        self.pairs.binary_search(&(u, v)).is_ok()
    }
}

impl Sheet {
    /// How many risers the sheet has.
    pub fn risers(&self) -> usize {
        self.lists.len()
    }

    /// The bytes of the sheet, section after section; what stands in it is not tested.
    pub fn written(&self) -> Vec<u8> {
        let mut bytes = vec![self.carriers as u8, self.lists.len() as u8];
        for list in &self.lists {
            bytes.push(list.len() as u8);
            bytes.extend(list);
        }
        bytes.push(self.rules.len() as u8);
        for rule in &self.rules {
            bytes.extend([rule.a as u8, rule.b as u8, rule.pairs.len() as u8]);
            for &(u, v) in &rule.pairs {
                bytes.extend([u, v]);
            }
        }
        bytes.push(self.swaps.len() as u8);
        for swap in &self.swaps {
            bytes.extend(swap);
        }
        bytes
    }
}

/// The sheet that the bytes are, or the first fault in reading order.
pub fn read(bytes: &[u8]) -> Result<Sheet, Refusal> {
    let mut reader = Reader { bytes, offset: 0 };
    let carriers = reader.count(1, CARRIERS)?;
    let risers = reader.count(1, RISERS)?;
    let mut lists = Vec::new();
    for _ in 0..risers {
        lists.push(reader.list(carriers)?);
    }
    let rules = reader.rules(&lists)?;
    let mut sheet = Sheet { carriers, lists, rules, swaps: Vec::new() };
    for _ in 0..reader.count(0, SWAPS)? {
        let swap = reader.swap(&sheet)?;
        sheet.swaps.push(swap);
    }
    if reader.offset < bytes.len() {
        return Err(Refusal { number: 9, place: reader.offset });
    }
    Ok(sheet)
}

/// The sheet's bytes and how many of them have been read.
struct Reader<'a> {
    bytes: &'a [u8],
    offset: usize,
}

impl<'a> Reader<'a> {
    /// The next field of this many bytes and its place, or refusal 1 at its start.
    fn field(&mut self, width: usize) -> Result<(&'a [u8], usize), Refusal> {
        let place = self.offset;
        if self.bytes.len() - place < width {
            return Err(Refusal { number: 1, place });
        }
        self.offset += width;
        Ok((&self.bytes[place..place + width], place))
    }

    /// A count within its limits, or refusal 2 at the count.
    fn count(&mut self, least: usize, most: usize) -> Result<usize, Refusal> {
        let (field, place) = self.field(1)?;
        let count = field[0] as usize;
        if count < least || count > most {
            return Err(Refusal { number: 2, place });
        }
        Ok(count)
    }

    /// A riser's list, or refusal 3 at the first carrier that is too large or not above the one before.
    fn list(&mut self, carriers: usize) -> Result<Vec<u8>, Refusal> {
        let mut list: Vec<u8> = Vec::new();
        for _ in 0..self.count(1, carriers)? {
            let (field, place) = self.field(1)?;
            let carrier = field[0];
            let ascends = list.last().is_none_or(|&before| before < carrier);
            if carrier as usize >= carriers || !ascends {
                return Err(Refusal { number: 3, place });
            }
            list.push(carrier);
        }
        Ok(list)
    }

    /// All rules, or refusal 4 at the first whose risers are wrong or do not follow those of the rule before.
    fn rules(&mut self, lists: &[Vec<u8>]) -> Result<Vec<Rule>, Refusal> {
        let mut rules: Vec<Rule> = Vec::new();
        for _ in 0..self.count(0, RULES)? {
            let (field, place) = self.field(2)?;
            let (a, b) = (field[0] as usize, field[1] as usize);
            let follows = rules.last().is_none_or(|before| (before.a, before.b) < (a, b));
            if !(a < b && b < lists.len() && follows) {
                return Err(Refusal { number: 4, place });
            }
            let pairs = self.pairs(&lists[a], &lists[b])?;
            rules.push(Rule { a, b, pairs });
        }
        Ok(rules)
    }

    /// A rule's pairs, or refusal 5 at the first that is outside the lists or not after the pair before.
    fn pairs(&mut self, left: &[u8], right: &[u8]) -> Result<Vec<(u8, u8)>, Refusal> {
        let mut pairs: Vec<(u8, u8)> = Vec::new();
        for _ in 0..self.count(0, PAIRS)? {
            let (field, place) = self.field(2)?;
            let (u, v) = (field[0], field[1]);
            let follows = pairs.last().is_none_or(|&before| before < (u, v));
            if !(left.contains(&u) && right.contains(&v) && follows) {
                return Err(Refusal { number: 5, place });
            }
            pairs.push((u, v));
        }
        Ok(pairs)
    }

    /// A swap, or refusal 6, 7 or 8 at its first byte, in that order.
    fn swap(&mut self, sheet: &Sheet) -> Result<Vec<u8>, Refusal> {
        let (swap, place) = self.field(sheet.carriers)?;
        match swap_fault(sheet, swap) {
            Some(number) => Err(Refusal { number, place }),
            None => Ok(swap.to_vec()),
        }
    }
}

/// The number under which the sheet's lists and rules refuse a swap, if they do.
fn swap_fault(sheet: &Sheet, swap: &[u8]) -> Option<u8> {
    let all = 0..sheet.carriers as u8;
    if !all.clone().all(|carrier| swap.contains(&carrier)) {
        return Some(6);
    }
    let image = |carrier: u8| swap[carrier as usize];
    let keeps_list = |list: &Vec<u8>| list.iter().all(|&c| list.contains(&image(c)));
    if !sheet.lists.iter().all(keeps_list) {
        return Some(7);
    }
    let keeps_rule = |rule: &Rule| rule.pairs.iter().all(|&(u, v)| rule.allows(image(u), image(v)));
    if !sheet.rules.iter().all(keeps_rule) {
        return Some(8);
    }
    None
}
