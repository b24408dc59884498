//! The job sheet into masks, in one walk, with refusals 1 to 9.

use crate::{Masks, Swap, IDENTITY};

/// A refusal: its number and place.
#[derive(Clone, Copy, Debug, PartialEq, Eq)]
pub struct Refusal(pub u8, pub usize);

/// A rule: its two risers, and for each carrier of the first those that go with it on the second.
struct Rule {
    a: u8,
    b: u8,
    masks: [u16; 16],
}

/// A sheet as masks: the lists, and for each riser and carrier what may go with it on the other risers after it.
pub struct Sheet {
    pub carriers: usize,
    pub risers: usize,
    pub lists: Masks,
    pub with: Vec<[Masks; 16]>,
    pub swaps: Vec<Swap>,
}

/// The sheet that the bytes are, or the first fault.
pub fn read(bytes: &[u8]) -> Result<Sheet, Refusal> {
    let mut reader = Reader { bytes, offset: 0 };
    let carriers = reader.count(1, 15)?;
    let risers = reader.count(1, 12)?;
    let mut lists = [0; 16];
    for list in &mut lists[..risers] {
        *list = reader.list(carriers)?;
    }
    let rules = reader.rules(risers, &lists)?;
    let mut swaps = Vec::new();
    for _ in 0..reader.count(0, 8)? {
        swaps.push(reader.swap(carriers, &lists[..risers], &rules)?);
    }
    if reader.offset < bytes.len() {
        return Err(Refusal(9, reader.offset));
    }
    let mut with = vec![[Masks([u16::MAX; 16]); 16]; risers];
    for rule in &rules {
        for (u, &mask) in rule.masks.iter().enumerate() {
            with[rule.a as usize][u].0[rule.b as usize] = mask;
        }
    }
    Ok(Sheet { carriers, risers, lists: Masks(lists), with, swaps })
}

/// The bytes and how many of them are read.
struct Reader<'a> {
    bytes: &'a [u8],
    offset: usize,
}

impl<'a> Reader<'a> {
    /// The next field, or refusal 1 at its start.
    #[inline(always)]
    fn field(&mut self, width: usize) -> Result<&'a [u8], Refusal> {
        let field = self.bytes[self.offset..].get(..width).ok_or(Refusal(1, self.offset))?;
        self.offset += width;
        Ok(field)
    }

    /// A count within its limits, or refusal 2.
    fn count(&mut self, least: usize, most: usize) -> Result<usize, Refusal> {
        let count = self.field(1)?[0] as usize;
        if count < least || count > most {
            return Err(Refusal(2, self.offset - 1));
        }
        Ok(count)
    }

    /// A riser's list, or refusal 3.
    fn list(&mut self, carriers: usize) -> Result<u16, Refusal> {
        let count = self.count(1, carriers)?;
        let mut list = 0u16;
        for _ in 0..count {
            let carrier = self.field(1)?[0] as usize;
            if carrier >= carriers || list >> carrier != 0 {
                return Err(Refusal(3, self.offset - 1));
            }
            list |= 1 << carrier;
        }
        Ok(list)
    }

    /// The rules in the sheet's order, or refusal 4.
    fn rules(&mut self, risers: usize, lists: &[u16; 16]) -> Result<Vec<Rule>, Refusal> {
        let count = self.count(0, 66)?;
        let mut rules = Vec::with_capacity(count);
        let mut before = 0;
        for _ in 0..count {
            let field = self.field(2)?;
            let (a, b) = (field[0], field[1]);
            let both = (a as usize) << 8 | b as usize;
            if a >= b || b as usize >= risers || both <= before {
                return Err(Refusal(4, self.offset - 2));
            }
            before = both;
            let masks = self.pairs(lists[a as usize], lists[b as usize])?;
            rules.push(Rule { a, b, masks });
        }
        Ok(rules)
    }

    /// A rule's pairs as masks, or refusal 5.
    fn pairs(&mut self, left: u16, right: u16) -> Result<[u16; 16], Refusal> {
        let count = self.count(0, 225)?;
        let mut masks = [0; 16];
        let mut before = -1;
        for _ in 0..count {
            let field = self.field(2)?;
            let (u, v) = (field[0], field[1]);
            let both = (u as i32) << 8 | v as i32;
            if u > 15 || v > 15 || left >> u & right >> v & 1 == 0 || both <= before {
                return Err(Refusal(5, self.offset - 2));
            }
            before = both;
            masks[u as usize] |= 1 << v;
        }
        Ok(masks)
    }

    /// A swap, or refusal 6, 7 or 8.
    fn swap(&mut self, carriers: usize, lists: &[u16], rules: &[Rule]) -> Result<Swap, Refusal> {
        let place = self.offset;
        let field = self.field(carriers)?;
        let mut swap = IDENTITY;
        swap[..carriers].copy_from_slice(field);
        let reached = field.iter().fold(0u32, |mask, &image| mask | 1u32.checked_shl(image as u32).unwrap_or(0));
        if reached != (1 << carriers) - 1 {
            return Err(Refusal(6, place));
        }
        let images = Images::new(&swap);
        if lists.iter().any(|&list| images.of(list) != list) {
            return Err(Refusal(7, place));
        }
        let keeps = |rule: &Rule| (0..carriers).all(|u| images.of(rule.masks[u]) & !rule.masks[swap[u] as usize] == 0);
        if !rules.iter().all(keeps) {
            return Err(Refusal(8, place));
        }
        Ok(swap)
    }
}

/// The image of every mask of four neighbouring carriers under a swap.
struct Images([[u16; 16]; 4]);

impl Images {
    /// The images under this swap.
    fn new(swap: &Swap) -> Self {
        let mut images = [[0; 16]; 4];
        for (part, images) in images.iter_mut().enumerate() {
            for mask in 1..16usize {
                let lowest = mask.trailing_zeros() as usize;
                images[mask] = images[mask & (mask - 1)] | 1 << swap[4 * part + lowest];
            }
        }
        Images(images)
    }

    /// The image of a whole mask.
    fn of(&self, mask: u16) -> u16 {
        let part = |i: usize| self.0[i][(mask >> (4 * i) & 15) as usize];
        part(0) | part(1) | part(2) | part(3)
    }
}
