//! Swaps, lists and rules of many shapes, so made that the sheet keeps them: lists are unions of orbits of
//! carriers, and a rule's pairs are a union of orbits of pairs.

use crate::chance::Chance;
use crate::group::{identity, inverse, product};
use crate::sheet::{Rule, Sheet, SWAPS};

/// The swap that takes each of these carriers to the next and the last to the first.
pub fn cycle(carriers: usize, along: &[u8]) -> Vec<u8> {
    let mut swap = identity(carriers);
    for (i, &carrier) in along.iter().enumerate() {
        swap[carrier as usize] = along[(i + 1) % along.len()];
    }
    swap
}

/// The swap that takes the i-th of these carriers to the i-th from the end.
pub fn turned(carriers: usize, along: &[u8]) -> Vec<u8> {
    let mut swap = identity(carriers);
    for (i, &carrier) in along.iter().enumerate() {
        swap[carrier as usize] = along[along.len() - 1 - i];
    }
    swap
}

/// Swaps that make all permutations of these carriers.
pub fn symmetric(carriers: usize, along: &[u8]) -> Vec<Vec<u8>> {
    match along.len() {
        0 | 1 => vec![],
        2 => vec![cycle(carriers, along)],
        _ => vec![cycle(carriers, &along[..2]), cycle(carriers, along)],
    }
}

/// Swaps that make the even permutations of these carriers, few at a time.
fn alternating(carriers: usize, along: &[u8]) -> Vec<Vec<u8>> {
    match along.len() {
        0..=2 => vec![],
        length => {
            let odd = if length % 2 == 1 { along } else { &along[1..] };
            vec![cycle(carriers, &along[..3]), cycle(carriers, odd)]
        }
    }
}

/// Runs of carriers, one after another, that together are all of them.
fn blocks(chance: &mut Chance, carriers: usize) -> Vec<Vec<u8>> {
    let mut rest = identity(carriers);
    let mut blocks = Vec::new();
    while !rest.is_empty() {
        let length = chance.between(1, rest.len().min(5));
        blocks.push(rest.drain(..length).collect());
    }
    blocks
}

/// Swaps that exchange carriers within blocks, and sometimes whole blocks of the same length.
fn blockwise(chance: &mut Chance, carriers: usize, exchanged: bool) -> Vec<Vec<u8>> {
    let length = chance.between(2, 5).min(carriers);
    let blocks: Vec<Vec<u8>> = identity(carriers).chunks_exact(length).map(<[u8]>::to_vec).collect();
    let mut swaps = symmetric(carriers, &blocks[0]);
    if exchanged {
        let mut exchange = identity(carriers);
        for (i, block) in blocks.iter().enumerate() {
            for (j, &carrier) in block.iter().enumerate() {
                exchange[carrier as usize] = blocks[(i + 1) % blocks.len()][j];
            }
        }
        swaps.push(exchange);
    }
    swaps
}

/// Swaps each of which acts on its own block: all orders, turns or a cycle of it.
fn apart(chance: &mut Chance, carriers: usize) -> Vec<Vec<u8>> {
    let mut swaps = Vec::new();
    for block in blocks(chance, carriers) {
        match chance.below(4) {
            0 => swaps.extend(symmetric(carriers, &block)),
            1 => swaps.push(cycle(carriers, &block)),
            2 => swaps.extend([cycle(carriers, &block), turned(carriers, &block)]),
            _ => {}
        }
    }
    swaps
}

/// A swap of short cycles on carriers taken at will.
fn short_cycles(chance: &mut Chance, carriers: usize) -> Vec<u8> {
    let order = chance.order(carriers);
    let mut swap = identity(carriers);
    let mut start = 0;
    while start < carriers && chance.percent(70) {
        let length = chance.between(2, 3).min(carriers - start);
        swap = product(&swap, &cycle(carriers, &order[start..start + length]));
        start += length;
    }
    swap
}

/// Swaps of some shape, at most eight, over this many carriers.
pub fn swaps(chance: &mut Chance, carriers: usize) -> Vec<Vec<u8>> {
    let all = identity(carriers);
    let mut swaps = match chance.below(13) {
        0 => vec![],
        1 => vec![all.clone(); chance.between(1, SWAPS)],
        2 => symmetric(carriers, &all),
        3 => alternating(carriers, &all),
        4 => vec![cycle(carriers, &all)],
        5 => vec![cycle(carriers, &all), turned(carriers, &all)],
        6 => blockwise(chance, carriers, true),
        7 => blockwise(chance, carriers, false),
        8 | 9 => apart(chance, carriers),
        10 => (0..chance.between(1, 3)).map(|_| short_cycles(chance, carriers)).collect(),
        11 => (0..chance.between(1, 2)).map(|_| chance.order(carriers)).collect(),
        _ => all.chunks_exact(2).map(|pair| cycle(carriers, pair)).collect(),
    };
    swaps.truncate(SWAPS);
    if chance.percent(50) {
        swaps = relabelled(&swaps, &chance.order(carriers));
    }
    with_repeats(chance, carriers, swaps)
}

/// The swaps as they read when every carrier gets a new name.
pub fn relabelled(swaps: &[Vec<u8>], names: &[u8]) -> Vec<Vec<u8>> {
    swaps.iter().map(|swap| product(&product(&inverse(names), swap), names)).collect()
}

/// The swaps with, now and then, the identity, a repeat or a product among them.
fn with_repeats(chance: &mut Chance, carriers: usize, mut swaps: Vec<Vec<u8>>) -> Vec<Vec<u8>> {
    while swaps.len() < SWAPS && chance.percent(15) {
        let mut more = identity(carriers);
        if !swaps.is_empty() {
            for _ in 0..chance.below(3) {
                let swap: &Vec<u8> = chance.one(&swaps);
                more = product(&more, swap);
            }
        }
        let at = chance.between(0, swaps.len());
        swaps.insert(at, more);
    }
    swaps
}

/// The orbits of some things under the swaps, each once, where `image` moves a thing by a swap.
fn orbits<T: Copy + PartialEq>(things: &[T], swaps: &[Vec<u8>], image: impl Fn(&[u8], T) -> T) -> Vec<Vec<T>> {
    let mut orbits: Vec<Vec<T>> = Vec::new();
    for &thing in things {
        if orbits.iter().any(|orbit| orbit.contains(&thing)) {
            continue;
        }
        let mut orbit = vec![thing];
        let mut next = 0;
        while next < orbit.len() {
            for swap in swaps {
                let further = image(swap, orbit[next]);
                if !orbit.contains(&further) {
                    orbit.push(further);
                }
            }
            next += 1;
        }
        orbits.push(orbit);
    }
    orbits
}

/// The orbits of carriers under the swaps.
pub fn carrier_orbits(carriers: usize, swaps: &[Vec<u8>]) -> Vec<Vec<u8>> {
    orbits(&identity(carriers), swaps, |swap, carrier| swap[carrier as usize])
}

/// A list that every swap takes to itself.
pub fn list(chance: &mut Chance, carriers: usize, swaps: &[Vec<u8>]) -> Vec<u8> {
    let orbits = carrier_orbits(carriers, swaps);
    let share = *chance.one(&[10, 40, 70, 100]);
    let mut list: Vec<u8> = orbits.iter().filter(|_| chance.percent(share)).flatten().copied().collect();
    if list.is_empty() {
        list = chance.one(&orbits).clone();
    }
    list.sort_unstable();
    list
}

/// All pairs of two lists, ascending.
pub fn all_pairs(left: &[u8], right: &[u8]) -> Vec<(u8, u8)> {
    left.iter().flat_map(|&u| right.iter().map(move |&v| (u, v))).collect()
}

/// Pairs of two lists that every swap takes to themselves: all, none, the unequal, the equal, or a union of orbits,
/// of which this share in a hundred is taken.
enum Pairs {
    All,
    None,
    Unequal,
    Equal,
    Orbits(usize),
}

/// The pairs of two lists that are of one kind, ascending.
fn pairs(chance: &mut Chance, kind: &Pairs, left: &[u8], right: &[u8], swaps: &[Vec<u8>]) -> Vec<(u8, u8)> {
    let mut pairs = all_pairs(left, right);
    match kind {
        Pairs::All => {}
        Pairs::None => pairs.clear(),
        Pairs::Unequal => pairs.retain(|(u, v)| u != v),
        Pairs::Equal => pairs.retain(|(u, v)| u == v),
        Pairs::Orbits(share) => {
            let orbits = orbits(&pairs, swaps, |swap, (u, v)| (swap[u as usize], swap[v as usize]));
            pairs = orbits.into_iter().filter(|_| chance.percent(*share)).flatten().collect();
            pairs.sort_unstable();
        }
    }
    pairs
}

/// The rules of some pairs of risers, ascending: all that differ, mild ones, harsh ones, or of every kind.
pub fn rules(chance: &mut Chance, lists: &[Vec<u8>], swaps: &[Vec<u8>]) -> Vec<Rule> {
    use Pairs::*;
    let kinds: &[Pairs] = match chance.below(5) {
        0 => &[Unequal],
        1 => &[Orbits(80), Orbits(95), Unequal],
        2 => &[Orbits(50), Orbits(80), All],
        3 => &[Equal, Orbits(50), Orbits(95), All, All],
        _ => &[All, None, Unequal, Unequal, Equal, Orbits(20), Orbits(50), Orbits(80)],
    };
    let share = *chance.one(&[0, 30, 60, 100]);
    let mut rules = Vec::new();
    for a in 0..lists.len() {
        for b in a + 1..lists.len() {
            if chance.percent(share) {
                let kind = chance.one(kinds);
                rules.push(Rule { a, b, pairs: pairs(chance, kind, &lists[a], &lists[b], swaps) });
            }
        }
    }
    rules
}

/// An accepted sheet with no more than `most` rows of all its risers, rules aside.
pub fn sheet(chance: &mut Chance, most: usize) -> Sheet {
    let (fewest, most_carriers) = *chance.one(&[(1, 3), (2, 4), (3, 4), (3, 6), (4, 6), (5, 8), (6, 15), (9, 15)]);
    let carriers = chance.between(fewest, most_carriers);
    let swaps = swaps(chance, carriers);
    let wanted = chance.between(1, 12);
    let mut lists = vec![list(chance, carriers, &swaps)];
    let mut rows = lists[0].len();
    while lists.len() < wanted {
        let list = list(chance, carriers, &swaps);
        if rows * list.len() > most {
            break;
        }
        rows *= list.len();
        lists.push(list);
    }
    let rules = rules(chance, &lists, &swaps);
    Sheet { carriers, lists, rules, swaps }
}

/// A sheet in which one swap, list or rule is changed so that the rest need not keep it.
pub fn unsymmetric(chance: &mut Chance, most: usize) -> Sheet {
    let mut sheet = sheet(chance, most);
    if sheet.swaps.is_empty() {
        sheet.swaps.push(identity(sheet.carriers));
    }
    match chance.below(5) {
        0 => {
            let at = chance.below(sheet.swaps.len());
            sheet.swaps[at] = chance.order(sheet.carriers);
        }
        1 if sheet.swaps.len() < SWAPS => {
            let at = chance.between(0, sheet.swaps.len());
            sheet.swaps.insert(at, short_cycles(chance, sheet.carriers));
        }
        2 => drop_carrier(chance, &mut sheet),
        _ => change_pair(chance, &mut sheet),
    }
    sheet
}

/// Takes one carrier out of one list, and the pairs that it stands in out of the rules.
fn drop_carrier(chance: &mut Chance, sheet: &mut Sheet) {
    let riser = chance.below(sheet.lists.len());
    if sheet.lists[riser].len() < 2 {
        return;
    }
    let carrier = *chance.one(&sheet.lists[riser]);
    sheet.lists[riser].retain(|&c| c != carrier);
    for rule in &mut sheet.rules {
        let (a, b) = (rule.a, rule.b);
        rule.pairs.retain(|&(u, v)| !(a == riser && u == carrier || b == riser && v == carrier));
    }
}

/// Takes one pair out of one rule, or puts one in.
fn change_pair(chance: &mut Chance, sheet: &mut Sheet) {
    if sheet.rules.is_empty() {
        return;
    }
    let at = chance.below(sheet.rules.len());
    let Sheet { lists, rules, .. } = sheet;
    let rule = &mut rules[at];
    let pair = *chance.one(&all_pairs(&lists[rule.a], &lists[rule.b]));
    match rule.pairs.binary_search(&pair) {
        Ok(place) => drop(rule.pairs.remove(place)),
        Err(place) => rule.pairs.insert(place, pair),
    }
}
