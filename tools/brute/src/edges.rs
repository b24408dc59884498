//! Sheets at the limits: fifteen carriers, twelve risers, sixty-six rules, 225 pairs, the longest sheet,
//! counts at and past their limits, and groups that are large for their number of carriers.

use crate::chance::Chance;
use crate::damage::changed;
use crate::group::{identity, product};
use crate::shapes::{self, all_pairs, carrier_orbits, cycle, symmetric};
use crate::sheet::{Rule, Sheet, CARRIERS, LONGEST, RISERS, SWAPS};

/// A sheet at some limit, and the largest allowance that brute force can be asked with where it has too many rows.
pub struct Edge {
    pub sheet: Vec<u8>,
    pub most_allowance: Option<u64>,
}

/// Some sheet at some limit.
pub fn edge(chance: &mut Chance) -> Edge {
    let few_rows = match chance.below(16) {
        0 => return Edge { sheet: longest(chance).written(), most_allowance: Some(40) },
        1 => return Edge { sheet: longest_damaged(chance), most_allowance: Some(40) },
        2 => return Edge { sheet: all_differ().written(), most_allowance: Some(3) },
        3 | 4 => return Edge { sheet: count_changed(chance), most_allowance: Some(40) },
        5 | 6 => all_equal(chance),
        7 => successors(chance),
        8 | 9 => functions(chance),
        10 => one_carrier(chance),
        11 | 12 => known_group(chance),
        _ => tight(chance),
    };
    Edge { sheet: few_rows.written(), most_allowance: None }
}

/// The rules between all pairs of risers with full lists, each with the pairs that `allowed` takes.
fn rules_between_all(allowed: impl Fn(usize, usize, u8, u8) -> bool) -> Vec<Rule> {
    let all = identity(CARRIERS);
    let mut rules = Vec::new();
    for a in 0..RISERS {
        for b in a + 1..RISERS {
            let pairs = all_pairs(&all, &all).into_iter().filter(|&(u, v)| allowed(a, b, u, v)).collect();
            rules.push(Rule { a, b, pairs });
        }
    }
    rules
}

/// A sheet of fifteen carriers and twelve full lists.
fn full(rules: Vec<Rule>, swaps: Vec<Vec<u8>>) -> Sheet {
    Sheet { carriers: CARRIERS, lists: vec![identity(CARRIERS); RISERS], rules, swaps }
}

/// A longest sheet: every rule with every pair, and eight swaps.
pub fn longest(chance: &mut Chance) -> Sheet {
    let mut swaps = shapes::swaps(chance, CARRIERS);
    while swaps.len() < SWAPS {
        let more = if swaps.is_empty() { identity(CARRIERS) } else { chance.one(&swaps).clone() };
        swaps.push(more);
    }
    let sheet = full(rules_between_all(|_, _, _, _| true), swaps);
    assert_eq!(sheet.written().len(), LONGEST);
    sheet
}

/// A longest sheet, cut, changed or extended, often near its end.
fn longest_damaged(chance: &mut Chance) -> Vec<u8> {
    let mut sheet = longest(chance).written();
    let near = LONGEST - 1 - chance.below(SWAPS * CARRIERS + 4);
    match chance.below(5) {
        0 => sheet.truncate(near),
        1 => sheet.truncate(chance.below(LONGEST)),
        2 => sheet.push(chance.bits() as u8),
        3 => sheet = changed(chance, &sheet, near),
        _ => {
            let place = chance.below(LONGEST);
            sheet = changed(chance, &sheet, place);
        }
    }
    sheet
}

/// Twelve risers that must all differ, all fifteen carriers alike.
fn all_differ() -> Sheet {
    full(rules_between_all(|_, _, u, v| u != v), symmetric(CARRIERS, &identity(CARRIERS)))
}

/// Twelve risers that must all be equal, by sixty-six rules or by eleven.
fn all_equal(chance: &mut Chance) -> Sheet {
    let mut rules = rules_between_all(|_, _, u, v| u == v);
    if chance.percent(50) {
        rules.retain(|rule| rule.a + 1 == rule.b);
    }
    full(rules, shapes::swaps(chance, CARRIERS))
}

/// Each riser's carrier is the one before it's next, and the swap takes each carrier to its next.
fn successors(chance: &mut Chance) -> Sheet {
    let next = cycle(CARRIERS, &chance.order(CARRIERS));
    let mut rules = rules_between_all(|a, b, u, v| a + 1 < b || next[u as usize] == v);
    if chance.percent(50) {
        rules.retain(|rule| rule.a + 1 == rule.b || chance.percent(30));
    }
    full(rules, vec![product(&next, &next); chance.between(1, SWAPS)])
}

/// Each riser's carrier is a function of the riser before it; no swaps, or only the identity.
fn functions(chance: &mut Chance) -> Sheet {
    let images: Vec<Vec<u8>> = (0..RISERS).map(|_| chance.order(CARRIERS)).collect();
    let all = chance.percent(30);
    let mut rules = rules_between_all(|a, b, u, v| if a + 1 < b { u != v || all } else { images[a][u as usize] == v });
    if !all {
        rules.retain(|rule| rule.a + 1 == rule.b || chance.percent(40));
    }
    full(rules, vec![identity(CARRIERS); chance.below(SWAPS + 1)])
}

/// One carrier, many risers, and rules that allow its one pair or, now and then, none.
fn one_carrier(chance: &mut Chance) -> Sheet {
    let mut rules = rules_between_all(|_, _, u, v| u == 0 && v == 0);
    if chance.percent(30) {
        let at = chance.below(rules.len());
        rules[at].pairs.clear();
    }
    Sheet { carriers: 1, lists: vec![vec![0]; RISERS], rules, swaps: vec![vec![0]; chance.below(SWAPS + 1)] }
}

/// Fifteen carriers and twelve risers whose lists are short orbits.
fn tight(chance: &mut Chance) -> Sheet {
    let mut swaps: Vec<Vec<u8>> = identity(CARRIERS).chunks(2).take(7).map(|pair| cycle(CARRIERS, pair)).collect();
    if chance.percent(50) {
        swaps = vec![swaps.iter().fold(identity(CARRIERS), |all, swap| product(&all, swap))];
    } else if chance.percent(50) {
        swaps.retain(|_| chance.percent(50));
    }
    let swaps = shapes::relabelled(&swaps, &chance.order(CARRIERS));
    let orbits = carrier_orbits(CARRIERS, &swaps);
    let mut lists: Vec<Vec<u8>> = (0..RISERS).map(|_| chance.one(&orbits).clone()).collect();
    for list in &mut lists {
        list.sort_unstable();
    }
    let rules = shapes::rules(chance, &lists, &swaps);
    Sheet { carriers: CARRIERS, lists, rules, swaps }
}

/// A sheet with one count set to a limit or past it.
fn count_changed(chance: &mut Chance) -> Vec<u8> {
    let sheet = match chance.below(4) {
        0 => longest(chance),
        1 => one_carrier(chance),
        2 => tight(chance),
        _ => shapes::sheet(chance, 500),
    };
    let mut bytes = sheet.written();
    let place = *chance.one(&count_places(&sheet));
    let byte = bytes[place];
    bytes[place] = *chance.one(&[0, 8, 9, 12, 13, 15, 16, 66, 67, 225, 226, 255, byte.wrapping_add(1), byte.wrapping_sub(1)]);
    bytes
}

/// Where the counts stand in a sheet.
fn count_places(sheet: &Sheet) -> Vec<usize> {
    let mut places = vec![0, 1];
    let mut place = 2;
    for list in &sheet.lists {
        places.push(place);
        place += 1 + list.len();
    }
    places.push(place);
    place += 1;
    for rule in &sheet.rules {
        places.push(place + 2);
        place += 3 + 2 * rule.pairs.len();
    }
    places.push(place);
    places
}

/// The swaps of a known group: PSL(2,7) on seven and on eight carriers, M11, M12, AGL(1,8).
pub fn known_swaps(chance: &mut Chance) -> Vec<Vec<u8>> {
    let groups: [&[&[u8]]; 5] = [
        &[&[1, 2, 3, 4, 5, 6, 0], &[1, 0, 5, 3, 4, 2, 6]],
        &[&[1, 2, 3, 4, 5, 6, 0, 7], &[7, 6, 3, 2, 5, 4, 1, 0]],
        &[&[1, 2, 3, 4, 5, 6, 7, 8, 9, 10, 0], &[0, 1, 6, 9, 5, 3, 10, 2, 8, 4, 7]],
        &[
            &[1, 2, 3, 4, 5, 6, 7, 8, 9, 10, 0, 11],
            &[0, 1, 6, 9, 5, 3, 10, 2, 8, 4, 7, 11],
            &[11, 10, 5, 7, 8, 2, 9, 3, 4, 6, 1, 0],
        ],
        &[&[1, 0, 3, 2, 5, 4, 7, 6], &[0, 2, 4, 6, 3, 1, 7, 5]],
    ];
    chance.one(&groups).iter().map(|swap| swap.to_vec()).collect()
}

/// A few risers with full lists under a known group.
fn known_group(chance: &mut Chance) -> Sheet {
    let swaps = known_swaps(chance);
    let carriers = swaps[0].len();
    let lists = vec![identity(carriers); chance.between(1, if carriers < 10 { 4 } else { 3 })];
    let rules = shapes::rules(chance, &lists, &swaps);
    Sheet { carriers, lists, rules, swaps }
}
