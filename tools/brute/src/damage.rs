//! Sheets cut, changed and extended.

use crate::chance::Chance;

/// Some damaged copies of a sheet, all of one kind of damage; of a long sheet only some places are taken.
pub fn damaged(chance: &mut Chance, sheet: &[u8]) -> Vec<Vec<u8>> {
    let places = places(chance, sheet.len());
    match chance.below(6) {
        0 | 1 => places.iter().map(|&place| sheet[..place].to_vec()).collect(),
        2 | 3 => places.iter().map(|&place| changed(chance, sheet, place)).collect(),
        4 => places.iter().map(|&place| shifted(chance, sheet, place)).collect(),
        _ => (1..=4).map(|length| extended(chance, sheet, length)).collect(),
    }
}

/// Every place of a short sheet; forty places of a long one, taken at will.
fn places(chance: &mut Chance, length: usize) -> Vec<usize> {
    if length <= 80 {
        return (0..length).collect();
    }
    let mut places: Vec<usize> = (0..40).map(|_| chance.below(length)).collect();
    places.sort_unstable();
    places.dedup();
    places
}

/// The sheet with the byte at a place changed: to a near one, to one of its neighbours' values, or to any.
pub fn changed(chance: &mut Chance, sheet: &[u8], place: usize) -> Vec<u8> {
    let mut sheet = sheet.to_vec();
    let byte = sheet[place];
    let near = [byte.wrapping_add(1), byte.wrapping_sub(1), 0, sheet[place.saturating_sub(1)]];
    let other = match chance.below(3) {
        0 => chance.bits() as u8,
        1 => chance.below(17) as u8,
        _ => *chance.one(&near),
    };
    sheet[place] = if other == byte { byte.wrapping_add(1) } else { other };
    sheet
}

/// The sheet with the byte at a place left out, doubled or exchanged with the next.
fn shifted(chance: &mut Chance, sheet: &[u8], place: usize) -> Vec<u8> {
    let mut sheet = sheet.to_vec();
    match chance.below(3) {
        0 => drop(sheet.remove(place)),
        1 => sheet.insert(place, sheet[place]),
        _ => {
            let next = (place + 1) % sheet.len();
            sheet.swap(place, next);
        }
    }
    sheet
}

/// The sheet with this many bytes after it.
fn extended(chance: &mut Chance, sheet: &[u8], length: usize) -> Vec<u8> {
    let mut sheet = sheet.to_vec();
    sheet.extend(chance.bytes(length));
    sheet
}
