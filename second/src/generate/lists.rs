//! Lists for the packers: what an image holds, or free numbers of any count
//! around the limits.

use super::columns::any_column;
use super::random::Random;
use crate::build::NO_COLUMN;

/// Production numbers of any size, which a packer does not judge.
pub fn productions(random: &mut Random, tree: &[u8], list: &mut Vec<u16>) {
    list.clear();
    if random.one_in(2) {
        list.extend(records::<2>(tree).map(|&[p0, p1]| u16::from_le_bytes([p0, p1])));
    } else {
        let count = count(random);
        list.extend((0..count).map(|_| random.word() as u16));
    }
}

/// Terminals and columns, now and then of unequal length.
pub fn tokens(
    random: &mut Random,
    tokens: &[u8],
    terminals: &mut Vec<u16>,
    columns: &mut Vec<u16>,
) {
    terminals.clear();
    columns.clear();
    if random.one_in(2) {
        for &[t0, t1, c0, c1] in records::<4>(tokens) {
            terminals.push(u16::from_le_bytes([t0, t1]));
            columns.push(u16::from_le_bytes([c0, c1]));
        }
    } else {
        let count = count(random);
        terminals.extend((0..count).map(|_| random.word() as u16));
        columns.extend((0..count).map(|_| any_column(random)));
    }
    if random.one_in(2) {
        spoil(random, columns);
    }
    if random.one_in(8) {
        unequal(random, terminals, columns);
    }
}

/// The whole records behind a header of 6 bytes, whatever it says.
fn records<const SIZE: usize>(image: &[u8]) -> std::slice::Iter<'_, [u8; SIZE]> {
    image.get(6..).unwrap_or(&[]).as_chunks::<SIZE>().0.iter()
}

/// Few entries mostly; else at the limit of 4,096 and around it, or so many
/// that 16 bits hold only a small count of them.
fn count(random: &mut Random) -> usize {
    match random.below(2000) {
        0 => 65_536 + random.below(10),
        1..=60 => random.pick(&[4095, 4096, 4096, 4096, 4097]),
        61..=80 => random.within(1000, 6000),
        81..=240 => 0,
        241..=400 => 1,
        _ => random.within(2, 40),
    }
}

/// Columns around the last one and around 65,535, at some places.
fn spoil(random: &mut Random, columns: &mut [u16]) {
    if columns.is_empty() {
        return;
    }
    for _ in 0..random.within(1, 3) {
        let at = match random.below(6) {
            0 => 0,
            1 => columns.len() - 1,
            _ => random.below(columns.len()),
        };
        let any = random.word() as u16;
        columns[at] = random.pick(&[4095, NO_COLUMN, 4096, 4097, 32_768, 65_534, any]);
    }
}

/// One list longer or shorter, now and then by what 16 bits do not show.
fn unequal(random: &mut Random, terminals: &mut Vec<u16>, columns: &mut Vec<u16>) {
    let list = if random.one_in(2) { terminals } else { columns };
    match random.below(200) {
        0 => list.resize(list.len() + 65_536, 0),
        1..=100 => list.push(0),
        101..=150 => drop(list.pop()),
        _ => list.clear(),
    }
}
