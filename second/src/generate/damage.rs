//! Damage: to the lists, with headers made right again, and to the bytes.

use super::columns::any_column;
use super::random::Random;
use super::sheet::{Above, Sheet};
use super::Made;
use crate::delivery::MOST_INPUT;

/// Changes one thing in the lists.
pub fn lists(random: &mut Random, sheet: &mut Sheet) {
    let productions = sheet.grammar.productions.len();
    let terminals = usize::from(sheet.grammar.terminals);
    let any_production = random.below(productions) as u16;
    let any_token = (random.below(terminals) as u16, any_column(random));
    let node = random.below(sheet.tree.len().max(1));
    let token = random.below(sheet.tokens.len().max(1));
    let has_tokens = !sheet.tokens.is_empty();
    let has_nodes = !sheet.tree.is_empty();
    match random.below(20) {
        0 | 1 if has_nodes => drop(sheet.tree.remove(node)),
        2 if has_nodes => sheet.tree.insert(node, any_production),
        3 if has_nodes => sheet.tree[node] = any_production,
        4 if has_nodes => {
            let left = |p: u16| sheet.grammar.productions[usize::from(p)].left;
            let same: Vec<u16> = (0..productions as u16)
                .filter(|&p| left(p) == left(sheet.tree[node]))
                .collect();
            sheet.tree[node] = random.pick(&same);
        }
        5 => drop(sheet.tree.pop()),
        6 => sheet.tree.push(any_production),
        7 => {
            let other = random.below(sheet.tree.len().max(1));
            if has_nodes {
                sheet.tree.swap(node, other);
            }
        }
        8 if has_tokens => drop(sheet.tokens.remove(token)),
        9 if has_tokens => sheet.tokens.insert(token, any_token),
        10 if has_tokens => sheet.tokens[token].0 = any_token.0,
        11 | 12 => drop(sheet.tokens.pop()),
        13 | 14 => sheet.tokens.push(any_token),
        15 => sheet.tokens.truncate(token),
        16 => sheet.tree.truncate(random.pick(&[0, 1, node])),
        17 => many(random, sheet, any_production, any_token),
        18 => {
            let nonterminals = usize::from(sheet.grammar.nonterminals);
            if random.one_in(2) {
                sheet.grammar.start = random.below(nonterminals) as u16;
            } else {
                let production = &mut sheet.grammar.productions[usize::from(any_production)];
                production.left = random.below(nonterminals) as u16;
            }
        }
        _ => {
            let row = &mut sheet.grammar.productions[usize::from(any_production)].row;
            if !row.is_empty() {
                let at = random.below(row.len());
                match random.below(3) {
                    0 => row[at].relation = random.below(4) as u8,
                    1 => row[at].kind ^= 1,
                    _ => drop(row.remove(at)),
                }
            }
        }
    }
    // What stands above a node or token is no longer known.
    sheet.above_nodes = Vec::<Above>::new();
    sheet.above_tokens = Vec::<Above>::new();
}

/// Brings a list to its limit or one past it.
fn many(random: &mut Random, sheet: &mut Sheet, production: u16, token: (u16, u16)) {
    let length = random.pick(&[4096, 4097]);
    if random.one_in(2) {
        sheet.tree.resize(length, production);
    } else {
        sheet.tokens.resize(length, token);
    }
}

const FIELDS: [u16; 20] = [
    0, 1, 2, 3, 4, 6, 15, 16, 17, 255, 256, 1023, 1024, 1025, 4095, 4096, 4097, 32768, 65534, 65535,
];

/// Damages the bytes of one image, or of all three joined.
pub fn bytes(random: &mut Random, mut images: [Vec<u8>; 3]) -> Made {
    let which = random.below(3);
    let image = &mut images[which];
    let at = random.below(image.len());
    // Headers are hit as often as all records together.
    let header = if which == 0 { 16 } else { 6 };
    let spot = if random.one_in(2) {
        random.below(header)
    } else {
        at
    };
    match random.below(16) {
        0 | 1 => image[spot] ^= 1 << random.below(8),
        2 | 3 => image[spot] = random.word() as u8,
        4..=6 => set_field(random, image, spot),
        7 => {
            let value = random.pick(&[0, 3, 5, 6, 15, 16]);
            set_field_to(image, header - 2, value);
        }
        8 => image.truncate(at),
        9 => {
            let more = random.within(1, 8);
            image.extend((0..more).map(|_| random.word() as u8));
        }
        10 => images.swap(random.below(3), random.below(3)),
        11 => image.clear(),
        12 => {
            let ends = [0, images[0].len(), images[0].len() + images[1].len()];
            let mut input = images.concat();
            // Anywhere, or around the end of a header.
            let length = match random.below(2) {
                0 => random.below(input.len()),
                _ if which == 0 => random.within(12, 18),
                _ => ends[which] + random.within(0, 8),
            };
            input.truncate(length);
            return Made::Bytes(input);
        }
        13 => return Made::Bytes(longer(random, images.concat())),
        14 => {
            let length = random.pick(&[0, 0, 1, 5, 14, 15, 16, 17, 22, 100]);
            return Made::Bytes((0..length).map(|_| random.below(20) as u8).collect());
        }
        _ => {
            for _ in 0..random.within(2, 5) {
                let at = random.below(image.len());
                image[at] = random.word() as u8;
            }
        }
    }
    Made::Images(images)
}

fn set_field(random: &mut Random, image: &mut [u8], spot: usize) {
    let at = spot & !1;
    if at + 1 < image.len() {
        let old = u16::from_le_bytes([image[at], image[at + 1]]);
        let near = [old.wrapping_sub(1), old.wrapping_add(1)];
        let value = if random.one_in(3) {
            random.pick(&near)
        } else {
            random.pick(&FIELDS)
        };
        set_field_to(image, at, value);
    }
}

fn set_field_to(image: &mut [u8], at: usize, value: u16) {
    image[at..at + 2].copy_from_slice(&value.to_le_bytes());
}

/// More bytes at the end, now and then up to the most that counts and beyond.
fn longer(random: &mut Random, mut input: Vec<u8>) -> Vec<u8> {
    let length = match random.below(4) {
        0 => MOST_INPUT - 1 + random.below(3),
        1 => MOST_INPUT + random.below(3000),
        _ => input.len() + random.within(1, 4),
    };
    let filler = random.pick(&[0, 0, 1, 255]);
    input.resize(length.max(input.len()), filler);
    input
}
