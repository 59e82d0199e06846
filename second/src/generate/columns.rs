//! Columns for the tokens of a sheet: random, or laid out from a choice, or
//! laid out and then moved a little. About one token in ten has none.

use super::growth::MOST_DEPTH;
use super::random::Random;
use super::sheet::Sheet;
use crate::build::NO_COLUMN;

pub const LAST_COLUMN: usize = 4095;

/// Any column, and once in ten none.
pub fn any_column(random: &mut Random) -> u16 {
    if random.one_in(10) {
        NO_COLUMN
    } else {
        random.within(0, LAST_COLUMN) as u16
    }
}

pub fn lay(random: &mut Random, sheet: &mut Sheet) {
    match random.below(6) {
        0 => scatter(random, sheet),
        1..=3 => lay_out(random, sheet),
        _ => {
            lay_out(random, sheet);
            for _ in 0..random.pick(&[1, 1, 1, 2, 5]) {
                nudge(random, sheet);
            }
        }
    }
    take_away(random, sheet);
}

fn scatter(random: &mut Random, sheet: &mut Sheet) {
    let last = random.pick(&[0, 1, 2, 5, 20, 100, LAST_COLUMN]);
    for token in &mut sheet.tokens {
        token.1 = random.within(0, last) as u16;
    }
}

/// Gives every node a number by its relation to its parent, and every token a
/// column by its relation to its node, so that these numbers are a choice
/// wherever the columns do not run out.
fn lay_out(random: &mut Random, sheet: &mut Sheet) {
    let base = sheet.base.unwrap_or_else(|| match random.below(5) {
        0 => 0,
        1 => random.below(10),
        2 => random.below(3000),
        3 => random.within(3000, LAST_COLUMN),
        _ => random.pick(&[1, LAST_COLUMN - MOST_DEPTH, LAST_COLUMN - 1, LAST_COLUMN]),
    });
    let slack = random.pick(&[0, 0, 1, 3]);
    let step = |random: &mut Random, relation: u8, i: usize| match relation {
        0 => i,
        1 => i + 1 + random.within(0, slack),
        2 => i + random.within(0, slack),
        _ => random.within(0, base + slack),
    };
    let mut numbers: Vec<usize> = Vec::new();
    for (node, above) in sheet.above_nodes.iter().enumerate() {
        let number = match node {
            0 => base,
            _ => step(random, above.relation, numbers[above.node]),
        };
        numbers.push(number);
    }
    for (token, above) in sheet.tokens.iter_mut().zip(&sheet.above_tokens) {
        let column = step(random, above.relation, numbers[above.node]);
        token.1 = column.min(LAST_COLUMN) as u16;
    }
}

fn nudge(random: &mut Random, sheet: &mut Sheet) {
    if sheet.tokens.is_empty() {
        return;
    }
    let at = random.below(sheet.tokens.len());
    let column = &mut sheet.tokens[at].1;
    *column = match random.below(6) {
        0 => 0,
        1 => LAST_COLUMN as u16,
        2 | 3 => column.saturating_sub(1),
        _ => (*column + 1).min(LAST_COLUMN as u16),
    };
}

/// Takes the columns of some tokens away, in half of the sheets. Mostly those
/// under = keep theirs, since one of them without a column leaves no choice.
fn take_away(random: &mut Random, sheet: &mut Sheet) {
    match random.below(10) {
        0..=4 => {}
        5..=7 => take_many(random, sheet, |relation| relation != 0),
        8 => take_many(random, sheet, |_| true),
        _ => take_one(random, sheet),
    }
}

/// Every token that may lose its column by its relation, or one in so many.
fn take_many(random: &mut Random, sheet: &mut Sheet, may_lose: impl Fn(u8) -> bool) {
    let one_in = random.pick(&[1, 3, 10, 30]);
    for (token, above) in sheet.tokens.iter_mut().zip(&sheet.above_tokens) {
        if may_lose(above.relation) && random.one_in(one_in) {
            token.1 = NO_COLUMN;
        }
    }
}

fn take_one(random: &mut Random, sheet: &mut Sheet) {
    if !sheet.tokens.is_empty() {
        let at = random.below(sheet.tokens.len());
        sheet.tokens[at].1 = NO_COLUMN;
    }
}
