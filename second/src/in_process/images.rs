//! The checks of a single image, also with other counts than the grammar's.

use super::tally::Call;
use super::{one, Turn};
use crate::generate::random::Random;

pub fn compare(turn: &mut Turn) -> Result<(), String> {
    let [grammar, tokens, tree] = turn.images;
    let terminals = count(&mut turn.random, grammar, 0);
    let productions = count(&mut turn.random, grammar, 6);
    one(turn, Call::CheckGrammar, |calls| {
        (calls.check_grammar)(grammar)
    })?;
    one(turn, Call::CheckTokens, |calls| {
        (calls.check_tokens)(tokens, terminals)
    })
    .map_err(|text| format!("{text}; with {terminals} terminals"))?;
    one(turn, Call::CheckTree, |calls| {
        (calls.check_tree)(tree, productions)
    })
    .map_err(|text| format!("{text}; with {productions} productions"))?;
    Ok(())
}

/// The grammar's own count, which stands at a byte of its header, or another.
fn count(random: &mut Random, grammar: &[u8], at: usize) -> u16 {
    let own = match grammar.get(at..at + 2) {
        Some(&[low, high]) => u16::from_le_bytes([low, high]),
        _ => 0,
    };
    let near = [own.wrapping_sub(1), own.wrapping_add(1)];
    match random.below(8) {
        0 => random.pick(&near),
        1 => random.pick(&[0, 1, 2, 3, 1023, 1024, 1025, 4096, 65_535]),
        2 => random.below(20) as u16,
        _ => own,
    }
}
