//! The check of the derivation alone, beside the others' and beside the
//! subject's own whole check.

use super::tally::Call;
use super::{one, Turn};
use crate::subject::Answer;

/// `whole` is what the whole check gave with room.
pub fn compare(turn: &mut Turn, whole: Answer) -> Result<(), String> {
    let [grammar, tokens, tree] = turn.images;
    let given = one(turn, Call::Derive, |calls| {
        (calls.derive)(grammar, tokens, tree)
    })?;
    if agree(given, whole) {
        return Ok(());
    }
    Err(format!("derive: {given} given, {whole} by check with room"))
}

/// Whether the two checks can give this for the same images: number and place
/// of a refusal before the sets by both, and else 0 by the one and 0 or 12 by
/// the whole.
pub fn agree(derivation: Answer, whole: Answer) -> bool {
    match whole.number {
        0 | 12 => derivation == Answer::from((0, 0)),
        4 => false,
        _ => derivation == whole,
    }
}
