//! What a comparison saw judged, so that a reader sees that it met what a
//! slip would show on: tokens without a column under every relation, and
//! trees that are deep.

use crate::plain::{self, Reading, Right};
use std::fmt;

const RELATIONS: [&str; 4] = ["=", ">", "≥", "free"];
/// A tree deeper than this is deep.
pub const DEEP: usize = 256;
const DEEPEST: usize = Right::DEEPEST;

/// Counts over all sheets that were accepted or refused by 12.
#[derive(Default)]
pub struct Met {
    /// Tokens without a column for each relation, by its number.
    without_column: [u64; 4],
    deep: u64,
    deepest: u64,
}

impl Met {
    /// Counts a sheet that was accepted or refused by 12.
    pub fn add(&mut self, grammar: &[u8], tokens: &[u8], tree: &[u8]) {
        let sight = plain::sight(grammar, tokens, tree);
        self.join(&Met {
            without_column: sight.without_column,
            deep: (sight.depth > DEEP).into(),
            deepest: (sight.depth == DEEPEST).into(),
        });
    }

    pub fn join(&mut self, other: &Met) {
        for (mine, theirs) in self.without_column.iter_mut().zip(other.without_column) {
            *mine += theirs;
        }
        self.deep += other.deep;
        self.deepest += other.deepest;
    }

    /// What was not met.
    pub fn missing(&self) -> Vec<String> {
        let relations = (RELATIONS.iter().zip(self.without_column)).map(|(relation, count)| {
            (
                count,
                format!("{relation} never met a token without a column"),
            )
        });
        let depths = [
            (self.deep, format!("no tree deeper than {DEEP} was judged")),
            (self.deepest, format!("no tree {DEEPEST} deep was judged")),
        ];
        relations
            .chain(depths)
            .filter(|&(count, _)| count == 0)
            .map(|(_, text)| text)
            .collect()
    }
}

impl fmt::Display for Met {
    fn fmt(&self, f: &mut fmt::Formatter) -> fmt::Result {
        let counts: Vec<String> = (RELATIONS.iter().zip(self.without_column))
            .map(|(relation, count)| format!("{count} under {relation}"))
            .collect();
        let (deep, deepest) = (self.deep, self.deepest);
        writeln!(f, "tokens judged without a column: {}", counts.join(", "))?;
        write!(
            f,
            "trees judged deeper than {DEEP}: {deep}, of these {DEEPEST} deep: {deepest}"
        )
    }
}
