//! How the rules are read at five points where a reader slips easily.
//!
//! The defaults are the right reading, the only one that a program runs. A
//! test takes one of them wrongly and demands that the comparison finds it.
//! All are chosen when a program is built, so that the right reading costs
//! nothing.

pub trait Reading {
    /// How far a child under > stands to the right of its node, at least.
    const STEP: i16 = 1;
    /// Whether an empty set makes the set above it empty through a free
    /// relation too.
    const EMPTY_PASSES_FREE: bool = true;
    /// Whether a symbol's relation has to be one of the four.
    const RELATION_TESTED: bool = true;

    /// How deep a node may be, with 1 for the root; at most `ROWS` of the walk.
    const DEEPEST: usize = 1024;

    /// Whether a token without a column stands in the relation to its node,
    /// which it does to every number of the node or to none.
    #[inline(always)]
    fn holds_without_column(relation: u16) -> bool {
        relation != 0
    }
}

pub struct Right;

impl Reading for Right {}
