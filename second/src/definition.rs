//! The check by the definitions of document 01. Sets are found by trying
//! numbers and least indentations by raising them from 0. No interval is
//! computed, and lemma 4 of document 000 is tried on every set, not used.

pub mod derivation;
pub mod images;
mod least;
mod packing;
mod relation;
mod tables;

use derivation::Walk;
use images::Images;
pub use images::{check_grammar, check_tokens, check_tree};
pub use packing::{pack_tokens, pack_tree};

/// Number and place by the table of document 01.
pub fn check(
    grammar: &[u8],
    tokens: &[u8],
    tree: &[u8],
    sets: &mut [u32],
    indentations: &mut [u32],
) -> (u8, usize) {
    let images = match Images::read(grammar, tokens, tree) {
        Ok(images) => images,
        Err(refusal) => return refusal,
    };
    let nodes = images.tree.len();
    if sets.len() < 2 * nodes {
        return (4, 2 * nodes);
    }
    if indentations.len() < nodes {
        return (4, nodes);
    }
    let root = match Walk::over(&images).tree() {
        Ok(root) => root,
        Err(refusal) => return refusal,
    };

    let found = tables::sets(&root, nodes);
    let numbers = least::numbers(&root, nodes);
    // The sets and the raised numbers are found in two ways that know nothing
    // of each other. Numbers raised only where a relation forces them lie at
    // or below every choice, so they are a choice if there is any.
    let is_choice = root.every_relation_holds(&numbers);
    assert_eq!(
        is_choice,
        found[0].is_some(),
        "the root's set and the raised numbers disagree on whether a choice exists"
    );

    for (node, set) in found.iter().enumerate() {
        let (low, high) = set.unwrap_or((1, 0));
        sets[2 * node] = low;
        sets[2 * node + 1] = high;
    }
    if !is_choice {
        let place = found.iter().rposition(Option::is_none);
        return (12, place.expect("the root's set is empty"));
    }
    indentations[..nodes].copy_from_slice(&numbers);
    (0, 0)
}

/// Number and place for the derivation alone: what the tests of the check give
/// that come before any set, with room for every node.
pub fn derive(grammar: &[u8], tokens: &[u8], tree: &[u8]) -> (u8, usize) {
    let images = match Images::read(grammar, tokens, tree) {
        Ok(images) => images,
        Err(refusal) => return refusal,
    };
    match Walk::over(&images).tree() {
        Ok(_) => (0, 0),
        Err(refusal) => refusal,
    }
}

/// How large an input is: its nodes, and the depth that the walk reached.
pub struct Shape {
    pub nodes: usize,
    pub depth: usize,
}

/// The shape of an input whose images are in order.
pub fn shape(grammar: &[u8], tokens: &[u8], tree: &[u8]) -> Option<Shape> {
    let images = Images::read(grammar, tokens, tree).ok()?;
    let mut walk = Walk::over(&images);
    // A walk that ends in a refusal has reached a depth as well.
    let _ = walk.tree();
    Some(Shape {
        nodes: images.tree.len(),
        depth: walk.deepest,
    })
}
