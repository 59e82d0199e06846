//! The check, plain and quick: each image is read once, one walk judges the
//! derivation, one loop backward gives the sets, one loop forward the
//! indentations. Nothing is taken from the heap.

mod images;
mod packing;
mod reading;
mod walk;

use images::Images;
pub use packing::{pack_tokens, pack_tree};
pub use reading::{Reading, Right};
use walk::{Note, Sight, NO_BOUND};

const MOST_NODES: usize = 4096;

/// Number and place by the table of document 01.
pub fn check(
    grammar: &[u8],
    tokens: &[u8],
    tree: &[u8],
    sets: &mut [u32],
    indentations: &mut [u32],
) -> (u8, usize) {
    match judge::<Right>(grammar, tokens, tree, sets, indentations) {
        Ok(()) => (0, 0),
        Err(refusal) => refusal,
    }
}

/// Number and place for the derivation alone, whatever the columns: the check
/// up to its walk, which notes nothing here.
pub fn derive(grammar: &[u8], tokens: &[u8], tree: &[u8]) -> (u8, usize) {
    let derived = Images::read::<Right>(grammar, tokens, tree)
        .and_then(|images| walk::derive::<Right, _>(&images, &mut ()));
    match derived {
        Ok(()) => (0, 0),
        Err(refusal) => refusal,
    }
}

/// What a comparison counts on a sheet, as far as the walk comes.
pub fn sight(grammar: &[u8], tokens: &[u8], tree: &[u8]) -> Sight {
    let mut sight = Sight::default();
    if let Ok(images) = Images::read::<Right>(grammar, tokens, tree) {
        // What stands before a refusal is counted as well.
        let _ = walk::derive::<Right, _>(&images, &mut sight);
    }
    sight
}

/// Number and place for a grammar image alone.
pub fn check_grammar(image: &[u8]) -> (u8, usize) {
    match images::grammar::<Right>(image) {
        Ok(_) => (0, 0),
        Err(place) => (1, place),
    }
}

/// Number and place for a token image alone, with so many terminals.
pub fn check_tokens(image: &[u8], terminals: u16) -> (u8, usize) {
    match images::tokens(image, terminals) {
        Ok(_) => (0, 0),
        Err(place) => (2, place),
    }
}

/// Number and place for a tree image alone, with so many productions.
pub fn check_tree(image: &[u8], productions: u16) -> (u8, usize) {
    match images::nodes(image, productions.into()) {
        Ok(_) => (0, 0),
        Err(place) => (3, place),
    }
}

/// Number and place.
pub type Refusal = (u8, usize);

/// The check by a reading of document 01, which only `Right` is sure to have
/// right.
pub fn judge<R: Reading>(
    grammar: &[u8],
    tokens: &[u8],
    tree: &[u8],
    sets: &mut [u32],
    indentations: &mut [u32],
) -> Result<(), Refusal> {
    let images = Images::read::<R>(grammar, tokens, tree)?;
    let count = images.nodes.len();
    let sets = sets.get_mut(..2 * count).ok_or((4, 2 * count))?;
    let indentations = indentations.get_mut(..count).ok_or((4, count))?;

    let mut notes = [Note::default(); MOST_NODES];
    let notes = &mut notes[..count];
    walk::derive::<R, _>(&images, notes)?;
    if let Some(place) = write_sets::<R>(notes, sets) {
        return Err((12, place));
    }
    write_indentations::<R>(notes, indentations);
    Ok(())
}

/// Writes every set and gives the highest-numbered node with an empty one.
///
/// Backward, because every child has a higher number than its node: when a
/// node's turn comes, its note has met all its tokens and all its children.
fn write_sets<R: Reading>(notes: &mut [Note], sets: &mut [u32]) -> Option<usize> {
    let mut highest_empty = None;
    for (node, set) in sets.as_chunks_mut::<2>().0.iter_mut().enumerate().rev() {
        let note = notes[node];
        let high = match note.high {
            NO_BOUND => u32::MAX,
            high => high as u32,
        };
        *set = [note.low as u32, high];
        if note.is_empty() {
            *set = [1, 0];
            highest_empty = highest_empty.or(Some(node));
        }
        if node > 0 {
            notes[usize::from(note.above)].meet::<R>(note.relation, note.low, note.high);
        }
    }
    highest_empty
}

/// Gives every node its least number: the lowest of its own set that its
/// parent's number allows. Sets are intervals, and the parent's number is in
/// the parent's set, so the lowest allowed number is never above the high.
fn write_indentations<R: Reading>(notes: &[Note], indentations: &mut [u32]) {
    for (node, note) in notes.iter().enumerate() {
        let low = note.low as u32;
        let parent = indentations[usize::from(note.above)];
        indentations[node] = match note.relation {
            0 => parent,
            1 => low.max(parent + R::STEP as u32),
            2 => low.max(parent),
            _ => low,
        };
    }
}
