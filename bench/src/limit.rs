//! The limit: every byte of the images is read once, every entry of the lists is written once, and
//! nothing is judged. A check that takes one field and one entry at a time cannot do with less.

use std::ptr::write_volatile;

/// Reads the fields of 16 bits one after another, as the format has them, and writes 2D and D entries,
/// D by the count of the tree image.
///
/// What is written depends on every field, so that the compiler drops no read. It is a running
/// difference, since of a sum it would take eight fields at a time; and entries are written volatile,
/// since it would write four at a time. The compiled code has a load and an addition for each field
/// and a store for each entry.
pub fn limit(
    grammar: &[u8],
    tokens: &[u8],
    tree: &[u8],
    sets: &mut [u32],
    indentations: &mut [u32],
) {
    let (count, tree) = tree
        .split_first_chunk()
        .expect("a tree image begins with its count");
    let count = u16::from_le_bytes(*count);
    let mut running = u32::from(count);
    for image in [grammar, tokens, tree] {
        for field in image.as_chunks().0 {
            running = u32::from(u16::from_le_bytes(*field)).wrapping_sub(running);
        }
    }
    let count = usize::from(count);
    for list in [&mut sets[..2 * count], &mut indentations[..count]] {
        for entry in list {
            unsafe { write_volatile(entry, running) }
        }
    }
}
