//! The two packers. Each judges first and writes then, straight into the
//! output. What comes back is number, place and length.

use super::images::is_column;

const MOST_ENTRIES: usize = 4096;

pub fn pack_tree(productions: &[u16], output: &mut [u8]) -> (u8, usize, usize) {
    let count = productions.len();
    if !(1..=MOST_ENTRIES).contains(&count) {
        return (13, 0, 0);
    }
    let length = 6 + 2 * count;
    let Some(image) = output.get_mut(..length) else {
        return (4, length, 0);
    };
    let nodes = header(image, count).as_chunks_mut::<2>().0;
    for (node, production) in nodes.iter_mut().zip(productions) {
        *node = production.to_le_bytes();
    }
    (0, 0, length)
}

pub fn pack_tokens(terminals: &[u16], columns: &[u16], output: &mut [u8]) -> (u8, usize, usize) {
    let count = terminals.len();
    if count > MOST_ENTRIES || count != columns.len() {
        return (13, 0, 0);
    }
    if let Some(index) = columns.iter().position(|&column| !is_column(column)) {
        return (14, index, 0);
    }
    let length = 6 + 4 * count;
    let Some(image) = output.get_mut(..length) else {
        return (4, length, 0);
    };
    let tokens = header(image, count).as_chunks_mut::<4>().0;
    for ((token, terminal), column) in tokens.iter_mut().zip(terminals).zip(columns) {
        let [t0, t1] = terminal.to_le_bytes();
        let [c0, c1] = column.to_le_bytes();
        *token = [t0, t1, c0, c1];
    }
    (0, 0, length)
}

/// Writes count, offset and total length, which is the image's own, and gives
/// the records' part.
fn header(image: &mut [u8], count: usize) -> &mut [u8] {
    let length = image.len() as u16;
    let (header, records) = image.split_at_mut(6);
    header[..2].copy_from_slice(&(count as u16).to_le_bytes());
    header[2..4].copy_from_slice(&[6, 0]);
    header[4..].copy_from_slice(&length.to_le_bytes());
    records
}
