//! The two packers by document 01: the records are put together apart, as a
//! list of fields, and go to the output only if nothing is refused.

use super::images::NO_COLUMN;

const MOST: usize = 4096;

/// Number, place and length.
pub fn pack_tree(productions: &[u16], output: &mut [u8]) -> (u8, usize, usize) {
    if productions.is_empty() || productions.len() > MOST {
        return (13, 0, 0);
    }
    deliver(2, productions.len(), productions.to_vec(), output)
}

/// Number, place and length.
pub fn pack_tokens(terminals: &[u16], columns: &[u16], output: &mut [u8]) -> (u8, usize, usize) {
    if terminals.len() > MOST || columns.len() > MOST || terminals.len() != columns.len() {
        return (13, 0, 0);
    }
    let mut records = Vec::new();
    for index in 0..columns.len() {
        if (4096..NO_COLUMN).contains(&columns[index]) {
            return (14, index, 0);
        }
        records.push(terminals[index]);
        records.push(columns[index]);
    }
    deliver(4, terminals.len(), records, output)
}

/// Records of `size` bytes each, behind their header.
fn deliver(size: usize, count: usize, records: Vec<u16>, output: &mut [u8]) -> (u8, usize, usize) {
    let needed = 6 + size * count;
    if output.len() < needed {
        return (4, needed, 0);
    }
    let header = [count as u16, 6, needed as u16];
    for (index, field) in header.into_iter().chain(records).enumerate() {
        output[2 * index] = (field % 256) as u8;
        output[2 * index + 1] = (field / 256) as u8;
    }
    (0, 0, needed)
}
