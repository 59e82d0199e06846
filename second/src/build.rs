//! Images written from plain numbers, right or faulty, for trials and tests.

pub const DAY: u16 = 0;
pub const HOUR: u16 = 1;
pub const ITEM: u16 = 2;

/// In the column's place, for a token without a column.
pub const NO_COLUMN: u16 = 65_535;

/// Sheet A of document 01.
pub const A_TOKENS: [(u16, u16); 4] = [(DAY, 1), (HOUR, 3), (ITEM, 5), (HOUR, 3)];
pub const A_TREE: [u16; 9] = [0, 1, 3, 4, 5, 1, 3, 5, 2];

pub fn words(words: &[u16]) -> Vec<u8> {
    words.iter().flat_map(|word| word.to_le_bytes()).collect()
}

/// Kind, relation and number of a symbol.
pub type Symbol = (u8, u8, u16);

/// A grammar image of productions with left side and row; the start is 0.
pub fn grammar(terminals: u16, nonterminals: u16, productions: &[(u16, Vec<Symbol>)]) -> Vec<u8> {
    let count = productions.len() as u16;
    let symbols: Vec<&Symbol> = productions.iter().flat_map(|(_, row)| row).collect();
    let y = symbols.len() as u16;
    let at = 16 + 6 * count;
    let mut image = words(&[terminals, nonterminals, 0, count, y, 16, at, at + 4 * y]);
    let mut first = 0;
    for (left, row) in productions {
        image.extend(words(&[*left, first, row.len() as u16]));
        first += row.len() as u16;
    }
    for (kind, relation, number) in symbols {
        image.extend([*kind, *relation]);
        image.extend(number.to_le_bytes());
    }
    image
}

/// The trial grammar: header 3, 4, 0, 6, 8, 16, 52, 84, then six productions
/// and eight symbols.
pub fn trial() -> Vec<u8> {
    let mut image = words(&[3, 4, 0, 6, 8, 16, 52, 84]);
    image.extend(words(&[
        0, 0, 2, 1, 2, 2, 1, 4, 0, 2, 4, 2, 3, 6, 2, 3, 8, 0,
    ]));
    image.extend([0, 0, 0, 0, 1, 1, 1, 0]); // day= Hours>
    image.extend([1, 0, 2, 0, 1, 0, 1, 0]); // Hour= Hours=
    image.extend([0, 0, 1, 0, 1, 1, 3, 0]); // hour= Items>
    image.extend([0, 2, 2, 0, 1, 0, 3, 0]); // item≥ Items=
    image
}

pub fn token_image(tokens: &[(u16, u16)]) -> Vec<u8> {
    let count = tokens.len() as u16;
    let mut image = words(&[count, 6, 6 + 4 * count]);
    for (terminal, column) in tokens {
        image.extend(words(&[*terminal, *column]));
    }
    image
}

pub fn tree_image(tree: &[u16]) -> Vec<u8> {
    let count = tree.len() as u16;
    let mut image = words(&[count, 6, 6 + 2 * count]);
    image.extend(words(tree));
    image
}

/// A field by its byte and the number set there.
pub type Change = (usize, u16);

pub fn changed(mut image: Vec<u8>, changes: &[Change]) -> Vec<u8> {
    for &(at, value) in changes {
        image[at..at + 2].copy_from_slice(&value.to_le_bytes());
    }
    image
}
