//! Reading the three images. A fault is given as the byte of its field.

use super::reading::Reading;
use super::Refusal;

pub struct Images<'a> {
    pub grammar: Grammar<'a>,
    /// Terminal and column each.
    pub tokens: &'a [[u8; 4]],
    /// A production number each.
    pub nodes: &'a [[u8; 2]],
}

impl<'a> Images<'a> {
    /// The three images, or the first refusal of 1 to 3.
    #[inline(always)]
    pub fn read<R: Reading>(
        grammar_image: &'a [u8],
        token_image: &'a [u8],
        tree_image: &'a [u8],
    ) -> Result<Images<'a>, Refusal> {
        let grammar = grammar::<R>(grammar_image).map_err(|place| (1, place))?;
        let tokens = tokens(token_image, grammar.terminals).map_err(|place| (2, place))?;
        let nodes = nodes(tree_image, grammar.productions.len()).map_err(|place| (3, place))?;
        Ok(Images {
            grammar,
            tokens,
            nodes,
        })
    }
}

pub struct Grammar<'a> {
    pub terminals: u16,
    pub start: u16,
    /// Left side, first symbol entry, count of symbols.
    pub productions: &'a [[u8; 6]],
    /// Kind, relation, number.
    pub symbols: &'a [[u8; 4]],
}

#[inline(always)]
pub fn word(low: u8, high: u8) -> u16 {
    u16::from_le_bytes([low, high])
}

const LAST_COLUMN: u16 = 4095;

/// The column field of a token without a column.
pub const NO_COLUMN: u16 = 65_535;

/// Whether a token may have this in its column field.
#[inline(always)]
pub fn is_column(field: u16) -> bool {
    field <= LAST_COLUMN || field == NO_COLUMN
}

pub fn grammar<R: Reading>(image: &[u8]) -> Result<Grammar<'_>, usize> {
    let Some((header, records)) = image.split_first_chunk::<16>() else {
        return Err(image.len());
    };
    let field = |at: usize| word(header[at], header[at + 1]);
    let terminals = field(0);
    let nonterminals = field(2);
    let start = field(4);
    let production_count = usize::from(field(6));
    let symbol_count = usize::from(field(8));
    let symbols_at = 16 + 6 * production_count;
    let total = symbols_at + 4 * symbol_count;
    if !(1..=1024).contains(&terminals) {
        return Err(0);
    }
    if !(1..=1024).contains(&nonterminals) {
        return Err(2);
    }
    if start >= nonterminals {
        return Err(4);
    }
    if !(1..=1024).contains(&production_count) {
        return Err(6);
    }
    if symbol_count > 4096 {
        return Err(8);
    }
    if field(10) != 16 {
        return Err(10);
    }
    if usize::from(field(12)) != symbols_at {
        return Err(12);
    }
    if usize::from(field(14)) != total || image.len() != total {
        return Err(14);
    }

    let (productions, symbols) = records.split_at(6 * production_count);
    let productions = productions.as_chunks::<6>().0;
    let symbols = symbols.as_chunks::<4>().0;
    let mut end = 0;
    for (index, &[l0, l1, f0, f1, c0, c1]) in productions.iter().enumerate() {
        let at = 16 + 6 * index;
        let count = usize::from(word(c0, c1));
        if word(l0, l1) >= nonterminals {
            return Err(at);
        }
        if usize::from(word(f0, f1)) != end {
            return Err(at + 2);
        }
        if count > 16 || end + count > symbol_count {
            return Err(at + 4);
        }
        end += count;
    }
    if end != symbol_count {
        return Err(8);
    }
    for (index, &[kind, relation, n0, n1]) in symbols.iter().enumerate() {
        let at = symbols_at + 4 * index;
        let limit = if kind == 0 { terminals } else { nonterminals };
        if kind > 1 {
            return Err(at);
        }
        if R::RELATION_TESTED && relation > 3 {
            return Err(at + 1);
        }
        if word(n0, n1) >= limit {
            return Err(at + 2);
        }
    }
    Ok(Grammar {
        terminals,
        start,
        productions,
        symbols,
    })
}

/// The records of a token or tree image, whose headers have one form.
fn records<const SIZE: usize>(image: &[u8], least: u16) -> Result<&[[u8; SIZE]], usize> {
    let Some((&[c0, c1, o0, o1, t0, t1], records)) = image.split_first_chunk::<6>() else {
        return Err(image.len());
    };
    let count = word(c0, c1);
    let total = 6 + SIZE * usize::from(count);
    if !(least..=4096).contains(&count) {
        return Err(0);
    }
    if word(o0, o1) != 6 {
        return Err(2);
    }
    if usize::from(word(t0, t1)) != total || image.len() != total {
        return Err(4);
    }
    Ok(records.as_chunks::<SIZE>().0)
}

/// The tokens: terminal and column each.
pub fn tokens(image: &[u8], terminals: u16) -> Result<&[[u8; 4]], usize> {
    let tokens = records::<4>(image, 0)?;
    for (index, &[t0, t1, c0, c1]) in tokens.iter().enumerate() {
        if word(t0, t1) >= terminals {
            return Err(6 + 4 * index);
        }
        if !is_column(word(c0, c1)) {
            return Err(8 + 4 * index);
        }
    }
    Ok(tokens)
}

/// The nodes: a production number each.
pub fn nodes(image: &[u8], productions: usize) -> Result<&[[u8; 2]], usize> {
    let nodes = records::<2>(image, 1)?;
    match nodes
        .iter()
        .position(|&[p0, p1]| usize::from(word(p0, p1)) >= productions)
    {
        Some(index) => Err(6 + 2 * index),
        None => Ok(nodes),
    }
}
