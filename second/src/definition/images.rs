//! The three images taken apart into lists. Every field is read together with
//! the numbers it may have, in order of position, so that the first one
//! outside them is the fault.

use super::relation::Relation;
use std::ops::RangeInclusive;

pub struct Production {
    pub left: u32,
    pub row: Vec<Symbol>,
}

#[derive(Clone, Copy)]
pub enum Kind {
    Terminal(u32),
    Nonterminal(u32),
}

#[derive(Clone, Copy)]
pub struct Symbol {
    pub kind: Kind,
    pub relation: Relation,
}

/// A token's column, or nothing for a token without one.
pub type Column = Option<u32>;

pub struct Token {
    pub terminal: u32,
    pub column: Column,
}

pub struct Images {
    pub start: u32,
    pub productions: Vec<Production>,
    pub tokens: Vec<Token>,
    pub tree: Vec<usize>,
}

/// Stands in the column field of a token without a column.
pub const NO_COLUMN: u16 = 65_535;

/// The byte of the field that breaks its rule.
type Fault = usize;

impl Images {
    /// Reads grammar, tokens and tree, in this order; a refusal is 1, 2 or 3.
    pub fn read(grammar: &[u8], tokens: &[u8], tree: &[u8]) -> Result<Images, (u8, usize)> {
        let (terminals, start, productions) =
            read_grammar(Fields(grammar)).map_err(|fault| (1, fault))?;
        let tokens = read_tokens(Fields(tokens), terminals).map_err(|fault| (2, fault))?;
        let tree = read_tree(Fields(tree), productions.len()).map_err(|fault| (3, fault))?;
        Ok(Images {
            start,
            productions,
            tokens,
            tree,
        })
    }
}

/// Number and place for a grammar image alone.
pub fn check_grammar(image: &[u8]) -> (u8, usize) {
    alone(1, read_grammar(Fields(image)).err())
}

/// Number and place for a token image alone, with so many terminals.
pub fn check_tokens(image: &[u8], terminals: u16) -> (u8, usize) {
    alone(2, read_tokens(Fields(image), terminals.into()).err())
}

/// Number and place for a tree image alone, with so many productions.
pub fn check_tree(image: &[u8], productions: u16) -> (u8, usize) {
    alone(3, read_tree(Fields(image), productions.into()).err())
}

fn alone(number: u8, fault: Option<Fault>) -> (u8, usize) {
    fault.map_or((0, 0), |place| (number, place))
}

#[derive(Clone, Copy)]
struct Fields<'a>(&'a [u8]);

impl Fields<'_> {
    fn header(self, length: usize) -> Result<(), Fault> {
        if self.0.len() < length {
            Err(self.0.len())
        } else {
            Ok(())
        }
    }

    fn byte(self, at: usize, may: RangeInclusive<u32>) -> Result<u32, Fault> {
        let value = u32::from(self.0[at]);
        may.contains(&value).then_some(value).ok_or(at)
    }

    fn word(self, at: usize, may: RangeInclusive<u32>) -> Result<u32, Fault> {
        let value = u32::from(self.0[at]) + 256 * u32::from(self.0[at + 1]);
        may.contains(&value).then_some(value).ok_or(at)
    }

    fn fixed(self, at: usize, value: u32) -> Result<(), Fault> {
        self.word(at, value..=value).map(|_| ())
    }

    fn column(self, at: usize) -> Result<Column, Fault> {
        match self.fixed(at, NO_COLUMN.into()) {
            Ok(()) => Ok(None),
            Err(_) => self.word(at, 0..=4095).map(Some),
        }
    }

    /// The total length has to be both what the counts give and the real one.
    fn total(self, at: usize, length: u32) -> Result<(), Fault> {
        self.fixed(at, length)?;
        self.fixed(at, self.0.len().try_into().map_err(|_| at)?)
    }
}

/// The number of a thing of which there are `count`. With a count of 0 the
/// range is empty and every number a fault.
fn below(count: u32) -> RangeInclusive<u32> {
    match count.checked_sub(1) {
        Some(last) => 0..=last,
        None => RangeInclusive::new(1, 0),
    }
}

fn read_grammar(image: Fields) -> Result<(u32, u32, Vec<Production>), Fault> {
    image.header(16)?;
    let terminals = image.word(0, 1..=1024)?;
    let nonterminals = image.word(2, 1..=1024)?;
    let start = image.word(4, below(nonterminals))?;
    let count = image.word(6, 1..=1024)?;
    let entries = image.word(8, 0..=4096)?;
    image.fixed(10, 16)?;
    let symbols_at = 16 + 6 * count;
    image.fixed(12, symbols_at)?;
    image.total(14, symbols_at + 4 * entries)?;

    let mut spans = Vec::new();
    let mut end = 0;
    for at in (16..symbols_at as usize).step_by(6) {
        let left = image.word(at, below(nonterminals))?;
        image.fixed(at + 2, end)?;
        let length = image.word(at + 4, 0..=16.min(entries - end))?;
        spans.push((left, length));
        end += length;
    }
    // All productions stand, so a wrong last end is laid to the count Y.
    image.fixed(8, end)?;

    let mut at = symbols_at as usize;
    let mut productions = Vec::new();
    for (left, length) in spans {
        let mut row = Vec::new();
        for _ in 0..length {
            let kind = image.byte(at, 0..=1)?;
            let relation = Relation::of_number(image.byte(at + 1, 0..=3)?);
            let kind = if kind == 0 {
                Kind::Terminal(image.word(at + 2, below(terminals))?)
            } else {
                Kind::Nonterminal(image.word(at + 2, below(nonterminals))?)
            };
            row.push(Symbol { kind, relation });
            at += 4;
        }
        productions.push(Production { left, row });
    }
    Ok((terminals, start, productions))
}

fn read_tokens(image: Fields, terminals: u32) -> Result<Vec<Token>, Fault> {
    image.header(6)?;
    let count = image.word(0, 0..=4096)?;
    image.fixed(2, 6)?;
    image.total(4, 6 + 4 * count)?;
    (0..count as usize)
        .map(|index| {
            let at = 6 + 4 * index;
            Ok(Token {
                terminal: image.word(at, below(terminals))?,
                column: image.column(at + 2)?,
            })
        })
        .collect()
}

fn read_tree(image: Fields, productions: usize) -> Result<Vec<usize>, Fault> {
    image.header(6)?;
    let count = image.word(0, 1..=4096)?;
    image.fixed(2, 6)?;
    image.total(4, 6 + 2 * count)?;
    (0..count as usize)
        .map(|index| {
            let production = image.word(6 + 2 * index, below(productions as u32))?;
            Ok(production as usize)
        })
        .collect()
}
