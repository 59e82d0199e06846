//! The walk in preorder that judges the derivation and, for a check of the
//! columns, notes for each node what stands above it and what its own tokens
//! allow.

use super::images::{word, Images, NO_COLUMN};
use super::reading::Reading;
use super::Refusal;

/// The high of a note without upper bound. Columns end at 4,095 and a token
/// without a column sets no bound, so no bound ever comes near it.
pub const NO_BOUND: i16 = i16::MAX;

/// As many rows can be open: one more than in the right reading, for one that
/// lets a level more through.
const ROWS: usize = 1025;

/// A node's parent, the relation to it, and the numbers `low..=high` that
/// are open to the node so far; none when `low > high`.
///
/// The high is signed: the number below 0 is -1, which no low reaches. There
/// is no padding, so that a whole array of notes is cleared at one stroke.
#[derive(Clone, Copy, Default)]
pub struct Note {
    pub above: u16,
    pub relation: u16,
    pub low: i16,
    pub high: i16,
}

impl Note {
    pub fn is_empty(self) -> bool {
        self.low > self.high
    }

    /// Keeps the numbers that stand in the relation to some number of
    /// `low..=high`, which is nothing if that is empty. Empty stays empty:
    /// the low never falls and the high never rises.
    #[inline(always)]
    pub fn meet<R: Reading>(&mut self, relation: u16, low: i16, high: i16) {
        let floor = if relation == 0 { low } else { 0 };
        let mut limit = high - R::STEP * i16::from(relation == 1 && high != NO_BOUND);
        if relation == 3 {
            limit = NO_BOUND;
        }
        if low > high && (R::EMPTY_PASSES_FREE || relation != 3) {
            limit = -1;
        }
        self.low = self.low.max(floor);
        self.high = self.high.min(limit);
    }
}

/// Where the walk leaves what it meets: in a list with one note a node, in
/// counts for a comparison, or nowhere, if the derivation is all that is
/// asked.
pub trait Noted {
    fn node(&mut self, node: usize, above: u16, relation: u16);
    /// The column as its field has it, which may be `NO_COLUMN`.
    fn token<R: Reading>(&mut self, node: u16, relation: u16, column: u16);
}

impl Noted for [Note] {
    #[inline(always)]
    fn node(&mut self, node: usize, above: u16, relation: u16) {
        self[node] = Note {
            above,
            relation,
            low: 0,
            high: NO_BOUND,
        };
    }

    #[inline(always)]
    fn token<R: Reading>(&mut self, node: u16, relation: u16, column: u16) {
        let note = &mut self[usize::from(node)];
        if column != NO_COLUMN {
            note.meet::<R>(relation, column as i16, column as i16);
        } else if !R::holds_without_column(relation) {
            // Below every low, so that no number is open.
            note.high = -1;
        }
    }
}

/// What a comparison counts on a sheet.
#[derive(Default)]
pub struct Sight {
    /// Tokens without a column for each relation, by its number.
    pub without_column: [u64; 4],
    /// The depth of the deepest node, with 1 for the root.
    pub depth: usize,
    depths: Vec<usize>,
}

impl Noted for Sight {
    fn node(&mut self, node: usize, above: u16, _: u16) {
        let depth = if node == 0 {
            1
        } else {
            self.depths[usize::from(above)] + 1
        };
        self.depths.push(depth);
        self.depth = self.depth.max(depth);
    }

    fn token<R: Reading>(&mut self, _: u16, relation: u16, column: u16) {
        self.without_column[usize::from(relation)] += u64::from(column == NO_COLUMN);
    }
}

impl Noted for () {
    fn node(&mut self, _: usize, _: u16, _: u16) {}
    fn token<R: Reading>(&mut self, _: u16, _: u16, _: u16) {}
}

/// An open node and the symbol entries of its row that are still due.
#[derive(Clone, Copy, Default)]
struct Row {
    node: u16,
    next: u16,
    end: u16,
}

/// Walks the tree and gives the first refusal of 5 to 11.
pub fn derive<R: Reading, N: Noted + ?Sized>(
    images: &Images,
    notes: &mut N,
) -> Result<(), Refusal> {
    let Images {
        grammar,
        tokens,
        nodes,
    } = images;
    let mut rows = [Row::default(); ROWS];
    let mut depth = 0;
    let mut node = 0;
    let mut token = 0;
    // The node that is due next. The root stands under no relation, which is
    // what a free one says.
    let mut due = grammar.start;
    let mut relation = 3;
    let mut above = 0;
    loop {
        let Some(&[p0, p1]) = nodes.get(node) else {
            return Err((6, node));
        };
        let [l0, l1, f0, f1, c0, _] = grammar.productions[usize::from(word(p0, p1))];
        if word(l0, l1) != due {
            return Err((5, node));
        }
        if depth == R::DEEPEST {
            return Err((9, node));
        }
        notes.node(node, above, relation);
        let first = word(f0, f1);
        let mut row = Row {
            node: node as u16,
            next: first,
            end: first + u16::from(c0),
        };
        node += 1;
        depth += 1;

        // Goes on to the next nonterminal that is due, through the tokens on
        // the way and up through rows that are done.
        loop {
            while row.next == row.end {
                depth -= 1;
                if depth == 0 {
                    return all_used(node, nodes.len(), token, tokens.len());
                }
                row = rows[depth - 1];
            }
            let [kind, its_relation, n0, n1] = grammar.symbols[usize::from(row.next)];
            let its_relation = u16::from(its_relation);
            row.next += 1;
            let number = word(n0, n1);
            if kind != 0 {
                rows[depth - 1] = row;
                due = number;
                relation = its_relation;
                above = row.node;
                break;
            }
            let Some(&[t0, t1, c0, c1]) = tokens.get(token) else {
                return Err((8, token));
            };
            if word(t0, t1) != number {
                return Err((7, token));
            }
            notes.token::<R>(row.node, its_relation, word(c0, c1));
            token += 1;
        }
    }
}

fn all_used(node: usize, nodes: usize, token: usize, tokens: usize) -> Result<(), Refusal> {
    if node < nodes {
        Err((10, node))
    } else if token < tokens {
        Err((11, token))
    } else {
        Ok(())
    }
}
