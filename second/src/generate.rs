//! Inputs for the comparisons. Each depends on seed and index only.
//!
//! Most are small and in order; a few percent are deep or large, and about
//! half are damaged in some way.

mod columns;
mod damage;
mod edges;
mod grammars;
mod growth;
pub mod lists;
pub mod random;
mod sheet;

use crate::delivery::cut;
use growth::{grow, Aim, MOST_DEPTH};
use random::Random;
use sheet::Sheet;

/// The whole of one input, as it goes to standard input.
pub fn input(seed: u64, index: u64) -> Vec<u8> {
    match made(seed, index) {
        Made::Images(images) => images.concat(),
        Made::Bytes(bytes) => bytes,
    }
}

/// One input as grammar, token and tree image, as they go to a call. An image
/// may be longer than its total-length field says, which no cut gives.
pub fn images(seed: u64, index: u64) -> [Vec<u8>; 3] {
    match made(seed, index) {
        Made::Images(images) => images,
        Made::Bytes(bytes) => cut(&bytes).map(<[u8]>::to_vec),
    }
}

/// Three images, or bytes of which only a cut says where an image ends.
enum Made {
    Images([Vec<u8>; 3]),
    Bytes(Vec<u8>),
}

fn made(seed: u64, index: u64) -> Made {
    let random = &mut Random::new(seed, index);
    let mut sheet = any_sheet(random);
    columns::lay(random, &mut sheet);
    match random.below(20) {
        0..=9 => {}
        10..=11 => edges::edge(random, &mut sheet),
        12..=15 => {
            for _ in 0..random.pick(&[1, 1, 1, 1, 2, 3]) {
                damage::lists(random, &mut sheet);
            }
        }
        _ => return damage::bytes(random, sheet.images()),
    }
    Made::Images(sheet.images())
}

fn any_sheet(random: &mut Random) -> Sheet {
    match random.below(1000) {
        0..=14 => large(random),
        15..=39 => deep(random),
        40..=59 => hours(random),
        60..=74 => many_productions(random),
        75..=84 => long_rows(random),
        85..=299 => {
            let aim = Aim::Any {
                nodes: random.within(1, 40),
                depth: random.within(2, 40),
            };
            grow(random, grammars::trial(), aim)
        }
        300..=799 => {
            let (terminals, nonterminals) = (random.within(1, 4), random.within(1, 4));
            let productions = nonterminals + random.below(8);
            let grammar = grammars::any(random, terminals, nonterminals, productions, 4);
            let aim = Aim::Any {
                nodes: random.within(1, 30),
                depth: random.within(1, 12),
            };
            grow(random, grammar, aim)
        }
        _ => {
            let (terminals, nonterminals) = (random.within(1, 20), random.within(1, 12));
            let productions = nonterminals + random.below(50);
            let grammar = grammars::any(random, terminals, nonterminals, productions, 16);
            let aim = Aim::Any {
                nodes: random.within(1, 80),
                depth: random.within(1, 20),
            };
            grow(random, grammar, aim)
        }
    }
}

/// Up to the limits of the tree and token images, a few of them one past.
fn large(random: &mut Random) -> Sheet {
    let size = |random: &mut Random| match random.below(4) {
        0 => random.pick(&[4094, 4095, 4096, 4096, 4096, 4097]),
        _ => random.within(1000, 4096),
    };
    let nonterminals = random.within(1, 6);
    let mut grammar = grammars::counted(random, nonterminals);
    // One in four is as large as an input can be: 47,132 bytes.
    let largest = random.one_in(4);
    if largest || random.one_in(3) {
        grammars::fill(random, &mut grammar);
    }
    let (nodes, tokens) = if largest {
        (4096, 4096)
    } else {
        (size(random), size(random))
    };
    grow(random, grammar, Aim::Counted { nodes, tokens })
}

/// Around the greatest depth, or anywhere below it.
fn deep(random: &mut Random) -> Sheet {
    let nonterminals = random.within(1, 8);
    // With four children a row the deepest tree has 4,093 nodes.
    let longest = random.pick(&[1, 1, 2, 3, 4]);
    let mut grammar = grammars::spine(random, nonterminals, longest);
    if nonterminals > 1 && random.one_in(4) {
        grammars::steepen(random, &mut grammar);
    }
    let depth = if random.one_in(3) {
        random.within(90, MOST_DEPTH)
    } else {
        near_the_limit(random)
    };
    let mut sheet = grow(random, grammar, Aim::Spine { depth });
    if depth > MOST_DEPTH && random.one_in(4) {
        spoil_too_deep(random, &mut sheet);
    }
    sheet
}

/// A depth at the limit, one off either way, or well beyond it.
fn near_the_limit(random: &mut Random) -> usize {
    let most = MOST_DEPTH;
    random.pick(&[most - 1, most, most, most, most + 1, most + 44])
}

/// The deepest trees with rows of 16, as many as fit. Two in three are steep:
/// each level stands right of the one above, from the last column on.
fn long_rows(random: &mut Random) -> Sheet {
    let steep = !random.one_in(3);
    let grammar = grammars::rows(random, steep);
    let depth = near_the_limit(random);
    let mut sheet = grow(random, grammar, Aim::Rows { depth });
    sheet.base = steep.then_some(columns::LAST_COLUMN);
    sheet
}

/// Makes the first node that is too deep wrong or the first one missing, so
/// that the order of the tests decides.
fn spoil_too_deep(random: &mut Random, sheet: &mut Sheet) {
    let mut depths: Vec<usize> = Vec::new();
    for (node, above) in sheet.above_nodes.iter().enumerate() {
        depths.push(if node == 0 { 1 } else { depths[above.node] + 1 });
    }
    let Some(node) = depths.iter().position(|&depth| depth > MOST_DEPTH) else {
        return;
    };
    if random.one_in(3) {
        sheet.tree.truncate(node);
        sheet.above_nodes.truncate(node);
        sheet
            .above_tokens
            .iter_mut()
            .for_each(|above| above.node = above.node.min(node - 1));
    } else {
        sheet.tree[node] = random.below(sheet.grammar.productions.len()) as u16;
    }
}

/// A trial sheet of many hours without items, some at the greatest depth.
fn hours(random: &mut Random) -> Sheet {
    let hours = random.pick(&[120, 300, 1020, 1021, 1021, 1021, 1022, 1023, 1300]);
    let mut sheet = grow(random, grammars::trial(), Aim::Any { nodes: 1, depth: 1 });
    // The tree is 0 2 so far, a day without hours; the hours go before the 2.
    let above = |node, relation| sheet::Above { node, relation };
    let mut list = 1;
    for _ in 0..hours {
        let at = sheet.tree.len() - 1;
        let relation = sheet.above_nodes[at].relation;
        sheet.tree.truncate(at);
        sheet.above_nodes.truncate(at);
        sheet.tree.extend([1, 3, 5, 2]);
        let before = if at == 1 { 0 } else { list };
        sheet.above_nodes.extend([
            above(before, relation),
            above(at, 0),
            above(at + 1, 1),
            above(at, 0),
        ]);
        sheet.tokens.push((1, 0));
        sheet.above_tokens.push(above(at + 1, 0));
        list = at;
    }
    sheet
}

/// Up to the limits of the grammar image, with a tree that may be small.
fn many_productions(random: &mut Random) -> Sheet {
    let (terminals, nonterminals) = (random.within(1, 1024), random.within(1, 1024));
    let productions = random.within(nonterminals, 1024);
    let mut grammar = grammars::any(random, terminals, nonterminals, productions, 7);
    if random.one_in(2) {
        grammars::fill(random, &mut grammar);
    }
    let aim = Aim::Any {
        nodes: random.within(1, 200),
        depth: random.within(1, 60),
    };
    grow(random, grammar, aim)
}
