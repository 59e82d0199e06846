//! The two checks side by side, on images written from plain numbers.

#![allow(dead_code)]

pub use second::build::*;
use second::delivery::Check;

pub const CHECKS: [(&str, Check); 2] = [
    ("plain", second::plain::check),
    ("definition", second::definition::check),
];

/// What stands in a list before a check.
pub const BEFORE: u32 = 77_777;

/// A check's answer and both lists after it, with room for more than needed.
pub struct Outcome {
    pub answer: (u8, usize),
    pub sets: Vec<u32>,
    pub indentations: Vec<u32>,
}

pub fn run(check: Check, grammar: &[u8], tokens: &[u8], tree: &[u8]) -> Outcome {
    let mut sets = vec![BEFORE; 8200];
    let mut indentations = vec![BEFORE; 4100];
    let answer = check(grammar, tokens, tree, &mut sets, &mut indentations);
    Outcome {
        answer,
        sets,
        indentations,
    }
}

pub fn untouched(list: &[u32]) -> bool {
    list.iter().all(|&entry| entry == BEFORE)
}

/// The largest three images: 1,024 productions, 4,096 symbols, tokens and
/// nodes, 47,132 bytes. Every relation is free.
///
/// A → a and fifteen A stands at 273 nodes, A → a at the other 3,823.
pub fn largest() -> [Vec<u8>; 3] {
    let a = (0, 3, 0);
    let node = (1, 3, 0);
    let mut first = vec![a];
    first.extend([node; 15]);
    let mut productions = vec![(0, first), (0, vec![a])];
    productions.extend((0..1013).map(|_| (0, vec![a; 4])));
    productions.extend((0..9).map(|_| (0, vec![node; 3])));
    let mut tree = Vec::new();
    let mut inner_left = 273;
    // Three full levels have 241 inner nodes; 32 of the fourth are the rest.
    let mut fourth_left = 32;
    grow(1, &mut tree, &mut inner_left, &mut fourth_left);
    assert_eq!((tree.len(), inner_left), (4096, 0));
    [
        grammar(1, 1, &productions),
        token_image(&[(0, 9); 4096]),
        tree_image(&tree),
    ]
}

fn grow(level: usize, tree: &mut Vec<u16>, inner_left: &mut usize, fourth_left: &mut usize) {
    let inner = level < 4 || level == 4 && *fourth_left > 0;
    if !inner {
        tree.push(1);
        return;
    }
    *fourth_left -= usize::from(level == 4);
    *inner_left -= 1;
    tree.push(0);
    for _ in 0..15 {
        grow(level + 1, tree, inner_left, fourth_left);
    }
}
