//! The check of the deepest trees: number and place, and every entry of both
//! lists.
//!
//! With `Rows` a tree of 1,024 levels has as many rows of 16 as fit. The 1,023
//! nodes that lead down from the root stand in a row each, and beside these
//! 1,024 nodes there are 3,072 nodes and 4,096 tokens: 15 in a row they fill
//! 204 and 273 rows.

use super::Trials;
use crate::build::{grammar, token_image, tree_image, trial, DAY, HOUR, NO_COLUMN};
use crate::subject::Subject;

const ALL: [u32; 2] = [0, u32::MAX];

/// The sets and the indentations, node by node, of what is accepted.
type Nodes = Vec<([u32; 2], u32)>;

pub fn run(subject: &Subject, trials: &mut Trials) {
    hours(subject, trials);
    rows(subject, trials);
}

/// A day at column 1 and so many hours at column 3 without items.
fn hours(subject: &Subject, trials: &mut Trials) {
    let images = |hours, end: &[u16]| {
        let tokens = [vec![(DAY, 1)], vec![(HOUR, 3); hours]].concat();
        let tree = [&[0], &[1, 3, 5].repeat(1021)[..], end].concat();
        [trial(), token_image(&tokens), tree_image(&tree)]
    };
    let hour = [([3, 3], 3), ([3, 3], 3), (ALL, 4)];
    let lists = [vec![([1, 1], 1)], hour.repeat(1021), vec![(ALL, 3)]].concat();
    let mut checked = |line, hours, end, lists| {
        trials.lists(subject, line, images(hours, end), lists);
    };
    checked("1,021 hours: 0 0, both lists as due", 1021, &[2], lists);
    // Of one hour more the Items, node 3,066, would be at depth 1,025.
    let none = Nodes::new;
    checked("1,022 hours: 9 3066", 1022, &[1, 3, 5, 2], none());
    checked("1,022 hours, wrong Items: 5 3066", 1022, &[1, 3, 2], none());
    checked("1,022 hours, no Items: 6 3066", 1022, &[1, 3], none());
    checked(
        "1,022 hours, 1,022 tokens: 8 1022",
        1021,
        &[1, 3, 5],
        none(),
    );
}

/// Top → a= Row>; Row → fifteen a≥ and Row>; Row → fifteen Nothing> and Row>;
/// Row → Row>; Row → nothing; Nothing → nothing.
fn rows(subject: &Subject, trials: &mut Trials) {
    let (row, nothing) = ((1, 1, 1), (1, 1, 2));
    let table = grammar(
        1,
        3,
        &[
            (0, vec![(0, 0, 0), row]),
            (1, [[(0, 2, 0); 15].as_slice(), &[row]].concat()),
            (1, [[nothing; 15].as_slice(), &[row]].concat()),
            (1, vec![row]),
            (1, vec![]),
            (2, vec![]),
        ],
    );
    // The Rows under the Top: 273 with tokens, 204 with Nothings, so many with
    // the next Row alone, and the last.
    let images = |single: usize, first: u16, others: u16| {
        let with_nothings = [vec![2], vec![5; 15]].concat();
        let tree = [
            vec![0],
            vec![1; 273],
            with_nothings.repeat(204),
            vec![3; single],
            vec![4],
        ];
        let tokens = [vec![(0, first)], vec![(0, others); 4095]].concat();
        [
            table.clone(),
            token_image(&tokens),
            tree_image(&tree.concat()),
        ]
    };
    // Each Row is one right of the Row above it, from the Top on, and so are
    // Nothings. No token bounds a Row, or each one with tokens does.
    let lists = |top: u32, bound: Option<u32>| {
        let mut nodes = vec![([top, top], top)];
        for level in 1..=1023 {
            let set = match (level, bound) {
                (1..=273, Some(bound)) => [0, bound + level - 273],
                _ => ALL,
            };
            nodes.push((set, top + level));
            if (274..=477).contains(&level) {
                nodes.extend(vec![(ALL, top + level + 1); 15]);
            }
        }
        nodes
    };
    let mut checked = |line, single, first, others, lists| {
        trials.lists(subject, line, images(single, first, others), lists);
    };
    checked(
        "1,024 levels, the greatest indentation 5,118: 0 0, both lists as due",
        545,
        4095,
        NO_COLUMN,
        lists(4095, None),
    );
    checked(
        "1,024 levels from column 0: 0 0, both lists as due",
        545,
        0,
        4095,
        lists(0, Some(4095)),
    );
    // Row 273 may have 0 to 274, so the Top at 1 leaves each of them one number.
    checked(
        "1,024 levels from column 1, all forced down to 274: 0 0, both lists as due",
        545,
        1,
        274,
        lists(1, Some(274)),
    );
    checked("1,025 levels: 9 4084", 546, 4095, NO_COLUMN, Nodes::new());
}
