//! The check of the derivation alone: the table's number and place before the
//! sets, and 0 0 where the whole check gives 0 or 12.

use super::refusals::{FAULTS, LENGTHS};
use super::{cut_sheet_a, sheet_a, Trials};
use crate::build::{token_image, tree_image, trial, A_TOKENS, A_TREE, DAY, HOUR, ITEM, NO_COLUMN};
use crate::subject::Subject;

type Sheet = (&'static str, &'static [(u16, u16)], &'static [u16]);

/// The starred sheets in their order: a line, tokens with columns, and tree.
const SHEETS: [Sheet; 14] = [
    ("Derivation of sheet A: 0 0", &A_TOKENS, &A_TREE),
    (
        "A with item at 4: 0 0",
        &[(DAY, 1), (HOUR, 3), (ITEM, 4), (HOUR, 3)],
        &A_TREE,
    ),
    (
        "A with item at 3, by the check 12 2: 0 0",
        &[(DAY, 1), (HOUR, 3), (ITEM, 3), (HOUR, 3)],
        &A_TREE,
    ),
    (
        "A with second hour at 4, by the check 12 1: 0 0",
        &[(DAY, 1), (HOUR, 3), (ITEM, 5), (HOUR, 4)],
        &A_TREE,
    ),
    (
        "day 1, hour 1, by the check 12 0: 0 0",
        &[(DAY, 1), (HOUR, 1)],
        &[0, 1, 3, 5, 2],
    ),
    (
        "day 1, hour 2: 0 0",
        &[(DAY, 1), (HOUR, 2)],
        &[0, 1, 3, 5, 2],
    ),
    ("day 0: 0 0", &[(DAY, 0)], &[0, 2]),
    (
        "day 0, hour 0, by the check 12 0: 0 0",
        &[(DAY, 0), (HOUR, 0)],
        &[0, 1, 3, 5, 2],
    ),
    ("no tokens: 8 0", &[], &[0, 2]),
    ("root is no Sheet: 5 0", &[(DAY, 1)], &[2]),
    ("Hours are missing: 6 1", &[(DAY, 1)], &[0]),
    ("hour for a day: 7 0", &[(HOUR, 1)], &[0, 2]),
    ("hour remains: 11 1", &[(DAY, 1), (HOUR, 3)], &[0, 2]),
    ("node remains: 10 2", &[(DAY, 1), (HOUR, 3)], &[0, 2, 2]),
];

/// Sheets with tokens without a column, which derive as with any.
const NO_COLUMNS: [Sheet; 4] = [
    (
        "A with item without a column: 0 0",
        &[(DAY, 1), (HOUR, 3), (ITEM, NO_COLUMN), (HOUR, 3)],
        &A_TREE,
    ),
    (
        "A with day without a column, by the check 12 0: 0 0",
        &[(DAY, NO_COLUMN), (HOUR, 3), (ITEM, 5), (HOUR, 3)],
        &A_TREE,
    ),
    (
        "A without any column, by the check 12 6: 0 0",
        &[
            (DAY, NO_COLUMN),
            (HOUR, NO_COLUMN),
            (ITEM, NO_COLUMN),
            (HOUR, NO_COLUMN),
        ],
        &A_TREE,
    ),
    (
        "hour without a column for a day: 7 0",
        &[(HOUR, NO_COLUMN)],
        &[0, 2],
    ),
];

/// A day at column 1 and so many hours at column 3 without items.
const HOURS: [(&str, usize); 2] = [
    ("1,021 hours, depth 1,024: 0 0", 1021),
    ("1,022 hours, depth 1,025: 9 3066", 1022),
];

pub fn run(subject: &Subject, trials: &mut Trials) {
    let mut derived = |line: &str, [grammar, tokens, tree]: [Vec<u8>; 3]| {
        trials.line(line, (subject.derive)(&grammar, &tokens, &tree));
    };
    for (line, tokens, tree) in SHEETS.into_iter().chain(NO_COLUMNS) {
        derived(line, [trial(), token_image(tokens), tree_image(tree)]);
    }
    for (line, hours) in HOURS {
        let tokens = [vec![(DAY, 1)], vec![(HOUR, 3); hours]].concat();
        let tree = [vec![0], [1, 3, 5].repeat(hours), vec![2]].concat();
        derived(line, [trial(), token_image(&tokens), tree_image(&tree)]);
    }
    // A relation and a column are tested as fields, though nothing is asked of
    // them later.
    for (line, [grammar, tokens, tree]) in FAULTS {
        derived(line, sheet_a(grammar, tokens, tree));
    }
    for (line, lengths) in LENGTHS {
        derived(line, cut_sheet_a(lengths));
    }
}
