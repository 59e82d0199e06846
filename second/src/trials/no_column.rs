//! The check of sheet A with tokens that have no column: number and place, and
//! what is written to the lists.
//!
//! The row of node 0 is day= and Hours>, of nodes 1 and 5 Hour= and Hours=, of
//! nodes 2 and 6 hour= and Items>, and of node 3 item≥ and Items=; those of
//! nodes 4, 7 and 8 are empty. With all columns the set of node 0 is 1 alone,
//! that of node 3 all up to 5, that of nodes 1, 2, 5 and 6 is 3 alone, and
//! that of the others all numbers.

use super::{sheet_a, Changes, Trials};
use crate::build::{Change, NO_COLUMN};
use crate::subject::Subject;

/// By the byte of a token's column.
const DAY: Change = (8, NO_COLUMN);
const FIRST_HOUR: Change = (12, NO_COLUMN);
const ITEM: Change = (16, NO_COLUMN);
const SECOND_HOUR: Change = (20, NO_COLUMN);

/// A line, and the fields of the token image that are changed.
const TOKENS: [(&str, Changes); 5] = [
    (
        "Item without a column: 0 0, \
         sets 1 1 3 3 3 3 0 4294967295 0 4294967295 3 3 3 3 0 4294967295 0 4294967295, \
         indentations 1 3 3 4 4 3 3 4 3",
        &[ITEM],
    ),
    (
        "day without a column: 12 0, \
         sets 1 0 3 3 3 3 0 5 0 4294967295 3 3 3 3 0 4294967295 0 4294967295",
        &[DAY],
    ),
    (
        "first hour without a column: 12 2, \
         sets 1 0 1 0 1 0 0 5 0 4294967295 3 3 3 3 0 4294967295 0 4294967295",
        &[FIRST_HOUR],
    ),
    (
        "second hour without a column: 12 6, \
         sets 1 0 1 0 3 3 0 5 0 4294967295 1 0 1 0 0 4294967295 0 4294967295",
        &[SECOND_HOUR],
    ),
    (
        "no token with a column: 12 6, \
         sets 1 0 1 0 1 0 0 4294967295 0 4294967295 1 0 1 0 0 4294967295 0 4294967295",
        &[DAY, FIRST_HOUR, ITEM, SECOND_HOUR],
    ),
];

/// A line, and the fields of grammar and token image that are changed. Kind
/// and relation are one field: a terminal with > is 256, with ≥ 512 and free
/// 768. The day's is at byte 52, the hour's at 68 and the item's at 76; that
/// of Hours in the row of node 0 is at 56, and 769 makes it free.
const RELATIONS: [(&str, [Changes; 2]); 6] = [
    (
        "item= without a column: 12 3, \
         sets 1 0 1 0 1 0 1 0 0 4294967295 3 3 3 3 0 4294967295 0 4294967295",
        [&[(76, 0)], &[ITEM]],
    ),
    (
        "item> without a column: 0 0, \
         sets 1 1 3 3 3 3 0 4294967295 0 4294967295 3 3 3 3 0 4294967295 0 4294967295, \
         indentations 1 3 3 4 4 3 3 4 3",
        [&[(76, 256)], &[ITEM]],
    ),
    (
        "item free without a column: 0 0, \
         sets 1 1 3 3 3 3 0 4294967295 0 4294967295 3 3 3 3 0 4294967295 0 4294967295, \
         indentations 1 3 3 4 4 3 3 4 3",
        [&[(76, 768)], &[ITEM]],
    ),
    (
        "day> without a column: 0 0, \
         sets 0 2 3 3 3 3 0 5 0 4294967295 3 3 3 3 0 4294967295 0 4294967295, \
         indentations 0 3 3 4 4 3 3 4 3",
        [&[(52, 256)], &[DAY]],
    ),
    (
        "day≥ and hour>, no token with a column: 0 0, \
         sets 0 4294967295 0 4294967295 0 4294967295 0 4294967295 0 4294967295 \
         0 4294967295 0 4294967295 0 4294967295 0 4294967295, \
         indentations 0 1 1 2 2 1 1 2 1",
        [
            &[(52, 512), (68, 256)],
            &[DAY, FIRST_HOUR, ITEM, SECOND_HOUR],
        ],
    ),
    (
        "Hours free, first hour without a column: 12 2, \
         sets 1 0 1 0 1 0 0 5 0 4294967295 3 3 3 3 0 4294967295 0 4294967295",
        [&[(56, 769)], &[FIRST_HOUR]],
    ),
];

pub fn run(subject: &Subject, trials: &mut Trials) {
    let mut checked = |line: &str, grammar: Changes, tokens: Changes| {
        trials.check(subject, line, sheet_a(grammar, tokens, &[]), [18, 9]);
    };
    for (line, tokens) in TOKENS {
        checked(line, &[], tokens);
    }
    for (line, [grammar, tokens]) in RELATIONS {
        checked(line, grammar, tokens);
    }
}
