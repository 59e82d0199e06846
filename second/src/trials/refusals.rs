//! Refusals 1 to 4 by the check, on the images of sheet A, which has 9 nodes:
//! the first in the order of document 01's table is given, whatever is wrong
//! with what is tested later.

use super::{cut_sheet_a, sheet_a, Changes, Trials};
use crate::subject::Subject;

/// Room for the sets and the indentations of every tree, and some more.
const ROOM: [usize; 2] = [8200, 4100];

/// A line, and the fields of grammar, token and tree image that are changed.
/// Sheet A's own fields are 3 terminals, 4 tokens and 9 nodes, at byte 0 of
/// each image. Relation 4 is 1,024 as one field with kind 0.
pub const FAULTS: [(&str, [Changes; 3]); 9] = [
    (
        "All three counts: 1 0",
        [&[(0, 0)], &[(0, 4097)], &[(0, 0)]],
    ),
    (
        "last symbol, token and node: 1 82",
        [&[(82, 4)], &[(18, 3)], &[(22, 6)]],
    ),
    ("first relation 4: 1 53", [&[(52, 1024)], &[], &[]]),
    ("token and node count: 2 0", [&[], &[(0, 4097)], &[(0, 0)]]),
    ("last token and node: 2 18", [&[], &[(18, 3)], &[(22, 6)]]),
    ("last column: 2 20", [&[], &[(20, 4096)], &[]]),
    ("last column 65,534: 2 20", [&[], &[(20, 65_534)], &[]]),
    ("node count: 3 0", [&[], &[], &[(0, 0)]]),
    ("last node: 3 22", [&[], &[], &[(22, 6)]]),
];

/// A line, and the lengths that grammar, token and tree image are cut to.
pub const LENGTHS: [(&str, [usize; 3]); 7] = [
    ("15, 5 and 5 bytes: 1 15", [15, 5, 5]),
    ("84, 5 and 5 bytes: 2 5", [84, 5, 5]),
    ("84, 22 and 5 bytes: 3 5", [84, 22, 5]),
    ("83, 21 and 23 bytes: 1 14", [83, 21, 23]),
    ("84, 21 and 23 bytes: 2 4", [84, 21, 23]),
    ("84, 22 and 23 bytes: 3 4", [84, 22, 23]),
    ("no bytes: 1 0", [0, 0, 0]),
];

/// Token 0 is refused by the derivation as an hour.
const HOUR_FIRST: Changes = &[(6, 1)];

/// With the item at column 3 the root's set is empty.
const ITEM_AT_3: Changes = &[(16, 3)];

/// A line, the fields of grammar and token image that are changed, and how
/// many entries of sets and indentations are lent.
const ROOMS: [(&str, [Changes; 2], [usize; 2]); 10] = [
    ("17 sets, 9 indentations: 4 18", [&[], &[]], [17, 9]),
    ("18 sets, 8 indentations: 4 9", [&[], &[]], [18, 8]),
    ("17 sets, 8 indentations: 4 18", [&[], &[]], [17, 8]),
    ("no entries: 4 18", [&[], &[]], [0, 0]),
    ("17 sets, token 0 an hour: 4 18", [&[], HOUR_FIRST], [17, 9]),
    ("8 indentations, item at 3: 4 9", [&[], ITEM_AT_3], [18, 8]),
    (
        "18 sets, 9 indentations: 0 0, \
         sets 1 1 3 3 3 3 0 5 0 4294967295 3 3 3 3 0 4294967295 0 4294967295, \
         indentations 1 3 3 4 4 3 3 4 3",
        [&[], &[]],
        [18, 9],
    ),
    (
        "18 and 9, item at 3: 12 2, \
         sets 1 0 1 0 1 0 0 3 0 4294967295 3 3 3 3 0 4294967295 0 4294967295",
        [&[], ITEM_AT_3],
        [18, 9],
    ),
    ("18 and 9, token 0 an hour: 7 0", [&[], HOUR_FIRST], [18, 9]),
    ("a terminal more: 7 3", [&[(0, 4)], &[(18, 3)]], [18, 9]),
];

pub fn run(subject: &Subject, trials: &mut Trials) {
    for (line, [grammar, tokens, tree]) in FAULTS {
        trials.check(subject, line, sheet_a(grammar, tokens, tree), [0, 0]);
    }
    for (line, lengths) in LENGTHS {
        trials.check(subject, line, cut_sheet_a(lengths), ROOM);
    }
    for (line, [grammar, tokens], room) in ROOMS {
        trials.check(subject, line, sheet_a(grammar, tokens, &[]), room);
    }
}
