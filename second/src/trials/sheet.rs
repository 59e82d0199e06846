//! The token image of sheet A, 22 bytes, and its tree image, 24 bytes, each
//! with records from byte 6. The grammar has 3 terminals and 6 productions.

use super::{Changed, Trials};
use crate::build::{token_image, tree_image, A_TOKENS, A_TREE};
use crate::subject::Subject;

const TOKENS: [Changed; 30] = [
    ("Token image: 0 0", &[], 22),
    ("count 4,096: 2 4", &[(0, 4096)], 22),
    ("count 4,097: 2 0", &[(0, 4097)], 22),
    ("offset 5: 2 2", &[(2, 5)], 22),
    ("offset 7: 2 2", &[(2, 7)], 22),
    ("total length 21: 2 4", &[(4, 21)], 22),
    ("total length 23: 2 4", &[(4, 23)], 22),
    ("first terminal 2: 0 0", &[(6, 2)], 22),
    ("first terminal 3: 2 6", &[(6, 3)], 22),
    ("first column 4,095: 0 0", &[(8, 4095)], 22),
    ("first column 4,096: 2 8", &[(8, 4096)], 22),
    ("first column 65,534: 2 8", &[(8, 65_534)], 22),
    ("first column 65,535: 0 0", &[(8, 65_535)], 22),
    ("last terminal 3: 2 18", &[(18, 3)], 22),
    ("last column 4,095: 0 0", &[(20, 4095)], 22),
    ("last column 4,096: 2 20", &[(20, 4096)], 22),
    ("last column 65,534: 2 20", &[(20, 65_534)], 22),
    ("last column 65,535: 0 0", &[(20, 65_535)], 22),
    ("count 4,097, offset 5: 2 0", &[(0, 4097), (2, 5)], 22),
    (
        "first column 4,096, second terminal 3: 2 8",
        &[(8, 4096), (10, 3)],
        22,
    ),
    (
        "first column 65,535, second terminal 3: 2 10",
        &[(8, 65_535), (10, 3)],
        22,
    ),
    ("no tokens: 0 0", &[(0, 0), (4, 6)], 6),
    ("no tokens in 7 bytes: 2 4", &[(0, 0), (4, 6)], 7),
    ("one byte short: 2 4", &[], 21),
    ("one byte too long: 2 4", &[], 23),
    ("total length 21 and 21 bytes: 2 4", &[(4, 21)], 21),
    ("total length 23 and 23 bytes: 2 4", &[(4, 23)], 23),
    ("no bytes: 2 0", &[], 0),
    ("5 bytes: 2 5", &[], 5),
    ("6 bytes: 2 4", &[], 6),
];

const TREE: [Changed; 24] = [
    ("Tree image: 0 0", &[], 24),
    ("count 0: 3 0", &[(0, 0)], 24),
    ("count 4,096: 3 4", &[(0, 4096)], 24),
    ("count 4,097: 3 0", &[(0, 4097)], 24),
    ("offset 5: 3 2", &[(2, 5)], 24),
    ("offset 7: 3 2", &[(2, 7)], 24),
    ("total length 23: 3 4", &[(4, 23)], 24),
    ("total length 25: 3 4", &[(4, 25)], 24),
    ("first node 5: 0 0", &[(6, 5)], 24),
    ("first node 6: 3 6", &[(6, 6)], 24),
    ("last node 6: 3 22", &[(22, 6)], 24),
    ("last node 65,535: 3 22", &[(22, 65_535)], 24),
    ("count 0, offset 5: 3 0", &[(0, 0), (2, 5)], 24),
    ("total length 23, first node 6: 3 4", &[(4, 23), (6, 6)], 24),
    ("second node 6, last node 6: 3 8", &[(8, 6), (22, 6)], 24),
    ("count 0 in 6 bytes: 3 0", &[(0, 0), (4, 6)], 6),
    ("one node: 0 0", &[(0, 1), (4, 8)], 8),
    ("one byte short: 3 4", &[], 23),
    ("one byte too long: 3 4", &[], 25),
    ("total length 23 and 23 bytes: 3 4", &[(4, 23)], 23),
    ("total length 25 and 25 bytes: 3 4", &[(4, 25)], 25),
    ("no bytes: 3 0", &[], 0),
    ("5 bytes: 3 5", &[], 5),
    ("6 bytes: 3 4", &[], 6),
];

pub fn run(subject: &Subject, trials: &mut Trials) {
    let tokens = token_image(&A_TOKENS);
    for line in TOKENS {
        trials.image(line, &tokens, |image| (subject.check_tokens)(image, 3));
    }
    let tree = tree_image(&A_TREE);
    for line in TREE {
        trials.image(line, &tree, |image| (subject.check_tree)(image, 6));
    }
}
