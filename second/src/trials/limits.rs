//! Images at the greatest counts of document 01.

use super::{Changed, Trials};
use crate::build::{changed, grammar, token_image, tree_image};
use crate::subject::Subject;

/// 1,024 terminals, nonterminals and productions, start 1,023, each
/// production with a left side of its own, and 4,096 entries, each
/// nonterminal 1,023 with the free relation, which is 769 as one field.
fn greatest_grammar() -> Vec<u8> {
    let productions: Vec<_> = (0..1024)
        .map(|left| (left, vec![(1, 3, 1023); 4]))
        .collect();
    changed(grammar(1024, 1024, &productions), &[(4, 1023)])
}

const GRAMMAR: [Changed; 11] = [
    ("1,024 productions and 4,096 entries: 0 0", &[], 22_544),
    ("one byte short: 1 14", &[], 22_543),
    ("one byte too long: 1 14", &[], 22_545),
    ("last left side 1,024: 1 6154", &[(6154, 1024)], 22_544),
    ("last first entry 4,093: 1 6156", &[(6156, 4093)], 22_544),
    ("last count 5: 1 6158", &[(6158, 5)], 22_544),
    ("last count 3: 1 8", &[(6158, 3)], 22_544),
    ("last symbol a terminal: 0 0", &[(22_540, 768)], 22_544),
    ("last kind 2: 1 22540", &[(22_540, 770)], 22_544),
    ("last relation 4: 1 22541", &[(22_540, 1025)], 22_544),
    ("last number 1,024: 1 22542", &[(22_542, 1024)], 22_544),
];

/// Each token is terminal 2 at column 4,095.
const TOKENS: [Changed; 7] = [
    ("4,096 tokens: 0 0", &[], 16_390),
    ("one byte short: 2 4", &[], 16_389),
    ("one byte too long: 2 4", &[], 16_391),
    ("last column 4,096: 2 16388", &[(16_388, 4096)], 16_390),
    ("last column 65,534: 2 16388", &[(16_388, 65_534)], 16_390),
    ("last column 65,535: 0 0", &[(16_388, 65_535)], 16_390),
    (
        "last terminal 3: 2 16386",
        &[(16_388, 4096), (16_386, 3)],
        16_390,
    ),
];

/// Each node is of production 5.
const TREE: [Changed; 4] = [
    ("4,096 nodes: 0 0", &[], 8198),
    ("one byte short: 3 4", &[], 8197),
    ("one byte too long: 3 4", &[], 8199),
    ("last node 6: 3 8196", &[(8196, 6)], 8198),
];

pub fn run(subject: &Subject, trials: &mut Trials) {
    let grammar = greatest_grammar();
    for line in GRAMMAR {
        trials.image(line, &grammar, subject.check_grammar);
    }
    let tokens = token_image(&[(2, 4095); 4096]);
    for line in TOKENS {
        trials.image(line, &tokens, |image| (subject.check_tokens)(image, 3));
    }
    let tree = tree_image(&[5; 4096]);
    for line in TREE {
        trials.image(line, &tree, |image| (subject.check_tree)(image, 6));
    }
}
