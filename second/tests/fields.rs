//! Faults of the images and their places, and the order of the tests.

mod common;

use common::*;

fn expect(grammar: &[u8], tokens: &[u8], tree: &[u8], answer: (u8, usize)) {
    for (name, check) in CHECKS {
        assert_eq!(run(check, grammar, tokens, tree).answer, answer, "{name}");
    }
}

#[test]
fn grammar_fields() {
    let cases: &[(&[Change], usize)] = &[
        (&[(0, 0)], 0),
        (&[(0, 1025)], 0),
        (&[(2, 0)], 2),
        (&[(2, 1025)], 2),
        (&[(4, 4)], 4),
        (&[(6, 0)], 6),
        (&[(6, 1025)], 6),
        (&[(8, 4097)], 8),
        (&[(10, 15)], 10),
        (&[(12, 51)], 12),
        (&[(14, 83)], 14),
        // One symbol entry fewer by the count: the length no longer fits.
        (&[(8, 7)], 14),
        (&[(22, 4)], 22),
        (&[(16 + 2, 1)], 18),
        (&[(24, 1)], 24),
        (&[(20, 17)], 20),
        // The last production ends at 9 of 8.
        (&[(50, 1)], 50),
        // The last production ends at 7 of 8: production 4 has one symbol.
        (&[(44, 1), (48, 7)], 8),
        // So it does, and a later fault among the symbols is not met.
        (&[(44, 1), (48, 7), (52, 2)], 8),
        // Kind 2 with relation 0, then kind 0 with relation 4.
        (&[(52, 0x0002)], 52),
        (&[(52, 0x0400)], 53),
        (&[(54, 3)], 54),
        (&[(58, 4)], 58),
        (&[(82, 4)], 82),
        // Of two faults the first by position.
        (&[(82, 4), (50, 1)], 50),
        (&[(16, 4), (4, 9)], 4),
    ];
    for (changes, place) in cases {
        let grammar = changed(trial(), changes);
        expect(&grammar, &[], &[], (1, *place));
    }
    let mut longer = trial();
    longer.push(0);
    expect(&longer, &[], &[], (1, 14));
    expect(&trial()[..83], &[], &[], (1, 14));
}

#[test]
fn token_fields() {
    let cases: &[(&[Change], usize)] = &[
        (&[(0, 4097)], 0),
        (&[(2, 7)], 2),
        (&[(4, 21)], 4),
        (&[(0, 3)], 4),
        (&[(6, 3)], 6),
        (&[(12, 4096)], 12),
        (&[(20, 65_534)], 20),
        (&[(20, 65_534), (18, 3)], 18),
        // No column at 8 is none of the faults.
        (&[(8, NO_COLUMN), (12, 65_534)], 12),
    ];
    for (changes, place) in cases {
        let tokens = changed(token_image(&A_TOKENS), changes);
        expect(&trial(), &tokens, &[], (2, *place));
    }
    let mut longer = token_image(&A_TOKENS);
    longer.push(0);
    expect(&trial(), &longer, &[], (2, 4));
    expect(&trial(), &[0; 5], &[], (2, 5));
}

#[test]
fn tree_fields() {
    let cases: &[(&[Change], usize)] = &[
        (&[(0, 0)], 0),
        (&[(0, 4097)], 0),
        (&[(2, 0)], 2),
        (&[(4, 25)], 4),
        (&[(0, 8)], 4),
        (&[(10, 6)], 10),
        (&[(22, 65_535)], 22),
    ];
    let tokens = token_image(&A_TOKENS);
    for (changes, place) in cases {
        let tree = changed(tree_image(&A_TREE), changes);
        expect(&trial(), &tokens, &tree, (3, *place));
    }
    expect(&trial(), &tokens, &tree_image(&[]), (3, 0));
    expect(&trial(), &tokens, &[1, 0, 6, 0, 8], (3, 5));
}

/// S → a S free; S → nothing; T → nothing. For the order of the tests.
fn chain() -> Vec<u8> {
    grammar(
        2,
        2,
        &[(0, vec![(0, 3, 0), (1, 3, 0)]), (0, vec![]), (1, vec![])],
    )
}

#[test]
fn order_within_the_walk() {
    // Node 1,024 would be too deep and has the wrong left side: 5 comes first.
    let tokens = token_image(&[(0, 0); 1024]);
    let deep = [vec![0; 1024], vec![2]].concat();
    expect(&chain(), &tokens, &tree_image(&deep), (5, 1024));
    let deep = [vec![0; 1024], vec![1]].concat();
    expect(&chain(), &tokens, &tree_image(&deep), (9, 1024));
    // No node is left where one would be too deep: 6.
    expect(&chain(), &tokens, &tree_image(&[0; 1024]), (6, 1024));
    // The wrong token comes before the wrong node further on.
    expect(
        &chain(),
        &token_image(&[(1, 0)]),
        &tree_image(&[0, 2]),
        (7, 0),
    );
    // Nodes and tokens both remain: 10.
    expect(
        &chain(),
        &token_image(&[(0, 0)]),
        &tree_image(&[1, 1]),
        (10, 1),
    );
}
