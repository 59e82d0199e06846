//! Tokens without a column: they satisfy >, ≥ and free against every number
//! and = against none.

mod common;

use common::*;
use second::choice::is_choice;

const ALL: [u32; 2] = [0, u32::MAX];
const EMPTY: [u32; 2] = [1, 0];

/// S → a row of tokens, each with its relation.
fn row(relations: &[u8]) -> Vec<u8> {
    let tokens = relations.iter().map(|&relation| (0, relation, 0));
    grammar(1, 1, &[(0, tokens.collect())])
}

fn tokens(columns: &[u16]) -> Vec<u8> {
    let tokens: Vec<_> = columns.iter().map(|&column| (0, column)).collect();
    token_image(&tokens)
}

/// The set of the one node, and its indentation unless the set is empty.
fn expect(relations: &[u8], columns: &[u16], set: [u32; 2]) {
    for (name, check) in CHECKS {
        let outcome = run(check, &row(relations), &tokens(columns), &tree_image(&[0]));
        let told = format!("{name}: {relations:?} with {columns:?}");
        assert_eq!(outcome.sets[..2], set, "{told}");
        if set == EMPTY {
            assert_eq!(outcome.answer, (12, 0), "{told}");
            assert!(untouched(&outcome.indentations), "{told}");
        } else {
            assert_eq!(outcome.answer, (0, 0), "{told}");
            assert_eq!(outcome.indentations[0], set[0], "{told}");
        }
    }
}

#[test]
fn each_relation() {
    expect(&[0], &[NO_COLUMN], EMPTY);
    expect(&[1], &[NO_COLUMN], ALL);
    expect(&[2], &[NO_COLUMN], ALL);
    expect(&[3], &[NO_COLUMN], ALL);
}

/// What other tokens of the row leave stays, whichever comes first.
#[test]
fn beside_tokens_with_a_column() {
    for relation in 1..=3 {
        expect(&[0, relation], &[7, NO_COLUMN], [7, 7]);
        expect(&[relation, 0], &[NO_COLUMN, 4095], [4095, 4095]);
        expect(&[1, relation], &[7, NO_COLUMN], [0, 6]);
        expect(&[relation, 2], &[NO_COLUMN, 0], [0, 0]);
        expect(&[relation, 1], &[NO_COLUMN, 0], EMPTY);
        expect(&[relation; 16], &[NO_COLUMN; 16], ALL);
        expect(&[0, relation], &[NO_COLUMN, 7], EMPTY);
        expect(&[relation, 0], &[7, NO_COLUMN], EMPTY);
    }
    expect(&[0, 0], &[NO_COLUMN; 2], EMPTY);
}

/// S → B and B → a=. The empty set below makes S empty under each relation.
#[test]
fn no_relation_forgives() {
    for relation in 0..=3 {
        let grammar = grammar(1, 2, &[(0, vec![(1, relation, 1)]), (1, vec![(0, 0, 0)])]);
        for (name, check) in CHECKS {
            let outcome = run(check, &grammar, &tokens(&[NO_COLUMN]), &tree_image(&[0, 1]));
            assert_eq!(outcome.answer, (12, 1), "{name}, relation {relation}");
            assert_eq!(outcome.sets[..4], [EMPTY, EMPTY].concat(), "{name}");
        }
    }
}

/// S → a= C>; C → a> C>; C → a≥. With the first a at 4,095 and no column at
/// the other 1,023, each node stands one further in, up to 5,118.
#[test]
fn no_bound_on_the_greatest_indentation() {
    let grammar = grammar(
        1,
        2,
        &[
            (0, vec![(0, 0, 0), (1, 1, 1)]),
            (1, vec![(0, 1, 0), (1, 1, 1)]),
            (1, vec![(0, 2, 0)]),
        ],
    );
    let columns = [vec![4095], vec![NO_COLUMN; 1023]].concat();
    let tree = [vec![0], vec![1; 1022], vec![2]].concat();
    for (name, check) in CHECKS {
        let outcome = run(check, &grammar, &tokens(&columns), &tree_image(&tree));
        assert_eq!(outcome.answer, (0, 0), "{name}");
        let expected: Vec<u32> = (4095..=5118).collect();
        assert_eq!(outcome.indentations[..1024], expected, "{name}");
        assert_eq!(outcome.sets[2..2048], ALL.repeat(1023), "{name}");
    }
}

#[test]
fn choices() {
    let judge = |relation, number| {
        let images = (row(&[relation]), tokens(&[NO_COLUMN]), tree_image(&[0]));
        is_choice(&images.0, &images.1, &images.2, &[number])
    };
    for number in [0, 4095, 65_534, 65_535, 65_536, u32::MAX] {
        assert!(!judge(0, number), "{number}");
        for relation in 1..=3 {
            assert!(judge(relation, number), "{number}, relation {relation}");
        }
    }
}
