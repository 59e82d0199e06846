//! The trial sheets of document 01, with its answers.

mod common;

use common::*;
use second::choice::is_choice;
use second::delivery::answer;

type Sheet = (&'static [(u16, u16)], &'static [u16], (u8, usize));

/// The fourteen starred sheets.
const SHEETS: [Sheet; 14] = [
    (&A_TOKENS, &A_TREE, (0, 0)),
    (
        &[(DAY, 1), (HOUR, 3), (ITEM, 4), (HOUR, 3)],
        &A_TREE,
        (0, 0),
    ),
    (
        &[(DAY, 1), (HOUR, 3), (ITEM, 3), (HOUR, 3)],
        &A_TREE,
        (12, 2),
    ),
    (
        &[(DAY, 1), (HOUR, 3), (ITEM, 5), (HOUR, 4)],
        &A_TREE,
        (12, 1),
    ),
    (&[(DAY, 1), (HOUR, 1)], &[0, 1, 3, 5, 2], (12, 0)),
    (&[(DAY, 1), (HOUR, 2)], &[0, 1, 3, 5, 2], (0, 0)),
    (&[(DAY, 0)], &[0, 2], (0, 0)),
    (&[(DAY, 0), (HOUR, 0)], &[0, 1, 3, 5, 2], (12, 0)),
    (&[], &[0, 2], (8, 0)),
    (&[(DAY, 1)], &[2], (5, 0)),
    (&[(DAY, 1)], &[0], (6, 1)),
    (&[(HOUR, 1)], &[0, 2], (7, 0)),
    (&[(DAY, 1), (HOUR, 3)], &[0, 2], (11, 1)),
    (&[(DAY, 1), (HOUR, 3)], &[0, 2, 2], (10, 2)),
];

/// The indentations of the accepted ones, by the number of the sheet.
const INDENTATIONS: [(usize, &[u32]); 4] = [
    (0, &[1, 3, 3, 4, 4, 3, 3, 4, 3]),
    (1, &[1, 3, 3, 4, 4, 3, 3, 4, 3]),
    (5, &[1, 2, 2, 3, 2]),
    (6, &[0, 1]),
];

#[test]
fn starred_sheets() {
    for (name, check) in CHECKS {
        for (number, (tokens, tree, expected)) in SHEETS.into_iter().enumerate() {
            let outcome = run(check, &trial(), &token_image(tokens), &tree_image(tree));
            assert_eq!(outcome.answer, expected, "{name}, sheet {number}");
            if let Some((_, list)) = INDENTATIONS.iter().find(|(sheet, _)| *sheet == number) {
                assert_eq!(&outcome.indentations[..tree.len()], *list);
            }
        }
    }
}

#[test]
fn printed_sample() {
    let input = [trial(), token_image(&A_TOKENS), tree_image(&A_TREE)].concat();
    let sample = "0 0\n0 1 1 1\n1 3 3 3\n2 3 3 3\n3 0 5 4\n4 0 - 4\n\
                  5 3 3 3\n6 3 3 3\n7 0 - 4\n8 0 - 3\n";
    for (name, check) in CHECKS {
        let text = String::from_utf8(answer(&input, check)).unwrap();
        assert_eq!(text, sample, "{name}");
    }
}

fn hours(count: usize) -> (Vec<u8>, Vec<u8>) {
    let mut tokens = vec![(DAY, 1)];
    tokens.extend(vec![(HOUR, 3); count]);
    let tree = [vec![0], [1, 3, 5].repeat(count), vec![2]].concat();
    (token_image(&tokens), tree_image(&tree))
}

#[test]
fn many_hours() {
    for (name, check) in CHECKS {
        let (tokens, tree) = hours(1021);
        let outcome = run(check, &trial(), &tokens, &tree);
        assert_eq!(outcome.answer, (0, 0), "{name}");
        let expected = [vec![1], [3, 3, 4].repeat(1021), vec![3]].concat();
        assert_eq!(outcome.indentations[..3065], expected, "{name}");
        let (tokens, tree) = hours(1022);
        let outcome = run(check, &trial(), &tokens, &tree);
        assert_eq!(outcome.answer, (9, 3066), "{name}");
    }
}

/// S → a= C>; C → C>; C → nothing. With a at 4,095 and 1,023 nodes below, each
/// stands one further in, up to 5,118.
#[test]
fn greatest_indentation() {
    let grammar = grammar(
        1,
        2,
        &[
            (0, vec![(0, 0, 0), (1, 1, 1)]),
            (1, vec![(1, 1, 1)]),
            (1, vec![]),
        ],
    );
    let tree = [vec![0], vec![1; 1022], vec![2]].concat();
    for (name, check) in CHECKS {
        let tokens = token_image(&[(0, 4095)]);
        let outcome = run(check, &grammar, &tokens, &tree_image(&tree));
        assert_eq!(outcome.answer, (0, 0), "{name}");
        let expected: Vec<u32> = (4095..=5118).collect();
        assert_eq!(outcome.indentations[..1024], expected, "{name}");
        assert_eq!(outcome.sets[..4], [4095, 4095, 0, u32::MAX], "{name}");
    }
}

/// S → B free; B → a= a=. Two columns leave B nothing, and S nothing either.
#[test]
fn free_forgives_no_empty_set() {
    let grammar = grammar(1, 2, &[(0, vec![(1, 3, 1)]), (1, vec![(0, 0, 0); 2])]);
    for (name, check) in CHECKS {
        let tokens = token_image(&[(0, 1), (0, 2)]);
        let outcome = run(check, &grammar, &tokens, &tree_image(&[0, 1]));
        assert_eq!(outcome.answer, (12, 1), "{name}");
        assert_eq!(outcome.sets[..4], [1, 0, 1, 0], "{name}");
    }
}

#[test]
fn choices_of_sheet_a() {
    let judge = |numbers: &[u32]| {
        let (tokens, tree) = (token_image(&A_TOKENS), tree_image(&A_TREE));
        is_choice(&trial(), &tokens, &tree, numbers)
    };
    assert!(judge(&[1, 3, 3, 4, 4, 3, 3, 4, 3]));
    // The item at 5 leaves its node 5 as well, and nothing holds node 7 down.
    assert!(judge(&[1, 3, 3, 5, 5, 3, 3, 1000, 3]));
    assert!(!judge(&[1, 3, 3, 6, 6, 3, 3, 4, 3]));
    assert!(!judge(&[1, 3, 3, 4, 5, 3, 3, 4, 3]));
    assert!(!judge(&[0, 3, 3, 4, 4, 3, 3, 4, 3]));
    assert!(!judge(&[1, 3, 3, 4, 4, 3, 3, 4]));
    assert!(!judge(&[1, 3, 3, 4, 4, 3, 3, 4, 3, 0]));
    // A tree that does not derive has no choice.
    let (tokens, tree) = (token_image(&[(HOUR, 1)]), tree_image(&[0, 2]));
    assert!(!is_choice(&trial(), &tokens, &tree, &[1, 2]));
}
