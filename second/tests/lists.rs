//! The two lent lists: too short, left alone, or written as far as named.

mod common;

use common::*;

#[test]
fn too_short_lists() {
    let cases = [
        (18, 9, (0, 0)),
        (17, 9, (4, 18)),
        (18, 8, (4, 9)),
        (17, 8, (4, 18)),
        (0, 0, (4, 18)),
    ];
    for (name, check) in CHECKS {
        for (room, indentation_room, expected) in cases {
            let mut sets = vec![BEFORE; room];
            let mut indentations = vec![BEFORE; indentation_room];
            let (tokens, tree) = (token_image(&A_TOKENS), tree_image(&A_TREE));
            let answer = check(&trial(), &tokens, &tree, &mut sets, &mut indentations);
            assert_eq!(answer, expected, "{name}: {room}, {indentation_room}");
            assert_eq!(
                untouched(&sets) && untouched(&indentations),
                expected.0 == 4
            );
        }
    }
}

#[test]
fn short_lists_come_after_the_images_and_before_the_walk() {
    for (name, check) in CHECKS {
        let tokens = token_image(&[]);
        let answer = check(&trial(), &tokens, &tree_image(&[2]), &mut [], &mut []);
        assert_eq!(answer, (4, 2), "{name}");
        let answer = check(&trial(), &tokens, &tree_image(&[2]), &mut [0; 2], &mut []);
        assert_eq!(answer, (4, 1), "{name}");
        let answer = check(&trial(), &tokens, &tree_image(&[6]), &mut [], &mut []);
        assert_eq!(answer, (3, 6), "{name}");
    }
}

#[test]
fn refusals_leave_both_lists_alone() {
    let day = token_image(&[(DAY, 1)]);
    let deep = [vec![0], [1, 3, 5].repeat(1022), vec![2]].concat();
    let deep_tokens = [vec![(DAY, 1)], vec![(HOUR, 3); 1022]].concat();
    let two = token_image(&[(DAY, 1), (HOUR, 3)]);
    let short = vec![0; 3];
    let cases = [
        (1, short.clone(), day.clone(), tree_image(&[0, 2])),
        (2, trial(), short.clone(), tree_image(&[0, 2])),
        (3, trial(), day.clone(), short),
        (5, trial(), day.clone(), tree_image(&[0, 0])),
        (6, trial(), day.clone(), tree_image(&[0])),
        (7, trial(), token_image(&[(HOUR, 1)]), tree_image(&[0, 2])),
        (8, trial(), token_image(&[]), tree_image(&[0, 2])),
        (9, trial(), token_image(&deep_tokens), tree_image(&deep)),
        (10, trial(), day, tree_image(&[0, 2, 2])),
        (11, trial(), two, tree_image(&[0, 2])),
    ];
    for (name, check) in CHECKS {
        for (number, grammar, tokens, tree) in &cases {
            let outcome = run(check, grammar, tokens, tree);
            assert_eq!(outcome.answer.0, *number, "{name}");
            assert!(untouched(&outcome.sets), "{name}: {number}");
            assert!(untouched(&outcome.indentations), "{name}: {number}");
        }
    }
}

#[test]
fn twelve_writes_the_sets_only() {
    const ALL: u32 = u32::MAX;
    let tokens = token_image(&[(DAY, 1), (HOUR, 3), (ITEM, 3), (HOUR, 3)]);
    let sets = [1, 0, 1, 0, 1, 0, 0, 3, 0, ALL, 3, 3, 3, 3, 0, ALL, 0, ALL];
    for (name, check) in CHECKS {
        let outcome = run(check, &trial(), &tokens, &tree_image(&A_TREE));
        assert_eq!(outcome.answer, (12, 2), "{name}");
        assert_eq!(outcome.sets[..18], sets, "{name}");
        assert!(untouched(&outcome.sets[18..]), "{name}");
        assert!(untouched(&outcome.indentations), "{name}");
    }
}

#[test]
fn acceptance_writes_no_further_than_named() {
    for (name, check) in CHECKS {
        let (tokens, tree) = (token_image(&A_TOKENS), tree_image(&A_TREE));
        let outcome = run(check, &trial(), &tokens, &tree);
        assert_eq!(outcome.answer, (0, 0), "{name}");
        assert!(!outcome.sets[..18].contains(&BEFORE), "{name}");
        assert!(!outcome.indentations[..9].contains(&BEFORE), "{name}");
        assert!(untouched(&outcome.sets[18..]), "{name}");
        assert!(untouched(&outcome.indentations[9..]), "{name}");
    }
}
