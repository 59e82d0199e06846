//! The in-process comparison is itself tried: it finds nothing on the checks
//! of this package, and it finds each wrong version.

use second::build::NO_COLUMN;
use second::in_process::{agree, compare, Run, Tally};
use second::plain::{self, Reading};
use second::subject::{Answer, Subject, DEFINITION, PLAIN};
use second::turns::{Inputs, SEED};

fn run(subject: &Subject, count: u64, definition_every: u64) -> (Tally, u64) {
    let inputs = Inputs {
        seed: SEED,
        count,
        from: 0,
    };
    let run = Run {
        inputs,
        definition_every,
    };
    compare(subject, &run)
}

/// A wrong version has to be found within so many inputs.
const ENOUGH: u64 = 20_000;

fn found(subject: Subject) {
    let (_, differences) = run(&subject, ENOUGH, 0);
    assert!(differences > 0, "{} was not found", subject.name);
}

#[test]
fn the_right_versions_are_not_found() {
    let (tally, differences) = run(&PLAIN, ENOUGH, 10);
    assert_eq!((tally.inputs, differences), (ENOUGH, 0));
    assert_eq!(tally.missing(), Vec::<String>::new());
    let (tally, differences) = run(&DEFINITION, 2000, 0);
    assert_eq!((tally.inputs, differences), (2000, 0));
}

/// A run in which a relation meets no token without a column, or in which no
/// deep tree is judged, is not enough.
#[test]
fn what_was_not_met_is_told() {
    let missing = Tally::default().missing();
    let faults = second::tally::Tally::default().faults();
    let relations = ["=", ">", "≥", "free"];
    let relations =
        relations.map(|relation| format!("{relation} never met a token without a column"));
    let depths = ["deeper than 256", "1024 deep"];
    let depths = depths.map(|depth| format!("no tree {depth} was judged"));
    for line in relations.iter().chain(&depths) {
        assert!(missing.contains(line) && faults.contains(line), "{line}");
    }
    let greatest = "no indentation of 5118 was returned".to_string();
    assert!(missing.contains(&greatest));
}

/// `plain` with another reading of the rules.
fn read<R: Reading>(name: &'static str) -> Subject {
    Subject {
        name,
        check: |grammar, tokens, tree, sets, indentations| match plain::judge::<R>(
            grammar,
            tokens,
            tree,
            sets,
            indentations,
        ) {
            Ok(()) => Answer::from((0, 0)),
            Err(refusal) => refusal.into(),
        },
        ..PLAIN
    }
}

#[test]
fn greater_read_as_at_least() {
    struct NoStep;
    impl Reading for NoStep {
        const STEP: i16 = 0;
    }
    found(read::<NoStep>("> read as >="));
}

#[test]
fn free_that_forgives_an_empty_child() {
    struct Forgiving;
    impl Reading for Forgiving {
        const EMPTY_PASSES_FREE: bool = false;
    }
    found(read::<Forgiving>("a free relation that forgives"));
}

#[test]
fn relations_of_a_token_without_a_column() {
    struct EqualHolds;
    impl Reading for EqualHolds {
        fn holds_without_column(_: u16) -> bool {
            true
        }
    }
    found(read::<EqualHolds>("= without a column"));
    struct GreaterFails;
    impl Reading for GreaterFails {
        fn holds_without_column(relation: u16) -> bool {
            relation > 1
        }
    }
    found(read::<GreaterFails>("no > without a column"));
    struct AtLeastFails;
    impl Reading for AtLeastFails {
        fn holds_without_column(relation: u16) -> bool {
            relation == 1 || relation == 3
        }
    }
    found(read::<AtLeastFails>("no >= without a column"));
    struct FreeFails;
    impl Reading for FreeFails {
        fn holds_without_column(relation: u16) -> bool {
            relation == 1 || relation == 2
        }
    }
    found(read::<FreeFails>("no free relation without a column"));
}

/// A depth that is far too small, and limits that are one off.
#[test]
fn another_depth() {
    struct Shallow;
    impl Reading for Shallow {
        const DEEPEST: usize = 256;
    }
    found(read::<Shallow>("a depth of 256"));
    struct OneLess;
    impl Reading for OneLess {
        const DEEPEST: usize = 1023;
    }
    found(read::<OneLess>("a depth of 1,023"));
    struct OneMore;
    impl Reading for OneMore {
        const DEEPEST: usize = 1025;
    }
    found(read::<OneMore>("a depth of 1,025"));
}

#[test]
fn field_test_left_out() {
    struct AnyRelation;
    impl Reading for AnyRelation {
        const RELATION_TESTED: bool = false;
    }
    found(read::<AnyRelation>("no test of the relation"));
}

/// `plain`, and then what is done to its answer and its lists.
macro_rules! spoilt {
    ($name:literal, $spoil:expr) => {
        Subject {
            name: $name,
            check: |grammar, tokens, tree, sets, indentations| {
                let answer = (PLAIN.check)(grammar, tokens, tree, sets, indentations);
                let spoil: fn(Answer, &[u8], &mut [u32], &mut [u32]) -> Answer = $spoil;
                spoil(answer, tree, sets, indentations)
            },
            ..PLAIN
        }
    };
}

/// The nodes of a tree image that was found in order.
fn nodes(tree: &[u8]) -> usize {
    u16::from_le_bytes([tree[0], tree[1]]).into()
}

#[test]
fn low_in_place_of_the_least_number() {
    found(spoilt!(
        "low for least",
        |answer, tree, sets, indentations| {
            if answer.number == 0 {
                for node in 0..nodes(tree) {
                    indentations[node] = sets[2 * node];
                }
            }
            answer
        }
    ));
}

#[test]
fn place_one_off() {
    found(spoilt!("a place one off", |answer, _, _, _| Answer {
        place: answer.place + usize::from(answer.number == 11),
        ..answer
    }));
}

#[test]
fn list_written_on_12() {
    found(spoilt!("12 writes", |answer, tree, _, indentations| {
        if answer.number == 12 {
            indentations[..nodes(tree)].fill(0);
        }
        answer
    }));
}

/// A token image with one column in place of another.
fn exchanged(tokens: &[u8], from: u16, to: u16) -> Vec<u8> {
    let mut tokens = tokens.to_vec();
    let records = tokens.get_mut(6..).unwrap_or(&mut []);
    for [_, _, column @ ..] in records.as_chunks_mut::<4>().0 {
        if *column == from.to_le_bytes() {
            *column = to.to_le_bytes();
        }
    }
    tokens
}

#[test]
fn no_column_taken_for_a_number() {
    found(Subject {
        name: "no column taken for the last one",
        check: |grammar, tokens, tree, sets, indentations| {
            let tokens = exchanged(tokens, NO_COLUMN, 4095);
            (PLAIN.check)(grammar, &tokens, tree, sets, indentations)
        },
        ..PLAIN
    });
}

#[test]
fn derivation_that_judges_columns() {
    found(Subject {
        name: "a derivation with 12",
        derive: |grammar, tokens, tree| {
            (PLAIN.check)(grammar, tokens, tree, &mut [0; 8192], &mut [0; 4096])
        },
        ..PLAIN
    });
}

/// With lists that are too short for the greatest trees alone.
#[test]
fn derivation_that_asks_for_room() {
    found(Subject {
        name: "a derivation with 4",
        derive: |grammar, tokens, tree| match (PLAIN.check)(
            grammar,
            tokens,
            tree,
            &mut [0; 8190],
            &mut [0; 4095],
        ) {
            room if room.number == 4 => room,
            _ => (PLAIN.derive)(grammar, tokens, tree),
        },
        ..PLAIN
    });
}

#[test]
fn derivation_that_forgets_tokens() {
    found(Subject {
        name: "a derivation without 11",
        derive: |grammar, tokens, tree| match (PLAIN.derive)(grammar, tokens, tree) {
            remaining if remaining.number == 11 => Answer::from((0, 0)),
            answer => answer,
        },
        ..PLAIN
    });
}

/// Which answers of the derivation alone go with which of the whole check.
#[test]
fn two_checks_that_agree() {
    let given = [
        ((0, 0), (0, 0), true),
        ((0, 0), (12, 3), true),
        ((3, 6), (3, 6), true),
        ((7, 2), (7, 2), true),
        ((0, 0), (11, 1), false),
        ((11, 1), (0, 0), false),
        ((11, 1), (12, 1), false),
        ((7, 2), (7, 3), false),
        ((7, 2), (8, 2), false),
        ((12, 3), (12, 3), false),
        ((4, 18), (4, 18), false),
    ];
    for (derivation, whole, expected) in given {
        let agreed = agree(Answer::from(derivation), Answer::from(whole));
        assert_eq!(agreed, expected, "{derivation:?} and {whole:?}");
    }
}

#[test]
fn wrong_packers_and_image_checks() {
    found(Subject {
        name: "a column at fault named by the last",
        pack_tokens: |terminals, columns, output| {
            let answer = (PLAIN.pack_tokens)(terminals, columns, output);
            let at_fault = |column: &u16| (4096..NO_COLUMN).contains(column);
            match columns.iter().rposition(at_fault) {
                Some(place) if answer.number == 14 => Answer { place, ..answer },
                _ => answer,
            }
        },
        ..PLAIN
    });
    found(Subject {
        name: "a refused packer with a length",
        pack_tokens: |terminals, columns, output| {
            let answer = (PLAIN.pack_tokens)(terminals, columns, output);
            let length = answer.length.max(usize::from(answer.number == 4));
            Answer { length, ..answer }
        },
        ..PLAIN
    });
    found(Subject {
        name: "a packer that clears its output",
        pack_tree: |productions, output| {
            output.fill(0);
            (PLAIN.pack_tree)(productions, output)
        },
        ..PLAIN
    });
    found(Subject {
        name: "a packer that counts in 16 bits",
        pack_tree: |productions, output| {
            (PLAIN.pack_tree)(&productions[..productions.len() % 65_536], output)
        },
        ..PLAIN
    });
    found(Subject {
        name: "no terminals taken for one",
        check_tokens: |image, terminals| (PLAIN.check_tokens)(image, terminals.max(1)),
        ..PLAIN
    });
}

#[test]
fn wrong_packers_and_image_checks_without_a_column() {
    /// The packer with one column in place of another.
    macro_rules! packer {
        ($name:literal, $from:expr, $to:expr) => {
            Subject {
                name: $name,
                pack_tokens: |terminals, columns, output| {
                    let exchange = |&column| if column == $from { $to } else { column };
                    let columns: Vec<u16> = columns.iter().map(exchange).collect();
                    (PLAIN.pack_tokens)(terminals, &columns, output)
                },
                ..PLAIN
            }
        };
    }
    found(packer!("a packer with 14 for 65,535", NO_COLUMN, 4096));
    found(packer!("a packer without 14 for 65,534", 65_534, NO_COLUMN));
    found(packer!("a packer that lists a column", NO_COLUMN, 4095));
    found(Subject {
        name: "2 for 65,535",
        check_tokens: |image, terminals| {
            (PLAIN.check_tokens)(&exchanged(image, NO_COLUMN, 4096), terminals)
        },
        ..PLAIN
    });
    found(Subject {
        name: "no 2 for 65,534",
        check_tokens: |image, terminals| {
            (PLAIN.check_tokens)(&exchanged(image, 65_534, NO_COLUMN), terminals)
        },
        ..PLAIN
    });
}
