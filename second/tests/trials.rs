//! The fixed calls, on both checks of this package and on faulty ones.

use second::subject::{Subject, DEFINITION, PLAIN};
use second::trials;

#[test]
fn both_give_every_line() {
    for subject in [PLAIN, DEFINITION] {
        let trials = trials::run(&subject);
        assert_eq!(trials.faults, Vec::<String>::new(), "{}", subject.name);
        assert_eq!(trials.tried, 282, "{}", subject.name);
    }
}

#[test]
fn an_entry_outside_is_told() {
    let faulty = Subject {
        pack_tree: |productions, output| {
            let answer = (PLAIN.pack_tree)(productions, output);
            output.last_mut().into_iter().for_each(|byte| *byte = 0);
            answer
        },
        check: |grammar, tokens, tree, sets, indentations| {
            sets.first_mut().into_iter().for_each(|entry| *entry = 0);
            (PLAIN.check)(grammar, tokens, tree, sets, indentations)
        },
        ..PLAIN
    };
    let faults = trials::run(&faulty).faults;
    for given in [
        "given sheet A in 23 bytes: 4 24 0, outside 1",
        "given 17 sets, 9 indentations: 4 18, outside 1",
    ] {
        assert!(faults.iter().any(|fault| fault.ends_with(given)), "{given}");
    }
}
