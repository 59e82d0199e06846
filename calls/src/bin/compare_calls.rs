//! `compare_calls [--seed N] [--count N] [--from I] [--definition-every N]`
//!
//! Calls the proved code by its C names: first on fixed calls with answers
//! written by hand, then on generated inputs beside the two checks of `second`.

use second::in_process::{compare, Run, LONG_RUN};
use second::subject::{Answer, Subject};
use second::trials::{self, Trials};
use second::turns::{self, Inputs};
use std::process::ExitCode;

const COUNT: u64 = 1_000_000;
/// One input in so many goes to `definition`, which is slow.
const DEFINITION_EVERY: u64 = 10;

const C_NAMES: Subject = Subject {
    name: "the C names",
    check: |grammar, tokens, tree, sets, indentations| {
        answer(calls::check(grammar, tokens, tree, sets, indentations))
    },
    derive: |grammar, tokens, tree| answer(calls::derive(grammar, tokens, tree)),
    check_grammar: |image| answer(calls::check_grammar(image)),
    check_tokens: |image, terminals| answer(calls::check_tokens(image, terminals)),
    check_tree: |image, productions| answer(calls::check_tree(image, productions)),
    pack_tree: |productions, output| answer(calls::pack_tree(productions, output)),
    pack_tokens: |terminals, columns, output| {
        answer(calls::pack_tokens(terminals, columns, output))
    },
};

fn answer(given: calls::Answer) -> Answer {
    Answer {
        number: given.number,
        place: given.place as usize,
        length: given.length as usize,
    }
}

fn main() -> ExitCode {
    let numbers = [
        ("--seed", turns::SEED),
        ("--count", COUNT),
        ("--from", 0),
        ("--definition-every", DEFINITION_EVERY),
    ];
    match turns::options(&mut std::env::args_os().skip(1), numbers) {
        Ok([seed, count, from, definition_every]) => run(Run {
            inputs: Inputs { seed, count, from },
            definition_every,
        }),
        Err(message) => {
            eprintln!("compare_calls: {message}");
            let names: Vec<String> = numbers
                .iter()
                .map(|(name, _)| format!("[{name} N]"))
                .collect();
            eprintln!("usage: compare_calls {}", names.join(" "));
            ExitCode::from(2)
        }
    }
}

fn run(run: Run) -> ExitCode {
    let Trials { tried, faults } = trials::run(&C_NAMES);
    if !faults.is_empty() {
        println!("{}", faults.join("\n"));
        println!("{} of {tried} fixed calls came out otherwise", faults.len());
        return ExitCode::FAILURE;
    }
    println!("{tried} fixed calls, each as written by hand");
    println!("seed {}", run.inputs.seed);
    let (tally, differences) = compare(&C_NAMES, &run);
    print!("{tally}");
    let good = format!("{} inputs through the C names, no difference", tally.inputs);
    turns::end(&run.inputs, LONG_RUN, differences, &tally.missing(), &good)
}
