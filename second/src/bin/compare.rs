//! `compare [--seed N] [--count N] [--from I] -- COMMAND [WORDS...]`
//!
//! Gives made-up inputs to an outside program and to the two checks of this
//! package, and demands the same bytes of all three.

#![forbid(unsafe_code)]

use second::delivery::{judge, Check, Judged};
use second::tally::Tally;
use second::turns::{self, Inputs};
use second::{definition, generate, outside, plain};
use std::ffi::OsString;
use std::panic::catch_unwind;
use std::path::PathBuf;
use std::process::ExitCode;

/// Enough to try how a program cuts its input and prints its answer.
const COUNT: u64 = 2000;
/// One input in so many also goes through the two checks as programs.
const AS_PROGRAMS: u64 = 100;
/// A run at least this long has to meet every answer.
const LONG_RUN: u64 = 1000;

struct Task {
    inputs: Inputs,
    command: Vec<OsString>,
    /// Where the programs of this package lie: beside this one.
    beside: PathBuf,
}

fn main() -> ExitCode {
    let task = match task() {
        Ok(task) => task,
        Err(message) => {
            eprintln!("compare: {message}");
            eprintln!("usage: compare [--seed N] [--count N] [--from I] -- COMMAND [WORDS...]");
            return ExitCode::from(2);
        }
    };
    println!("seed {}", task.inputs.seed);
    let (tallies, differences) = turns::take(&task.inputs, Tally::default, |tally, index| {
        compare(&task, index, tally)
    });
    let mut tally = Tally::default();
    tallies.iter().for_each(|other| tally.join(other));
    print!("{tally}");
    let good = format!("{} inputs, 3 programs, no difference", tally.inputs());
    turns::end(&task.inputs, LONG_RUN, differences, &tally.faults(), &good)
}

fn task() -> Result<Task, String> {
    let mut words = std::env::args_os().skip(1);
    let numbers = [("--seed", turns::SEED), ("--count", COUNT), ("--from", 0)];
    let [seed, count, from] = turns::options(&mut words, numbers)?;
    let command: Vec<OsString> = words.collect();
    if command.is_empty() {
        return Err("no outside program named".to_string());
    }
    let own = std::env::current_exe().map_err(|error| error.to_string())?;
    Ok(Task {
        inputs: Inputs { seed, count, from },
        command,
        beside: own.with_file_name(""),
    })
}

/// Demands one outcome of all on one input; an error shows what they were.
fn compare(task: &Task, index: u64, tally: &mut Tally) -> Result<(), String> {
    let input = generate::input(task.inputs.seed, index);
    let outcomes = outcomes(task, &input, index.is_multiple_of(AS_PROGRAMS));
    let (_, first) = &outcomes[0];
    if let Ok(text) = first {
        tally.add(&input, text);
    }
    if first.is_err() || outcomes.iter().any(|(_, other)| other != first) {
        return Err(shown(&input, &outcomes));
    }
    Ok(())
}

type Outcome = Result<Vec<u8>, String>;

fn outcomes(task: &Task, input: &[u8], as_programs: bool) -> Vec<(&'static str, Outcome)> {
    let inside = |check: Check| {
        catch_unwind(|| judge(input, check)).map_err(|_| "stopped on a fault".to_string())
    };
    let plain = inside(plain::check);
    let definition = inside(definition::check);
    let text =
        |judged: &Result<Judged, String>| judged.as_ref().map(Judged::text).map_err(Clone::clone);
    let mut outcomes = vec![
        ("plain", text(&plain)),
        ("definition", text(&definition)),
        ("outside program", outside::run(&task.command, input)),
    ];
    // The lists show more than the text does: the sets of a tree without a
    // choice, and entries that must not change.
    if plain.is_ok() && definition.is_ok() && plain != definition {
        outcomes.push((
            "plain and definition",
            Err("number, place or lists differ".to_string()),
        ));
    }
    if as_programs {
        for (title, name) in [
            ("plain program", "plain"),
            ("definition program", "definition"),
        ] {
            let program = task.beside.join(name).into_os_string();
            outcomes.push((title, outside::run(&[program], input)));
        }
    }
    outcomes
}

fn shown(input: &[u8], outcomes: &[(&str, Outcome)]) -> String {
    let hex: String = input.iter().map(|byte| format!("{byte:02x}")).collect();
    let mut text = format!("{hex}\n");
    for (name, outcome) in outcomes {
        match outcome {
            Ok(printed) => {
                let printed = String::from_utf8_lossy(printed);
                let lines: Vec<&str> = printed.lines().collect();
                text += &format!("{name} printed {} lines:\n", lines.len());
                for line in lines.iter().take(6) {
                    text += &format!("  {line}\n");
                }
            }
            Err(message) => text += &format!("{name}: {message}\n"),
        }
    }
    text
}
