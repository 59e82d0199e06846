//! Measures the proved check and the plain Rust one side by side, and two yardsticks for them.
//!
//! `bench SAMPLES` prints the time of a check for each row, `bench SAMPLES names` the rows' names.
//! `bench SAMPLES limit` prints the times of the limit and of both checks on the greatest images.
//! `bench SAMPLES ROW proved|plain|limit COUNT` runs one row so many times and prints nothing: a count
//! of instructions is taken from outside.
//! `bench runs DELIVERY PROGRAM..` prints the time of a whole run of each program.

mod limit;
mod rows;
mod runs;

use rows::Row;
use std::hint::black_box;
use std::time::Instant;
use Work::{Limit, Plain, Proved};

const BATCHES: usize = 25;

/// Room for the greatest tree. Neither list is cleared between two checks.
struct Lists {
    sets: Vec<u32>,
    indentations: Vec<u32>,
}

/// What is done with the images of a row.
#[derive(Clone, Copy)]
enum Work {
    Proved,
    Plain,
    Limit,
}

impl Work {
    fn named(name: &str) -> Option<Work> {
        [Proved, Plain, Limit]
            .into_iter()
            .find(|work| work.name() == name)
    }

    fn name(self) -> &'static str {
        match self {
            Proved => "proved",
            Plain => "plain",
            Limit => "limit",
        }
    }
}

fn run(row: &Row, work: Work, lists: &mut Lists) -> u8 {
    let (grammar, tokens, tree) = (
        black_box(&row.grammar[..]),
        black_box(&row.tokens[..]),
        black_box(&row.tree[..]),
    );
    let (sets, indentations) = (&mut lists.sets[..], &mut lists.indentations[..]);
    let number = match work {
        Proved => calls::check(grammar, tokens, tree, sets, indentations).number,
        Plain => second::plain::check(grammar, tokens, tree, sets, indentations).0,
        Limit => {
            limit::limit(grammar, tokens, tree, sets, indentations);
            row.number
        }
    };
    black_box(&mut *lists);
    number
}

fn repeat(row: &Row, work: Work, count: usize, lists: &mut Lists) -> f64 {
    let start = Instant::now();
    for _ in 0..count {
        assert_eq!(run(row, work, lists), row.number, "{}", row.name);
    }
    start.elapsed().as_secs_f64() / count as f64
}

/// The least and the middle of the times, in microseconds.
fn least_and_middle(mut seconds: Vec<f64>) -> (f64, f64) {
    seconds.sort_by(f64::total_cmp);
    (seconds[0] * 1e6, seconds[seconds.len() / 2] * 1e6)
}

/// The least and the middle of the batches, for each work. The works take turns.
fn measure<const N: usize>(row: &Row, works: [Work; N], lists: &mut Lists) -> [(f64, f64); N] {
    let once = repeat(row, Proved, 20, lists).max(1e-8);
    let count = (0.01 / once).clamp(1.0, 1e6) as usize;
    let mut seconds = [const { Vec::new() }; N];
    for _ in 0..BATCHES {
        for (work, seconds) in works.iter().zip(&mut seconds) {
            seconds.push(repeat(row, *work, count, lists));
        }
    }
    seconds.map(least_and_middle)
}

fn print_checks(row: &Row, lists: &mut Lists) {
    let [proved, plain] = measure(row, [Proved, Plain], lists);
    println!(
        "{}\t{:.3}\t{:.3}\t{:.3}\t{:.3}\t{:.2}",
        row.name,
        proved.0,
        proved.1,
        plain.0,
        plain.1,
        proved.1 / plain.1
    );
}

fn print_limit(row: &Row, lists: &mut Lists) {
    let works = [Limit, Proved, Plain];
    for (work, (_, middle)) in works.iter().zip(measure(row, works, lists)) {
        println!("{}\t{middle:.3}", work.name());
    }
}

fn print_runs(delivery: &str, programs: &[&str]) {
    for (program, seconds) in programs.iter().zip(runs::times(delivery, programs)) {
        println!("{program}\t{:.3}", least_and_middle(seconds).1);
    }
}

fn main() {
    let words: Vec<String> = std::env::args().collect();
    let words: Vec<&str> = words.iter().map(String::as_str).collect();
    let mut lists = Lists {
        sets: vec![0; 8192],
        indentations: vec![0; 4096],
    };
    match words[1..] {
        ["runs", delivery, ref programs @ ..] => print_runs(delivery, programs),
        [samples] => {
            println!(
                "row\tproved least\tproved middle\tplain least\tplain middle\tratio of the middles"
            );
            rows::all(samples)
                .iter()
                .for_each(|row| print_checks(row, &mut lists));
        }
        [samples, "names"] => rows::all(samples)
            .iter()
            .for_each(|row| println!("{}", row.name)),
        [_, "limit"] => print_limit(&rows::greatest(), &mut lists),
        [samples, row, work, count] => {
            let rows = rows::all(samples);
            let row = rows.iter().find(|known| known.name == row);
            let work = Work::named(work).expect("proved, plain or limit");
            let count = count.parse().expect("a count");
            repeat(row.expect("a row's name"), work, count, &mut lists);
        }
        _ => {
            eprintln!(
                "usage: bench SAMPLES [names | limit | ROW proved|plain|limit COUNT], \
                 or bench runs DELIVERY PROGRAM.."
            );
            std::process::exit(2);
        }
    }
}
