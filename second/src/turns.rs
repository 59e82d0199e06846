//! What the comparisons share: the inputs that they take, one after another
//! on two threads, and what they say at the end.

use std::ffi::OsString;
use std::panic::{catch_unwind, AssertUnwindSafe};
use std::process::ExitCode;
use std::sync::atomic::{AtomicU64, Ordering};
use std::thread;

const THREADS: usize = 2;
const MOST_DIFFERENCES: u64 = 5;
/// The seed unless another is named.
pub const SEED: u64 = 2013;

/// `count` inputs of a seed, from number `from` on.
#[derive(Clone, Copy)]
pub struct Inputs {
    pub seed: u64,
    pub count: u64,
    pub from: u64,
}

/// Reads `--name N` pairs up to the end or to `--`. Each name stands in the
/// list with the number that it has unless named.
pub fn options<const COUNT: usize>(
    words: &mut impl Iterator<Item = OsString>,
    mut numbers: [(&str, u64); COUNT],
) -> Result<[u64; COUNT], String> {
    while let Some(word) = words.next().filter(|word| word != "--") {
        let Some((_, number)) = numbers.iter_mut().find(|(name, _)| word == *name) else {
            return Err(format!("{} is no option", word.to_string_lossy()));
        };
        *number = words
            .next()
            .and_then(|value| value.to_str()?.parse().ok())
            .ok_or(format!("{} needs a number", word.to_string_lossy()))?;
    }
    Ok(numbers.map(|(_, number)| number))
}

/// Takes one input after another until none is left or enough differ, each
/// thread with a worker of its own. Gives the workers and how many inputs
/// differed; what `one` says about such an input is printed.
pub fn take<W: Send>(
    inputs: &Inputs,
    start: impl Fn() -> W + Sync,
    one: impl Fn(&mut W, u64) -> Result<(), String> + Sync,
) -> (Vec<W>, u64) {
    let next = AtomicU64::new(0);
    let differences = AtomicU64::new(0);
    let work = || {
        let mut worker = start();
        while differences.load(Ordering::Relaxed) < MOST_DIFFERENCES {
            let turn = next.fetch_add(1, Ordering::Relaxed);
            if turn >= inputs.count {
                break;
            }
            let index = inputs.from + turn;
            let outcome = catch_unwind(AssertUnwindSafe(|| one(&mut worker, index)));
            let text = match outcome {
                Ok(Ok(())) => continue,
                Ok(Err(text)) => text,
                Err(_) => "stopped on a fault\n".to_string(),
            };
            differences.fetch_add(1, Ordering::Relaxed);
            // One text, printed at once, so that two threads do not mingle theirs.
            print!(
                "difference at input {index}; again with --seed {} --from {index} --count 1\n{text}",
                inputs.seed
            );
        }
        worker
    };
    let workers = thread::scope(|scope| {
        let threads: Vec<_> = (0..THREADS).map(|_| scope.spawn(work)).collect();
        let ended = threads.into_iter().map(|thread| thread.join());
        ended
            .map(|worker| worker.expect("a worker does not panic"))
            .collect()
    });
    (workers, differences.into_inner())
}

/// The last lines of a comparison and its exit status, which is 0 only if
/// nothing differed and, in a run of at least `long` inputs, nothing that has
/// to be met is missing.
pub fn end(
    inputs: &Inputs,
    long: u64,
    differences: u64,
    missing: &[String],
    good: &str,
) -> ExitCode {
    if differences > 0 {
        println!("{differences} differences");
        return ExitCode::FAILURE;
    }
    if !missing.is_empty() && inputs.count < long {
        println!("too few inputs to meet every answer");
    } else if !missing.is_empty() {
        println!("{}", missing.join("\n"));
        return ExitCode::FAILURE;
    }
    println!("{good}");
    ExitCode::SUCCESS
}
