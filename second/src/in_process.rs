//! The comparison in one process: the seven calls of a subject on generated
//! inputs, beside `plain` and, one input in so many, `definition`.
//!
//! Compared are number, place and length, and every entry of every lent list.
//! Beyond that the subject alone is held to document 01's word that nothing
//! but the named entries changes, also outside what was lent; and what it says
//! of the derivation alone has to be what its whole check says of it.

mod derivation;
mod images;
mod packers;
mod tally;
mod whole;

use crate::generate::{self, random::Random};
use crate::subject::{Answer, Subject, DEFINITION, PLAIN};
use crate::turns::{self, Inputs};
pub use derivation::agree;
use packers::Packers;
use tally::Call;
pub use tally::Tally;
use whole::Whole;

/// A run at least this long has to meet every number.
pub const LONG_RUN: u64 = 10_000;

#[derive(Clone, Copy)]
pub struct Run {
    pub inputs: Inputs,
    /// One input in so many goes to `definition` too, and none with 0.
    pub definition_every: u64,
}

/// What came back in all, and how many inputs differed.
pub fn compare(subject: &Subject, run: &Run) -> (Tally, u64) {
    let start = || Worker {
        subject: *subject,
        whole: Whole::default(),
        packers: Packers::default(),
        tally: Tally::default(),
    };
    let (workers, differences) = turns::take(&run.inputs, start, |worker, index| {
        worker.compare(run, index)
    });
    let mut tally = Tally::default();
    for worker in workers {
        tally.join(&worker.tally);
    }
    (tally, differences)
}

/// A subject, and what is kept from input to input.
struct Worker {
    subject: Subject,
    whole: Whole,
    packers: Packers,
    tally: Tally,
}

impl Worker {
    fn compare(&mut self, run: &Run, index: u64) -> Result<(), String> {
        let seed = run.inputs.seed;
        let images = generate::images(seed, index);
        let mut turn = Turn {
            subject: self.subject,
            others: match index.checked_rem(run.definition_every) {
                Some(0) => &[PLAIN, DEFINITION],
                _ => &[PLAIN],
            },
            images: &images,
            random: Random::new(!seed, index),
            tally: &mut self.tally,
        };
        self.whole
            .compare(&mut turn)
            .and_then(|whole| derivation::compare(&mut turn, whole))
            .and_then(|()| images::compare(&mut turn))
            .and_then(|()| self.packers.compare(&mut turn))
            .map_err(|text| {
                let every = run.definition_every;
                format!("--definition-every {every}: {text}\n{}", hex(&images))
            })?;
        self.tally.inputs += 1;
        Ok(())
    }
}

/// One input: whose calls are compared on which images.
struct Turn<'a> {
    subject: Subject,
    /// Those whose answers the subject has to give.
    others: &'a [Subject],
    images: &'a [Vec<u8>; 3],
    /// What is lent is drawn apart from what the images hold.
    random: Random,
    tally: &'a mut Tally,
}

/// An answer has to be the other's.
fn same(given: Answer, other: &Subject, expected: Answer) -> Result<(), String> {
    if given == expected {
        return Ok(());
    }
    Err(format!("{given} given, {expected} by {}", other.name))
}

/// A call that is lent nothing: the subject's answer, which has to be the
/// others'.
fn one(turn: &mut Turn, call: Call, ask: impl Fn(&Subject) -> Answer) -> Result<Answer, String> {
    let given = ask(&turn.subject);
    for other in turn.others {
        same(given, other, ask(other)).map_err(|text| format!("{}: {text}", call.name()))?;
    }
    turn.tally.add(call, given.number);
    Ok(given)
}

/// Enough for most calls: just enough, or a little more. Else too little, by
/// one, by all, or by anything between.
fn room(random: &mut Random, needed: usize) -> usize {
    match random.below(32) {
        0 | 1 => needed.saturating_sub(1),
        2 => 0,
        3 => random.within(0, needed),
        4..=15 => needed,
        _ => needed + random.within(1, 8),
    }
}

fn hex(images: &[Vec<u8>; 3]) -> String {
    ["grammar", "tokens", "tree"]
        .iter()
        .zip(images)
        .map(|(name, image)| {
            let hex: String = image.iter().map(|byte| format!("{byte:02x}")).collect();
            format!("{name} {hex}\n")
        })
        .collect()
}
