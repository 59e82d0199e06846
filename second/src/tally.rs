//! What the inputs of a comparison came to, so that a reader sees which
//! answers were met and how large the inputs were.

use crate::definition;
use crate::delivery;
use crate::met::{Met, DEEP};
use std::fmt;

const ANSWERS: usize = 13;
const MANY_NODES: usize = 1000;

#[derive(Clone, Copy, Default)]
struct Counts {
    inputs: u64,
    deep: u64,
    large: u64,
}

#[derive(Default)]
pub struct Tally {
    answers: [Counts; ANSWERS],
    met: Met,
}

impl Tally {
    /// Counts an input under the answer number that its text begins with.
    pub fn add(&mut self, input: &[u8], text: &[u8]) {
        let number = text
            .split(|&byte| byte == b' ')
            .next()
            .and_then(|word| std::str::from_utf8(word).ok()?.parse::<usize>().ok());
        let Some(counts) = number.and_then(|number| self.answers.get_mut(number)) else {
            return;
        };
        counts.inputs += 1;
        let [grammar, tokens, tree] = delivery::cut(input);
        if let Some(shape) = definition::shape(grammar, tokens, tree) {
            counts.deep += u64::from(shape.depth > DEEP);
            counts.large += u64::from(shape.nodes > MANY_NODES);
        }
        if let Some(0 | 12) = number {
            self.met.add(grammar, tokens, tree);
        }
    }

    pub fn join(&mut self, other: &Tally) {
        for (mine, theirs) in self.answers.iter_mut().zip(&other.answers) {
            mine.inputs += theirs.inputs;
            mine.deep += theirs.deep;
            mine.large += theirs.large;
        }
        self.met.join(&other.met);
    }

    pub fn inputs(&self) -> u64 {
        self.answers.iter().map(|counts| counts.inputs).sum()
    }

    /// Answers that should have been met and were not, and 4 if it was: the
    /// lists that a program lends are always long enough. And what the judged
    /// sheets should have had and had not.
    pub fn faults(&self) -> Vec<String> {
        (0..ANSWERS)
            .filter(|&number| (self.answers[number].inputs == 0) != (number == 4))
            .map(|number| format!("answer {number}: {} inputs", self.answers[number].inputs))
            .chain(self.met.missing())
            .collect()
    }
}

impl fmt::Display for Tally {
    fn fmt(&self, f: &mut fmt::Formatter) -> fmt::Result {
        writeln!(
            f,
            "answer   inputs   deeper than {DEEP}   over {MANY_NODES} nodes"
        )?;
        for (number, counts) in self.answers.iter().enumerate() {
            let Counts {
                inputs,
                deep,
                large,
            } = counts;
            writeln!(f, "{number:>6}   {inputs:>6}   {deep:>15}   {large:>15}")?;
        }
        let all = |of: fn(&Counts) -> u64| self.answers.iter().map(of).sum::<u64>();
        let (inputs, deep, large) = (all(|c| c.inputs), all(|c| c.deep), all(|c| c.large));
        writeln!(f, "   all   {inputs:>6}   {deep:>15}   {large:>15}")?;
        writeln!(f, "{}", self.met)
    }
}
