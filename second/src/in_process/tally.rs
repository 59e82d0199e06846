//! How often each call gave each number, so that a reader sees which were met.

use crate::met::Met;
use std::fmt;

#[derive(Clone, Copy)]
pub enum Call {
    Check,
    Derive,
    CheckGrammar,
    CheckTokens,
    CheckTree,
    PackTree,
    PackTokens,
}

/// Each call with its name and the numbers of document 01 that it can give.
const CALLS: [(Call, &str, &[u8]); 7] = [
    (
        Call::Check,
        "check",
        &[0, 1, 2, 3, 4, 5, 6, 7, 8, 9, 10, 11, 12],
    ),
    (Call::Derive, "derive", &[0, 1, 2, 3, 5, 6, 7, 8, 9, 10, 11]),
    (Call::CheckGrammar, "check_grammar", &[0, 1]),
    (Call::CheckTokens, "check_tokens", &[0, 2]),
    (Call::CheckTree, "check_tree", &[0, 3]),
    (Call::PackTree, "pack_tree", &[0, 4, 13]),
    (Call::PackTokens, "pack_tokens", &[0, 4, 13, 14]),
];

impl Call {
    pub fn name(self) -> &'static str {
        CALLS[self as usize].1
    }
}

const NUMBERS: u8 = 15;
const MANY_NODES: usize = 1000;
/// The greatest indentation that may be returned.
const GREATEST: u32 = 5118;

#[derive(Default)]
pub struct Tally {
    pub inputs: u64,
    calls: [[u64; NUMBERS as usize]; CALLS.len()],
    /// The check's 4 by its two reasons: `sets` too short, or `indentations`.
    short: [u64; 2],
    /// Inputs whose tree was accepted or refused by 12, with many nodes.
    large: u64,
    met: Met,
    /// The greatest indentation that the check returned.
    greatest: u32,
}

impl Tally {
    /// Counts an answer that was right, so that its number is in the table.
    pub fn add(&mut self, call: Call, number: u8) {
        self.calls[call as usize][usize::from(number)] += 1;
    }

    pub fn add_short(&mut self, sets: bool) {
        self.short[usize::from(!sets)] += 1;
    }

    /// Counts an input that was accepted or refused by 12.
    pub fn add_judged(&mut self, nodes: usize, [grammar, tokens, tree]: &[Vec<u8>; 3]) {
        self.large += u64::from(nodes > MANY_NODES);
        self.met.add(grammar, tokens, tree);
    }

    /// Takes the indentations that an accepted input was given.
    pub fn add_indentations(&mut self, indentations: &[u32]) {
        let greatest = indentations.iter().max();
        self.greatest = self.greatest.max(greatest.copied().unwrap_or(0));
    }

    pub fn join(&mut self, other: &Tally) {
        fn add(mine: &mut [u64], theirs: &[u64]) {
            mine.iter_mut().zip(theirs).for_each(|(m, t)| *m += t);
        }
        self.inputs += other.inputs;
        self.large += other.large;
        self.met.join(&other.met);
        self.greatest = self.greatest.max(other.greatest);
        add(&mut self.short, &other.short);
        add(self.calls.as_flattened_mut(), other.calls.as_flattened());
    }

    fn of(&self, call: Call, number: u8) -> u64 {
        self.calls[call as usize][usize::from(number)]
    }

    /// The numbers that a call can give and did not, and what the judged sheets
    /// should have had and had not.
    pub fn missing(&self) -> Vec<String> {
        let mut missing = Vec::new();
        for (call, name, numbers) in CALLS {
            for &number in numbers.iter().filter(|&&number| self.of(call, number) == 0) {
                missing.push(format!("{name} never gave {number}"));
            }
        }
        for (reason, count) in ["sets", "indentations"].iter().zip(self.short) {
            if count == 0 {
                missing.push(format!("check never gave 4 for {reason}"));
            }
        }
        missing.extend(self.met.missing());
        if self.greatest < GREATEST {
            missing.push(format!("no indentation of {GREATEST} was returned"));
        }
        missing
    }
}

/// A line a number, a column a call, empty where the call has no such number.
impl fmt::Display for Tally {
    fn fmt(&self, f: &mut fmt::Formatter) -> fmt::Result {
        write!(f, "number")?;
        for (_, name, _) in CALLS {
            write!(f, " {name:>13}")?;
        }
        for number in 0..NUMBERS {
            write!(f, "\n{number:>6}")?;
            for (call, _, numbers) in CALLS {
                if numbers.contains(&number) {
                    write!(f, " {:>13}", self.of(call, number))?;
                } else {
                    write!(f, " {:>13}", "")?;
                }
            }
        }
        let [sets, indentations] = self.short;
        let large = self.large;
        writeln!(
            f,
            "\nthe check's 4: {sets} by sets, {indentations} by indentations; \
             sets written for over {MANY_NODES} nodes: {large}"
        )?;
        writeln!(f, "{}", self.met)?;
        writeln!(f, "the greatest indentation returned: {}", self.greatest)
    }
}
