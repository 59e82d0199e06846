//! Fixed calls with answers written by hand from documents 01 and 02, for what
//! only a call can show: the checks of a single image, both packers, the check
//! with lists that are too short, with tokens that have no column or with the
//! deepest trees, and the check of the derivation alone.
//!
//! A trial is a line of what has to come back: a label, then number and place;
//! for a packer also the length, for the check what it wrote to the two lists.
//! How many other entries changed is told where any did, which is in no line.

mod deep;
mod derivation;
mod grammar;
mod limits;
mod no_column;
mod packing;
mod refusals;
mod sheet;

use crate::build::{changed, token_image, tree_image, trial, Change, A_TOKENS, A_TREE};
use crate::lent::Lent;
use crate::subject::{Answer, Subject};
use std::fmt::Display;

/// What each entry of a list is before the check has it.
const MARK: u32 = 4_000_000_000;

/// How many lines were tried on a subject, and those that came out otherwise.
pub struct Trials {
    pub tried: usize,
    pub faults: Vec<String>,
}

pub fn run(subject: &Subject) -> Trials {
    let mut trials = Trials {
        tried: 0,
        faults: Vec::new(),
    };
    grammar::run(subject, &mut trials);
    sheet::run(subject, &mut trials);
    limits::run(subject, &mut trials);
    packing::run(subject, &mut trials);
    refusals::run(subject, &mut trials);
    no_column::run(subject, &mut trials);
    deep::run(subject, &mut trials);
    derivation::run(subject, &mut trials);
    trials
}

impl Trials {
    /// Holds what came back, behind the line's own label, against the line.
    fn line(&mut self, line: &str, given: impl Display) {
        self.tried += 1;
        let (label, _) = line
            .split_once(": ")
            .expect("a label stands before a colon");
        let given = format!("{label}: {given}");
        if given != line {
            self.faults
                .push(format!("expected {line}\n   given {given}"));
        }
    }

    /// An image with some fields changed, then cut or filled up with zeros to
    /// this length, and the answer of its check.
    fn image(
        &mut self,
        (line, changes, length): Changed,
        image: &[u8],
        check: impl Fn(&[u8]) -> Answer,
    ) {
        let mut image = changed(image.to_vec(), changes);
        image.resize(length, 0);
        self.line(line, check(&image));
    }

    /// The check with so many entries lent of sets and indentations: number
    /// and place, and of sheet A's lists what the answer says is written.
    fn check(
        &mut self,
        subject: &Subject,
        line: &str,
        [grammar, tokens, tree]: [Vec<u8>; 3],
        room: [usize; 2],
    ) {
        let mut sets = Lent::default();
        let mut indentations = Lent::default();
        let answer = (subject.check)(
            &grammar,
            &tokens,
            &tree,
            sets.lend(room[0], MARK),
            indentations.lend(room[1], MARK),
        );
        let named = match answer.number {
            0 => [18, 9],
            12 => [18, 0],
            _ => [0, 0],
        };
        let mut given = answer.to_string();
        for (name, list, named) in [
            ("sets", &sets, named[0]),
            ("indentations", &indentations, named[1]),
        ] {
            if named > 0 {
                let written = list.part().get(..named).unwrap_or(list.part());
                given += &format!(", {name} {}", numbers(written));
            }
        }
        given += &outside(sets.outside(named[0]) + indentations.outside(named[1]));
        self.line(line, given);
    }

    /// The check with room for every node: number and place, and whether both
    /// lists are as due, where each node has a set and an indentation.
    fn lists(
        &mut self,
        subject: &Subject,
        line: &str,
        [grammar, tokens, tree]: [Vec<u8>; 3],
        due: Vec<([u32; 2], u32)>,
    ) {
        const ROOM: usize = 4096;
        let [mut sets, mut indentations] = [Lent::default(), Lent::default()];
        let answer = (subject.check)(
            &grammar,
            &tokens,
            &tree,
            sets.lend(2 * ROOM, MARK),
            indentations.lend(ROOM, MARK),
        );
        let mut given = answer.to_string();
        if answer.number == 0 {
            let node = |n: usize| {
                let part = sets.part();
                ([part[2 * n], part[2 * n + 1]], indentations.part()[n])
            };
            given += &match (0..due.len()).find(|&n| node(n) != due[n]) {
                None => ", both lists as due".to_string(),
                Some(n) => format!(", node {n} has {:?}, {:?} is due", node(n), due[n]),
            };
        }
        given += &outside(sets.outside(2 * due.len()) + indentations.outside(due.len()));
        self.line(line, given);
    }
}

/// A line, the fields that are changed for it, and the length of the image.
type Changed<'a> = (&'a str, &'a [Change], usize);

/// The fields of an image that are changed.
type Changes = &'static [Change];

/// The images of sheet A with some fields of each changed.
fn sheet_a(grammar: Changes, tokens: Changes, tree: Changes) -> [Vec<u8>; 3] {
    [
        changed(trial(), grammar),
        changed(token_image(&A_TOKENS), tokens),
        changed(tree_image(&A_TREE), tree),
    ]
}

/// The images of sheet A cut to these lengths.
fn cut_sheet_a(lengths: [usize; 3]) -> [Vec<u8>; 3] {
    let mut images = sheet_a(&[], &[], &[]);
    for (image, length) in images.iter_mut().zip(lengths) {
        image.truncate(length);
    }
    images
}

/// Numbers with a blank between them.
fn numbers<T: Display>(list: &[T]) -> String {
    let words: Vec<String> = list.iter().map(T::to_string).collect();
    words.join(" ")
}

/// How many entries changed that are not named by the answer.
fn outside(count: usize) -> String {
    match count {
        0 => String::new(),
        _ => format!(", outside {count}"),
    }
}
