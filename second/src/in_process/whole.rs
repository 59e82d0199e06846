//! The whole check, with two lists lent of any length around what is needed.

use super::tally::Call;
use super::{room, same, Turn};
use crate::generate::random::Random;
use crate::lent::Lent;
use crate::subject::{Answer, Subject};

/// More nodes than any tree may have, so that a faulty count asks for no
/// greater lists.
const MOST_NODES: usize = 4100;

#[derive(Default)]
pub struct Whole {
    given: Lists,
    expected: Lists,
}

#[derive(Default)]
struct Lists {
    sets: Lent<u32>,
    indentations: Lent<u32>,
}

/// How much of each list is lent, and what stands in both beforehand.
#[derive(Clone, Copy)]
struct Lending {
    sets: usize,
    indentations: usize,
    mark: u32,
}

impl Lending {
    fn told(&self, text: String) -> String {
        let (sets, indentations, mark) = (self.sets, self.indentations, self.mark);
        format!("check: {text}; lent {sets} and {indentations} entries, each {mark}")
    }
}

impl Lists {
    fn check(&mut self, calls: &Subject, images: &[Vec<u8>; 3], lending: Lending) -> Answer {
        let [grammar, tokens, tree] = images;
        (calls.check)(
            grammar,
            tokens,
            tree,
            self.sets.lend(lending.sets, lending.mark),
            self.indentations.lend(lending.indentations, lending.mark),
        )
    }

    /// Both lists have to be the other's, to the last entry lent.
    fn same(&self, given: Answer, other: &Subject, expected: &Lists) -> Result<(), String> {
        let sets = self.sets.difference(&expected.sets);
        let indentations = self.indentations.difference(&expected.indentations);
        for (list, difference) in [("sets", sets), ("indentations", indentations)] {
            if let Some(difference) = difference {
                return Err(format!("{given}, {list} {difference} by {}", other.name));
            }
        }
        Ok(())
    }
}

impl Whole {
    /// Gives what the subject answers where there is room for every node.
    pub fn compare(&mut self, turn: &mut Turn) -> Result<Answer, String> {
        let nodes = nodes(&turn.images[2]);
        let lending = Lending {
            sets: room(&mut turn.random, 2 * nodes),
            indentations: room(&mut turn.random, nodes),
            mark: mark(&mut turn.random),
        };
        let given = self.given.check(&turn.subject, turn.images, lending);
        for other in turn.others {
            let expected = self.expected.check(other, turn.images, lending);
            same(given, other, expected)
                .and_then(|()| self.given.same(given, other, &self.expected))
                .map_err(|text| lending.told(text))?;
        }
        let (sets, indentations) = written(given.number, nodes);
        let outside = self.given.sets.outside(sets) + self.given.indentations.outside(indentations);
        if outside > 0 {
            return Err(lending.told(format!("{given}, {outside} other entries changed")));
        }
        turn.tally.add(Call::Check, given.number);
        let returned = &self.given.indentations.part()[..indentations];
        turn.tally.add_indentations(returned);
        match given.number {
            0 | 12 => turn.tally.add_judged(nodes, turn.images),
            4 => {
                turn.tally.add_short(lending.sets < 2 * nodes);
                let enough = Lending {
                    sets: 2 * nodes,
                    indentations: nodes,
                    ..lending
                };
                return Ok(self.given.check(&turn.subject, turn.images, enough));
            }
            _ => {}
        }
        Ok(given)
    }
}

/// How many entries of both lists the answer's row of the table names.
fn written(number: u8, nodes: usize) -> (usize, usize) {
    match number {
        0 => (2 * nodes, nodes),
        12 => (2 * nodes, 0),
        _ => (0, 0),
    }
}

/// What the count field says, in order or not.
fn nodes(tree: &[u8]) -> usize {
    match tree {
        &[low, high, ..] => usize::from(u16::from_le_bytes([low, high])).min(MOST_NODES),
        _ => 1,
    }
}

/// Also numbers that a check may write itself.
fn mark(random: &mut Random) -> u32 {
    let any = random.word() as u32;
    random.pick(&[0, 1, u32::MAX, 77_777, any, any, any, any])
}
