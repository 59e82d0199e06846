//! The two packers, with an output lent of any length around what is needed.

use super::tally::Call;
use super::{room, same, Turn};
use crate::generate::lists;
use crate::lent::Lent;
use crate::subject::{Answer, Subject};

#[derive(Default)]
pub struct Packers {
    first: Vec<u16>,
    second: Vec<u16>,
    outputs: Outputs,
}

impl Packers {
    pub fn compare(&mut self, turn: &mut Turn) -> Result<(), String> {
        let (first, second) = (&mut self.first, &mut self.second);
        let [_, tokens, tree] = turn.images;

        lists::productions(&mut turn.random, tree, first);
        let needed = 6 + 2 * first.len();
        self.outputs
            .compare(turn, Call::PackTree, needed, |calls, output| {
                (calls.pack_tree)(first, output)
            })
            .map_err(|text| format!("{text}; productions {}", shown(first)))?;

        lists::tokens(&mut turn.random, tokens, first, second);
        let needed = 6 + 4 * first.len();
        self.outputs
            .compare(turn, Call::PackTokens, needed, |calls, output| {
                (calls.pack_tokens)(first, second, output)
            })
            .map_err(|text| {
                let (terminals, columns) = (shown(first), shown(second));
                format!("{text}; terminals {terminals}; columns {columns}")
            })
    }
}

#[derive(Default)]
struct Outputs {
    given: Lent<u8>,
    expected: Lent<u8>,
}

impl Outputs {
    fn compare(
        &mut self,
        turn: &mut Turn,
        call: Call,
        needed: usize,
        pack: impl Fn(&Subject, &mut [u8]) -> Answer,
    ) -> Result<(), String> {
        let room = room(&mut turn.random, needed);
        let mark = turn.random.word() as u8;
        let given = pack(&turn.subject, self.given.lend(room, mark));
        let told =
            |text: String| format!("{}: {text}; lent {room} bytes, each {mark}", call.name());
        for other in turn.others {
            let expected = pack(other, self.expected.lend(room, mark));
            same(given, other, expected).map_err(told)?;
            if let Some(difference) = self.given.difference(&self.expected) {
                return Err(told(format!("{given}, {difference} by {}", other.name)));
            }
        }
        if given.number != 0 && given.length != 0 {
            return Err(told(format!("{given} is a refusal with a length")));
        }
        match self.given.outside(given.length) {
            0 => turn.tally.add(call, given.number),
            outside => return Err(told(format!("{given}, {outside} bytes outside changed"))),
        }
        Ok(())
    }
}

/// The length and the first numbers of a list.
fn shown(list: &[u16]) -> String {
    format!("{} {:?}", list.len(), &list[..list.len().min(20)])
}
