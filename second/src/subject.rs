//! The seven calls of the library, by whoever gives them: the proved code by
//! its C names, or a check of this package.

use crate::{definition, plain};
use std::fmt;

/// What a call gives. The length is a packer's; every other call has 0.
#[derive(Clone, Copy, PartialEq, Eq, Debug)]
pub struct Answer {
    pub number: u8,
    pub place: usize,
    pub length: usize,
}

impl From<(u8, usize)> for Answer {
    fn from((number, place): (u8, usize)) -> Answer {
        Answer::from((number, place, 0))
    }
}

impl From<(u8, usize, usize)> for Answer {
    fn from((number, place, length): (u8, usize, usize)) -> Answer {
        Answer {
            number,
            place,
            length,
        }
    }
}

/// Number and place, and the length where there is one.
impl fmt::Display for Answer {
    fn fmt(&self, f: &mut fmt::Formatter) -> fmt::Result {
        write!(f, "{} {}", self.number, self.place)?;
        match self.length {
            0 => Ok(()),
            length => write!(f, " with length {length}"),
        }
    }
}

/// The whole check, which is lent sets and indentations.
type Check = fn(&[u8], &[u8], &[u8], &mut [u32], &mut [u32]) -> Answer;

/// Whose calls are compared.
#[derive(Clone, Copy)]
pub struct Subject {
    pub name: &'static str,
    pub check: Check,
    pub derive: fn(&[u8], &[u8], &[u8]) -> Answer,
    pub check_grammar: fn(&[u8]) -> Answer,
    pub check_tokens: fn(&[u8], u16) -> Answer,
    pub check_tree: fn(&[u8], u16) -> Answer,
    pub pack_tree: fn(&[u16], &mut [u8]) -> Answer,
    pub pack_tokens: fn(&[u16], &[u16], &mut [u8]) -> Answer,
}

/// A module of this package that has the seven calls under these names.
macro_rules! calls_of {
    ($module:ident) => {
        Subject {
            name: stringify!($module),
            check: |grammar, tokens, tree, sets, indentations| {
                $module::check(grammar, tokens, tree, sets, indentations).into()
            },
            derive: |grammar, tokens, tree| $module::derive(grammar, tokens, tree).into(),
            check_grammar: |image| $module::check_grammar(image).into(),
            check_tokens: |image, terminals| $module::check_tokens(image, terminals).into(),
            check_tree: |image, productions| $module::check_tree(image, productions).into(),
            pack_tree: |productions, output| $module::pack_tree(productions, output).into(),
            pack_tokens: |terminals, columns, output| {
                $module::pack_tokens(terminals, columns, output).into()
            },
        }
    };
}

pub const PLAIN: Subject = calls_of!(plain);
pub const DEFINITION: Subject = calls_of!(definition);
