//! The second program: document 01, with the changes made to it, written down
//! twice more, each time apart from the program that is proved.
//!
//! `plain` is the quick one, `definition` the one that follows the words and
//! tries numbers. They share no code, so that a slip in one shows as a
//! difference.
//!
//! `bin/compare.rs` holds another program against the two, by what it prints.
//! `in_process` does so with whatever gives the seven calls of the library, and
//! `trials` are fixed calls with their answers. Nothing here is linked with
//! the proved code; `calls` beside this package is.

#![forbid(unsafe_code)]

pub mod build;
pub mod choice;
pub mod definition;
pub mod delivery;
pub mod generate;
pub mod in_process;
mod lent;
mod met;
pub mod outside;
pub mod plain;
pub mod subject;
pub mod tally;
pub mod trials;
pub mod turns;
