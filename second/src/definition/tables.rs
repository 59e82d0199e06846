//! Sets by trying numbers. Each node has a table that says of every number
//! from 0 to `TOP` whether it is in the node's set.
//!
//! The last entry speaks for every number from `TOP` on, because all numbers
//! above the last column, 4,095, are in a set together or out of it together.
//! Why: let i be such a number in a node's set, in some choice for its
//! subtree, and let i' be another number. Take the node and every node that
//! is reached from it downward through relations other than free. Their
//! numbers are i or more, above every column, so none of them has a token
//! with a column under a relation other than free. Add i' - i to all of their
//! numbers. None falls below 0, the relations among them hold as before, and
//! every relation that leads out of them is free or leads to a token without
//! a column, which holds whatever the number. So i' is in the set too.
//!
//! Hence a set with `TOP` in it has no upper bound, a set without it has no
//! number above 4,095, and "some j above `TOP`" is the same question as
//! whether `TOP` itself is in.

use super::derivation::{Child, Node, MOST_DEPTH};
use super::relation::Relation;

const LAST_COLUMN: usize = 4095;

/// Above every column, and above every least indentation (at most 5,118), so
/// that the entries just below it show whether the argument above is kept.
const TOP: usize = LAST_COLUMN + MOST_DEPTH + 1;

type Table = Vec<bool>;

/// The set of each of the `nodes` nodes as its least and greatest number, or
/// nothing when it is empty.
pub fn sets(root: &Node, nodes: usize) -> Vec<Option<(u32, u32)>> {
    let mut sets = vec![None; nodes];
    table(root, &mut sets);
    sets
}

/// A number is in when, for every symbol of the row, some number of the
/// child's set, or the token by its column or without one, stands in the
/// relation to it.
fn table(node: &Node, sets: &mut [Option<(u32, u32)>]) -> Table {
    let mut members = vec![true; TOP + 1];
    for &(relation, ref child) in &node.row {
        match child {
            &Child::Token(Some(column)) => match relation {
                Relation::Equal => keep(&mut members, |i| column == i),
                Relation::Greater => keep(&mut members, |i| column > i),
                Relation::GreaterOrEqual => keep(&mut members, |i| column >= i),
                Relation::Free => {}
            },
            Child::Token(None) => keep(&mut members, |_| relation.holds_without_column()),
            Child::Node(child) => {
                let allowed = some_number_stands(relation, table(child, sets));
                for (member, allowed) in members.iter_mut().zip(&allowed) {
                    *member &= allowed;
                }
            }
        }
    }
    sets[node.number] = ends(&members);
    members
}

/// Leaves in only the numbers that pass. One loop a relation, which is many
/// times as quick as asking for the relation again at every number.
fn keep(members: &mut [bool], passes: impl Fn(u32) -> bool) {
    for (i, member) in (0..).zip(members) {
        *member &= passes(i);
    }
}

/// For each i, whether some j of the child's set stands in the relation to i.
fn some_number_stands(relation: Relation, child: Table) -> Table {
    match relation {
        Relation::Equal => child,
        Relation::Greater => {
            let mut from = some_from(child);
            from.remove(0);
            from
        }
        Relation::GreaterOrEqual => {
            let mut from = some_from(child);
            from.pop();
            from
        }
        Relation::Free => vec![some_from(child)[0]; TOP + 1],
    }
}

/// For each number up to `TOP` + 1, whether it or some number above it is in.
fn some_from(mut table: Table) -> Table {
    table.push(table[TOP]);
    let mut some = false;
    for entry in table.iter_mut().rev() {
        some |= *entry;
        *entry = some;
    }
    table
}

/// Least and greatest number, with 4,294,967,295 for no upper bound. Two ends
/// tell the set only if nothing between them is missing, so that is tried.
fn ends(members: &[bool]) -> Option<(u32, u32)> {
    let low = members.iter().position(|&member| member)?;
    let high = members.iter().rposition(|&member| member)?;
    let count = members.iter().filter(|&&member| member).count();
    assert!(count == high - low + 1, "a set with a gap");
    assert!(
        high <= LAST_COLUMN || high == TOP && low <= LAST_COLUMN,
        "numbers above the last column differ"
    );
    let high = if high == TOP { u32::MAX } else { high as u32 };
    Some((low as u32, high))
}
