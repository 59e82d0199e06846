//! Least indentations by raising. Every node starts at 0, and a number rises
//! only as far as a relation forces it, until nothing moves. So no number
//! ever rises above what it has in any choice.
//!
//! It ends on every tree, choice or none: nodes joined by `=` come to one
//! number, and between such groups force runs downward only.

use super::derivation::{Child, Node};
use super::relation::Relation;

pub fn numbers(root: &Node, nodes: usize) -> Vec<u32> {
    let mut numbers = vec![0; nodes];
    while sweep(root, &mut numbers) {}
    numbers
}

/// Applies every relation of the subtree and says whether a number moved.
fn sweep(node: &Node, numbers: &mut [u32]) -> bool {
    let mut moved = false;
    for (relation, child) in &node.row {
        match child {
            Child::Token(Some(column)) => {
                if *relation == Relation::Equal {
                    moved |= raise(&mut numbers[node.number], *column);
                }
            }
            // It stands in its relation to every number or to none, so it
            // asks for no other.
            Child::Token(None) => {}
            Child::Node(child) => {
                moved |= force(numbers, node.number, *relation, child.number);
                moved |= sweep(child, numbers);
                moved |= force(numbers, node.number, *relation, child.number);
            }
        }
    }
    moved
}

/// Raises a child to what its parent demands, and the parent to an equal
/// child.
fn force(numbers: &mut [u32], parent: usize, relation: Relation, child: usize) -> bool {
    let i = numbers[parent];
    let j = numbers[child];
    match relation {
        Relation::Equal => raise(&mut numbers[child], i) | raise(&mut numbers[parent], j),
        Relation::Greater => raise(&mut numbers[child], i + 1),
        Relation::GreaterOrEqual => raise(&mut numbers[child], i),
        Relation::Free => false,
    }
}

fn raise(number: &mut u32, to: u32) -> bool {
    let moves = *number < to;
    if moves {
        *number = to;
    }
    moves
}
