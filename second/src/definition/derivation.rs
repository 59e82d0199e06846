//! Derivation in the words of document 01: a node is right when its row is
//! right, and a row is right when each symbol in it is met by the next node
//! or the next token. What comes out is the tree with its children inside.

use super::images::{Column, Images, Kind, Symbol};
use super::relation::Relation;

pub const MOST_DEPTH: usize = 1024;

/// A node with its children, each under its relation.
pub struct Node {
    pub number: usize,
    pub row: Vec<(Relation, Child)>,
}

pub enum Child {
    /// A token, of which only the column is left to judge.
    Token(Column),
    Node(Node),
}

impl Node {
    /// Whether every relation of the subtree holds with these numbers at the
    /// nodes.
    pub fn every_relation_holds(&self, numbers: &[u32]) -> bool {
        let i = numbers[self.number];
        self.row.iter().all(|(relation, child)| match child {
            Child::Token(Some(column)) => relation.holds(i, *column),
            Child::Token(None) => relation.holds_without_column(),
            Child::Node(child) => {
                relation.holds(i, numbers[child.number]) && child.every_relation_holds(numbers)
            }
        })
    }
}

type Refusal = (u8, usize);

/// A walk in preorder: how many nodes and tokens are used so far.
pub struct Walk<'a> {
    images: &'a Images,
    nodes: usize,
    tokens: usize,
    /// The greatest depth of a node that was taken up.
    pub deepest: usize,
}

impl<'a> Walk<'a> {
    pub fn over(images: &'a Images) -> Walk<'a> {
        Walk {
            images,
            nodes: 0,
            tokens: 0,
            deepest: 0,
        }
    }

    /// The whole tree, or the first refusal of 5 to 11.
    pub fn tree(&mut self) -> Result<Node, Refusal> {
        let root = self.node(self.images.start, 1)?;
        if self.nodes < self.images.tree.len() {
            return Err((10, self.nodes));
        }
        if self.tokens < self.images.tokens.len() {
            return Err((11, self.tokens));
        }
        Ok(root)
    }

    /// A node is due, with `nonterminal` on its left.
    fn node(&mut self, nonterminal: u32, depth: usize) -> Result<Node, Refusal> {
        let number = self.nodes;
        let Some(production) = self.images.tree.get(number) else {
            return Err((6, number));
        };
        let production = &self.images.productions[*production];
        if production.left != nonterminal {
            return Err((5, number));
        }
        if depth > MOST_DEPTH {
            return Err((9, number));
        }
        self.nodes += 1;
        self.deepest = self.deepest.max(depth);
        let row = self.row(&production.row, depth)?;
        Ok(Node { number, row })
    }

    fn row(&mut self, row: &[Symbol], depth: usize) -> Result<Vec<(Relation, Child)>, Refusal> {
        let mut children = Vec::new();
        for symbol in row {
            let child = match symbol.kind {
                Kind::Terminal(terminal) => Child::Token(self.token(terminal)?),
                Kind::Nonterminal(nonterminal) => Child::Node(self.node(nonterminal, depth + 1)?),
            };
            children.push((symbol.relation, child));
        }
        Ok(children)
    }

    /// A token is due that carries `terminal`; gives its column.
    fn token(&mut self, terminal: u32) -> Result<Column, Refusal> {
        let Some(token) = self.images.tokens.get(self.tokens) else {
            return Err((8, self.tokens));
        };
        if token.terminal != terminal {
            return Err((7, self.tokens));
        }
        self.tokens += 1;
        Ok(token.column)
    }
}
