//! The four relations.

#[derive(Clone, Copy, PartialEq, Eq, Debug)]
pub enum Relation {
    Equal,
    Greater,
    GreaterOrEqual,
    Free,
}

impl Relation {
    pub fn of_number(number: u32) -> Relation {
        [
            Relation::Equal,
            Relation::Greater,
            Relation::GreaterOrEqual,
            Relation::Free,
        ][number as usize]
    }

    /// With `i` the indentation of the node and `j` that of the child.
    pub fn holds(self, i: u32, j: u32) -> bool {
        match self {
            Relation::Equal => j == i,
            Relation::Greater => j > i,
            Relation::GreaterOrEqual => j >= i,
            Relation::Free => true,
        }
    }

    /// Whether a token without a column stands in the relation to its node,
    /// whatever the indentation of the node.
    pub fn holds_without_column(self) -> bool {
        match self {
            Relation::Equal => false,
            Relation::Greater | Relation::GreaterOrEqual | Relation::Free => true,
        }
    }
}
