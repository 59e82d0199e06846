//! Trees grown from a grammar in preorder, each with an aim.

use super::grammars::{self, COUNTED};
use super::random::Random;
use super::sheet::{Above, Grammar, Sheet, Symbol, NONTERMINAL, TERMINAL};

/// The depth of the deepest node that may be, with 1 for the root.
pub const MOST_DEPTH: usize = 1024;

pub enum Aim {
    /// Anything, of about so many nodes and of no more than this depth.
    Any { nodes: usize, depth: usize },
    /// Exactly this depth, from a `spine` grammar.
    Spine { depth: usize },
    /// Exactly this depth, from a `rows` grammar, with rows of 16 as long as
    /// the nodes and tokens that there may be are enough.
    Rows { depth: usize },
    /// Exactly so many nodes and tokens, from a `counted` grammar.
    Counted { nodes: usize, tokens: usize },
}

/// A symbol that is due, at the depth that its node would have.
struct Due {
    symbol: Symbol,
    above: usize,
    depth: usize,
    on_spine: bool,
}

impl Aim {
    /// A tree that will not end is broken off here, and does not derive.
    fn most_nodes(&self) -> usize {
        match self {
            Aim::Any { nodes, .. } => 2 * nodes + 60,
            _ => 4200,
        }
    }
}

pub fn grow(random: &mut Random, grammar: Grammar, aim: Aim) -> Sheet {
    let choices = Choices::of(&grammar);
    let mut sheet = Sheet {
        grammar,
        tokens: Vec::new(),
        tree: Vec::new(),
        above_nodes: Vec::new(),
        above_tokens: Vec::new(),
        base: None,
    };
    let root = Symbol {
        kind: NONTERMINAL,
        relation: 3,
        number: sheet.grammar.start,
    };
    let mut due = vec![Due {
        symbol: root,
        above: 0,
        depth: 1,
        on_spine: true,
    }];
    // Nodes that are due besides the one at hand, and all tokens of the rows
    // so far, those that are still due among them.
    let mut pending = 0;
    let mut promised = 0;
    while let Some(Due {
        symbol,
        above,
        depth,
        on_spine,
    }) = due.pop()
    {
        let above = Above {
            node: above,
            relation: symbol.relation,
        };
        if symbol.kind == TERMINAL {
            sheet.tokens.push((symbol.number, 0));
            sheet.above_tokens.push(above);
            continue;
        }
        let node = sheet.tree.len();
        if node == aim.most_nodes() {
            break;
        }
        let left = usize::from(symbol.number);
        let production = match aim {
            Aim::Any {
                nodes,
                depth: deepest,
            } => {
                let stop = node + pending >= nodes || depth >= deepest;
                choices.any(random, left, stop)
            }
            Aim::Spine { depth: deepest } => 2 * left + usize::from(on_spine && depth < deepest),
            Aim::Rows { depth: deepest } => {
                let levels = deepest.saturating_sub(depth);
                rows(random, left, levels, node + 1 + pending, promised)
            }
            Aim::Counted { nodes, tokens } => {
                let open = nodes.saturating_sub(node + 1 + pending);
                let unused = tokens.saturating_sub(promised);
                let after = nodes.saturating_sub(node + 1);
                counted(random, left, depth, pending, open, unused, after)
            }
        };
        sheet.tree.push(production as u16);
        sheet.above_nodes.push(above);
        let production = &sheet.grammar.productions[production];
        let below = production.nonterminals();
        let spine_child = if below > 0 { random.below(below) } else { 0 };
        let mut child = below;
        for &symbol in production.row.iter().rev() {
            child -= usize::from(symbol.kind == NONTERMINAL);
            due.push(Due {
                symbol,
                above: node,
                depth: depth + 1,
                on_spine: on_spine && child == spine_child,
            });
        }
        pending = (pending + below).saturating_sub(1);
        promised += production.row.len() - below;
    }
    sheet
}

/// A production of a `rows` grammar such that so many further levels, with a
/// node each, still fit beside the nodes and tokens that there are or are due.
fn rows(random: &mut Random, left: usize, levels: usize, nodes: usize, tokens: usize) -> usize {
    const MOST: usize = 4096;
    let beside = grammars::BESIDE;
    match (left, random.below(3)) {
        (grammars::TOP, _) => 0,
        (grammars::NOTHING, _) => 1,
        _ if levels == 0 => 2,
        (_, 0) if tokens + beside < MOST => 3,
        (_, 1) if nodes + beside + levels <= MOST => 4,
        _ => 5,
    }
}

/// A production of a `counted` grammar such that the counts can still be met.
/// Tokens that are bound to come later are at most four a node.
fn counted(
    random: &mut Random,
    left: usize,
    depth: usize,
    pending: usize,
    open: usize,
    unused: usize,
    after: usize,
) -> usize {
    let most = if depth < MOST_DEPTH {
        open.min(COUNTED - 1)
    } else {
        0
    };
    let below = if pending < 6 {
        most
    } else {
        random.below(3).min(most)
    };
    let least = unused.saturating_sub(4 * after).min(4);
    let tokens = random.within(least, unused.min(COUNTED - 1).max(least));
    (COUNTED * left + below) * COUNTED + tokens
}

/// The productions of each nonterminal, and the one that ends soonest.
struct Choices {
    productions: Vec<Vec<usize>>,
    soonest: Vec<Option<usize>>,
    count: usize,
}

impl Choices {
    fn of(grammar: &Grammar) -> Choices {
        let nonterminals = usize::from(grammar.nonterminals);
        let mut productions = vec![Vec::new(); nonterminals];
        for (index, production) in grammar.productions.iter().enumerate() {
            productions[usize::from(production.left)].push(index);
        }
        // Round by round the nonterminals that can end within so many levels.
        let mut soonest: Vec<Option<usize>> = vec![None; nonterminals];
        loop {
            let ended: Vec<bool> = soonest.iter().map(Option::is_some).collect();
            let mut moved = false;
            for (index, production) in grammar.productions.iter().enumerate() {
                let left = usize::from(production.left);
                let ends = production
                    .row
                    .iter()
                    .all(|s| s.kind == TERMINAL || ended[usize::from(s.number)]);
                if soonest[left].is_none() && ends {
                    soonest[left] = Some(index);
                    moved = true;
                }
            }
            if !moved {
                break;
            }
        }
        Choices {
            productions,
            soonest,
            count: grammar.productions.len(),
        }
    }

    /// Where a nonterminal has no production, any other stands in: such a
    /// tree does not derive, and that is wanted now and then.
    fn any(&self, random: &mut Random, left: usize, stop: bool) -> usize {
        match self.soonest[left] {
            Some(production) if stop => production,
            _ if self.productions[left].is_empty() => random.below(self.count),
            _ => random.pick(&self.productions[left]),
        }
    }
}
