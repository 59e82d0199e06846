//! Grammars: the trial grammar of document 01 and random ones.

use super::random::Random;
use super::sheet::{Grammar, Production, Symbol, NONTERMINAL, TERMINAL};

pub const MOST_PRODUCTIONS: usize = 1024;
pub const MOST_SYMBOLS: usize = 4096;

fn symbol(kind: u8, relation: u8, number: u16) -> Symbol {
    Symbol {
        kind,
        relation,
        number,
    }
}

/// Sheets of days, hours and items.
pub fn trial() -> Grammar {
    let production = |left, row: &[Symbol]| Production {
        left,
        row: row.to_vec(),
    };
    let t = |relation, number| symbol(TERMINAL, relation, number);
    let n = |relation, number| symbol(NONTERMINAL, relation, number);
    Grammar {
        terminals: 3,
        nonterminals: 4,
        start: 0,
        productions: vec![
            production(0, &[t(0, 0), n(1, 1)]),
            production(1, &[n(0, 2), n(0, 1)]),
            production(1, &[]),
            production(2, &[t(0, 1), n(1, 3)]),
            production(3, &[t(2, 2), n(0, 3)]),
            production(3, &[]),
        ],
        stray: Vec::new(),
        missing: 0,
    }
}

/// How a grammar draws its symbols: relations have a taste, so that some
/// grammars are all but free of `=` and others full of it.
struct Palette {
    terminals: u16,
    nonterminals: u16,
    relations: &'static [u8],
}

impl Palette {
    fn new(random: &mut Random, terminals: usize, nonterminals: usize) -> Palette {
        const TASTES: [&[u8]; 6] = [
            &[0, 1, 2, 3],
            &[0, 1, 2, 3],
            &[0, 0, 0, 1, 2, 3],
            &[1, 2],
            &[0, 1, 1, 1, 2],
            &[0, 2, 2, 3, 3],
        ];
        Palette {
            terminals: terminals as u16,
            nonterminals: nonterminals as u16,
            relations: TASTES[random.below(TASTES.len())],
        }
    }

    fn symbol(&self, random: &mut Random, kind: u8) -> Symbol {
        let numbers = if kind == TERMINAL {
            self.terminals
        } else {
            self.nonterminals
        };
        let number = random.below(numbers.into()) as u16;
        symbol(kind, random.pick(self.relations), number)
    }

    /// A row with these counts of each kind, in any order.
    fn row(&self, random: &mut Random, nonterminals: usize, terminals: usize) -> Vec<Symbol> {
        let mut row = Vec::new();
        for index in 0..nonterminals + terminals {
            let kind = if index < nonterminals {
                NONTERMINAL
            } else {
                TERMINAL
            };
            let at = random.below(row.len() + 1);
            row.insert(at, self.symbol(random, kind));
        }
        row
    }

    fn grammar(&self, start: usize, productions: Vec<Production>) -> Grammar {
        Grammar {
            terminals: self.terminals,
            nonterminals: self.nonterminals,
            start: start as u16,
            productions,
            stray: Vec::new(),
            missing: 0,
        }
    }
}

/// Any grammar within these counts. Mostly every nonterminal has a production
/// without nonterminals, so that trees come to an end.
pub fn any(
    random: &mut Random,
    terminals: usize,
    nonterminals: usize,
    productions: usize,
    longest: usize,
) -> Grammar {
    let palette = Palette::new(random, terminals, nonterminals);
    let ends = !random.one_in(12);
    let mut list = Vec::new();
    let mut room = MOST_SYMBOLS;
    for index in 0..productions {
        let length = random.below(longest + 1).min(room);
        room -= length;
        let ending = ends && index < nonterminals;
        let left = if ending {
            index
        } else {
            random.below(nonterminals)
        };
        let below = if ending { 0 } else { random.below(length + 1) };
        list.push(Production {
            left: left as u16,
            row: palette.row(random, below, length - below),
        });
    }
    palette.grammar(random.below(nonterminals), list)
}

/// A grammar in which every nonterminal can end (production 2n) and can go on
/// (production 2n + 1), for trees of a wanted depth.
pub fn spine(random: &mut Random, nonterminals: usize, longest: usize) -> Grammar {
    let terminals = random.within(1, 4);
    let palette = Palette::new(random, terminals, nonterminals);
    let mut list = Vec::new();
    for left in 0..nonterminals as u16 {
        let ending = random.below(2);
        let row = palette.row(random, 0, ending);
        list.push(Production { left, row });
        let below = random.within(1, longest);
        let tokens = random.below(longest - below + 2);
        let row = palette.row(random, below, tokens);
        list.push(Production { left, row });
    }
    palette.grammar(random.below(nonterminals), list)
}

/// Changes a `spine` grammar so that indentations can pass the last column:
/// the start's rows begin with a token under `=`, every other token is free,
/// and the start comes back nowhere.
pub fn steepen(random: &mut Random, grammar: &mut Grammar) {
    let start = grammar.start;
    let other = (start + 1) % grammar.nonterminals;
    for production in &mut grammar.productions {
        for symbol in &mut production.row {
            if symbol.kind == TERMINAL {
                symbol.relation = 3;
            } else {
                symbol.relation = random.pick(&[0, 1, 1, 1, 1, 2]);
                if symbol.number == start {
                    symbol.number = other;
                }
            }
        }
        if production.left == start {
            production.row.insert(0, symbol(TERMINAL, 0, 0));
        }
    }
}

/// The nonterminals of a `rows` grammar.
pub const TOP: usize = 0;
pub const NOTHING: usize = 1;
const ROW: u16 = 2;

/// What stands beside the next Row in a row of 16.
pub const BESIDE: usize = 15;

/// A grammar of a Top over a chain of Rows, for deep trees with rows of 16.
/// By number: a Top, a Nothing, a Row that is the last, one with 15 tokens
/// beside the next Row, one with 15 Nothings, and one with neither. In a steep
/// one the indentations can pass the last column, as in one that `steepen`
/// changed.
pub fn rows(random: &mut Random, steep: bool) -> Grammar {
    let terminals = random.within(1, 4);
    let palette = Palette::new(random, terminals, 3);
    let chained = |random: &mut Random, mut row: Vec<Symbol>| {
        let relation = if steep {
            1
        } else {
            random.pick(palette.relations)
        };
        let at = random.below(row.len() + 1);
        row.insert(at, symbol(NONTERMINAL, relation, ROW));
        row
    };
    let tokens = |random: &mut Random, count| {
        let mut row = palette.row(random, 0, count);
        if steep {
            row.iter_mut().for_each(|symbol| symbol.relation = 3);
        }
        row
    };
    let top = chained(random, vec![symbol(TERMINAL, 0, 0)]);
    let last = tokens(random, 1);
    let beside_tokens = tokens(random, BESIDE);
    let beside_nothings = (0..BESIDE)
        .map(|_| symbol(NONTERMINAL, random.pick(palette.relations), NOTHING as u16))
        .collect();
    let row = |row| Production { left: ROW, row };
    let productions = vec![
        Production {
            left: TOP as u16,
            row: top,
        },
        Production {
            left: NOTHING as u16,
            row: Vec::new(),
        },
        row(last),
        row(chained(random, beside_tokens)),
        row(chained(random, beside_nothings)),
        row(chained(random, Vec::new())),
    ];
    palette.grammar(TOP, productions)
}

/// The rows of a `counted` grammar have 0 to 4 symbols of each kind.
pub const COUNTED: usize = 5;

/// A grammar with a row for every two counts: production number
/// (5 * left + nonterminals) * 5 + terminals. For trees of wanted sizes.
pub fn counted(random: &mut Random, nonterminals: usize) -> Grammar {
    let terminals = random.within(1, 5);
    let palette = Palette::new(random, terminals, nonterminals);
    let mut list = Vec::new();
    for left in 0..nonterminals {
        for below in 0..COUNTED {
            for tokens in 0..COUNTED {
                let row = palette.row(random, below, tokens);
                list.push(Production {
                    left: left as u16,
                    row,
                });
            }
        }
    }
    palette.grammar(random.below(nonterminals), list)
}

/// Fills a grammar up to the most productions and the most symbol entries.
pub fn fill(random: &mut Random, grammar: &mut Grammar) {
    let palette = Palette::new(
        random,
        grammar.terminals.into(),
        grammar.nonterminals.into(),
    );
    let mut room = MOST_SYMBOLS
        - grammar
            .productions
            .iter()
            .map(|p| p.row.len())
            .sum::<usize>();
    while grammar.productions.len() < MOST_PRODUCTIONS {
        let after = MOST_PRODUCTIONS - grammar.productions.len() - 1;
        let least = room.saturating_sub(16 * after);
        let most = room.min(16).min(2 * room / (after + 1) + 1).max(least);
        let length = random.within(least, most);
        room -= length;
        let below = random.below(length + 1);
        grammar.productions.push(Production {
            left: random.below(grammar.nonterminals.into()) as u16,
            row: palette.row(random, below, length - below),
        });
    }
}
