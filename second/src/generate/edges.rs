//! One number set at its limit or one past it, with all else in order, so
//! that this limit alone decides.

use super::random::Random;
use super::sheet::{Production, Sheet, Symbol, NONTERMINAL, TERMINAL};
use crate::build::NO_COLUMN;

pub fn edge(random: &mut Random, sheet: &mut Sheet) {
    let past = random.below(2) as u16;
    match random.below(4) {
        0 => counts(random, sheet, past),
        1 => entries(random, sheet, past),
        2 => records(random, sheet, past),
        _ => lists(random, sheet, past),
    }
}

/// The counts of the grammar's header.
fn counts(random: &mut Random, sheet: &mut Sheet, past: u16) {
    let grammar = &mut sheet.grammar;
    match random.below(5) {
        0 => grammar.terminals = 1024 + past,
        1 => grammar.nonterminals = 1024 + past,
        2 => grammar.start = grammar.nonterminals - 1 + past,
        3 => {
            let count = 1024 + usize::from(past);
            grammar.productions.resize_with(count, || Production {
                left: 0,
                row: Vec::new(),
            });
        }
        _ if random.one_in(2) => grammar.terminals = past,
        _ => grammar.nonterminals = past,
    }
}

/// The symbol entries as a whole: a row that is too long, and a last end that
/// is not the count.
fn entries(random: &mut Random, sheet: &mut Sheet, past: u16) {
    let symbol = Symbol {
        kind: TERMINAL,
        relation: 3,
        number: 0,
    };
    let grammar = &mut sheet.grammar;
    let last = grammar.productions.len() - 1;
    match random.below(4) {
        0 => {
            let production = random.below(last + 1);
            let length = 16 + usize::from(past);
            grammar.productions[production].row.resize(length, symbol);
        }
        1 => grammar.stray = vec![symbol; random.pick(&[1, 1, 2, 16, 17])],
        2 => grammar.missing = usize::from(!grammar.productions[last].row.is_empty()),
        _ => {
            let rows: usize = grammar.productions.iter().map(|p| p.row.len()).sum();
            let mut room = 4096 + usize::from(past) - rows.min(4096);
            for production in &mut grammar.productions {
                let more = room.min(16 - production.row.len().min(16));
                let length = production.row.len() + more;
                production.row.resize(length, symbol);
                room -= more;
            }
            while room > 0 && grammar.productions.len() < 1024 {
                let length = room.min(16);
                let row = vec![symbol; length];
                grammar.productions.push(Production { left: 0, row });
                room -= length;
            }
        }
    }
}

/// The fields of one production or symbol.
fn records(random: &mut Random, sheet: &mut Sheet, past: u16) {
    let grammar = &mut sheet.grammar;
    let production = random.below(grammar.productions.len());
    let production = &mut grammar.productions[production];
    if production.row.is_empty() || random.one_in(4) {
        production.left = grammar.nonterminals - 1 + past;
        return;
    }
    let at = random.below(production.row.len());
    let symbol = &mut production.row[at];
    match random.below(4) {
        0 => symbol.kind = 1 + past as u8,
        1 => symbol.relation = 3 + past as u8,
        _ if symbol.kind == NONTERMINAL => symbol.number = grammar.nonterminals - 1 + past,
        _ => symbol.number = grammar.terminals - 1 + past,
    }
}

/// One token or node.
fn lists(random: &mut Random, sheet: &mut Sheet, past: u16) {
    if sheet.tokens.is_empty() || random.one_in(3) {
        let node = random.below(sheet.tree.len());
        sheet.tree[node] = sheet.grammar.productions.len() as u16 - 1 + past;
        return;
    }
    let token = random.below(sheet.tokens.len());
    if random.one_in(2) {
        sheet.tokens[token].0 = sheet.grammar.terminals - 1 + past;
    } else {
        // The columns end at 4,095, and only 65,535 is none.
        sheet.tokens[token].1 = random.pick(&[4095 + past, NO_COLUMN - past]);
    }
}
