//! The grammar image of the trial sheets, 84 bytes: productions from byte 16,
//! symbols from byte 52. It has 3 terminals, 4 nonterminals, 6 productions
//! and 8 symbol entries.

use super::{Changed, Trials};
use crate::build::{trial, words};
use crate::subject::Subject;

const HEADER: [Changed; 28] = [
    ("Grammar image: 0 0", &[], 84),
    ("terminals 0: 1 0", &[(0, 0)], 84),
    ("terminals 1,024: 0 0", &[(0, 1024)], 84),
    ("terminals 1,025: 1 0", &[(0, 1025)], 84),
    ("nonterminals 0: 1 2", &[(2, 0)], 84),
    ("nonterminals 1,024: 0 0", &[(2, 1024)], 84),
    ("nonterminals 1,025: 1 2", &[(2, 1025)], 84),
    ("start nonterminal 3: 0 0", &[(4, 3)], 84),
    ("start nonterminal 4: 1 4", &[(4, 4)], 84),
    ("productions 0: 1 6", &[(6, 0)], 84),
    ("productions 1,024: 1 12", &[(6, 1024)], 84),
    ("productions 1,025: 1 6", &[(6, 1025)], 84),
    ("symbol entries 4,096: 1 14", &[(8, 4096)], 84),
    ("symbol entries 4,097: 1 8", &[(8, 4097)], 84),
    ("offset of the productions 15: 1 10", &[(10, 15)], 84),
    ("offset of the productions 17: 1 10", &[(10, 17)], 84),
    ("offset of the symbols 51: 1 12", &[(12, 51)], 84),
    ("offset of the symbols 53: 1 12", &[(12, 53)], 84),
    ("total length 83: 1 14", &[(14, 83)], 84),
    ("total length 85: 1 14", &[(14, 85)], 84),
    ("one byte short: 1 14", &[], 83),
    ("one byte too long: 1 14", &[], 85),
    ("total length 83 and 83 bytes: 1 14", &[(14, 83)], 83),
    ("total length 85 and 85 bytes: 1 14", &[(14, 85)], 85),
    ("no bytes: 1 0", &[], 0),
    ("1 byte: 1 1", &[], 1),
    ("15 bytes: 1 15", &[], 15),
    ("16 bytes: 1 14", &[], 16),
];

const PRODUCTIONS: [Changed; 13] = [
    ("first production, left side 3: 0 0", &[(16, 3)], 84),
    ("first production, left side 4: 1 16", &[(16, 4)], 84),
    ("first production, first entry 1: 1 18", &[(18, 1)], 84),
    ("first production, count 17: 1 20", &[(20, 17)], 84),
    ("first production, count 9: 1 20", &[(20, 9)], 84),
    ("first production, count 1: 1 24", &[(20, 1)], 84),
    ("last production, left side 4: 1 46", &[(46, 4)], 84),
    ("last production, first entry 7: 1 48", &[(48, 7)], 84),
    ("last production, first entry 9: 1 48", &[(48, 9)], 84),
    ("last production, count 17: 1 50", &[(50, 17)], 84),
    ("last production, count 1: 1 50", &[(50, 1)], 84),
    ("last end 7 of 8: 1 8", &[(44, 1), (48, 7)], 84),
    ("last end 8 of 9: 1 8", &[(8, 9), (14, 88)], 88),
];

/// Kind and relation are changed as one field: relation 3 is 768, relation 4
/// is 1,024.
const SYMBOLS: [Changed; 11] = [
    ("first symbol, kind 1: 0 0", &[(52, 1)], 84),
    ("first symbol, kind 2: 1 52", &[(52, 2)], 84),
    ("first symbol, relation 3: 0 0", &[(52, 768)], 84),
    ("first symbol, relation 4: 1 53", &[(52, 1024)], 84),
    ("first symbol, terminal 2: 0 0", &[(54, 2)], 84),
    ("first symbol, terminal 3: 1 54", &[(54, 3)], 84),
    ("second symbol, nonterminal 4: 1 58", &[(58, 4)], 84),
    ("last symbol but one, terminal 3: 1 78", &[(78, 3)], 84),
    ("last symbol, kind 2: 1 80", &[(80, 2)], 84),
    ("last symbol, relation 4: 1 81", &[(80, 1025)], 84),
    ("last symbol, nonterminal 4: 1 82", &[(82, 4)], 84),
];

/// Of several faults the first by position, and a last end's after the
/// productions.
const ORDER: [Changed; 11] = [
    ("terminals 0, nonterminals 0: 1 0", &[(0, 0), (2, 0)], 84),
    ("entries 4,097, offset 15: 1 8", &[(8, 4097), (10, 15)], 84),
    (
        "total 83, first left side 4: 1 14",
        &[(14, 83), (16, 4)],
        84,
    ),
    (
        "first left side 4, count 17: 1 16",
        &[(16, 4), (20, 17)],
        84,
    ),
    (
        "first count 17, second left side 4: 1 20",
        &[(20, 17), (22, 4)],
        84,
    ),
    (
        "last left side 4, last end 7: 1 46",
        &[(44, 1), (46, 4), (48, 7)],
        84,
    ),
    (
        "last count 17, first kind 2: 1 50",
        &[(50, 17), (52, 2)],
        84,
    ),
    (
        "last end 7, first kind 2: 1 8",
        &[(44, 1), (48, 7), (52, 2)],
        84,
    ),
    ("first kind 2, relation 4: 1 52", &[(52, 1026)], 84),
    (
        "first relation 4, terminal 3: 1 53",
        &[(52, 1024), (54, 3)],
        84,
    ),
    (
        "first terminal 3, second kind 2: 1 54",
        &[(54, 3), (56, 2)],
        84,
    ),
];

/// One production alone, over one terminal and one nonterminal: its count is
/// at byte 20, and every symbol is terminal 0 with =.
const ROWS: [Changed; 3] = [
    ("a row of no symbols: 0 0", &[], 22),
    (
        "a row of 16 symbols: 0 0",
        &[(8, 16), (14, 86), (20, 16)],
        86,
    ),
    (
        "a row of 17 symbols: 1 20",
        &[(8, 17), (14, 90), (20, 17)],
        90,
    ),
];

pub fn run(subject: &Subject, trials: &mut Trials) {
    let whole = trial();
    for lines in [&HEADER[..], &PRODUCTIONS, &SYMBOLS, &ORDER] {
        for &line in lines {
            trials.image(line, &whole, subject.check_grammar);
        }
    }
    let one_row = words(&[1, 1, 0, 1, 0, 16, 22, 22, 0, 0, 0]);
    for line in ROWS {
        trials.image(line, &one_row, subject.check_grammar);
    }
}
