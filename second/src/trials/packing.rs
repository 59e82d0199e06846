//! The two packers: on the lists of sheet A, on lists that they refuse, and
//! on the greatest.

use super::{numbers, outside, Trials};
use crate::lent::Lent;
use crate::subject::{Answer, Subject};

/// What each byte of an output is before the packer has it.
const MARK: u8 = 170;

/// Room for every image that a packer writes.
const ROOM: usize = 16_400;

/// The lists of sheet A.
const NODES: &[u16] = &[0, 1, 3, 4, 5, 1, 3, 5, 2];
const TERMINALS: &[u16] = &[0, 1, 2, 1];
const COLUMNS: &[u16] = &[1, 3, 5, 3];
const NO_COLUMN_AT_ENDS: &[u16] = &[65_535, 3, 5, 65_535];

/// A line with number, place and length, the productions, and the room of the
/// output.
const TREES: [(&str, &[u16], usize); 13] = [
    ("Tree packer, sheet A: 0 0 24", NODES, 64),
    ("sheet A in 24 bytes: 0 0 24", NODES, 24),
    ("sheet A in 23 bytes: 4 24 0", NODES, 23),
    ("sheet A in no bytes: 4 24 0", NODES, 0),
    ("one node: 0 0 8", &[0], 64),
    ("no nodes: 13 0 0", &[], 64),
    ("no nodes in no bytes: 13 0 0", &[], 0),
    ("production 65,535: 0 0 12", &[65_535, 0, 65_534], 64),
    ("4,096 nodes: 0 0 8198", &[5; 4096], ROOM),
    ("4,096 nodes in 8,198 bytes: 0 0 8198", &[5; 4096], 8198),
    ("4,096 nodes in 8,197 bytes: 4 8198 0", &[5; 4096], 8197),
    ("4,097 nodes: 13 0 0", &[5; 4097], ROOM),
    ("4,097 nodes in no bytes: 13 0 0", &[5; 4097], 0),
];

/// The most terminals, and the most columns: all at the last one, or the final
/// one past it, or each none. Then a list with an entry too many.
const TWOS: &[u16] = &[2; 4096];
const LAST: &[u16] = &[4095; 4096];
const PAST: &[u16] = &{
    let mut columns = [4095; 4096];
    columns[4095] = 4096;
    columns
};
const NONE: &[u16] = &[65_535; 4096];
const OVER: &[u16] = &[4096; 4097];

/// A line with number, place and length, terminals and columns, and the room
/// of the output.
const TOKENS: [(&str, &[u16], &[u16], usize); 29] = [
    ("Token packer, sheet A: 0 0 22", TERMINALS, COLUMNS, 64),
    ("sheet A in 22 bytes: 0 0 22", TERMINALS, COLUMNS, 22),
    ("sheet A in 21 bytes: 4 22 0", TERMINALS, COLUMNS, 21),
    ("sheet A in no bytes: 4 22 0", TERMINALS, COLUMNS, 0),
    ("no tokens: 0 0 6", &[], &[], 64),
    ("no tokens in 6 bytes: 0 0 6", &[], &[], 6),
    ("no tokens in 5 bytes: 4 6 0", &[], &[], 5),
    (
        "4 terminals and 3 columns: 13 0 0",
        TERMINALS,
        &[1, 3, 5],
        64,
    ),
    ("3 terminals and 4 columns: 13 0 0", &[0, 1, 2], COLUMNS, 64),
    ("no terminals and 1 column: 13 0 0", &[], &[1], 64),
    ("terminal 65,535: 0 0 14", &[65_535, 3], &[4095, 0], 64),
    ("column 4,095 at 2: 0 0 22", TERMINALS, &[1, 3, 4095, 3], 64),
    (
        "column 4,096 at 2 and 3: 14 2 0",
        TERMINALS,
        &[1, 3, 4096, 4096],
        64,
    ),
    (
        "column 65,534 at 0: 14 0 0",
        TERMINALS,
        &[65_534, 3, 4096, 3],
        64,
    ),
    (
        "column 65,535 at 0 and 3: 0 0 22",
        TERMINALS,
        NO_COLUMN_AT_ENDS,
        64,
    ),
    (
        "column 65,535 at 0 and 3 in 21 bytes: 4 22 0",
        TERMINALS,
        NO_COLUMN_AT_ENDS,
        21,
    ),
    (
        "column 65,535 at 0, 4,096 at 2: 14 2 0",
        TERMINALS,
        &[65_535, 3, 4096, 3],
        64,
    ),
    (
        "column 65,535 at 2, 65,534 at 3: 14 3 0",
        TERMINALS,
        &[1, 3, 65_535, 65_534],
        64,
    ),
    ("column 4,096 at 3: 14 3 0", TERMINALS, &[1, 3, 5, 4096], 64),
    (
        "column 4,096 at 2 in no bytes: 14 2 0",
        TERMINALS,
        &[1, 3, 4096, 3],
        0,
    ),
    (
        "column 4,096 at 2 of 3 for 4: 13 0 0",
        TERMINALS,
        &[1, 3, 4096],
        64,
    ),
    ("4,096 tokens: 0 0 16390", TWOS, LAST, ROOM),
    (
        "4,096 tokens in 16,390 bytes: 0 0 16390",
        TWOS,
        LAST,
        16_390,
    ),
    (
        "4,096 tokens in 16,389 bytes: 4 16390 0",
        TWOS,
        LAST,
        16_389,
    ),
    (
        "4,096 tokens, last column 4,096: 14 4095 0",
        TWOS,
        PAST,
        ROOM,
    ),
    ("4,096 tokens, columns 65,535: 0 0 16390", TWOS, NONE, ROOM),
    (
        "4,096 terminals and 4,097 columns: 13 0 0",
        TWOS,
        OVER,
        ROOM,
    ),
    ("4,097 tokens, columns 4,096: 13 0 0", OVER, OVER, ROOM),
    ("4,097 tokens in no bytes: 13 0 0", OVER, OVER, 0),
];

/// Lists, the line of their packed bytes, and that of the image's check.
type Bytes<List> = (List, &'static str, &'static str);

const TREE_BYTES: [Bytes<&[u16]>; 2] = [
    (
        NODES,
        "Bytes of sheet A's tree: 9 0 6 0 24 0 0 0 1 0 3 0 4 0 5 0 1 0 3 0 5 0 2 0",
        "checked: 0 0",
    ),
    (
        &[65_535, 0, 65_534],
        "bytes of production 65,535: 3 0 6 0 12 0 255 255 0 0 254 255",
        "checked: 3 6",
    ),
];

const TOKEN_BYTES: [Bytes<(&[u16], &[u16])>; 4] = [
    (
        (TERMINALS, COLUMNS),
        "Bytes of sheet A's tokens: 4 0 6 0 22 0 0 0 1 0 1 0 3 0 2 0 5 0 1 0 3 0",
        "checked: 0 0",
    ),
    (
        (&[65_535, 3], &[4095, 0]),
        "bytes of terminal 65,535: 2 0 6 0 14 0 255 255 255 15 3 0 0 0",
        "checked: 2 6",
    ),
    (
        (TERMINALS, NO_COLUMN_AT_ENDS),
        "bytes of column 65,535 at 0 and 3: \
         4 0 6 0 22 0 0 0 255 255 1 0 3 0 2 0 5 0 1 0 255 255",
        "checked: 0 0",
    ),
    (
        (&[], &[]),
        "bytes of no tokens: 0 0 6 0 6 0",
        "checked: 0 0",
    ),
];

pub fn run(subject: &Subject, trials: &mut Trials) {
    for (line, productions, room) in TREES {
        packed(trials, line, room, |output| {
            (subject.pack_tree)(productions, output)
        });
    }
    for (line, terminals, columns, room) in TOKENS {
        packed(trials, line, room, |output| {
            (subject.pack_tokens)(terminals, columns, output)
        });
    }
    for (productions, bytes, checked) in TREE_BYTES {
        let image = image(|output| (subject.pack_tree)(productions, output));
        trials.line(bytes, numbers(&image));
        trials.line(checked, (subject.check_tree)(&image, 6));
    }
    for ((terminals, columns), bytes, checked) in TOKEN_BYTES {
        let image = image(|output| (subject.pack_tokens)(terminals, columns, output));
        trials.line(bytes, numbers(&image));
        trials.line(checked, (subject.check_tokens)(&image, 3));
    }
    greatest(subject, trials);
}

/// The greatest lists, of which the last entry is another than the rest.
fn greatest(subject: &Subject, trials: &mut Trials) {
    let mut nodes = [5; 4096];
    nodes[4095] = 1;
    let tree = image(|output| (subject.pack_tree)(&nodes, output));
    trials.line("4,096 nodes: 0 0", (subject.check_tree)(&tree, 6));
    trials.line("first and last node: 5 1", ends(&tree, 2));
    let mut terminals = [2; 4096];
    terminals[4095] = 1;
    let tokens = image(|output| (subject.pack_tokens)(&terminals, &[4095; 4096], output));
    trials.line("4,096 tokens: 0 0", (subject.check_tokens)(&tokens, 3));
    trials.line("first and last token: 2 4095 1 4095", ends(&tokens, 4));
}

/// The fields of the first and the last record, each of so many bytes.
fn ends(image: &[u8], size: usize) -> String {
    let first = image.get(6..6 + size).unwrap_or(&[]);
    let last = &image[image.len().saturating_sub(size)..];
    let fields = [first, last].concat();
    let fields = fields
        .as_chunks()
        .0
        .iter()
        .map(|&field| u16::from_le_bytes(field));
    numbers(&fields.collect::<Vec<_>>())
}

/// Number, place and length of a packer that is lent so much room.
fn packed(trials: &mut Trials, line: &str, room: usize, pack: impl Fn(&mut [u8]) -> Answer) {
    let mut output = Lent::default();
    let Answer {
        number,
        place,
        length,
    } = pack(output.lend(room, MARK));
    let outside = outside(output.outside(length));
    trials.line(line, format!("{number} {place} {length}{outside}"));
}

/// The bytes of the image that a packer says it wrote.
fn image(pack: impl Fn(&mut [u8]) -> Answer) -> Vec<u8> {
    let mut output = vec![MARK; ROOM];
    let length = pack(&mut output).length;
    output.truncate(length);
    output
}
