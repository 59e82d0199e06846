//! What is measured: three images and the answer's number, for each row of the table.

use second::build::{grammar, token_image, tree_image, trial};

pub struct Row {
    pub name: String,
    pub grammar: Vec<u8>,
    pub tokens: Vec<u8>,
    pub tree: Vec<u8>,
    pub number: u8,
}

/// A day at column 1 and so many hours at column 3 without items.
pub fn hours(count: usize) -> Row {
    let mut list = vec![(0, 1)];
    let mut nodes = vec![0];
    for _ in 0..count {
        list.push((1, 3));
        nodes.extend([1, 3, 5]);
    }
    nodes.push(2);
    Row {
        name: format!("{count} hours"),
        grammar: trial(),
        tokens: token_image(&list),
        tree: tree_image(&nodes),
        number: 0,
    }
}

/// So many nonterminals, each with a row of 8, four tokens and four children by the four relations,
/// and an empty row; the tree has so many nodes with the row of 8, as shallow as can be.
fn wide(name: &str, nonterminals: u16, inner: usize) -> Row {
    let child = |p: u16, k: u16| (p * 4 + k + 1) % nonterminals;
    let mut productions = Vec::new();
    for p in 0..nonterminals {
        let row = (0..4).flat_map(|k| [(0, 2, (p + k) % 1024), (1, k as u8, child(p, k))]);
        productions.push((p, row.collect()));
        productions.push((p, Vec::new()));
    }
    let mut list = Vec::new();
    let mut nodes = Vec::new();
    grow(0, 0, inner, &child, &mut nodes, &mut list);
    Row {
        name: name.to_string(),
        grammar: grammar(1024, nonterminals, &productions),
        tokens: token_image(&list),
        tree: tree_image(&nodes),
        number: 0,
    }
}

/// The subtree of a nonterminal at this place of the tree whose first `inner` nodes, level by level,
/// have the row of 8.
fn grow(
    nonterminal: u16,
    place: usize,
    inner: usize,
    child: &impl Fn(u16, u16) -> u16,
    nodes: &mut Vec<u16>,
    list: &mut Vec<(u16, u16)>,
) {
    if place >= inner {
        nodes.push(2 * nonterminal + 1);
        return;
    }
    nodes.push(2 * nonterminal);
    for k in 0..4 {
        list.push(((nonterminal + k) % 1024, 100 + (place % 50) as u16));
        grow(
            child(nonterminal, k),
            4 * place + k as usize + 1,
            inner,
            child,
            nodes,
            list,
        );
    }
}

/// The greatest images: 1,024 productions, 4,096 symbol entries, 4,093 nodes and 4,092 tokens.
pub fn greatest() -> Row {
    wide("greatest images", 512, 1023)
}

/// The same, refused at the number of the last symbol entry.
pub fn last_entry() -> Row {
    let mut row = greatest();
    row.name = "refused at the last symbol entry".to_string();
    row.number = 1;
    let at = row.grammar.len() - 2;
    row.grammar[at..].copy_from_slice(&u16::MAX.to_le_bytes());
    row
}

/// A small grammar and a tree of about so many nodes and tokens.
pub fn growing(nodes: usize) -> Row {
    let inner = (nodes - 1) / 4;
    wide(&format!("{} nodes", 4 * inner + 1), 1, inner)
}

/// A sample of the repository.
pub fn sample(name: &str, path: &str) -> Row {
    let read = |part: &str| {
        std::fs::read(format!("{path}.{part}")).expect("the sample's images are there")
    };
    Row {
        name: name.to_string(),
        grammar: read("grammar"),
        tokens: read("tokens"),
        tree: read("tree"),
        number: 0,
    }
}

pub fn all(samples: &str) -> Vec<Row> {
    let mut rows = vec![
        sample("October day of 25 hours", &format!("{samples}/october")),
        sample(
            "October day of 300 blocks",
            &format!("{samples}/october-blocks"),
        ),
        hours(253),
        hours(1021),
        greatest(),
        last_entry(),
    ];
    rows.extend([65, 129, 257, 513, 1025, 2049, 4093].map(growing));
    rows
}
