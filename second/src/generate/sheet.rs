//! A grammar, tokens and tree as lists, before they become images, and the
//! writing of the images. Nothing here judges: a faulty sheet is written too.

#[derive(Clone, Copy)]
pub struct Symbol {
    pub kind: u8,
    pub relation: u8,
    pub number: u16,
}

pub const TERMINAL: u8 = 0;
pub const NONTERMINAL: u8 = 1;

pub struct Production {
    pub left: u16,
    pub row: Vec<Symbol>,
}

impl Production {
    pub fn nonterminals(&self) -> usize {
        self.row.iter().filter(|s| s.kind == NONTERMINAL).count()
    }
}

pub struct Grammar {
    pub terminals: u16,
    pub nonterminals: u16,
    pub start: u16,
    pub productions: Vec<Production>,
    /// Symbol entries after the last production's, which is a fault.
    pub stray: Vec<Symbol>,
    /// Symbol entries left out at the end, which is a fault as well.
    pub missing: usize,
}

/// The node that a node or token stands under, and the relation to it.
#[derive(Clone, Copy)]
pub struct Above {
    pub node: usize,
    pub relation: u8,
}

pub struct Sheet {
    pub grammar: Grammar,
    /// Terminal and column.
    pub tokens: Vec<(u16, u16)>,
    pub tree: Vec<u16>,
    /// What each node and each token stands under, from when they were grown;
    /// the root's entry is itself, free.
    pub above_nodes: Vec<Above>,
    pub above_tokens: Vec<Above>,
    /// The root's number where columns are laid out, if it is a certain one.
    pub base: Option<usize>,
}

fn image(words: impl IntoIterator<Item = usize>) -> Vec<u8> {
    words
        .into_iter()
        .flat_map(|word| (word as u16).to_le_bytes())
        .collect()
}

impl Grammar {
    fn image(&self) -> Vec<u8> {
        let productions = self.productions.len();
        let rows = self.productions.iter().flat_map(|p| &p.row);
        let mut entries: Vec<&Symbol> = rows.chain(&self.stray).collect();
        entries.truncate(entries.len() - self.missing);
        let symbols = entries.len();
        let symbols_at = 16 + 6 * productions;
        let mut words = vec![
            self.terminals.into(),
            self.nonterminals.into(),
            self.start.into(),
            productions,
            symbols,
            16,
            symbols_at,
            symbols_at + 4 * symbols,
        ];
        let mut first = 0;
        for production in &self.productions {
            words.extend([production.left.into(), first, production.row.len()]);
            first += production.row.len();
        }
        for symbol in entries {
            words.push(usize::from(symbol.kind) | usize::from(symbol.relation) << 8);
            words.push(symbol.number.into());
        }
        image(words)
    }
}

impl Sheet {
    /// Grammar, token and tree image, with right headers.
    pub fn images(&self) -> [Vec<u8>; 3] {
        let tokens = self.tokens.len();
        let token_words = [tokens, 6, 6 + 4 * tokens].into_iter().chain(
            self.tokens
                .iter()
                .flat_map(|&(terminal, column)| [terminal.into(), column.into()]),
        );
        let nodes = self.tree.len();
        let tree_words = [nodes, 6, 6 + 2 * nodes]
            .into_iter()
            .chain(self.tree.iter().map(|&production| production.into()));
        [self.grammar.image(), image(token_words), image(tree_words)]
    }
}
