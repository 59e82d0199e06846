//! The C names of the library as safe Rust functions.
//!
//! Every call answers every content and every length of what it is given. A
//! refusal leaves what was lent as it was, but for the check's 12, which
//! writes the sets.

/// What a call gives, by the tables of document 01.
#[derive(Clone, Copy, PartialEq, Eq, Debug)]
pub struct Answer {
    pub number: u8,
    pub place: u32,
    /// The bytes that a packer wrote; 0 on a refusal and for every check.
    pub length: u32,
}

impl Answer {
    /// Bits 0 to 7 are the number, 8 to 31 the length and 32 to 63 the place.
    fn of(bits: u64) -> Answer {
        Answer {
            number: bits as u8,
            place: (bits >> 32) as u32,
            length: bits as u32 >> 8,
        }
    }
}

/// Judges a tree by its grammar and tokens. `sets` takes low and high of node
/// n at 2n and 2n + 1, `indentations` one number a node.
pub fn check(
    grammar: &[u8],
    tokens: &[u8],
    tree: &[u8],
    sets: &mut [u32],
    indentations: &mut [u32],
) -> Answer {
    Answer::of(unsafe {
        pravisondo_check(
            grammar.as_ptr(),
            grammar.len(),
            tokens.as_ptr(),
            tokens.len(),
            tree.as_ptr(),
            tree.len(),
            sets.as_mut_ptr(),
            sets.len(),
            indentations.as_mut_ptr(),
            indentations.len(),
        )
    })
}

/// Judges the derivation alone: the check's number and place, with room for
/// every node, but 0 where the check goes on to the columns.
pub fn derive(grammar: &[u8], tokens: &[u8], tree: &[u8]) -> Answer {
    Answer::of(unsafe {
        pravisondo_derive(
            grammar.as_ptr(),
            grammar.len(),
            tokens.as_ptr(),
            tokens.len(),
            tree.as_ptr(),
            tree.len(),
        )
    })
}

/// Number 0 or 1.
pub fn check_grammar(image: &[u8]) -> Answer {
    Answer::of(unsafe { pravisondo_check_grammar(image.as_ptr(), image.len()) })
}

/// Number 0 or 2, by a grammar with so many terminals.
pub fn check_tokens(image: &[u8], terminals: u16) -> Answer {
    Answer::of(unsafe { pravisondo_check_tokens(image.as_ptr(), image.len(), terminals) })
}

/// Number 0 or 3, by a grammar with so many productions.
pub fn check_tree(image: &[u8], productions: u16) -> Answer {
    Answer::of(unsafe { pravisondo_check_tree(image.as_ptr(), image.len(), productions) })
}

/// Writes the tree image of production numbers in preorder.
pub fn pack_tree(productions: &[u16], output: &mut [u8]) -> Answer {
    Answer::of(unsafe {
        pravisondo_pack_tree(
            productions.as_ptr(),
            productions.len(),
            output.as_mut_ptr(),
            output.len(),
        )
    })
}

/// Writes the token image of terminals, each with its column, or 65,535 for
/// none.
pub fn pack_tokens(terminals: &[u16], columns: &[u16], output: &mut [u8]) -> Answer {
    Answer::of(unsafe {
        pravisondo_pack_tokens(
            terminals.as_ptr(),
            terminals.len(),
            columns.as_ptr(),
            columns.len(),
            output.as_mut_ptr(),
            output.len(),
        )
    })
}

// A slice passes as a pointer, never null, and its length in entries. No call
// keeps a pointer or writes anything but the first entries of what it is lent
// by `*mut`; that no two of those overlap is what `&mut` says. No tool compares
// these declarations with crates/exported: `compare_calls` tries each.
extern "C" {
    fn pravisondo_check(
        grammar: *const u8,
        grammar_length: usize,
        tokens: *const u8,
        tokens_length: usize,
        tree: *const u8,
        tree_length: usize,
        sets: *mut u32,
        sets_length: usize,
        indentations: *mut u32,
        indentations_length: usize,
    ) -> u64;

    fn pravisondo_derive(
        grammar: *const u8,
        grammar_length: usize,
        tokens: *const u8,
        tokens_length: usize,
        tree: *const u8,
        tree_length: usize,
    ) -> u64;

    fn pravisondo_check_grammar(image: *const u8, length: usize) -> u64;

    fn pravisondo_check_tokens(image: *const u8, length: usize, terminals: u16) -> u64;

    fn pravisondo_check_tree(image: *const u8, length: usize, productions: u16) -> u64;

    fn pravisondo_pack_tree(
        productions: *const u16,
        count: usize,
        output: *mut u8,
        room: usize,
    ) -> u64;

    fn pravisondo_pack_tokens(
        terminals: *const u16,
        terminals_count: usize,
        columns: *const u16,
        columns_count: usize,
        output: *mut u8,
        room: usize,
    ) -> u64;
}
