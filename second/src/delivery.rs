//! What a program reads and prints around the check: standard input cut into
//! the three images, and the answer as text.

use std::io::{Read, Write};

/// A check with the signature that both implementations have.
pub type Check = fn(&[u8], &[u8], &[u8], &mut [u32], &mut [u32]) -> (u8, usize);

/// One more than the largest three images together, so that an input that is
/// too long is still seen to be.
pub const MOST_INPUT: usize = 47_133;

/// Cuts the input, of which only the first 47,133 bytes count, into grammar,
/// token and tree image.
pub fn cut(input: &[u8]) -> [&[u8]; 3] {
    let input = &input[..input.len().min(MOST_INPUT)];
    let (grammar, rest) = cut_one(input, 16, 14);
    let (tokens, tree) = cut_one(rest, 6, 4);
    [grammar, tokens, tree]
}

/// The cut follows the total-length field whatever it says, be it less than
/// the header. A short header or a length past the end takes all that remains.
fn cut_one(rest: &[u8], header: usize, total_at: usize) -> (&[u8], &[u8]) {
    if rest.len() < header {
        return (rest, &[]);
    }
    let total = u16::from_le_bytes([rest[total_at], rest[total_at + 1]]);
    rest.split_at_checked(total.into()).unwrap_or((rest, &[]))
}

/// What a check gave for an input.
#[derive(PartialEq, Eq)]
pub struct Judged {
    pub number: u8,
    pub place: usize,
    /// The nodes of an accepted tree, otherwise 0.
    pub nodes: usize,
    pub sets: Vec<u32>,
    pub indentations: Vec<u32>,
}

/// Stands in the lists beforehand; no set and no indentation has it.
const UNWRITTEN: u32 = 4_000_000_000;

pub fn judge(input: &[u8], check: Check) -> Judged {
    let [grammar, tokens, tree] = cut(input);
    let mut sets = vec![UNWRITTEN; 8192];
    let mut indentations = vec![UNWRITTEN; 4096];
    let (number, place) = check(grammar, tokens, tree, &mut sets, &mut indentations);
    // Accepted, the tree image is whole, and its first field is the count.
    let nodes = match number {
        0 => u16::from_le_bytes([tree[0], tree[1]]).into(),
        _ => 0,
    };
    Judged {
        number,
        place,
        nodes,
        sets,
        indentations,
    }
}

impl Judged {
    /// Number and place, and on acceptance one line a node.
    pub fn text(&self) -> Vec<u8> {
        let mut text = format!("{} {}\n", self.number, self.place);
        for node in 0..self.nodes {
            let low = self.sets[2 * node];
            let high = match self.sets[2 * node + 1] {
                u32::MAX => "-".to_string(),
                high => high.to_string(),
            };
            text += &format!("{node} {low} {high} {}\n", self.indentations[node]);
        }
        text.into_bytes()
    }
}

/// The text printed for an input.
pub fn answer(input: &[u8], check: Check) -> Vec<u8> {
    judge(input, check).text()
}

/// A whole program over a check. Nothing is printed unless all was read.
pub fn run(check: Check) -> std::io::Result<()> {
    let mut input = Vec::new();
    std::io::stdin()
        .lock()
        .take(MOST_INPUT as u64)
        .read_to_end(&mut input)?;
    let mut output = std::io::stdout().lock();
    output.write_all(&answer(&input, check))?;
    output.flush()
}
