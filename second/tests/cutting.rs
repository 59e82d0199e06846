//! Standard input cut into images, by the total-length fields.

mod common;

use common::*;
use second::delivery::{answer, cut, MOST_INPUT};

fn expect(input: &[u8], text: &str) {
    for (name, check) in CHECKS {
        let printed = String::from_utf8(answer(input, check)).unwrap();
        assert_eq!(printed, text, "{name}");
    }
}

#[test]
fn short_headers_take_what_remains() {
    let whole = [trial(), token_image(&A_TOKENS), tree_image(&A_TREE)].concat();
    expect(&[], "1 0\n");
    expect(&whole[..15], "1 15\n");
    expect(&whole[..84], "2 0\n");
    expect(&whole[..84 + 5], "2 5\n");
    expect(&whole[..84 + 22], "3 0\n");
    expect(&whole[..84 + 22 + 5], "3 5\n");
}

#[test]
fn a_length_past_the_end_takes_what_remains() {
    let whole = [trial(), token_image(&A_TOKENS), tree_image(&A_TREE)].concat();
    expect(&whole[..16], "1 14\n");
    expect(&whole[..83], "1 14\n");
    expect(&whole[..84 + 21], "2 4\n");
    expect(&whole[..84 + 22 + 6], "3 4\n");
    expect(&whole[..whole.len() - 1], "3 4\n");
}

#[test]
fn a_field_of_three_cuts_three_bytes_off() {
    let mut input = [trial(), token_image(&A_TOKENS), tree_image(&A_TREE)].concat();
    input[84 + 4] = 3;
    let [grammar, tokens, tree] = cut(&input);
    assert_eq!((grammar.len(), tokens.len(), tree.len()), (84, 3, 19 + 24));
    expect(&input, "2 3\n");
    input[14] = 3;
    assert_eq!(cut(&input)[0].len(), 3);
    expect(&input, "1 3\n");
    input[14] = 0;
    assert_eq!(cut(&input)[0].len(), 0);
    expect(&input, "1 0\n");
}

#[test]
fn the_cut_follows_a_wrong_length() {
    let mut input = [trial(), token_image(&A_TOKENS), tree_image(&A_TREE)].concat();
    input[14] = 85;
    assert_eq!(cut(&input)[0].len(), 85);
    expect(&input, "1 14\n");
}

#[test]
fn the_largest_input_and_longer_ones() {
    let mut input = largest().concat();
    assert_eq!(input.len(), MOST_INPUT - 1);
    let lines: String = (0..4096).map(|node| format!("{node} 0 - 0\n")).collect();
    expect(&input, &format!("0 0\n{lines}"));
    input.push(0);
    assert_eq!(cut(&input)[2].len(), 8199);
    expect(&input, "3 4\n");
    input.extend([0; 20_000]);
    assert_eq!(cut(&input)[2].len(), 8199);
    expect(&input, "3 4\n");
}

#[test]
fn bytes_past_the_most_do_not_help_a_cut() {
    // The token image claims 65,535 bytes, which are there but do not count.
    let mut input = [trial(), words(&[0, 6, 65_535])].concat();
    input.resize(84 + 65_535, 0);
    let [_, tokens, tree] = cut(&input);
    assert_eq!((tokens.len(), tree.len()), (MOST_INPUT - 84, 0));
    expect(&input, "2 4\n");
}
