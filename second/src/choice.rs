//! Whether a list of numbers is a choice: the tree derives, and every
//! relation holds with exactly these numbers at the nodes.

use crate::definition::derivation::Walk;
use crate::definition::images::Images;

/// A list of any length but one number a node is no choice.
pub fn is_choice(grammar: &[u8], tokens: &[u8], tree: &[u8], indentations: &[u32]) -> bool {
    let Ok(images) = Images::read(grammar, tokens, tree) else {
        return false;
    };
    if indentations.len() != images.tree.len() {
        return false;
    }
    match Walk::over(&images).tree() {
        Ok(root) => root.every_relation_holds(indentations),
        Err(_) => false,
    }
}
