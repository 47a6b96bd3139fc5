//! Newick text out (document 02, T-02): the text of a tree, in two ways.

use crate::trees::Tree;
use crate::triples::has;

/// "Newick without lengths or blanks, in house order, semicolon last".
pub fn text(tree: &Tree) -> Vec<u8> {
    text_as_it_stands(&tree.sorted()).into_bytes()
}

/// The same with the children in the tree's order.
pub fn text_as_it_stands(tree: &Tree) -> String {
    format!("{};", subtree(tree))
}

/// The children in the tree's order.
fn subtree(tree: &Tree) -> String {
    match tree {
        Tree::Leaf(species) => species.to_string(),
        Tree::Inner(children) => bracket(children.iter().map(subtree)),
    }
}

fn bracket(inside: impl Iterator<Item = String>) -> String {
    format!("({})", inside.collect::<Vec<_>>().join(","))
}

/// The same, from the set of its groups and nothing else: equal groups give equal text.
pub fn text_of_groups(groups: &[u64]) -> Vec<u8> {
    let whole = groups.iter().max_by_key(|group| group.count_ones()).expect("a tree has a group");
    format!("{};", group_text(*whole, groups)).into_bytes()
}

/// A group has as its children the largest groups inside it, each the one of the lowest species that is left.
fn group_text(group: u64, groups: &[u64]) -> String {
    let lowest = |set: u64| set.trailing_zeros() as usize;
    if group.count_ones() == 1 {
        return lowest(group).to_string();
    }
    let mut left = group;
    bracket(std::iter::from_fn(|| {
        if left == 0 {
            return None;
        }
        let inside = groups.iter().filter(|&&g| g != group && g & !group == 0 && has(g, lowest(left)));
        let child = *inside.max_by_key(|g| g.count_ones()).expect("the leaf of that species");
        left &= !child;
        Some(group_text(child, groups))
    }))
}

/// How many bytes it has: the digits, a comma before each species but the first, two brackets for each inner node,
/// and the semicolon.
pub fn length(tree: &Tree) -> usize {
    let groups = tree.groups();
    let leaves: Vec<usize> =
        groups.iter().filter(|g| g.count_ones() == 1).map(|g| g.trailing_zeros() as usize).collect();
    let digits: usize = leaves.iter().map(|&species| if species < 10 { 1 } else { 2 }).sum();
    let inner = groups.len() - leaves.len();
    digits + leaves.len() - 1 + 2 * inner + 1
}
