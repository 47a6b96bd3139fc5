//! Which groups of a tree are earned, and the tree without those that are not (document 02, T-07).

use crate::entered::Entered;
use crate::operations::resolved;
use crate::trees::{subsets, Tree};
use crate::triples::{has_three, one, triples};

/// The inner nodes but the root, in the tree's order: the group of each, and the groups of its siblings.
fn inner_nodes(tree: &Tree) -> Vec<(u64, Vec<u64>)> {
    let Tree::Inner(children) = tree else { return Vec::new() };
    let groups: Vec<u64> = children.iter().map(Tree::species).collect();
    let mut nodes = Vec::new();
    for (child, &own) in children.iter().zip(&groups) {
        if let Tree::Inner(_) = child {
            nodes.push((own, groups.iter().copied().filter(|&group| group != own).collect()));
            nodes.extend(inner_nodes(child));
        }
    }
    nodes
}

/// The groups that are not earned, in the tree's order: the links on such a group and one of its siblings together do
/// not join all of it. Links are from R only. Up to n = 5 they are found in another way too.
fn unearned(n: usize, tree: &Tree, entered: &[u8]) -> Vec<u64> {
    let r = Entered::from_table(n, &resolved(&tree.triplets(n), entered));
    let earned = |group: u64, siblings: &[u64]| siblings.iter().all(|sibling| r.joins(group | sibling, group));
    let mut found = inner_nodes(tree);
    found.retain(|(group, siblings)| !earned(*group, siblings));
    let found: Vec<u64> = found.into_iter().map(|(group, _)| group).collect();
    if n <= 5 {
        let mut sorted = found.clone();
        sorted.sort();
        assert_eq!(sorted, unearned_by_groups(n, &tree.groups(), entered), "the groups that are not earned");
    }
    found
}

/// The same from the set of the groups alone, smallest number first. A triple is resolved where some group has two of its
/// species, and the whole tree the third; siblings are the largest other groups inside the smallest one around; and what
/// is joined is asked of every way to put the species in two heaps.
fn unearned_by_groups(n: usize, groups: &[u64], entered: &[u8]) -> Vec<u64> {
    let whole = groups.iter().fold(0, |set, group| set | group);
    let resolves = |a, b, c| {
        let three = one(a) | one(b) | one(c);
        has_three(whole, a, b, c) && groups.iter().any(|group| (group & three).count_ones() == 2)
    };
    let r: Vec<u8> =
        triples(n).zip(entered).map(|((a, b, c), &byte)| if resolves(a, b, c) { byte } else { 0 }).collect();
    let r = Entered::from_table(n, &r);
    let inside = |small: u64, large: u64| small != large && small & !large == 0;
    let earned = |group: u64| {
        let around = groups.iter().filter(|&&other| inside(group, other)).min_by_key(|other| other.count_ones());
        let around = *around.expect("the whole tree is around every other group");
        let beside: Vec<u64> = groups.iter().copied().filter(|&g| inside(g, around) && g & group == 0).collect();
        let siblings = beside.iter().filter(|&&sibling| !beside.iter().any(|&other| inside(sibling, other)));
        siblings.into_iter().all(|sibling| r.joined_by_heaps(group | sibling, group | sibling, group))
    };
    let mut found: Vec<u64> = groups.to_vec();
    found.retain(|&group| group.count_ones() > 1 && group != whole && !earned(group));
    found.sort();
    found
}

/// The tree without groups that are not earned, in house order, and the groups that went. Which one of so many goes next
/// is picked; R is worked out afresh for each.
pub fn loosened(n: usize, tree: &Tree, entered: &[u8], pick: &mut dyn FnMut(usize) -> usize) -> (Tree, Vec<u64>) {
    let mut tree = tree.sorted();
    let mut dropped = Vec::new();
    loop {
        let unearned = unearned(n, &tree, entered);
        if unearned.is_empty() {
            return (tree, dropped);
        }
        let group = unearned[pick(unearned.len())];
        tree = without(&tree, group).sorted();
        dropped.push(group);
    }
}

/// The tree without a node below its root, whose children go to its parent.
fn without(tree: &Tree, group: u64) -> Tree {
    let Tree::Inner(children) = tree else { return tree.clone() };
    let mut kept = Vec::new();
    for child in children {
        match without(child, group) {
            Tree::Inner(below) if child.species() == group => kept.extend(below),
            other => kept.push(other),
        }
    }
    Tree::Inner(kept)
}

/// The tree without any of its inner nodes below the root, without each, without each two, and so on; for few species.
pub fn coarser(tree: &Tree) -> Vec<Tree> {
    let inner = inner_nodes(tree);
    let ways = subsets((1 << inner.len()) - 1).into_iter();
    ways.map(|way| {
        let dropped = inner.iter().enumerate().filter(|(k, _)| way >> k & 1 == 1);
        dropped.fold(tree.clone(), |tree, (_, (group, _))| without(&tree, *group))
    })
    .collect()
}
