//! Entered triplets, links, parts and the two builds, with the sets that they visit (document 01, "Triplets, links,
//! building"; document 02, T-06 and T-09).

use crate::trees::{subsets, tables_of_all_trees, Tree};
use crate::triples::{all, has, has_three, index, members, one, triples, triplets_on};

/// A set of triplets: for each pair, the species that are third to it.
#[derive(Clone)]
pub struct Entered {
    n: usize,
    third: Vec<u64>,
}

/// What becomes of a set whose links join it all: the build stops there; or, in the veto build, "every species of that
/// set becomes a leaf under it".
#[derive(Clone, Copy)]
pub enum Joined {
    Stops,
    Leaves,
}

impl Entered {
    pub fn from_table(n: usize, table: &[u8]) -> Entered {
        let mut entered = Entered { n, third: vec![0; n * n] };
        for (place, (a, b, c)) in triples(n).enumerate() {
            for (bit, (x, y, z)) in triplets_on(a, b, c) {
                if table[place] & bit != 0 {
                    entered.third[x * n + y] |= one(z);
                    entered.third[y * n + x] |= one(z);
                }
            }
        }
        entered
    }

    /// a and b are linked on the set when some entered triplet ab|c has all three in the set.
    fn linked(&self, set: u64, a: usize, b: usize) -> bool {
        self.third[a * self.n + b] & set != 0
    }

    /// The connected part of a in the set, by its links and one link more where one is given.
    fn part(&self, set: u64, a: usize, more: Option<(usize, usize)>) -> u64 {
        let mut part = one(a);
        let mut look = vec![a];
        while let Some(x) = look.pop() {
            for y in members(set & !part) {
                if self.linked(set, x, y) || more == Some((x, y)) || more == Some((y, x)) {
                    part |= one(y);
                    look.push(y);
                }
            }
        }
        part
    }

    /// The connected parts of a set, by lowest species.
    fn parts(&self, set: u64) -> Vec<u64> {
        let mut left = set;
        let mut parts = Vec::new();
        while left != 0 {
            let part = self.part(set, left.trailing_zeros() as usize, None);
            parts.push(part);
            left &= !part;
        }
        parts
    }

    /// The tree on a set, or the first set that stops, in preorder.
    pub fn build(&self, set: u64, joined: Joined) -> Result<Tree, u64> {
        self.build_visiting(set, joined, &mut Vec::new())
    }

    /// The same; the sets that are split, or found joined, are added to those visited, in order, up to any stop.
    pub fn build_visiting(&self, set: u64, joined: Joined, visited: &mut Vec<u64>) -> Result<Tree, u64> {
        if set.count_ones() == 1 {
            return Ok(Tree::Leaf(set.trailing_zeros() as usize));
        }
        let parts = self.parts(set);
        visited.push(set);
        if parts.len() == 1 {
            return match joined {
                Joined::Stops => Err(set),
                Joined::Leaves => Ok(Tree::Inner(members(set).map(Tree::Leaf).collect())),
            };
        }
        let mut children = Vec::new();
        for part in parts {
            children.push(self.build_visiting(part, joined, visited)?);
        }
        Ok(Tree::Inner(children))
    }

    /// Whether the tree is what the veto build's rule gives, node by node. Whether species are joined is asked of every
    /// way to put them in two heaps, so this is for small sets.
    pub fn keeps_the_veto_rule(&self, tree: &Tree) -> bool {
        let Tree::Inner(children) = tree else { return true };
        let set = tree.species();
        let joined = |part: u64| self.joined_by_heaps(set, part, part);
        if joined(set) {
            return children.iter().all(|child| matches!(child, Tree::Leaf(_)));
        }
        children.iter().all(|child| {
            let part = child.species();
            joined(part) && !self.link_between(set, part, set & !part) && self.keeps_the_veto_rule(child)
        })
    }

    /// Do the links on a set join all of a group inside it?
    pub fn joins(&self, set: u64, group: u64) -> bool {
        group & !self.part(set, group.trailing_zeros() as usize, None) == 0
    }

    /// The same by the species of a part of the set alone: in every way to put them in two heaps, each with some of the
    /// group, a link on the set goes from one heap to the other. For small sets.
    pub fn joined_by_heaps(&self, set: u64, part: u64, group: u64) -> bool {
        let apart = |heap: &u64| heap & group != 0 && group & !heap != 0;
        subsets(part).into_iter().filter(apart).all(|heap| self.link_between(set, heap, part & !heap))
    }

    /// Does a link on a set go from one of these species to one of the others?
    fn link_between(&self, set: u64, some: u64, others: u64) -> bool {
        members(some).any(|a| members(others).any(|b| self.linked(set, a, b)))
    }

    /// Whether no tree holds these triplets together with xy|z, by a chain of parts. For triplets
    /// that some tree holds. The build of all of them can only stop at a set that has x, y and z
    /// (elsewhere xy|z gives no link, and the others alone never stop), so only the part with x,
    /// y and z is followed, from a set outside of which it cannot stop.
    pub fn rules_out(&self, start: u64, x: usize, y: usize, z: usize) -> bool {
        let mut set = start;
        loop {
            let part = self.part(set, x, Some((x, y)));
            if part == set {
                return true;
            }
            if !has(part, z) {
                return false;
            }
            set = part;
        }
    }
}

/// Whether some tree with exactly the species of the set as leaves holds every triplet of the table, which
/// has no fans and says nothing of others. Up to n = 5 all trees are looked at, and the build is held against
/// them; above that it is the build.
pub fn some_tree_holds(n: usize, set: u64, table: &[u8]) -> bool {
    let built = Entered::from_table(n, table).build(set, Joined::Stops);
    if n > 5 {
        return built.is_ok();
    }
    let exists = tables_of_all_trees(set).iter().any(|says| holds_all(says, table));
    match built {
        Ok(tree) => {
            assert!(exists, "the build found a tree, and there is none");
            assert!(holds_all(&tree.table_by_definition(n), table), "the built tree lacks a triplet");
            assert!(tree.species() == set && tree == tree.sorted());
        }
        Err(stop) => {
            assert!(!exists, "the build stopped, and there is a tree");
            // the triplets inside the stopping set alone show it
            let mut inside = table.to_vec();
            for (place, (a, b, c)) in triples(n).enumerate() {
                if !has_three(stop, a, b, c) {
                    inside[place] = 0;
                }
            }
            assert!(!tables_of_all_trees(set).iter().any(|says| holds_all(says, &inside)));
        }
    }
    exists
}

/// Whether what a tree says, of these species or of more, has every triplet of a table.
fn holds_all(says: &[u8], table: &[u8]) -> bool {
    table.len() <= says.len() && says.iter().zip(table).all(|(s, t)| t & !s == 0)
}

/// The build on a set in another way: its species are numbered anew from 0 on, built as all that there
/// are, and get their numbers back. Up to five of them, all trees are looked at.
pub fn build_numbered_anew(set: u64, table: &[u8], joined: Joined, visited: &mut Vec<u64>) -> Result<Tree, u64> {
    let numbers: Vec<usize> = members(set).collect();
    let s = numbers.len();
    let anew: Vec<u8> = triples(s).map(|(a, b, c)| table[index(numbers[a], numbers[b], numbers[c])]).collect();
    if s <= 5 {
        some_tree_holds(s, all(s), &anew);
    }
    let named_back = |set| members(set).fold(0, |back, i| back | one(numbers[i]));
    let mut visited_anew = Vec::new();
    let built = Entered::from_table(s, &anew).build_visiting(all(s), joined, &mut visited_anew);
    visited.extend(visited_anew.into_iter().map(named_back));
    match built {
        Ok(tree) => Ok(tree.renamed(&|i| numbers[i])),
        Err(stop) => Err(named_back(stop)),
    }
}
