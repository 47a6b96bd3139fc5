//! Trees, their groups and what they say; bodies and the tree rules
//! (document 01, "A tree's body and the collection" and "Triplets, links, building"; document 02, T-05).

use crate::triples::{choose, has, has_three, index, one, triples, triplets_on, without_fans, FAN};

#[derive(Clone, Debug, PartialEq, Eq)]
pub enum Tree {
    Leaf(usize),
    Inner(Vec<Tree>),
}

impl Tree {
    /// The set of all species in the tree.
    pub fn species(&self) -> u64 {
        match self {
            Tree::Leaf(i) => one(*i),
            Tree::Inner(children) => children.iter().fold(0, |set, t| set | t.species()),
        }
    }

    /// The groups, leaves and root included. The root's is the first.
    pub fn groups(&self) -> Vec<u64> {
        let mut groups = vec![self.species()];
        if let Tree::Inner(children) = self {
            for child in children {
                groups.extend(child.groups());
            }
        }
        groups
    }

    /// What the tree says of each triple of n species, as it is listed: a triplet or a fan, and nothing of
    /// three that are not all in the tree. "Some group has a and b but not c" is asked of the smallest group
    /// that has a and b: the others hold it. The three meet at one node when each two of them do.
    pub fn table(&self, n: usize) -> Vec<u8> {
        let mut groups = self.groups();
        groups.sort_by_key(|g| g.count_ones());
        let here = self.species();
        let mut smallest = vec![0u64; n * n];
        for a in 0..n {
            for b in 0..n {
                if let Some(g) = groups.iter().find(|&&g| has(g, a) && has(g, b)) {
                    smallest[a * n + b] = *g;
                }
            }
        }
        let mut table = vec![0; choose(n, 3)];
        for (place, (a, b, c)) in triples(n).enumerate() {
            if has_three(here, a, b, c) {
                for (bit, (x, y, z)) in triplets_on(a, b, c) {
                    if !has(smallest[x * n + y], z) {
                        table[place] |= bit;
                    }
                }
                let meet = [(a, b), (a, c), (b, c)].map(|(x, y)| smallest[x * n + y]);
                if meet[0] == meet[1] && meet[1] == meet[2] {
                    table[place] |= FAN;
                }
            }
        }
        table
    }

    /// The same, word by word: ab|c is held when some group has a and b but not c, and c is in
    /// the tree too. Three species of the tree without such a group are a fan.
    pub fn table_by_definition(&self, n: usize) -> Vec<u8> {
        let groups = self.groups();
        let mut table = vec![0; choose(n, 3)];
        for (a, b, c) in triples(n) {
            for (bit, (x, y, z)) in triplets_on(a, b, c) {
                let held = groups.iter().any(|&g| has(g, x) && has(g, y) && !has(g, z)) && has(self.species(), z);
                if held {
                    table[index(a, b, c)] |= bit;
                }
            }
            let two_of_them = |g: &u64| [a, b, c].iter().filter(|&&i| has(*g, i)).count() == 2;
            if has_three(self.species(), a, b, c) && !groups.iter().any(two_of_them) {
                table[index(a, b, c)] |= FAN;
            }
        }
        table
    }

    /// The triplets that the tree holds, as a table.
    pub fn triplets(&self, n: usize) -> Vec<u8> {
        without_fans(&self.table(n))
    }

    /// The tree with other species at its leaves.
    pub fn renamed(&self, names: &dyn Fn(usize) -> usize) -> Tree {
        match self {
            Tree::Leaf(species) => Tree::Leaf(names(*species)),
            Tree::Inner(children) => Tree::Inner(children.iter().map(|child| child.renamed(names)).collect()),
        }
    }

    /// The tree cut to a set: species outside it go, and a node of which one child is left becomes that child. None
    /// where no species is left.
    pub fn cut(&self, set: u64) -> Option<Tree> {
        match self {
            Tree::Leaf(i) => has(set, *i).then(|| self.clone()),
            Tree::Inner(children) => {
                let mut left: Vec<Tree> = children.iter().filter_map(|child| child.cut(set)).collect();
                match left.len() {
                    0 => None,
                    1 => left.pop(),
                    _ => Some(Tree::Inner(left)),
                }
            }
        }
    }

    /// The same tree with the children of each node by their lowest species.
    pub fn sorted(&self) -> Tree {
        match self {
            Tree::Leaf(i) => Tree::Leaf(*i),
            Tree::Inner(children) => {
                let mut children: Vec<Tree> = children.iter().map(Tree::sorted).collect();
                children.sort_by_key(|t| t.species().trailing_zeros());
                Tree::Inner(children)
            }
        }
    }

    /// The body with the nodes in preorder, the children as they stand.
    pub fn preorder(&self) -> Vec<u8> {
        fn put(tree: &Tree, parent: u8, body: &mut Vec<u8>) {
            let own = (body.len() / 2) as u8;
            match tree {
                Tree::Leaf(i) => body.extend([parent, *i as u8]),
                Tree::Inner(children) => {
                    body.extend([parent, 255]);
                    for child in children {
                        put(child, own, body);
                    }
                }
            }
        }
        let mut body = Vec::new();
        put(self, 255, &mut body);
        body
    }

    /// The body in house order.
    pub fn house_order(&self) -> Vec<u8> {
        self.sorted().preorder()
    }

    /// The tree of a body that keeps the tree rules.
    pub fn from_body(body: &[u8]) -> Tree {
        fn at(body: &[u8], node: usize) -> Tree {
            let children = children_of(body, node);
            if children.is_empty() {
                Tree::Leaf(body[2 * node + 1] as usize)
            } else {
                Tree::Inner(children.into_iter().map(|child| at(body, child)).collect())
            }
        }
        at(body, 0)
    }
}

fn children_of(body: &[u8], node: usize) -> Vec<usize> {
    (1..body.len() / 2).filter(|&child| body[2 * child] as usize == node).collect()
}

/// One fault with its own data.
#[derive(Clone, Copy, Debug, PartialEq, Eq)]
pub enum Fault {
    Parent(u8),
    Species(u8),
    Seen(usize),
    Only,
}

/// The tree rules, for a body of a good length: the node at fault and its fault, or none.
pub fn broken_rule(n: usize, body: &[u8]) -> Option<(usize, Fault)> {
    let nodes = body.len() / 2;
    // parents of all nodes first
    for node in 0..nodes {
        let parent = body[2 * node];
        let good = if node == 0 { parent == 255 } else { (parent as usize) < node };
        if !good {
            return Some((node, Fault::Parent(parent)));
        }
    }
    // then node by node: bad species, seen before, only child
    for node in 0..nodes {
        let species = body[2 * node + 1];
        let children = children_of(body, node);
        if children.is_empty() {
            if species as usize >= n {
                return Some((node, Fault::Species(species)));
            }
            if let Some(earlier) = (0..node).find(|&e| body[2 * e + 1] == species) {
                return Some((node, Fault::Seen(earlier)));
            }
        } else {
            if species != 255 {
                return Some((node, Fault::Species(species)));
            }
            if children.len() == 1 {
                return Some((node, Fault::Only));
            }
        }
    }
    None
}

/// The table of what these trees say, all together.
pub fn listed(n: usize, trees: &[Tree]) -> Vec<u8> {
    let mut table = vec![0; choose(n, 3)];
    for tree in trees {
        for (byte, says) in table.iter_mut().zip(tree.table(n)) {
            *byte |= says;
        }
    }
    table
}

/// All rooted trees with exactly the species of the set, two or more children at each inner node.
pub fn all_trees(set: u64) -> Vec<Tree> {
    if set.count_ones() == 1 {
        return vec![Tree::Leaf(set.trailing_zeros() as usize)];
    }
    let mut trees = Vec::new();
    for parts in partitions(set) {
        if parts.len() < 2 {
            continue;
        }
        let mut choices: Vec<Vec<Tree>> = vec![Vec::new()];
        for part in parts {
            let below = all_trees(part);
            choices = choices
                .iter()
                .flat_map(|chosen| {
                    below.iter().map(move |t| {
                        let mut longer = chosen.clone();
                        longer.push(t.clone());
                        longer
                    })
                })
                .collect();
        }
        trees.extend(choices.into_iter().map(Tree::Inner));
    }
    trees
}

/// All ways to split a set into parts that are not empty, each part once.
fn partitions(set: u64) -> Vec<Vec<u64>> {
    if set == 0 {
        return vec![Vec::new()];
    }
    let lowest = one(set.trailing_zeros() as usize);
    let others = set & !lowest;
    let mut ways = Vec::new();
    // the lowest species with each set of others
    for with in subsets(others) {
        for mut way in partitions(others & !with) {
            way.insert(0, lowest | with);
            ways.push(way);
        }
    }
    ways
}

/// All sets inside a set, the empty one included.
pub fn subsets(set: u64) -> Vec<u64> {
    let mut found = vec![0];
    for i in crate::triples::members(set) {
        for k in 0..found.len() {
            found.push(found[k] | one(i));
        }
    }
    found
}

/// What each tree with exactly the species of the set says, as a table of five species; for each set of these.
pub fn tables_of_all_trees(set: u64) -> &'static [Vec<u8>] {
    use std::sync::OnceLock;
    static TABLES: OnceLock<Vec<Vec<Vec<u8>>>> = OnceLock::new();
    let of_a_set = |set: u64| {
        let trees = all_trees(set);
        assert_eq!(trees.len(), [0, 1, 1, 4, 26, 236][set.count_ones() as usize]);
        for tree in &trees {
            assert_eq!(tree.table(5), tree.table_by_definition(5));
        }
        trees.iter().map(|t| t.table_by_definition(5)).collect()
    };
    &TABLES.get_or_init(|| (0..32).map(of_a_set).collect())[set as usize]
}
