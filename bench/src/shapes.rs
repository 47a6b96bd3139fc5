// Collections, candidates and texts to run on. What is random comes from a fixed seed, so every run has the same ones.

pub const SEED: u64 = 20_071;

/// Numbers from a seed (splitmix64).
pub struct Dice(pub u64);

impl Dice {
    /// A number from 0 to n - 1.
    pub fn below(&mut self, n: usize) -> usize {
        self.0 = self.0.wrapping_add(0x9e37_79b9_7f4a_7c15);
        let mut z = self.0;
        z = (z ^ (z >> 30)).wrapping_mul(0xbf58_476d_1ce4_e5b9);
        z = (z ^ (z >> 27)).wrapping_mul(0x94d0_49bb_1331_11eb);
        ((z ^ (z >> 31)) % n as u64) as usize
    }
}

#[derive(Clone, Copy, Debug, PartialEq)]
pub enum Shape {
    Nested,
    Balanced,
    Random,
}

pub const SHAPES: [Shape; 3] = [Shape::Nested, Shape::Balanced, Shape::Random];

/// The body of a tree of the given species. A random tree's nodes stand in a random order too, each after its parent.
pub fn body(shape: Shape, species: &[u8], dice: &mut Dice) -> Vec<u8> {
    let mut body = Vec::new();
    let mut open = vec![(255, species.to_vec())];
    while !open.is_empty() {
        let next = if shape == Shape::Random { dice.below(open.len()) } else { open.len() - 1 };
        let (parent, set) = open.swap_remove(next);
        if set.len() == 1 {
            body.extend([parent, set[0]]);
            continue;
        }
        let node = (body.len() / 2) as u8;
        body.extend([parent, 255]);
        let mut rest = &set[..];
        let mut size = match shape {
            Shape::Nested => set.len() - 1,
            Shape::Balanced => set.len() / 2,
            Shape::Random => 1 + dice.below(set.len() - 1),
        };
        while !rest.is_empty() {
            let (part, others) = rest.split_at(size);
            open.push((node, part.to_vec()));
            rest = others;
            size = if shape == Shape::Random && !rest.is_empty() { 1 + dice.below(rest.len()) } else { rest.len() };
        }
    }
    body
}

/// Puts the items in a random order.
pub fn shuffle<T>(items: &mut [T], dice: &mut Dice) {
    for i in (1..items.len()).rev() {
        items.swap(i, dice.below(i + 1));
    }
}

/// The species 0 to n - 1, in a random order.
pub fn shuffled(n: u8, dice: &mut Dice) -> Vec<u8> {
    let mut species: Vec<u8> = (0..n).collect();
    shuffle(&mut species, dice);
    species
}

/// The collection of these bodies.
pub fn collection(n: u8, bodies: &[Vec<u8>]) -> Vec<u8> {
    let mut bytes = vec![1, n, bodies.len() as u8];
    for body in bodies {
        bytes.extend((body.len() as u16).to_be_bytes());
        bytes.extend(body);
    }
    bytes
}

/// The body of a tree whose root has the trees of these bodies as its children.
pub fn joined(children: &[Vec<u8>]) -> Vec<u8> {
    let mut body = vec![255, 255];
    for child in children {
        let first = (body.len() / 2) as u8;
        for node in child.chunks(2) {
            body.extend([if node[0] == 255 { 0 } else { first + node[0] }, node[1]]);
        }
    }
    body
}

/// The Newick text of a body, a length after each subtree; children stand in the order of their nodes.
pub fn text(body: &[u8]) -> Vec<u8> {
    fn subtree(body: &[u8], node: usize) -> String {
        let species = body[2 * node + 1];
        if species != 255 {
            return format!("{species}:12.5");
        }
        let children = (1..body.len() / 2).filter(|&child| body[2 * child] as usize == node);
        let inside: Vec<String> = children.map(|child| subtree(body, child)).collect();
        format!("({}):3.25", inside.join(","))
    }
    format!("{};", subtree(body, 0)).into_bytes()
}

// The body of a lone leaf.
fn leaf(s: u8) -> Vec<u8> {
    vec![255, s]
}

/// The body of a tree with so many consecutive species as leaves under its root, in house order.
pub fn star(first: u8, count: u8) -> Vec<u8> {
    joined(&(first..first + count).map(leaf).collect::<Vec<_>>())
}

/// The triples that a build looks at which gives this body: for each node with children, the combinations of three of the species under it.
pub fn looked_at(body: &[u8]) -> usize {
    let mut sizes = vec![0; body.len() / 2];
    for node in (0..sizes.len()).rev() {
        if body[2 * node + 1] != 255 {
            sizes[node] = 1;
        }
        if node > 0 {
            sizes[body[2 * node] as usize] += sizes[node];
        }
    }
    sizes.iter().map(|&size: &usize| size * size.saturating_sub(1) * size.saturating_sub(2) / 6).sum()
}

/// A table of 64 species, and the body of the tree that is built from it.
pub struct Source {
    pub name: &'static str,
    pub body: Vec<u8>,
    pub table: Vec<u8>,
}

/// The table of a star: nothing but fans.
pub fn fans() -> Source {
    Source { name: "star, from its own table", body: star(0, 64), table: vec![8; 41_664] }
}

/// A quarrel at the end of all splitting, and one in each of many parts: the bodies are those of the veto build.
pub fn quarrels() -> [Source; 2] {
    // ((..((0,1,2),3)..),63)
    let nested = (3..64).fold(star(0, 3), |tree, s| joined(&[tree, leaf(s)]));
    // Each two neighbours under a node, again and again.
    let mut fours: Vec<Vec<u8>> = (0..64).step_by(4).map(|first| star(first, 4)).collect();
    while fours.len() > 1 {
        fours = fours.chunks(2).map(joined).collect();
    }
    [
        Source { name: "nested, its three lowest quarrel", body: nested, table: table(|_, _, c| if c == 2 { 7 } else { 1 }) },
        Source {
            name: "balanced, each four quarrel",
            body: fours.remove(0),
            table: table(|a, b, c| if a / 4 == c / 4 { 7 } else { halved(a, b, c) }),
        },
    ]
}

/// A candidate of 64 species and a table to check it against, with the number and the values of the answer.
pub struct Candidate {
    pub name: &'static str,
    pub body: Vec<u8>,
    pub table: Vec<u8>,
    pub number: usize,
    pub values: &'static [usize],
}

/// The triples a < b < c of 64 species, in the order of the table.
pub fn triples() -> impl Iterator<Item = [usize; 3]> {
    (0..64).flat_map(|c| (0..c).flat_map(move |b| (0..b).map(move |a| [a, b, c])))
}

// The table of 64 species with these bytes for a < b < c.
fn table(byte: impl Fn(usize, usize, usize) -> u8) -> Vec<u8> {
    triples().map(|[a, b, c]| byte(a, b, c)).collect()
}

// The byte of a balanced tree, by halves of consecutive species: the two whose first bits agree longer are close.
fn halved(a: usize, b: usize, c: usize) -> u8 {
    if a ^ b < b ^ c {
        1
    } else {
        4
    }
}

/// Candidates that take the check long, each by another way.
pub fn candidates() -> [Candidate; 4] {
    let all: Vec<u8> = (0..64).collect();
    let still = &mut Dice(0);
    // ((..((0,1),2)..),63): on every triple a < b < c it holds ab|c.
    let nested = body(Shape::Nested, &all, still);
    let balanced = body(Shape::Balanced, &all, still);
    // Under the root ((..(((..((0,1),2)..,25),52),53)..),63) and ((..((26,27),28)..),51).
    let one: Vec<u8> = (0..26).chain(52..64).collect();
    let other: Vec<u8> = (26..52).collect();
    let peeled = joined(&[body(Shape::Nested, &one, still), body(Shape::Nested, &other, still)]);
    let held = |a, b| if a < 26 && b >= 26 { 4 } else { 1 };
    [
        Candidate { name: "nested, its whole table", body: nested.clone(), table: vec![1; 41_664], number: 0, values: &[] },
        Candidate {
            name: "nested, each c with the two before it",
            body: nested,
            table: table(|a, b, c| (a + 2 == c && b + 1 == c) as u8),
            number: 0,
            values: &[],
        },
        Candidate { name: "balanced, its whole table", body: balanced, table: table(halved), number: 0, values: &[] },
        // Entered: what the tree holds of 0 to 51, and 0i|i+1 for i from 52 to 62. The chain of sets for one of 0 to 25 and one of 26 to 51 loses 63
        // first, then 62, one at each step down to 52. The first triplet that is not forced is (0,1)|52.
        Candidate {
            name: "peeled, one species at each step",
            body: peeled,
            table: table(|a, b, c| if c < 52 { held(a, b) } else { (a == 0 && b >= 52 && b + 1 == c) as u8 }),
            number: 12,
            values: &[22_100],
        },
    ]
}

/// A candidate of 64 species and a table to loosen it by, with the body of the final tree and the dropped sets.
pub struct Loosening {
    pub name: &'static str,
    pub body: Vec<u8>,
    pub table: Vec<u8>,
    pub tree: Vec<u8>,
    pub dropped: Vec<u64>,
}

/// A candidate that loses every group but the root's, and two that pass the check.
pub fn loosenings() -> [Loosening; 3] {
    let [nested, each, balanced, _] = candidates();
    let passes = |candidate: Candidate| Loosening {
        name: candidate.name,
        tree: candidate.body.clone(),
        body: candidate.body,
        table: candidate.table,
        dropped: vec![],
    };
    // Entered: (c-2,c-1)|c for c from 3 to 63. Nothing links 0, so that no group is earned. The first one in house order is the largest that is left.
    let mut table = each.table;
    table[0] = 0;
    let bare = Loosening {
        name: "nested, 62 sets dropped",
        body: each.body,
        table,
        tree: star(0, 64),
        dropped: (2..64).rev().map(|count| (1 << count) - 1).collect(),
    };
    [bare, passes(nested), passes(balanced)]
}
