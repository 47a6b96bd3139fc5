//! Random calls and collections, good ones and damaged ones.

use crate::calls::Call;
use crate::entered::{Entered, Joined};
use crate::exhaustive::collection;
use crate::operations::{contradiction, PLACES};
use crate::random::Random;
use crate::texts;
use crate::trees::{listed, Tree};
use crate::triples::{all, choose, has_three, members, one, triples, without_fans, FAN};
use crate::writer;

/// A check of a candidate with more species than this, past PC, counts as slow: it takes this
/// program some tenths of a second.
const SLOW_ABOVE: u32 = 32;

/// The most species with which a call is made once more.
const AGAIN_UP_TO: u64 = 16;

pub struct Inputs {
    random: Random,
    slow_checks: usize,
    large: usize,
    again: Option<Call>,
}

impl Inputs {
    pub fn new(seed: u64) -> Inputs {
        Inputs { random: Random::new(seed), slow_checks: 0, large: 0, again: None }
    }

    /// How many slow checks were made, and how many calls with more than 48 species.
    pub fn made(&self) -> (usize, usize) {
        (self.slow_checks, self.large)
    }

    /// A random call, or the last one with other fans in its table. At most as many slow checks are made, over all calls,
    /// as are allowed by now.
    pub fn call(&mut self, slow_allowed: usize) -> Call {
        if let Some(call) = self.again.take() {
            return call;
        }
        let call = self.new_call(slow_allowed);
        if self.random.chance(1, 4) {
            self.again = self.with_other_fans(&call);
        }
        call
    }

    /// The call with other fans in its table, none of them outside its set.
    fn with_other_fans(&mut self, call: &Call) -> Option<Call> {
        let mut call = call.clone();
        let (n, set, table) = match &mut call {
            Call::Build { n, set, table, .. } | Call::Veto { n, set, table, .. } => (*n, *set, table),
            Call::Check { n, table, .. } | Call::Loosen { n, table, .. } => (*n, u64::MAX, table),
            _ => return None,
        };
        if n > AGAIN_UP_TO {
            return None;
        }
        for ((a, b, c), byte) in triples(n as usize).zip(table) {
            if has_three(set, a, b, c) && self.random.chance(1, 3) {
                *byte ^= FAN;
            }
        }
        Some(call)
    }

    fn new_call(&mut self, slow_allowed: usize) -> Call {
        let n = self.species();
        if n > 48 {
            self.large += 1;
        }
        let letter = self.random.pick(b"rrrlllleeeoooobbbbbvvvvvcccccccxxxxxxnnnnnwwwww");
        match letter {
            b'r' => Call::Read { bytes: self.collection(n) },
            b'l' => {
                let bytes = self.collection(n);
                let table = self.lent_table(n);
                Call::List { bytes, table }
            }
            b'e' => self.enter(n),
            b'o' => self.order(n),
            b'b' => {
                let (table, papers) = self.table(n);
                let (n, set, table, room) = self.to_build(n, table, &papers);
                Call::Build { n, set, table, room }
            }
            b'v' => {
                let (table, papers) = if self.random.chance(1, 2) { self.table(n) } else { self.quarrel_table(n) };
                let (n, set, table, room) = self.to_build(n, table, &papers);
                Call::Veto { n, set, table, room }
            }
            b'n' => self.parse(n),
            b'w' => self.render(n),
            b'x' => self.loosen(n),
            _ => self.check(n, slow_allowed),
        }
    }

    /// A number of species: mostly tiny, now and then large.
    fn species(&mut self) -> usize {
        match self.random.below(1000) {
            0..=934 => self.random.pick(&[1, 2, 3, 3, 4, 4, 4, 5, 5, 5, 6, 6, 6, 7, 7, 8, 8]),
            935..=983 => self.random.between(9, 16),
            984..=993 => self.random.between(17, 48),
            994..=996 => 64,
            _ => self.random.between(49, 64),
        }
    }

    /// n as it is handed in: now and then one that is refused.
    fn handed(&mut self, n: usize) -> u64 {
        if !self.random.chance(1, 16) {
            return n as u64;
        }
        let n = n as u64;
        let wrong = [
            0,
            65,
            66,
            128,
            255,
            256,
            256 + n,
            65_536 + n,
            1 << 32,
            (1 << 32) + n,
            1 << 63,
            (1 << 63) + n,
            u64::MAX,
            u64::MAX - n,
        ];
        self.random.pick(&wrong)
    }

    /// Bytes that stand in a lent slice before the call.
    fn pattern(&mut self, length: usize) -> Vec<u8> {
        match self.random.below(4) {
            0 => vec![9; length],
            1 => (0..length).map(|i| i as u8).collect(),
            2 => vec![self.random.byte(); length],
            _ => (0..length).map(|_| self.random.byte()).collect(),
        }
    }

    /// A length that is mostly the right one, and otherwise near it or far from it.
    fn length(&mut self, right: usize) -> usize {
        if !self.random.chance(1, 12) {
            return right;
        }
        match self.random.below(7) {
            0 => right + 1,
            1 => right.saturating_sub(1),
            2 => 0,
            3 => right / 2,
            4 => right + self.random.below(20),
            5 => right.saturating_sub(self.random.below(20)),
            _ => self.random.pick(&[1, 2, 4, 10, 20, 35, 56, 84]),
        }
    }

    /// The length of a lent room: exactly enough, one short, more, or much too short.
    fn room(&mut self, enough: usize) -> Vec<u8> {
        let length = match self.random.below(16) {
            0..=5 => enough,
            6..=11 => enough + self.random.between(1, 12),
            12 => enough + 200,
            13 => enough.saturating_sub(1),
            14 => enough.saturating_sub(self.random.between(1, 6)),
            _ => self.random.below(enough.max(1)),
        };
        self.pattern(length)
    }

    fn lent_table(&mut self, n: usize) -> Vec<u8> {
        let length = self.length(choose(n, 3));
        self.pattern(length)
    }

    /// The lengths of pieces of up to `most` bytes for so many bytes.
    pub fn pieces(&mut self, bytes: usize, most: usize) -> Vec<usize> {
        let mut pieces = Vec::new();
        let mut given = 0;
        while given < bytes {
            let piece = self.random.between(1, most);
            pieces.push(piece);
            given += piece;
        }
        pieces
    }

    // ---- trees

    /// Some of the n species, at least one.
    fn some_species(&mut self, n: usize) -> u64 {
        let set = match self.random.below(4) {
            0 | 1 => all(n),
            2 => self.random.next() & all(n),
            _ => (0..self.random.between(1, 5)).fold(0, |set, _| set | one(self.random.below(n))),
        };
        if set == 0 {
            one(self.random.below(n))
        } else {
            set
        }
    }

    /// A tree with exactly these species: a star, fully nested, balanced, or anything.
    fn tree(&mut self, set: u64) -> Tree {
        let mut left: Vec<Tree> = members(set).map(Tree::Leaf).collect();
        self.random.shuffle(&mut left);
        let shape = self.random.below(8);
        if shape == 0 && left.len() > 1 {
            return Tree::Inner(left);
        }
        while left.len() > 1 {
            match shape {
                1 => {
                    let (one, two) = (left.remove(0), left.remove(0));
                    left.insert(0, Tree::Inner(vec![one, two]));
                }
                2 => {
                    let (one, two) = (left.remove(0), left.remove(0));
                    left.push(Tree::Inner(vec![one, two]));
                }
                _ => {
                    let wide = if shape < 6 { 2 } else { self.random.between(2, 4) };
                    let count = wide.min(left.len());
                    let mut children = Vec::new();
                    for _ in 0..count {
                        children.push(left.remove(self.random.below(left.len())));
                    }
                    left.push(Tree::Inner(children));
                }
            }
        }
        left.remove(0)
    }

    /// The tree without some inner nodes: the children of each such node go to its parent.
    fn contracted(&mut self, tree: &Tree, hits: usize, of: usize) -> Tree {
        let Tree::Inner(children) = tree else { return tree.clone() };
        let mut kept = Vec::new();
        for child in children {
            match self.contracted(child, hits, of) {
                Tree::Inner(below) if self.random.chance(hits, of) => kept.extend(below),
                other => kept.push(other),
            }
        }
        Tree::Inner(kept)
    }

    /// A tree as it is, with some species left out, with some edges contracted, or both.
    fn less(&mut self, tree: &Tree) -> Tree {
        let mut less = tree.clone();
        if self.random.chance(1, 2) {
            let keep = self.random.next() | self.random.next();
            less = less.cut(keep).unwrap_or(less);
        }
        if self.random.chance(1, 3) {
            let of = self.random.between(2, 5);
            less = self.contracted(&less, 1, of);
        }
        less
    }

    /// A body of the tree: in house order, or with its nodes in any order that the rules allow.
    fn body(&mut self, tree: &Tree) -> Vec<u8> {
        if self.random.chance(1, 3) {
            return tree.house_order();
        }
        let mut body = Vec::new();
        let mut waiting = vec![(255, tree)];
        while !waiting.is_empty() {
            let (parent, next) = waiting.swap_remove(self.random.below(waiting.len()));
            let own = (body.len() / 2) as u8;
            match next {
                Tree::Leaf(i) => body.extend([parent, *i as u8]),
                Tree::Inner(children) => {
                    body.extend([parent, 255]);
                    waiting.extend(children.iter().map(|child| (own, child)));
                }
            }
        }
        body
    }

    /// The body with a thing or two wrong; now and then it is still good.
    fn damaged(&mut self, n: usize, body: &[u8]) -> Vec<u8> {
        let once = self.damaged_once(n, body.to_vec());
        if self.random.chance(1, 4) {
            self.damaged_once(n, once)
        } else {
            once
        }
    }

    fn damaged_once(&mut self, n: usize, mut body: Vec<u8>) -> Vec<u8> {
        let nodes = body.len() / 2;
        let node = self.random.below(nodes.max(1));
        let other = self.random.below(nodes.max(1));
        match self.random.below(18) {
            0 if nodes > 0 => body[0] = self.random.pick(&[0, 1, 254]),
            1 if nodes > 0 => body[2 * node] = node as u8,
            2 if nodes > 0 => body[2 * node] = (node + 1 + self.random.below(3)) as u8,
            3 if nodes > 0 => body[2 * node] = self.random.pick(&[0, 1, 127, 254, 255]),
            4 if nodes > 0 => body[2 * node] = self.random.below(node + 1) as u8,
            5 if nodes > 0 => body[2 * node + 1] = self.random.pick(&[n as u8, 64, 254, 255, 0]),
            6 if nodes > 0 => body[2 * node + 1] = body[2 * other + 1],
            7 if nodes > 0 => body[2 * node + 1] = self.random.below(n) as u8,
            8 if nodes > 0 => {
                // a leaf gets itself as its only child
                let species = body[2 * node + 1];
                body[2 * node + 1] = 255;
                body.extend([node as u8, species]);
            }
            9 => {
                // an only child, then a repeated species or the other way round
                let species = self.random.below(n) as u8;
                body.extend([node as u8, species]);
            }
            10 => body.truncate(body.len().saturating_sub(2)),
            11 => body.truncate(body.len().saturating_sub(self.random.between(1, 5))),
            12 => body.push(self.random.byte()),
            13 => body.clear(),
            14 => {
                // all the lengths about the largest
                let length = self.random.pick(&[252, 253, 254, 255, 256, 258]);
                while body.len() < length {
                    let parent = self.random.below(body.len() / 2 + 1) as u8;
                    body.extend([parent, self.random.below(n + 1) as u8]);
                }
                body.truncate(length);
            }
            15 => {
                // nodes from a small alphabet
                body.clear();
                for own in 0..self.random.between(1, 6) {
                    let parent = if own == 0 { 255 } else { self.random.below(own) as u8 };
                    let species = self.random.pick(&[255, 255, 0, 1, 2, 3, n as u8 - 1]);
                    body.extend([parent, species]);
                }
            }
            16 if nodes > 1 => {
                // two nodes change places
                for k in 0..2 {
                    body.swap(2 * node + k, 2 * other + k);
                }
            }
            _ if !body.is_empty() => {
                for _ in 0..self.random.between(1, 3) {
                    let place = self.random.below(body.len());
                    body[place] = self.random.byte();
                }
            }
            _ => body.push(0),
        }
        body
    }

    /// A tree of some of the n species, and its body, which is mostly good.
    fn any_body(&mut self, n: usize) -> (Tree, Vec<u8>) {
        let set = self.some_species(n);
        let tree = self.tree(set);
        let mut body = self.body(&tree);
        if self.random.chance(1, 4) {
            body = self.damaged(n, &body);
        }
        (tree, body)
    }

    /// n, and good bodies: of one tree, in some orders of its nodes, and of trees that are much like it.
    pub fn family(&mut self) -> (usize, Vec<Vec<u8>>) {
        let n = if self.random.chance(1, 3) { self.random.between(9, 64) } else { self.species() };
        let set = self.some_species(n);
        let tree = self.tree(set);
        let mut trees = vec![tree.clone(), tree.clone(), tree.clone()];
        trees.push(self.less(&tree));
        trees.push(self.contracted(&tree, 1, 6));
        trees.push(self.exchanged(&tree, &(0..n).collect::<Vec<_>>()));
        (n, trees.iter().map(|tree| self.body(tree)).collect())
    }

    /// The tree with two of these species in each other's place.
    fn exchanged(&mut self, tree: &Tree, species: &[usize]) -> Tree {
        let place = self.random.below(species.len());
        let apart = self.random.below(species.len().max(2) - 1) + 1;
        let (one, two) = (species[place], species[(place + apart) % species.len()]);
        tree.renamed(&|species| match species {
            species if species == one => two,
            species if species == two => one,
            species => species,
        })
    }

    /// n, and a text of a good tree.
    pub fn good_text(&mut self) -> (u64, Vec<u8>) {
        let n = self.species();
        let set = self.some_species(n);
        let tree = self.tree(set);
        (n as u64, texts::written(&tree, &mut self.random))
    }

    /// Trees of one collection: all of one tree, so that some tree holds them all, or each its own. In one of
    /// four collections some species may occur nowhere.
    fn papers(&mut self, n: usize, count: usize) -> Vec<Tree> {
        let occur = if self.random.chance(1, 4) { self.some_species(n) } else { all(n) };
        if self.random.chance(1, 2) {
            let whole = self.tree(occur);
            (0..count).map(|_| self.less(&whole)).collect()
        } else {
            (0..count)
                .map(|_| {
                    let set = self.some_species(n) & occur;
                    self.tree(if set == 0 { occur } else { set })
                })
                .collect()
        }
    }

    /// Trees of one collection that mostly quarrel: one tree, and others much like it with two species exchanged, so that
    /// they quarrel in a part of it; or each its own.
    fn quarrel(&mut self, n: usize) -> Vec<Tree> {
        let count = self.random.between(2, 5);
        if self.random.chance(1, 3) {
            return self.papers(n, count);
        }
        let occur = if self.random.chance(1, 4) { self.some_species(n) } else { all(n) };
        let species: Vec<usize> = members(occur).collect();
        let whole = self.tree(occur);
        let mut papers = vec![whole.clone()];
        for _ in 1..count {
            let less = self.less(&whole);
            papers.push(self.exchanged(&less, &species));
        }
        papers
    }

    fn quarrel_table(&mut self, n: usize) -> (Vec<u8>, Vec<Tree>) {
        let papers = self.quarrel(n);
        (listed(n, &papers), papers)
    }

    /// n, and a collection whose trees mostly quarrel.
    pub fn quarrel_collection(&mut self) -> (usize, Vec<u8>) {
        let n = self.species().max(4);
        let papers = self.quarrel(n);
        (n, self.collection_of(n, &papers))
    }

    /// Trees of one collection with three or four species each, all of one tree: they leave much open. Now and then two
    /// species are exchanged in one, which may then quarrel with the others.
    fn small_papers(&mut self, n: usize) -> Vec<Tree> {
        let whole = self.tree(all(n));
        let mut species: Vec<usize> = (0..n).collect();
        (0..self.random.between(2, (n / 2 + 2).min(16)))
            .map(|_| {
                self.random.shuffle(&mut species);
                let few = &species[..self.random.between(3, 4).min(n)];
                let keep = few.iter().fold(0, |set, &i| set | one(i));
                let paper = whole.cut(keep).expect("some species are left");
                if self.random.chance(1, 20) {
                    self.exchanged(&paper, few)
                } else {
                    paper
                }
            })
            .collect()
    }

    /// n, and a collection of small trees.
    pub fn small_collection(&mut self) -> (usize, Vec<u8>) {
        let n = self.species().max(4);
        let papers = self.small_papers(n);
        (n, self.collection_of(n, &papers))
    }

    /// One to 16 trees of up to n species, of any of these kinds; or small ones with a quarrel about few species.
    pub fn some_papers(&mut self, n: usize) -> Vec<Tree> {
        match self.random.below(5) {
            0 => self.quarrel(n),
            1 => self.small_papers(n),
            2 => {
                let mut papers = self.quarrel(n.min(4));
                papers.extend(self.small_papers(n));
                papers.truncate(16);
                papers
            }
            kind => {
                let count = if kind == 3 { self.random.between(1, 3) } else { self.random.between(4, 16) };
                self.papers(n, count)
            }
        }
    }

    // ---- collections

    pub fn collection(&mut self, n: usize) -> Vec<u8> {
        let count = match self.random.below(20) {
            0 => 0,
            1..=6 => 1,
            7..=14 => self.random.between(2, 3),
            15..=17 => self.random.between(4, 8),
            18 => self.random.between(9, 16),
            _ => self.random.pick(&[15, 16, 16, 17]),
        };
        let papers = self.papers(n, count);
        let mut bodies: Vec<Vec<u8>> = papers.iter().map(|t| self.body(t)).collect();
        let damages: Vec<usize> = match self.random.below(8) {
            0..=3 => vec![],
            4..=6 => vec![self.random.between(1, 13)],
            _ => vec![self.random.between(1, 13), self.random.between(1, 13)],
        };
        for damage in &damages {
            if (8..=10).contains(damage) && count > 0 {
                let k = self.random.below(count);
                bodies[k] = self.damaged(n, &bodies[k]);
            }
        }
        let mut bytes = vec![1, n as u8, count as u8];
        let mut starts = Vec::new();
        for body in &bodies {
            starts.push(bytes.len());
            bytes.extend((body.len() as u16).to_be_bytes());
            bytes.extend(body);
        }
        for damage in damages {
            self.damage_bytes(damage, count, &starts, &mut bytes);
        }
        bytes
    }

    /// Damage to a collection's bytes: its header, its lengths, its end, or anywhere.
    fn damage_bytes(&mut self, damage: usize, count: usize, starts: &[usize], bytes: &mut Vec<u8>) {
        if bytes.len() < 3 {
            return;
        }
        match damage {
            1 => bytes[0] = self.random.pick(&[0, 2, 255, 1, 129]),
            2 => bytes[1] = self.random.pick(&[0, 65, 128, 255, 64, 1, 2, 63]),
            3 => bytes[2] = self.random.pick(&[17, 255, 16, 0, 128]),
            4 => bytes[2] = (count + 1) as u8,
            5 => bytes[2] = count.saturating_sub(1) as u8,
            6 => bytes.truncate(self.random.below(bytes.len() + 1)),
            7 => bytes.truncate(self.random.below(6)),
            11 => {
                for _ in 0..self.random.between(1, 20) {
                    bytes.push(self.random.byte());
                }
            }
            12 if count > 0 => {
                let start = self.random.pick(starts);
                if start + 1 >= bytes.len() {
                    return;
                }
                let right = bytes[start] as usize * 256 + bytes[start + 1] as usize;
                let wrong = [
                    0,
                    1,
                    right + 1,
                    right + 2,
                    right.saturating_sub(2),
                    252,
                    253,
                    254,
                    255,
                    256,
                    257,
                    512 + right,
                    65_535,
                ];
                let length = self.random.pick(&wrong);
                bytes[start] = (length / 256) as u8;
                bytes[start + 1] = length as u8;
            }
            13 => {
                for _ in 0..self.random.between(1, 3) {
                    let place = self.random.below(bytes.len());
                    bytes[place] = self.random.byte();
                }
            }
            _ => {}
        }
    }

    /// A collection of n species for which shelf builds, mostly.
    pub fn good_collection(&mut self, n: usize, count: usize) -> Vec<u8> {
        let papers = self.papers(n, count);
        self.collection_of(n, &papers)
    }

    fn collection_of(&mut self, n: usize, papers: &[Tree]) -> Vec<u8> {
        let bodies: Vec<Vec<u8>> = papers.iter().map(|tree| self.body(tree)).collect();
        collection(n, &bodies.iter().map(Vec::as_slice).collect::<Vec<_>>())
    }

    /// The largest collection: 16 trees of 64 species, two children at each inner node.
    pub fn largest_collection(&mut self) -> Vec<u8> {
        let mut bytes = vec![1, 64, 16];
        for _ in 0..16 {
            let tree = loop {
                let tree = self.tree(all(64));
                if tree.preorder().len() == 254 {
                    break tree;
                }
            };
            bytes.extend([0, 254]);
            bytes.extend(self.body(&tree));
        }
        assert_eq!(bytes.len(), 4_099);
        bytes
    }

    // ---- tables

    /// A table without a byte over 15, and the trees that it was listed from where there are any.
    fn table(&mut self, n: usize) -> (Vec<u8>, Vec<Tree>) {
        let (mut table, papers) = self.table_of_any_kind(n);
        // fans more, here and there, or none at all
        let of = self.random.between(1, 12);
        match self.random.below(6) {
            0 => table.iter_mut().for_each(|byte| *byte |= if self.random.chance(1, of) { FAN } else { 0 }),
            1 => table = without_fans(&table),
            _ => {}
        }
        (table, papers)
    }

    fn table_of_any_kind(&mut self, n: usize) -> (Vec<u8>, Vec<Tree>) {
        let length = choose(n, 3);
        match self.random.below(10) {
            0 => (vec![0; length], Vec::new()),
            1 => ((0..length).map(|_| self.random.below(16) as u8).collect(), Vec::new()),
            2 | 3 => {
                let of = self.random.between(2, 12);
                let one_bit = (0..length)
                    .map(|_| if self.random.chance(1, of) { 1 << self.random.below(4) } else { 0 })
                    .collect();
                (one_bit, Vec::new())
            }
            kind => {
                let count = self.random.between(1, 4);
                let papers = self.papers(n, count);
                let mut table = listed(n, &papers);
                if kind >= 8 && length > 0 {
                    for _ in 0..self.random.between(1, 3) {
                        let place = self.random.below(length);
                        table[place] = self.random.below(16) as u8;
                    }
                }
                if kind == 7 {
                    let of = self.random.between(2, 6);
                    for byte in &mut table {
                        if self.random.chance(1, of) {
                            *byte = 0;
                        }
                    }
                }
                (table, papers)
            }
        }
    }

    /// The table with a wrong length or with bytes over 15, now and then.
    fn table_handed(&mut self, mut table: Vec<u8>) -> Vec<u8> {
        match self.random.below(24) {
            0 => {
                let length = self.length(table.len() + 1);
                table.resize(length, 0);
            }
            1 => {
                table.pop();
            }
            2 | 3 if !table.is_empty() => {
                for _ in 0..self.random.between(1, 3) {
                    let place = self.random.below(table.len());
                    table[place] = self.random.pick(&[15, 16, 17, 24, 128, 255]);
                }
            }
            4 if !table.is_empty() => {
                let place = self.random.pick(&[0, table.len() - 1]);
                table[place] = 16;
            }
            _ => {}
        }
        table
    }

    // ---- calls

    fn enter(&mut self, n: usize) -> Call {
        let count = match self.random.below(8) {
            0 => 0,
            1..=5 => self.random.between(1, 8),
            6 => self.random.between(9, 40),
            _ => self.random.between(1, 3 * choose(n.min(12), 3).max(1)),
        };
        let mut records: Vec<[u8; 3]> = Vec::new();
        for _ in 0..count {
            let mut species: Vec<u8> = (0..n as u8).collect();
            self.random.shuffle(&mut species);
            if n < 3 {
                species.extend([0, 1, 2]);
            }
            records.push([species[0], species[1], species[2]]);
        }
        if count > 0 && self.random.chance(1, 4) {
            // the same triplet again, with its close pair the other way round
            let [x, y, z] = self.random.pick(&records);
            records.push([y, x, z]);
        }
        if count > 0 && self.random.chance(1, 4) {
            for _ in 0..self.random.between(1, 2) {
                let record = self.random.below(records.len());
                let place = self.random.below(3);
                let from = self.random.below(3);
                records[record][place] = match self.random.below(4) {
                    0 => records[record][from],
                    1 => n as u8,
                    2 => self.random.pick(&[64, 65, 128, 254, 255]),
                    _ => self.random.byte(),
                };
            }
        }
        if n < 3 && self.random.chance(3, 4) {
            records.clear();
        }
        let table = self.lent_table(n);
        Call::Enter { n: self.handed(n), records, table }
    }

    fn order(&mut self, n: usize) -> Call {
        let (_, body) = self.any_body(n);
        let room = self.room(body.len());
        Call::Order { n: self.handed(n), body, room }
    }

    fn render(&mut self, n: usize) -> Call {
        let (tree, body) = self.any_body(n);
        let room = self.room(writer::length(&tree));
        Call::Render { n: self.handed(n), body, room }
    }

    /// A set to build over: the one that occurs, all n, one that has more or fewer species than the table speaks
    /// of, or a number that is no set of the n species.
    fn set(&mut self, n: usize, table: &[u8], papers: &[Tree]) -> u64 {
        let spoken = triples(n).zip(table).filter(|(_, &byte)| byte != 0);
        let spoken = spoken.fold(0, |set, ((a, b, c), _)| set | one(a) | one(b) | one(c));
        let occur = spoken | occur(papers);
        match self.random.below(32) {
            0..=8 => occur,
            9..=16 => all(n),
            17 | 18 => spoken,
            19..=21 => occur | self.random.next() & all(n),
            22..=25 => spoken & !one(self.random.below(n)),
            26 | 27 => occur & (self.random.next() | self.random.next()),
            28 => self.random.next() & all(n),
            29 => one(self.random.below(n)),
            30 => occur | one(self.random.below(64)),
            _ => {
                let any = self.random.next();
                self.random.pick(&[0, one(63), u64::MAX, one(n % 64), all(n) | one(n % 64), occur | one(n % 64), any])
            }
        }
    }

    /// n, a set, the table and a room, to be handed to one of the builds.
    fn to_build(&mut self, n: usize, table: Vec<u8>, papers: &[Tree]) -> (u64, u64, Vec<u8>, Vec<u8>) {
        let set = self.set(n, &table, papers);
        let table = self.table_handed(table);
        let room = self.room((4 * set.count_ones() as usize).saturating_sub(2));
        (self.handed(n), set, table, room)
    }

    /// A text of a tree, often of one that breaks a rule or is about as large as a text's may be; and
    /// often damaged.
    fn parse(&mut self, n: usize) -> Call {
        let tree = if self.random.chance(1, 20) {
            texts::large(&mut self.random)
        } else {
            let set = self.some_species(n);
            self.tree(set)
        };
        let tree = if self.random.chance(1, 3) { texts::wild(&tree, n, &mut self.random) } else { tree };
        let mut text = texts::written(&tree, &mut self.random);
        if self.random.chance(1, 100) {
            texts::stretch(&mut text, &mut self.random);
        }
        texts::read_again(&tree, &text);
        if self.random.chance(2, 5) {
            texts::damage(&mut text, &mut self.random);
        }
        let room = self.room(tree.preorder().len());
        Call::Parse { n: self.handed(n), text, room }
    }

    /// A table, and a tree to be held against it.
    fn table_and_candidate(&mut self, n: usize) -> (Vec<u8>, Tree) {
        if self.random.chance(1, 3) {
            // what the tree itself says, less a little: most of its triplets are forced
            let whole = self.tree(all(n));
            let tree = if self.random.chance(1, 3) { self.contracted(&whole, 1, 3) } else { whole };
            let of = self.random.between(2, 40);
            let says = tree.table(n);
            let table = says.iter().map(|&byte| if self.random.chance(1, of) { 0 } else { byte });
            return (table.collect(), tree);
        }
        let (table, papers) = self.table(n);
        let tree = match self.random.below(8) {
            0 | 1 if !papers.is_empty() => papers[self.random.below(papers.len())].clone(),
            2..=4 => match Entered::from_table(n, &table).build(all(n), Joined::Stops) {
                Ok(tree) => tree,
                Err(set) => self.tree(all(n) & !one(set.trailing_zeros() as usize) | one(0)),
            },
            5 if !papers.is_empty() => {
                let tree = papers[self.random.below(papers.len())].clone();
                self.less(&tree)
            }
            6 => match Entered::from_table(n, &table).build(all(n), Joined::Stops) {
                Ok(tree) => self.less(&tree),
                Err(_) => self.tree(all(n)),
            },
            _ => {
                let set = self.some_species(n);
                self.tree(set)
            }
        };
        (table, tree)
    }

    fn check(&mut self, n: usize, slow_allowed: usize) -> Call {
        let (mut table, mut tree) = self.table_and_candidate(n);
        // a candidate that resolves no triple passes every table: fewer of these
        if n > 2 && tree.triplets(n).iter().all(|&says| says == 0) && self.random.chance(3, 4) {
            (table, tree) = self.table_and_candidate(n);
        }
        let slow = tree.species().count_ones() > SLOW_ABOVE && contradiction(&tree.triplets(n), &table).is_none();
        if slow && self.slow_checks >= slow_allowed {
            // too many of these: a candidate with fewer of its species
            let mut species: Vec<usize> = members(tree.species()).collect();
            self.random.shuffle(&mut species);
            let keep = species[..SLOW_ABOVE as usize].iter().fold(0, |set, &i| set | one(i));
            tree = tree.cut(keep).expect("some species are left");
        } else if slow {
            self.slow_checks += 1;
            return Call::Check { n: n as u64, table, body: self.body(&tree) };
        }
        let mut body = self.body(&tree);
        if self.random.chance(1, 7) {
            body = self.damaged(n, &body);
        }
        let table = self.table_handed(table);
        Call::Check { n: self.handed(n), table, body }
    }

    /// A table, and a tree that its triplets mostly do not contradict, with groups which they mostly do not force.
    fn table_and_loose(&mut self, n: usize) -> (Vec<u8>, Tree) {
        match self.random.below(10) {
            0 => self.table_and_candidate(n),
            1..=3 => {
                let papers = if self.random.chance(1, 3) { self.quarrel(n) } else { self.small_papers(n) };
                let table = listed(n, &papers);
                let tree = Entered::from_table(n, &table).build(occur(&papers), Joined::Leaves);
                (table, tree.expect("the veto build never stops"))
            }
            4 | 5 => {
                // what a tree with fewer groups says
                let set = if self.random.chance(2, 3) { all(n) } else { self.some_species(n) };
                let tree = self.tree(set);
                let of = self.random.between(1, 4);
                (self.contracted(&tree, 1, of).table(n), tree)
            }
            _ => {
                // some of what the tree itself says
                let set = if self.random.chance(2, 3) { all(n) } else { self.some_species(n) };
                let tree = self.tree(set);
                let (kept, of) = self.random.pick(&[(1, 4), (1, 2), (1, 2), (2, 3), (3, 4), (5, 6), (9, 10), (19, 20)]);
                let says = tree.table(n);
                let table = says.iter().map(|&byte| if self.random.chance(kept, of) { byte } else { 0 });
                (table.collect(), tree)
            }
        }
    }

    /// The list that is lent to loosening: mostly of 62 places or some more.
    fn list(&mut self) -> Vec<u64> {
        let places = match self.random.below(24) {
            0 => self.random.below(PLACES),
            1 => PLACES - 1,
            2..=11 => PLACES,
            _ => self.random.between(PLACES, PLACES + 8),
        };
        match self.random.below(4) {
            0 => vec![7; places],
            1 => (0..places as u64).map(|k| u64::MAX - k).collect(),
            2 => vec![self.random.next(); places],
            _ => (0..places).map(|_| self.random.next()).collect(),
        }
    }

    fn loosen(&mut self, n: usize) -> Call {
        let (mut table, mut tree) = self.table_and_loose(n);
        // a candidate without a group below its root loses none: fewer of these
        if n > 2 && tree.groups().len() < tree.species().count_ones() as usize + 2 && self.random.chance(3, 4) {
            (table, tree) = self.table_and_loose(n);
        }
        let tree = if self.random.chance(1, 12) { self.exchanged(&tree, &(0..n).collect::<Vec<_>>()) } else { tree };
        let mut body = self.body(&tree);
        if self.random.chance(1, 7) {
            body = self.damaged(n, &body);
        }
        let table = self.table_handed(table);
        let room = self.room(body.len());
        Call::Loosen { n: self.handed(n), table, body, room, list: self.list() }
    }
}

/// The species of these trees.
fn occur(papers: &[Tree]) -> u64 {
    papers.iter().fold(0, |set, tree| set | tree.species())
}
