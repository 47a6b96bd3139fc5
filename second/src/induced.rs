//! Induction in the words of source document 004 (document 02, T-08): "a set of triplets induces t when some part of it can
//! be held by one tree, and that part together with either other triplet on the same species cannot". Up to four species, by
//! all parts and all trees.

use std::sync::OnceLock;

use crate::trees::{subsets, tables_of_all_trees};
use crate::triples::{all, choose, has, members, one};

/// Up to so many species: four of them have 12 triplets, and 4,096 sets of these.
pub const FEW: usize = 4;

/// The triplets of a table as one set: three bits for each triple, in index order, as they stand in its byte. Fans are
/// left out.
fn triplets(table: &[u8]) -> u64 {
    table.iter().rev().fold(0, |set, byte| set << 3 | u64::from(byte & 7))
}

/// The two other triplets on the same species.
fn others(triplet: usize) -> [usize; 2] {
    let first = triplet - triplet % 3;
    [1, 2].map(|step| first + (triplet + step) % 3)
}

/// All sets of triplets of n species, a place for each.
struct Sets {
    /// Can one tree, with exactly the n species, hold it?
    held: Vec<bool>,
    /// The triplets that it induces.
    induced: Vec<u64>,
}

impl Sets {
    /// Those of n species, which are found once.
    fn of(n: usize) -> &'static Sets {
        static SETS: [OnceLock<Sets>; FEW + 1] = [const { OnceLock::new() }; FEW + 1];
        SETS[n].get_or_init(|| Sets::found(n))
    }

    fn found(n: usize) -> Sets {
        let count = 3 * choose(n, 3);
        let trees = trees_on(all(n));
        let held = (0..one(count)).map(|set| trees.iter().any(|tree| set & !tree == 0)).collect();
        let mut sets = Sets { held, induced: Vec::new() };
        let induced = |set| subsets(set).into_iter().fold(0, |found, part| found | sets.shown_by(part, count));
        sets.induced = (0..one(count)).map(induced).collect();
        sets.look_over(n);
        sets
    }

    fn held(&self, set: u64) -> bool {
        self.held[set as usize]
    }

    fn induced(&self, set: u64) -> u64 {
        self.induced[set as usize]
    }

    /// Whether the set can be held together with neither of the two other triplets.
    fn neither_other(&self, set: u64, triplet: usize) -> bool {
        others(triplet).iter().all(|&other| !self.held(set | one(other)))
    }

    /// The triplets that this part shows to be induced, out of so many; none where no tree holds it.
    fn shown_by(&self, part: u64, count: usize) -> u64 {
        let shown = |&triplet: &usize| self.held(part) && self.neither_other(part, triplet);
        (0..count).filter(shown).fold(0, |set, triplet| set | one(triplet))
    }

    /// What the paper says besides: a set that a tree holds induces what all of it shows (Definition 4), which is what every
    /// tree has that holds it (Definition 2, "une définition alternative"). And its trees may have any leaves: all trees on
    /// any of five species hold the same sets.
    fn look_over(&self, n: usize) {
        let count = 3 * choose(n, 3);
        let trees = trees_on(all(n));
        let any: Vec<u64> = subsets(all(5)).into_iter().flat_map(trees_on).collect();
        for set in 0..one(count) {
            assert_eq!(self.held(set), any.iter().any(|tree| set & !tree == 0), "held by a tree on any species");
            if self.held(set) {
                assert_eq!(self.induced(set), self.shown_by(set, count), "induced by a part, and by all of it");
                let every = trees.iter().filter(|&tree| set & !tree == 0).fold(u64::MAX, |both, tree| both & tree);
                assert_eq!(self.induced(set), every, "induced, and held by every tree that holds the set");
            }
        }
    }
}

/// The triplets of each tree with exactly the species of a set.
fn trees_on(set: u64) -> Vec<u64> {
    tables_of_all_trees(set).iter().map(|says| triplets(says)).collect()
}

/// What the paper's PC and PI say of a candidate.
#[derive(Debug, PartialEq, Eq)]
pub enum Verdict {
    Both,
    /// PC fails: R induces another triplet than the candidate's on the same species.
    NoPc,
    /// PC holds and PI fails: the first triple in index order whose triplet R does not induce.
    NoPi(usize),
}

/// The verdict on a candidate by its own triplets and R, both as tables of n species.
pub fn verdict(n: usize, own: &[u8], r: &[u8]) -> Verdict {
    let (own, induced) = (triplets(own), Sets::of(n).induced(triplets(r)));
    if !pc(own, induced) {
        return Verdict::NoPc;
    }
    match first_not_induced(own, induced) {
        Some(triplet) => Verdict::NoPi(triplet / 3),
        None => Verdict::Both,
    }
}

/// PC: for every triplet of the tree, R induces neither of the others.
fn pc(own: u64, induced: u64) -> bool {
    members(own).all(|triplet| others(triplet).iter().all(|&other| !has(induced, other)))
}

/// PI: R induces every triplet of the tree. The first for which this fails.
fn first_not_induced(own: u64, induced: u64) -> Option<usize> {
    members(own).find(|&triplet| !has(induced, triplet))
}

/// Tables with candidates, and of how many something is true.
#[derive(Debug, Default, PartialEq, Eq)]
struct Counts {
    all: usize,
    pass: usize,
    contradicted: usize,
    /// No tree holds R.
    unheld: usize,
    /// PI of document 01 holds, and the paper's does not.
    loose: usize,
}

/// Every table of n species without fans, with every tree on any of them: PC and PI of the paper, and of document 01, all
/// of it over trees. They have to stand to each other as source document 000 says: Propositions 1 and 2, and the lines
/// below it.
fn count(n: usize) -> Counts {
    let sets = Sets::of(n);
    let mut counts = Counts::default();
    for own in subsets(all(n)).into_iter().flat_map(trees_on) {
        let resolved = members(own).fold(0, |set, triplet| set | 7 << (triplet - triplet % 3));
        for table in 0..one(3 * choose(n, 3)) {
            let r = table & resolved;
            let (held, induced) = (sets.held(r), sets.induced(r));
            let (pc, pi) = (pc(own, induced), first_not_induced(own, induced).is_none());
            let pi_of_01 = members(own).all(|triplet| sets.neither_other(r, triplet));
            assert_eq!(pc, sets.held(own | r), "PC, of the paper and of document 01");
            assert_eq!(pc, r & !own == 0, "PC, and R has no triplet but the tree's");
            if held {
                assert_eq!(pi, pi_of_01, "PI, of the paper and of document 01, where a tree holds R");
            } else {
                assert!(pi_of_01 && !pc, "where no tree holds R, PI of document 01 holds and PC fails");
            }
            assert_eq!(pc && pi, held && induced == own, "PC and PI, and R identifies the tree");
            counts.all += 1;
            counts.pass += usize::from(pc && pi);
            counts.contradicted += usize::from(!pc);
            counts.unheld += usize::from(!held);
            counts.loose += usize::from(pi_of_01 && !pi);
        }
    }
    counts
}

/// Looks at all tables of three species, and of four, with all candidates; prints how many of four are what.
pub fn tell() {
    // by hand: 10 trees with 8 tables each. 7 trees have no triplet, and pass. The other 3 pass with their own triplet alone,
    // and without any they fail PI. 6 tables have another, 4 of these more than one, and 1 of these 4 not the tree's own.
    assert_eq!(count(3), Counts { all: 80, pass: 59, contradicted: 18, unheld: 12, loose: 3 });
    let Counts { all, pass, contradicted, unheld, loose } = count(FEW);
    println!("second: by the paper's own words, of {all} tables with candidates of {FEW} species, {pass} pass PC and PI, {contradicted} fail PC; no tree holds R in {unheld} of these, and {loose} of them fail PI where document 01's holds");
}
