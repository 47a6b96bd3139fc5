//! Inputs for shelf, each a run of its own.

use crate::exhaustive::{collection, trees};
use crate::inputs::Inputs;
use crate::programs::Feed;
use crate::random::Random;
use crate::shelf::{shelf, LOOKED_AT};

/// How many random collections there are beside those of chosen lengths.
const RANDOM: usize = 260;

pub fn cases(seed: u64) -> Vec<(String, Vec<u8>, Feed, Vec<u8>)> {
    let mut random = Random::new(seed);
    let mut inputs = Inputs::new(random.next());
    let mut collections: Vec<(String, Vec<u8>)> = Vec::new();

    // about the largest collection, and beyond what is looked at
    let largest = inputs.largest_collection();
    for length in [4_098, 4_099, 4_100, 4_101, 4_102, 4_200, 8_200, 65_536, 200_000] {
        let mut bytes = largest.clone();
        bytes.resize(length, 0);
        collections.push((format!("the largest, at {length} bytes"), bytes));
    }
    // the same where the end of what is looked at cuts a tree, or a length, or nothing
    for length in [LOOKED_AT - 1, LOOKED_AT, LOOKED_AT + 1, 5_000] {
        for trees in [16, 15] {
            let mut bytes = largest.clone();
            bytes[2] = trees;
            bytes[3 + 15 * 256 + 1] = 252;
            bytes.resize(length, 1);
            collections.push((format!("{trees} trees, at {length} bytes"), bytes));
        }
    }
    for count in [0, 1, 2, 3, 16] {
        collections.push((format!("64 species, {count} trees"), inputs.good_collection(64, count)));
    }
    // no tree, and so no species that occurs; and every tree on any of four species, or of seven numbered 1, 3, 4 and 6
    for n in [1, 2, 3, 63, 64] {
        collections.push((format!("{n} species, no tree"), collection(n, &[])));
    }
    for (k, tree) in trees(4).iter().enumerate() {
        let spread = tree.renamed(&|species| [1, 3, 4, 6][species]);
        collections.push((format!("tree {k} on any of four species"), collection(4, &[&tree.house_order()])));
        collections.push((format!("tree {k} spread over seven"), collection(7, &[&spread.house_order()])));
    }
    // every two trees on any of three species out of five
    for (k, one) in trees(3).iter().enumerate() {
        for (m, two) in trees(3).iter().enumerate() {
            let [one, two] = [one, two].map(|tree| tree.renamed(&|species| species + 1).house_order());
            collections.push((format!("trees {k} and {m} on any of three species"), collection(5, &[&one, &two])));
        }
    }
    for k in 0..RANDOM {
        let n = match k % 20 {
            0 => random.between(17, 64),
            1..=3 => random.between(9, 16),
            _ => random.between(1, 8),
        };
        let bytes = if k % 3 == 0 {
            let count = random.between(0, 4);
            inputs.good_collection(n, count)
        } else {
            inputs.collection(n)
        };
        collections.push((format!("collection {k} of seed {seed}"), bytes));
    }
    let mut cases = Vec::new();
    for (k, (name, bytes)) in collections.into_iter().enumerate() {
        let says = shelf(&bytes).into_bytes();
        if k < 22 || k % 5 == 0 {
            let most = random.between(1, 100);
            let pieces = inputs.pieces(bytes.len().min(6_000), most);
            let named = format!("{name}, in pieces of up to {most} bytes");
            cases.push((named, bytes.clone(), Feed::Pieces(pieces), says.clone()));
        }
        cases.push((name, bytes, Feed::Whole, says));
    }
    cases
}
