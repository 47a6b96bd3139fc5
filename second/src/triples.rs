//! Sets of species and triples (document 01, "Species, sets, triples").

/// How many ways there are to take k things out of n.
pub fn choose(n: usize, k: usize) -> usize {
    let mut ways = 1;
    for i in 0..k {
        if n <= i {
            return 0;
        }
        ways = ways * (n - i) / (i + 1);
    }
    ways
}

/// The index of the triple a < b < c.
pub fn index(a: usize, b: usize, c: usize) -> usize {
    assert!(a < b && b < c);
    choose(c, 3) + choose(b, 2) + a
}

/// All triples of n species, in index order.
pub fn triples(n: usize) -> impl Iterator<Item = (usize, usize, usize)> {
    (0..n).flat_map(|c| (0..c).flat_map(move |b| (0..b).map(move |a| (a, b, c))))
}

/// The set of all n species.
pub fn all(n: usize) -> u64 {
    (0..n).fold(0, |set, i| set | one(i))
}

pub fn one(i: usize) -> u64 {
    1 << i
}

pub fn has(set: u64, i: usize) -> bool {
    set & one(i) != 0
}

/// Does the set have all three?
pub fn has_three(set: u64, a: usize, b: usize, c: usize) -> bool {
    has(set, a) && has(set, b) && has(set, c)
}

/// The species of a set, the lowest first.
pub fn members(mut set: u64) -> impl Iterator<Item = usize> {
    std::iter::from_fn(move || {
        if set == 0 {
            return None;
        }
        let lowest = set.trailing_zeros() as usize;
        set &= !one(lowest);
        Some(lowest)
    })
}

/// The bit of a table's byte that stands for a fan (document 02, T-05).
pub const FAN: u8 = 8;

/// A table's triplets, without its fans: "build and check use only the bits 1, 2 and 4".
pub fn without_fans(table: &[u8]) -> Vec<u8> {
    table.iter().map(|byte| byte & !FAN).collect()
}

/// The three bits of a table's byte for the triple a < b < c, each with its triplet:
/// the close pair and the third.
pub fn triplets_on(a: usize, b: usize, c: usize) -> [(u8, (usize, usize, usize)); 3] {
    [(1, (a, b, c)), (2, (a, c, b)), (4, (b, c, a))]
}
