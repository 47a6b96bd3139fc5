//! The ten operations (document 01, "Numbers handed back", and document 02, T-01 to T-03 and T-05 to T-09).

use crate::entered::{build_numbered_anew, some_tree_holds, Entered, Joined};
use crate::grammar::{self, LONGEST_SEARCHED};
use crate::induced::{self, Verdict};
use crate::loosening::{coarser, loosened};
use crate::newick;
use crate::random::Random;
use crate::trees::{broken_rule, listed, Fault, Tree};
use crate::triples::{all, choose, has, has_three, index, one, triples, triplets_on, without_fans, FAN};
use crate::writer;

#[derive(Clone, Debug, PartialEq, Eq)]
pub enum Refusal {
    Version,
    Size,
    Short { tree: usize },
    LeftOver { count: usize },
    BodyLength { tree: usize },
    TreeRule { tree: usize, node: usize, fault: Fault },
    TableLength,
    TableByte { place: usize },
    Room,
    NoTree { set: u64 },
    Contradicted { triple: usize, byte: u8 },
    NotForced { triple: usize },
    Record { record: usize },
    Text { place: usize },
    Set,
    Outside { triple: usize },
}

impl Refusal {
    pub fn number(&self) -> u8 {
        match self {
            Refusal::Version => 1,
            Refusal::Size => 2,
            Refusal::Short { .. } => 3,
            Refusal::LeftOver { .. } => 4,
            Refusal::BodyLength { .. } => 5,
            Refusal::TreeRule { .. } => 6,
            Refusal::TableLength => 7,
            Refusal::TableByte { .. } => 8,
            Refusal::Room => 9,
            Refusal::NoTree { .. } => 10,
            Refusal::Contradicted { .. } => 11,
            Refusal::NotForced { .. } => 12,
            Refusal::Record { .. } => 13,
            Refusal::Text { .. } => 14,
            Refusal::Set => 15,
            Refusal::Outside { .. } => 16,
        }
    }
}

pub struct Collection {
    pub n: usize,
    pub trees: Vec<Tree>,
}

impl Collection {
    /// The set that occurs: the species of all the trees.
    pub fn species(&self) -> u64 {
        self.trees.iter().fold(0, |set, tree| set | tree.species())
    }
}

fn size(n: u64) -> Result<usize, Refusal> {
    if n == 0 || n > 64 {
        Err(Refusal::Size)
    } else {
        Ok(n as usize)
    }
}

fn table_length(n: usize, table: &[u8]) -> Result<(), Refusal> {
    if table.len() == choose(n, 3) {
        Ok(())
    } else {
        Err(Refusal::TableLength)
    }
}

fn table_bytes(table: &[u8]) -> Result<(), Refusal> {
    match table.iter().position(|&byte| byte > 15) {
        Some(place) => Err(Refusal::TableByte { place }),
        None => Ok(()),
    }
}

fn body_length(tree: usize, length: usize) -> Result<(), Refusal> {
    if length == 0 || length % 2 == 1 || length > 254 {
        Err(Refusal::BodyLength { tree })
    } else {
        Ok(())
    }
}

fn tree_of(tree: usize, n: usize, body: &[u8]) -> Result<Tree, Refusal> {
    match broken_rule(n, body) {
        Some((node, fault)) => Err(Refusal::TreeRule { tree, node, fault }),
        None => Ok(Tree::from_body(body)),
    }
}

/// Reads a collection.
pub fn read(bytes: &[u8]) -> Result<Collection, Refusal> {
    if bytes.is_empty() {
        return Err(Refusal::Short { tree: 0 });
    }
    if bytes[0] != 1 {
        return Err(Refusal::Version);
    }
    if bytes.len() < 3 {
        return Err(Refusal::Short { tree: 0 });
    }
    let n = size(bytes[1] as u64)?;
    let count = bytes[2] as usize;
    if count > 16 {
        return Err(Refusal::Size);
    }
    let mut rest = &bytes[3..];
    let mut trees = Vec::new();
    for tree in 0..count {
        if rest.len() < 2 {
            return Err(Refusal::Short { tree });
        }
        let length = rest[0] as usize * 256 + rest[1] as usize;
        rest = &rest[2..];
        body_length(tree, length)?;
        if rest.len() < length {
            return Err(Refusal::Short { tree });
        }
        trees.push(tree_of(tree, n, &rest[..length])?);
        rest = &rest[length..];
    }
    if !rest.is_empty() {
        return Err(Refusal::LeftOver { count: rest.len() });
    }
    Ok(Collection { n, trees })
}

/// Lists a collection's triplets and fans into the lent table. Returns the collection.
pub fn list(bytes: &[u8], table: &mut [u8]) -> Result<Collection, Refusal> {
    let collection = read(bytes)?;
    table_length(collection.n, table)?;
    table.copy_from_slice(&listed(collection.n, &collection.trees));
    Ok(collection)
}

/// Enters a list of triplets into the lent table. Returns n and the set that occurs.
pub fn enter(n: u64, records: &[[u8; 3]], table: &mut [u8]) -> Result<(usize, u64), Refusal> {
    let n = size(n)?;
    table_length(n, table)?;
    for (record, &[x, y, z]) in records.iter().enumerate() {
        let repeats = x == y || x == z || y == z;
        if repeats || [x, y, z].iter().any(|&s| s as usize >= n) {
            return Err(Refusal::Record { record });
        }
    }
    table.fill(0);
    for &[x, y, z] in records {
        let mut three = [x as usize, y as usize, z as usize];
        three.sort();
        let [a, b, c] = three;
        let third = z as usize;
        for (bit, (_, _, other)) in triplets_on(a, b, c) {
            if other == third {
                table[index(a, b, c)] |= bit;
            }
        }
    }
    let set = records.iter().flatten().fold(0, |set, &species| set | one(species as usize));
    Ok((n, set))
}

/// Puts a body into house order, in the lent room. Returns the node count.
pub fn order(n: u64, body: &[u8], room: &mut [u8]) -> Result<usize, Refusal> {
    let n = size(n)?;
    body_length(0, body.len())?;
    let ordered = tree_of(0, n, body)?.house_order();
    assert_eq!(ordered.len(), body.len());
    put_body(&ordered, room)
}

/// Writes a body to the front of a room that is long enough. Returns the node count.
fn put_body(body: &[u8], room: &mut [u8]) -> Result<usize, Refusal> {
    Ok(put(body, room)? / 2)
}

/// Writes bytes to the front of a room that is long enough. Returns how many.
fn put(bytes: &[u8], room: &mut [u8]) -> Result<usize, Refusal> {
    let front = room.get_mut(..bytes.len()).ok_or(Refusal::Room)?;
    front.copy_from_slice(bytes);
    Ok(bytes.len())
}

/// The first triple with a byte that is not 0 and a species outside the set.
fn outside(n: usize, set: u64, table: &[u8]) -> Option<usize> {
    triples(n).zip(table).position(|((a, b, c), &byte)| byte != 0 && !has_three(set, a, b, c))
}

/// What both builds refuse. Returns n, and the table without its fans.
fn buildable(n: u64, set: u64, table: &[u8], room: &[u8]) -> Result<(usize, Vec<u8>), Refusal> {
    let n = size(n)?;
    table_length(n, table)?;
    table_bytes(table)?;
    if set == 0 || set & !all(n) != 0 {
        return Err(Refusal::Set);
    }
    if let Some(triple) = outside(n, set, table) {
        return Err(Refusal::Outside { triple });
    }
    if room.len() < 4 * set.count_ones() as usize - 2 {
        return Err(Refusal::Room);
    }
    Ok((n, without_fans(table)))
}

/// What a build comes to: the tree on a set, or the set that stops; and the sets that were split or found joined, in order,
/// up to any stop.
#[derive(Debug, PartialEq, Eq)]
struct Built {
    tree: Result<Tree, u64>,
    visited: Vec<u64>,
}

/// The build on a set, done twice where the set has not all the species.
fn built(n: usize, set: u64, entered: &[u8], joined: Joined) -> Built {
    let mut visited = Vec::new();
    let tree = Entered::from_table(n, entered).build_visiting(set, joined, &mut visited);
    let built = Built { tree, visited };
    if set != all(n) {
        let mut visited = Vec::new();
        let tree = build_numbered_anew(set, entered, joined, &mut visited);
        assert_eq!(built, Built { tree, visited }, "the build, with the species as they are and numbered anew");
    }
    built
}

/// The most triples that a build over s species looks at: "for s species it is at most C(s+1,4)".
pub fn most_looked_at(s: usize) -> usize {
    choose(s + 1, 4)
}

/// The triples that a build over a set looked at: "for every set split, or found joined, the combinations of three of its
/// species, added up". They are at most as many as the request says; and as many exactly where each set with three species
/// or more has one species less than the one before it.
fn looked_at(set: u64, visited: &[u64]) -> usize {
    let sizes = visited.iter().map(|set| set.count_ones() as usize);
    let looked = sizes.clone().map(|size| choose(size, 3)).sum();
    let s = set.count_ones() as usize;
    assert!(looked <= most_looked_at(s), "{looked} triples looked at, of {s} species");
    let nested = sizes.filter(|&size| size > 2).eq((3..=s).rev());
    assert_eq!(looked == most_looked_at(s), nested, "the most triples are looked at, and the sets are nested");
    looked
}

/// The same by the veto build's tree: its groups are the sets that both builds visit, and a leaf has no three species. The
/// plain build visits those up to the first one that stops it.
fn looked_at_by_groups(veto: &Tree, stop: Option<u64>) -> usize {
    let groups = veto.groups();
    let last = stop.map_or(groups.len() - 1, |stop| groups.iter().position(|&group| group == stop).expect("a group"));
    groups[..=last].iter().map(|group| choose(group.count_ones() as usize, 3)).sum()
}

/// What both builds return: the node count or a refusal; and the triples that were looked at, which are 0 where nothing was
/// built: "refusal 10 returns it, any other returns 0 for it".
pub type Counted = (Result<usize, Refusal>, usize);

/// Builds the tree of a table over the species of a set, in the lent room.
pub fn build(n: u64, set: u64, table: &[u8], room: &mut [u8]) -> Counted {
    let (n, entered) = match buildable(n, set, table, room) {
        Ok(good) => good,
        Err(refusal) => return (Err(refusal), 0),
    };
    if n <= 5 {
        some_tree_holds(n, set, &entered); // holds the build against all trees
    }
    let Built { tree, visited } = built(n, set, &entered, Joined::Stops);
    let looked = looked_at(set, &visited);
    let veto = built(n, set, &entered, Joined::Leaves).tree.expect("the veto build never stops");
    assert_eq!(looked, looked_at_by_groups(&veto, tree.as_ref().err().copied()), "the triples, by sets and by groups");
    match tree {
        Err(set) => (Err(Refusal::NoTree { set }), looked),
        Ok(tree) => (put_body(&tree.preorder(), room), looked),
    }
}

/// Builds with a veto: the same, but where the links join a set, its species become leaves.
pub fn veto(n: u64, set: u64, table: &[u8], room: &mut [u8]) -> Counted {
    let (n, entered) = match buildable(n, set, table, room) {
        Ok(good) => good,
        Err(refusal) => return (Err(refusal), 0),
    };
    let vetoed = built(n, set, &entered, Joined::Leaves);
    let looked = looked_at(set, &vetoed.visited);
    if some_tree_holds(n, set, &entered) {
        let plain = built(n, set, &entered, Joined::Stops);
        assert_eq!(vetoed, plain, "the veto build is the plain one, and visits the same sets");
    }
    let tree = vetoed.tree.expect("the veto build never stops");
    assert_eq!(looked, looked_at_by_groups(&tree, None), "the triples, by sets and by groups");
    let own = tree.triplets(n);
    assert_eq!(contradicted(n, &own, &resolved(&own, &entered)), None, "the veto build's tree passes PC");
    if set.count_ones() <= 5 {
        assert!(Entered::from_table(n, &entered).keeps_the_veto_rule(&tree), "the veto build's rule, node by node");
    }
    assert!(tree.species() == set && tree == tree.sorted());
    (put_body(&tree.preorder(), room), looked)
}

/// Reads a Newick text into the lent room, as a body in the text's order. Returns the node count.
pub fn parse(n: u64, text: &[u8], room: &mut [u8]) -> Result<usize, Refusal> {
    let n = size(n)?;
    let read = newick::read(text);
    if text.len() <= LONGEST_SEARCHED {
        assert_eq!(read.as_ref().err().copied(), grammar::place(text), "the reader and the search over the rules");
    }
    let body = read.map_err(|place| Refusal::Text { place })?.preorder();
    body_length(0, body.len()).expect("a text gives no body of a bad length");
    tree_of(0, n, &body)?;
    put_body(&body, room)
}

/// Writes a body as Newick text in the lent room. Returns the text's length.
pub fn render(n: u64, body: &[u8], room: &mut [u8]) -> Result<usize, Refusal> {
    let n = size(n)?;
    body_length(0, body.len())?;
    let tree = tree_of(0, n, body)?;
    let text = writer::text(&tree);
    assert_eq!(text, writer::text_of_groups(&tree.groups()), "the text, by the tree and by its groups");
    assert_eq!(text.len(), writer::length(&tree), "the text's length, counted and by the tree");
    let read = newick::read(&text).map(|read| read.preorder());
    assert_eq!(read, Ok(tree.house_order()), "reading what was written gives the house-order body");
    put(&text, room)
}

/// Checks a candidate against a table.
pub fn check(n: u64, table: &[u8], body: &[u8]) -> Result<(), Refusal> {
    let (n, candidate) = checkable(n, table, body)?;
    checked(n, &candidate, table, 16)
}

/// What the check refuses before PC. Returns n and the candidate.
fn checkable(n: u64, table: &[u8], body: &[u8]) -> Result<(usize, Tree), Refusal> {
    let n = size(n)?;
    table_length(n, table)?;
    table_bytes(table)?;
    body_length(0, body.len())?;
    Ok((n, tree_of(0, n, body)?))
}

/// PC and then PI. Up to four species, the verdict has to be that of the paper's own words.
fn checked(n: usize, candidate: &Tree, table: &[u8], builds_up_to: usize) -> Result<(), Refusal> {
    let entered = without_fans(table);
    let forced = |()| match not_forced(n, candidate, &entered, builds_up_to) {
        Some(triple) => Err(Refusal::NotForced { triple }),
        None => Ok(()),
    };
    let verdict = not_contradicted(n, candidate, table).and_then(forced);
    if n <= induced::FEW {
        let own = candidate.triplets(n);
        let here = match verdict {
            Ok(()) => Verdict::Both,
            Err(Refusal::NotForced { triple }) => Verdict::NoPi(triple),
            Err(_) => Verdict::NoPc,
        };
        let by_the_paper = induced::verdict(n, &own, &resolved(&own, &entered));
        assert_eq!(here, by_the_paper, "the check, and the paper's own words");
    }
    verdict
}

/// PC, of a good candidate.
fn not_contradicted(n: usize, candidate: &Tree, table: &[u8]) -> Result<(), Refusal> {
    let own = candidate.triplets(n);
    match contradicted(n, &own, &resolved(&own, &without_fans(table))) {
        Some(triple) => Err(Refusal::Contradicted { triple, byte: table[triple] }),
        None => Ok(()),
    }
}

/// PI, for a candidate that passes PC: R with either of the two other triplets can be held by no tree. The first triple
/// for which this fails. It is found by trees or builds too, up to so many species.
fn not_forced(n: usize, candidate: &Tree, entered: &[u8], builds_up_to: usize) -> Option<usize> {
    let own = candidate.triplets(n);
    let mut r = resolved(&own, entered);
    let chain = Entered::from_table(n, &r);
    let groups = candidate.groups();
    for (triple, (a, b, c)) in triples(n).enumerate() {
        if own[triple] == 0 {
            continue;
        }
        for (bit, (x, y, z)) in triplets_on(a, b, c) {
            if bit == own[triple] {
                continue;
            }
            // The two groups just below the node where a, b and c meet: R never links two of
            // that node's children, and xy|z links only these two.
            let start = largest(&groups, x, y) | largest(&groups, y, x);
            let by_chain = chain.rules_out(start, x, y, z);
            if n <= builds_up_to {
                let before = r[triple];
                r[triple] |= bit;
                let none = !some_tree_holds(n, all(n), &r);
                r[triple] = before;
                assert_eq!(none, by_chain, "PI, by trees or builds and by the chain");
            }
            if !by_chain {
                return Some(triple);
            }
        }
    }
    None
}

/// How many places the list has at least that is lent to loosening.
pub const PLACES: usize = 62;

/// Loosens a candidate: drops its groups that are not earned. Writes the final tree in the lent room and the dropped sets
/// in the lent list. Returns the node count, and how many were dropped.
pub fn loosen(n: u64, table: &[u8], body: &[u8], room: &mut [u8], list: &mut [u64]) -> Result<(usize, usize), Refusal> {
    let (n, candidate) = checkable(n, table, body)?;
    not_contradicted(n, &candidate, table)?;
    if room.len() < body.len() || list.len() < PLACES {
        return Err(Refusal::Room);
    }
    let entered = without_fans(table);
    let (tree, dropped) = loosened(n, &candidate, &entered, &mut |_| 0);
    look_over(n, &candidate, &entered, &tree, &dropped);
    list[..dropped.len()].copy_from_slice(&dropped);
    Ok((put_body(&tree.preorder(), room)?, dropped.len()))
}

/// Holds a loosened tree against what the request says of it, and against other ways to find it.
fn look_over(n: usize, candidate: &Tree, entered: &[u8], tree: &Tree, dropped: &[u64]) {
    let sorted = |mut groups: Vec<u64>| {
        groups.sort();
        groups
    };
    let species = candidate.species().count_ones() as usize;
    assert!(dropped.len() <= species.saturating_sub(2) && dropped.len() <= PLACES);
    assert_eq!(*tree, tree.sorted());
    let both = sorted([tree.groups(), dropped.to_vec()].concat());
    assert_eq!(both, sorted(candidate.groups()), "the groups that are left and those that went are the candidate's");

    // the whole check
    if species <= 32 {
        let passes = |tree: &Tree| checked(n, tree, entered, 6).is_ok();
        assert!(passes(tree), "the loosened tree passes the check");
        assert_eq!(passes(candidate), dropped.is_empty(), "what passed before is left as it is, and nothing else");
        if n <= 5 {
            let mut finest: Vec<u64> = coarser(candidate).iter().filter(|t| passes(t)).flat_map(Tree::groups).collect();
            finest.sort();
            finest.dedup();
            assert_eq!(sorted(tree.groups()), finest, "all the groups of all trees without some groups that pass");
        }
    }

    // other orders
    if species <= 16 && !dropped.is_empty() {
        let last = loosened(n, candidate, entered, &mut |count| count - 1).0;
        assert_eq!(last, *tree, "the last one first");
        let mut random = Random::new(dropped.iter().fold(entered.len() as u64, |seed, set| seed.rotate_left(7) ^ set));
        let any = loosened(n, candidate, entered, &mut |count| random.below(count)).0;
        assert_eq!(any, *tree, "in any order");
    }
}

/// R: the entered triplets on triples that the candidate resolves.
pub fn resolved(own: &[u8], entered: &[u8]) -> Vec<u8> {
    own.iter().zip(entered).map(|(says, byte)| if *says == 0 { 0 } else { *byte }).collect()
}

/// PC: the candidate's triplets and R together can be held by one tree. Where they cannot, the first triple that shows it.
fn contradicted(n: usize, own: &[u8], r: &[u8]) -> Option<usize> {
    let both: Vec<u8> = own.iter().zip(r).map(|(x, y)| x | y).collect();
    let pc = some_tree_holds(n, all(n), &both);
    let found = contradiction(own, r);
    assert_eq!(pc, found.is_none(), "PC, over trees and bit by bit");
    found
}

/// The first triple of which the candidate holds a triplet and the table has another.
pub fn contradiction(own: &[u8], table: &[u8]) -> Option<usize> {
    (0..own.len()).find(|&i| own[i] != 0 && table[i] & !FAN & !own[i] != 0)
}

/// The largest group with x and without y.
fn largest(groups: &[u64], x: usize, y: usize) -> u64 {
    let those = groups.iter().filter(|&&g| has(g, x) && !has(g, y));
    *those.max_by_key(|g| g.count_ones()).expect("the leaf of x has it")
}
