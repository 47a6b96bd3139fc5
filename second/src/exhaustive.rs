//! All tables, sets, candidates and short lists up to four species, tables with fans, parts of what trees of five species hold, trees
//! of every number of species to be built, all short texts, those at the limits, and all rooms for a text.

use crate::calls::Call;
use crate::grammar::place;
use crate::limits::{cases, halves, ladder};
use crate::newick;
use crate::operations::PLACES;
use crate::trees::{all_trees, subsets, Tree};
use crate::triples::{all, choose, one, FAN};
use crate::writer;

/// Every table of n species that has these bytes.
fn tables(n: usize, bytes: impl Iterator<Item = u8> + Clone) -> Vec<Vec<u8>> {
    let mut tables = vec![Vec::new()];
    for _ in 0..choose(n, 3) {
        tables = tables
            .iter()
            .flat_map(|table: &Vec<u8>| {
                bytes.clone().map(move |byte| {
                    let mut longer = table.clone();
                    longer.push(byte);
                    longer
                })
            })
            .collect();
    }
    tables
}

/// Every set of the species but the empty one.
fn some_species(n: usize) -> Vec<u64> {
    subsets(all(n)).into_iter().filter(|&set| set != 0).collect()
}

/// Every tree on any of the species.
pub fn trees(n: usize) -> Vec<Tree> {
    some_species(n).into_iter().flat_map(all_trees).collect()
}

/// The bodies of a tree, in every order of its nodes that the rules allow.
pub fn bodies(tree: &Tree) -> Vec<Vec<u8>> {
    fn go(body: &[u8], waiting: &[(u8, &Tree)], bodies: &mut Vec<Vec<u8>>) {
        if waiting.is_empty() {
            bodies.push(body.to_vec());
        }
        for k in 0..waiting.len() {
            let mut waiting = waiting.to_vec();
            let (parent, next) = waiting.remove(k);
            let mut body = body.to_vec();
            let own = (body.len() / 2) as u8;
            match next {
                Tree::Leaf(i) => body.extend([parent, *i as u8]),
                Tree::Inner(children) => {
                    body.extend([parent, 255]);
                    waiting.extend(children.iter().map(|child| (own, child)));
                }
            }
            go(&body, &waiting, bodies);
        }
    }
    let mut bodies = Vec::new();
    go(&[], &[(255, tree)], &mut bodies);
    bodies
}

/// Every list of up to `most` nodes from these parents and species: good bodies and bad ones.
fn small_bodies(most: usize, parents: &[u8], species: &[u8]) -> Vec<Vec<u8>> {
    let mut bodies = vec![Vec::new()];
    let mut longest = bodies.clone();
    for _ in 0..most {
        let mut longer = Vec::new();
        for body in &longest {
            for &p in parents {
                for &s in species {
                    let mut next: Vec<u8> = body.clone();
                    next.extend([p, s]);
                    longer.push(next);
                }
            }
        }
        bodies.extend(longer.iter().cloned());
        longest = longer;
    }
    bodies
}

pub fn collection(n: usize, bodies: &[&[u8]]) -> Vec<u8> {
    let mut bytes = vec![1, n as u8, bodies.len() as u8];
    for body in bodies {
        bytes.extend((body.len() as u16).to_be_bytes());
        bytes.extend(*body);
    }
    bytes
}

/// Every list of up to two records of numbers up to n.
fn lists(n: usize) -> Vec<Vec<[u8; 3]>> {
    let n = n as u8;
    let record = |x| (0..=n).flat_map(move |y| (0..=n).map(move |z| [x, y, z]));
    let records: Vec<[u8; 3]> = (0..=n).flat_map(record).collect();
    let ones = records.iter().map(|one| vec![*one]);
    let twos = records.iter().flat_map(|one| records.iter().map(|two| vec![*one, *two]));
    std::iter::once(vec![]).chain(ones).chain(twos).collect()
}

/// Numbers that are no set to build over: the empty one, and some with a bit at n or above.
fn no_sets(n: usize) -> Vec<u64> {
    let mut sets = vec![0];
    if n < 64 {
        sets.extend([one(n), all(n) | one(n), 1 | one(n), one(63), all(n) | one(63), !all(n), u64::MAX]);
    }
    sets
}

/// A room of exactly 4s - 2 bytes for the s species of a set, one byte less, and more.
fn rooms_about(set: u64) -> Vec<usize> {
    let enough = 4 * set.count_ones() as usize - 2;
    vec![enough, enough - 1, enough + 5]
}

pub fn exhaustive(push: &mut dyn FnMut(Call) -> bool) {
    for n in 1..=4 {
        let tables = tables(n, 0..8);
        let trees = trees(n);
        let wide = n as u64;

        // every table with every set into both builds: with exactly the room, one byte less, and more; sets that
        // are none, without room and with enough
        let good = some_species(n).into_iter().map(|set| (set, rooms_about(set)));
        let bad = no_sets(n).into_iter().map(|set| (set, vec![0, 4 * n - 2]));
        for (set, rooms) in good.chain(bad) {
            for table in &tables {
                for &room in &rooms {
                    if !Call::both_builds(wide, set, table.clone(), vec![9; room]).into_iter().all(&mut *push) {
                        return;
                    }
                }
            }
        }

        // every body of every tree into order, render, read and list
        for tree in &trees {
            let text = writer::length(tree);
            for body in bodies(tree) {
                let bytes = collection(n, &[&body]);
                let table = vec![9; choose(n, 3)];
                let order = |room| Call::Order { n: wide, body: body.clone(), room: vec![9; room] };
                let render = |room| Call::Render { n: wide, body: body.clone(), room: vec![9; room] };
                let calls = [body.len(), body.len() + 3, body.len() - 1].map(order).into_iter();
                let calls = calls.chain([text, text + 1, text + 9, text - 1, 0].map(render));
                let mut calls = calls.chain([Call::Read { bytes: bytes.clone() }, Call::List { bytes, table }]);
                if !calls.all(&mut *push) {
                    return;
                }
            }
        }

        // every two trees into list
        for one in &trees {
            for two in &trees {
                let bytes = collection(n, &[&one.house_order(), &two.house_order()]);
                if !push(Call::List { bytes, table: vec![9; choose(n, 3)] }) {
                    return;
                }
            }
        }

        // every list of up to two records of numbers up to n into enter
        for records in lists(n) {
            if !push(Call::Enter { n: wide, records, table: vec![9; choose(n, 3)] }) {
                return;
            }
        }

        // every candidate with every table into check: in house order, and in another order of its
        // nodes, the next one from table to table; and into loosening in one of these two orders
        let orders: Vec<(Vec<u8>, Vec<Vec<u8>>)> = trees
            .iter()
            .map(|tree| {
                let house = tree.house_order();
                let others = bodies(tree).into_iter().filter(|body| *body != house).collect();
                (house, others)
            })
            .collect();
        for (k, table) in tables.iter().enumerate() {
            for (house, others) in &orders {
                let other = others.get(k % others.len().max(1));
                for body in std::iter::once(house).chain(other) {
                    let call = Call::Check { n: wide, table: table.clone(), body: body.clone() };
                    if !push(call) {
                        return;
                    }
                }
                let body = other.filter(|_| k % 2 == 1).unwrap_or(house);
                if !push(loosen(wide, table, body, body.len() + k % 3, PLACES + k % 2)) {
                    return;
                }
            }
        }
    }

    // the tree rules: every small body, good or bad
    for n in [2, 3] {
        for body in small_bodies(3, &[0, 1, 2, 254, 255], &[0, 1, 2, 3, 255]) {
            let room = vec![9; 8];
            let bytes = collection(n, &[&body]);
            let wide = n as u64;
            let calls = [
                Call::Order { n: wide, body: body.clone(), room: room.clone() },
                Call::Render { n: wide, body, room },
                Call::Read { bytes },
            ];
            if !calls.into_iter().all(&mut *push) {
                return;
            }
        }
    }
    for body in small_bodies(4, &[0, 1, 255], &[0, 1, 255]) {
        let table = vec![0];
        if !push(Call::Check { n: 3, table, body }) {
            return;
        }
    }
}

/// Of three species every byte that there is; of four some bytes that are too large, and every table once more with fans
/// added, the next ones from table to table. Each with every set into both builds, and with every candidate into check.
pub fn fans(push: &mut dyn FnMut(Call) -> bool) -> bool {
    let with_fans = |(k, table): (usize, Vec<u8>)| {
        let added = 1 + k % 15;
        table.iter().enumerate().map(|(place, byte)| byte | if added >> place & 1 == 1 { FAN } else { 0 }).collect()
    };
    let three = tables(3, 0..=255);
    let four = tables(4, [0, 8, 15, 16].into_iter());
    let added: Vec<Vec<u8>> = tables(4, 0..8).into_iter().enumerate().map(with_fans).collect();
    [(3, three), (4, four), (4, added)].into_iter().all(|(n, tables)| {
        let wide = n as u64;
        let candidates: Vec<Vec<u8>> = trees(n).iter().map(Tree::house_order).collect();
        tables.iter().all(|table| {
            let build = |set| Call::both_builds(wide, set, table.clone(), vec![9; 4 * n - 2]);
            let check = |body: &Vec<u8>| Call::Check { n: wide, table: table.clone(), body: body.clone() };
            some_species(n).into_iter().flat_map(build).chain(candidates.iter().map(check)).all(&mut *push)
        })
    })
}

/// Loosening, in a room and a list of so many places. No set of one species is ever dropped.
fn loosen(n: u64, table: &[u8], body: &[u8], room: usize, list: usize) -> Call {
    Call::Loosen { n, table: table.to_vec(), body: body.to_vec(), room: vec![9; room], list: vec![1; list] }
}

/// The shape of a tree, whatever its species are.
fn shape(tree: &Tree) -> String {
    let Tree::Inner(children) = tree else { return "()".to_string() };
    let mut shapes: Vec<String> = children.iter().map(shape).collect();
    shapes.sort();
    format!("({})", shapes.concat())
}

/// A tree of each shape of five species.
fn shapes_of_five() -> Vec<Tree> {
    let mut seen = Vec::new();
    let mut trees = all_trees(all(5));
    trees.retain(|tree| {
        let shape = shape(tree);
        let new = !seen.contains(&shape);
        seen.push(shape);
        new
    });
    assert_eq!(trees.len(), 12);
    trees
}

/// A tree of each shape of five species with every part of the triplets that it holds, the species of every other one
/// turned round; every candidate of three and four species with fans in the table, and with bytes that are too large; and
/// rooms, lists and refusals.
pub fn loosened(push: &mut dyn FnMut(Call) -> bool) -> bool {
    for tree in shapes_of_five() {
        for (turn, tree) in [tree.renamed(&|species| 4 - species), tree].iter().enumerate() {
            let (held, body) = (tree.triplets(5), tree.preorder());
            let places: Vec<usize> = (0..held.len()).filter(|&place| held[place] != 0).collect();
            for part in (turn..1 << places.len()).step_by(2) {
                let mut table = vec![0; held.len()];
                for (_, &place) in places.iter().enumerate().filter(|(k, _)| part >> k & 1 == 1) {
                    table[place] = held[place];
                }
                if !push(loosen(5, &table, &body, body.len(), PLACES)) {
                    return false;
                }
            }
        }
    }
    let three = tables(3, 0..=255);
    let four = [[0, 8, 15, 16], [0, 9, 10, 12]].map(|bytes| tables(4, bytes.into_iter())).concat();
    [(3, three), (4, four)].into_iter().all(|(n, tables)| {
        let candidates: Vec<Vec<u8>> = trees(n).iter().map(Tree::house_order).collect();
        tables.iter().all(|table| candidates.iter().all(|body| push(loosen(n as u64, table, body, body.len(), PLACES))))
    }) && loosening_refused(push)
}

/// Rooms and lists about enough, few species and 64; and what comes first where there is more than one refusal.
fn loosening_refused(push: &mut dyn FnMut(Call) -> bool) -> bool {
    let mut calls = Vec::new();
    let cherry: [u8; 10] = [255, 255, 0, 2, 0, 255, 2, 1, 2, 0];
    for byte in [0, 1, 2] {
        for room in 0..13 {
            for list in [0, 1, 2, 31, 60, 61, 62, 63, 64, 65, 128, 8_192] {
                calls.push(loosen(3, &[byte], &cherry, room, list));
            }
        }
    }
    // a body of 254 bytes that becomes one of 130, one that stays, and one that is contradicted
    let ladder = newick::read(ladder(63).as_bytes()).expect("a tree").preorder();
    for byte in [0, 1, 2] {
        for (room, list) in [(0, 62), (130, 62), (253, 62), (254, 0), (254, 61), (254, 62), (255, 64)] {
            calls.push(loosen(64, &vec![byte; choose(64, 3)], &ladder, room, list));
        }
    }

    // n comes first, then the table's length, its bytes, the body's length, the tree, PC, and the room or the list
    for n in SIZES.into_iter().filter(|&n| n < 63 || n > 64).chain([3, 4]) {
        for table in SMALL_TABLES {
            for body in [&[][..], &[255], &[255, 0], &[255, 64], &[255, 255, 0, 0], &cherry[..9], &cherry] {
                for (room, list) in [(0, 0), (1, 62), (2, 61), (2, 62), (9, 62), (10, 61), (10, 62), (300, 63)] {
                    calls.push(loosen(n, table, body, room, list));
                }
            }
        }
    }
    calls.into_iter().all(push)
}

/// Tables with one byte, or two, and every set of up to six species: which triple is the first outside. Then
/// large n, and what comes first where there is more than one refusal.
pub fn sets(push: &mut dyn FnMut(Call) -> bool) -> bool {
    let mut call = |n: u64, set: u64, table: &[u8], room: usize| {
        Call::both_builds(n, set, table.to_vec(), vec![9; room]).into_iter().all(&mut *push)
    };
    for n in [5, 6] {
        let length = choose(n, 3);
        for set in subsets(all(n)) {
            let enough = 4 * n - 2;
            for first in 0..length {
                for second in first..length {
                    let mut table = vec![0; length];
                    table[second] = 1 << ((first + second) % 4);
                    table[first] |= 1 << (first % 4);
                    let room = if (first + second) % 4 == 0 { 0 } else { enough };
                    if !call(n as u64, set, &table, room) {
                        return false;
                    }
                }
            }
        }
    }

    // large n: each species left out, alone, and the only one that is left out of what the table has
    for n in [16, 33, 63, 64] {
        let (zeros, full) = (vec![0; choose(n, 3)], vec![15; choose(n, 3)]);
        let last = [1, FAN].map(|byte| [&zeros[1..], &[byte]].concat());
        for species in (0..n).filter(|species| n < 33 || species % 7 < 2 || species + 3 > n) {
            for set in [one(species), all(n) & !one(species)] {
                let good = rooms_about(set).into_iter().all(|room| call(n as u64, set, &zeros, room))
                    && call(n as u64, set, &full, 254)
                    && last.iter().all(|last| call(n as u64, set, last, 254));
                if !good {
                    return false;
                }
            }
        }
        if !no_sets(n).into_iter().all(|set| call(n as u64, set, &zeros, 254) && call(n as u64, set, &full, 0)) {
            return false;
        }
    }

    // n comes first, then the table's length, its bytes, the set, what is outside it, the room, and the tree
    for n in SIZES.into_iter().filter(|&n| n < 63 || n > 64).chain([3, 4]) {
        for set in [0, 1, 2, 3, 7, 15, 8, 16, 1 << 63, u64::MAX] {
            for table in SMALL_TABLES {
                for room in [0, 1, 2, 9, 10, 13, 14, 300] {
                    if !call(n, set, table, room) {
                        return false;
                    }
                }
            }
        }
    }
    true
}

/// A nested tree, one in halves and a star, each of every number of species: over all n species, and over every other one of
/// more. Each is built from its own table, and from that with a quarrel about the first triple, one in the middle, and the
/// last.
pub fn looked_at(push: &mut dyn FnMut(Call) -> bool) -> bool {
    (1..=64).all(|s| {
        let nested = if s == 1 { "0;".to_string() } else { ladder(s - 1) };
        let texts = [nested, format!("{};", halves(0, s))];
        let mut trees = texts.map(|text| newick::read(text.as_bytes()).expect("a tree")).to_vec();
        trees.push(if s == 1 { Tree::Leaf(0) } else { Tree::Inner((0..s).map(Tree::Leaf).collect()) });
        trees.iter().all(|tree| {
            built_with_quarrels(s, tree, push)
                && (s > 32 || built_with_quarrels(2 * s, &tree.renamed(&|species| 2 * species), push))
        })
    })
}

fn built_with_quarrels(n: usize, tree: &Tree, push: &mut dyn FnMut(Call) -> bool) -> bool {
    let (set, own) = (tree.species(), tree.table(n));
    let spoken: Vec<usize> = (0..own.len()).filter(|&place| own[place] != 0).collect();
    let mut tables = vec![own.clone()];
    for &place in [spoken.first(), spoken.get(spoken.len() / 2), spoken.last()].into_iter().flatten() {
        let mut table = own.clone();
        table[place] |= 3;
        tables.push(table);
    }
    let room = vec![9; 4 * set.count_ones() as usize - 2];
    tables.into_iter().flat_map(|table| Call::both_builds(n as u64, set, table, room.clone())).all(push)
}

/// Tables of three and four species, and of none; some have a byte that is too large.
const SMALL_TABLES: [&[u8]; 11] =
    [&[], &[0], &[8], &[16], &[3], &[0; 4], &[0, 0, 0, 1], &[0, 8, 0, 0], &[15, 0, 0, 17], &[3, 0, 0, 0], &[0; 5]];

/// One sign of each kind that a text tells apart, and some digits.
const SIGNS: [u8; 12] = *b"(),;:.0129 x";

/// How many signs more than all texts those have whose last sign is the first that may be wrong.
const MORE: usize = 2;

/// Texts in which every byte is tried at every place.
const BASES: [&[u8]; 3] = [b"(0,1);", b" 21:10.9 ; ", b"((0,2):1,1);"];

/// Every text of up to `longest` signs; some signs further, those that only the last sign can make
/// wrong; and every byte at every place of some texts.
pub fn texts(longest: usize, push: &mut dyn FnMut(Call) -> bool) -> bool {
    // so that each kind of text meets rooms that are long enough, too short, or not there
    let mut room = (0..8).cycle();
    let mut read = |text: &[u8]| {
        let room = vec![9; room.next().expect("it goes on")];
        push(Call::Parse { n: 3, text: text.to_vec(), room })
    };
    longer(&mut Vec::new(), longest, &mut read)
        && BASES.iter().all(|base| {
            (0..=base.len()).all(|at| {
                (0..=255).all(|byte| {
                    let (before, behind) = base.split_at(at);
                    let inserted = [before, &[byte], behind].concat();
                    let changed = [before, &[byte], behind.get(1..).unwrap_or_default()].concat();
                    read(&inserted) && read(&changed)
                })
            })
        })
}

/// The text, and all that begin with it.
fn longer(text: &mut Vec<u8>, longest: usize, read: &mut dyn FnMut(&[u8]) -> bool) -> bool {
    let more = text.len() < longest || text.len() < longest + MORE && begins_a_text(text);
    read(text)
        && (!more
            || SIGNS.iter().all(|&sign| {
                text.push(sign);
                let go_on = longer(text, longest, read);
                text.pop();
                go_on
            }))
}

/// Is there a text that begins so? By brute force over the rules.
fn begins_a_text(start: &[u8]) -> bool {
    place(start).map_or(true, |place| place == start.len())
}

/// Numbers of species, of which all but four are refused; 257 is 1 in one byte, and so on.
const SIZES: [u64; 17] =
    [0, 1, 2, 63, 64, 65, 66, 128, 255, 256, 257, 320, 65_537, 1 << 32, (1 << 32) + 4, 1 << 63, u64::MAX];

/// Every text at the limits, which the reader has to refuse at the place that is known; every room
/// about the length of a body; and what comes first where there is more than one refusal.
pub fn limits(push: &mut dyn FnMut(Call) -> bool) -> bool {
    let mut calls = Vec::new();
    let mut call = |n: u64, text: &[u8], room: usize| {
        calls.push(Call::Parse { n, text: text.to_vec(), room: vec![9; room] });
    };
    for (text, place) in cases() {
        assert_eq!(newick::read(&text).err(), place, "the place by hand: {}", String::from_utf8_lossy(&text));
        call(64, &text, 260);
        call(1, &text, 260);
    }

    // every room up to some bytes more than the body; the last four short texts have none that is good
    let largest = ladder(63);
    let short = ["0;", "(1,0);", "(0,1,2);", "((0,1),(2,3)):5;", "(0);", "(0,(0,1));", "(0,9", ""];
    for (text, longest) in short.iter().map(|text| (*text, 20)).chain([(&largest[..], 260)]) {
        for room in 0..=longest {
            call(64, text.as_bytes(), room);
        }
    }

    // n comes first, then the text, the tree, and the room
    let over = "x".repeat(4_097);
    for text in ["0;", "(1,0);", "1;", "63;", "64;", "(0);", "(0,64);", "(64);", "x", "", "((0,1),2", &over] {
        for n in SIZES {
            for room in [0, 1, 2, 6, 300] {
                call(n, text.as_bytes(), room);
            }
        }
    }
    calls.into_iter().all(push)
}

/// The tree with the children of each node in the opposite order.
fn turned(tree: &Tree) -> Tree {
    match tree {
        Tree::Leaf(species) => Tree::Leaf(*species),
        Tree::Inner(children) => Tree::Inner(children.iter().rev().map(turned).collect()),
    }
}

/// A text of every shape of 64 species, two of them with 308 bytes, which is the most; and some of few species. Each
/// has its children in house order.
fn written() -> Vec<String> {
    let listed = |species: Vec<usize>| species.iter().map(usize::to_string).collect::<Vec<_>>().join(",");
    let few = ["0;", "9;", "10;", "63;", "(0,1);", "(9,10);", "((0,1),2);", "(0,(1,2),3);", "((0,62),(1,63));"];
    let mut texts = vec![ladder(63), format!("{};", halves(0, 64))];
    assert!(texts.iter().all(|text| text.len() == 308));
    texts.push(format!("({});", listed((0..64).collect())));
    texts.push(format!("(0,({}),63);", listed((1..63).collect())));
    texts.extend(few.map(String::from));
    texts
}

/// Bodies to be written: each text in every room up to some bytes more than it has, from a body in house order and from
/// one that is turned; and what comes first where there is more than one refusal.
pub fn rooms(push: &mut dyn FnMut(Call) -> bool) -> bool {
    let mut calls = Vec::new();
    let mut call = |n: u64, body: &[u8], room: usize| {
        calls.push(Call::Render { n, body: body.to_vec(), room: vec![9; room] });
    };
    for text in written() {
        let tree = newick::read(text.as_bytes()).expect("a tree");
        for tree in [turned(&tree), tree] {
            assert_eq!(writer::text(&tree), text.as_bytes(), "the text by hand");
            for room in (0..=text.len() + 9).chain([1_000, 4_096]) {
                call(64, &tree.preorder(), room);
            }
        }
    }

    // n comes first, then the body's length, the tree, and the room
    let mut long = newick::read(ladder(63).as_bytes()).expect("a tree").preorder();
    long.extend([0, 0, 0, 0]);
    let odd = &long[..253];
    let only: [u8; 4] = [255, 255, 0, 0];
    let good: [u8; 6] = [255, 255, 0, 1, 0, 0];
    let broken: [u8; 6] = [255, 255, 0, 0, 0, 63];
    for body in [&[][..], &[255], odd, &long[..255], &long[..256], &long, &[0, 0], &[255, 64], &only, &broken, &good] {
        for n in SIZES {
            for room in [0, 1, 2, 5, 6, 7, 307, 308, 400] {
                call(n, body, room);
            }
        }
    }
    calls.into_iter().all(push)
}
