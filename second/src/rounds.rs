//! What trial wrote is handed to it again: text that it wrote is read, and bodies that it read are written. And of all
//! the bodies that it wrote, two have equal text exactly when they have the same groups (document 02, T-02). What it
//! listed of one tree is built over the set that it returned (T-03); what it listed of trees that quarrel, with a veto (T-06),
//! and the tree that it built so is loosened (T-07).

use std::collections::BTreeMap;
use std::str::FromStr;

use crate::calls::Call;
use crate::compare::Comparison;
use crate::exhaustive::{bodies, collection, trees};
use crate::inputs::Inputs;
use crate::operations::PLACES;
use crate::programs::{Program, Run};
use crate::trees::Tree;
use crate::triples::choose;
use crate::writer;

/// How many random trees are written, each with others that are much like it; and how many random texts are read.
const FAMILIES: usize = 3_000;
const TEXTS: usize = 10_000;

/// How many collections there are whose trees mostly quarrel, and how many of small trees.
const QUARRELS: usize = 5_000;
const SMALL: usize = 3_000;

/// Tables of more than 16 species are long: of the trees with more, one in so many is listed and built.
const LARGE_IN: usize = 50;

/// n and bytes: a body or a text.
type Handed = (u64, Vec<u8>);

/// n, the set that occurs and the table, of a collection that was listed.
type Listed = (u64, u64, Vec<u8>);

/// The numbers of a piece of a line.
fn numbers<T: FromStr>(piece: &str) -> Option<Vec<T>> {
    piece.split_whitespace().map(|number| number.parse().ok()).collect()
}

/// The values of a line of 0, and the bytes that were lent.
fn done(line: &str) -> Option<(Vec<u64>, Vec<u8>)> {
    let mut pieces = line.split('|');
    let values = numbers(pieces.next()?.strip_prefix("0 ")?)?;
    Some((values, numbers(pieces.next()?)?))
}

/// The sets that were dropped, of a line of 0.
fn dropped(line: &str) -> Option<Vec<u64>> {
    let mut sets = numbers(line.rsplit('|').next()?)?;
    sets.truncate(*done(line)?.0.get(1)? as usize);
    Some(sets)
}

/// What stands at the front of the room in each of the lines, of which all have to be of 0.
fn fronts(lines: &[Option<String>], bytes_each: usize) -> Option<Vec<Vec<u8>>> {
    let fronts = lines.iter().map(|line| {
        let (values, mut lent) = done(line.as_ref()?)?;
        lent.truncate(bytes_each * values[0] as usize);
        Some(lent)
    });
    fronts.collect()
}

/// The same of what trial writes for these calls.
fn written(comparison: &mut Comparison, calls: &[Call], bytes_each: usize) -> Option<Vec<Vec<u8>>> {
    fronts(&comparison.lines(calls), bytes_each)
}

/// Writes a body, in a room of its text's length or a little more.
fn render((n, body): &Handed) -> Call {
    let room = vec![9; writer::length(&Tree::from_body(body)) + body.len() % 4];
    Call::Render { n: *n, body: body.clone(), room }
}

fn rendered(comparison: &mut Comparison, from: &[Handed]) -> Option<Vec<Vec<u8>>> {
    written(comparison, &from.iter().map(render).collect::<Vec<_>>(), 1)
}

fn parsed(comparison: &mut Comparison, from: &[Handed]) -> Option<Vec<Vec<u8>>> {
    let call = |(n, text): &Handed| Call::Parse { n: *n, text: text.clone(), room: vec![9; 255] };
    written(comparison, &from.iter().map(call).collect::<Vec<_>>(), 2)
}

fn ordered(comparison: &mut Comparison, from: &[Handed]) -> Option<Vec<Vec<u8>>> {
    let call = |(n, body): &Handed| Call::Order { n: *n, body: body.clone(), room: vec![9; body.len()] };
    written(comparison, &from.iter().map(call).collect::<Vec<_>>(), 2)
}

/// The same n, with other bytes.
fn with(from: &[Handed], bytes: &[Vec<u8>]) -> Vec<Handed> {
    from.iter().zip(bytes).map(|((n, _), bytes)| (*n, bytes.clone())).collect()
}

/// Says where what two lists have is not alike, though it has to be; a call that belongs to each is kept.
fn alike(comparison: &mut Comparison, note: &str, call: impl Fn(usize) -> Call, one: &[Vec<u8>], two: &[Vec<u8>]) {
    for k in 0..one.len() {
        if one[k] != two[k] && !comparison.enough() {
            differs(comparison, note, &[call(k)], &one[k], &two[k]);
        }
    }
}

fn differs(comparison: &mut Comparison, note: &str, calls: &[Call], wrote: &[u8], says: &[u8]) {
    let input: Vec<u8> = calls.iter().flat_map(Call::bytes).collect();
    let run = Run { wrote: wrote.to_vec(), trouble: None };
    comparison.differs(Program::Trial, note, &input, &run, says);
}

/// Good bodies: of every tree on any of four species, in each order of its nodes; of random trees; and as trial reads
/// random texts.
fn all_bodies(comparison: &mut Comparison, inputs: &mut Inputs) -> Option<Vec<Handed>> {
    let mut all: Vec<Handed> = trees(4).iter().flat_map(bodies).map(|body| (4, body)).collect();
    for _ in 0..FAMILIES {
        let (n, bodies) = inputs.family();
        all.extend(bodies.into_iter().map(|body| (n as u64, body)));
    }
    let texts: Vec<Handed> = (0..TEXTS).map(|_| inputs.good_text()).collect();
    let read = parsed(comparison, &texts)?;
    all.extend(with(&texts, &read));
    Some(all)
}

/// Both builds of what was listed, over the set that occurs.
fn both_builds((n, set, table): &Listed) -> [Call; 2] {
    let room = vec![9; (4 * set.count_ones() as usize).saturating_sub(2)];
    Call::both_builds(*n, *set, table.clone(), room)
}

/// Lists collections of n species.
fn listed(comparison: &mut Comparison, collections: &[(usize, Vec<u8>)]) -> Option<Vec<Listed>> {
    let list = |(n, bytes): &(usize, Vec<u8>)| Call::List { bytes: bytes.clone(), table: vec![9; choose(*n, 3)] };
    let lines = comparison.lines(&collections.iter().map(list).collect::<Vec<_>>());
    let tables = collections.iter().zip(&lines).map(|((n, _), line)| {
        let (values, table) = done(line.as_ref()?)?;
        Some((*n as u64, *values.get(2)?, table))
    });
    tables.collect()
}

/// Papers that mostly quarrel, and small ones, built with a veto over the set that occurs: there is a tree, the check does
/// not find it contradicted, and where the plain build gives a tree it is the same.
fn vetoed(comparison: &mut Comparison, inputs: &mut Inputs) -> Option<()> {
    let mut collections: Vec<(usize, Vec<u8>)> = (0..QUARRELS).map(|_| inputs.quarrel_collection()).collect();
    collections.extend((0..SMALL).map(|_| inputs.small_collection()));
    let tables = listed(comparison, &collections)?;
    let (builds, vetoes): (Vec<Call>, Vec<Call>) = tables.iter().map(|listed| both_builds(listed).into()).unzip();
    let plain = comparison.lines(&builds);
    let lines = comparison.lines(&vetoes);
    let trees = fronts(&lines, 2)?;
    let checks = checks(&tables, &trees);
    let checked = comparison.lines(&checks);
    let mut quarrels = 0;
    for k in 0..trees.len() {
        let [plain, veto, checked] = [&plain[k], &lines[k], &checked[k]].map(Option::as_deref);
        let (plain, veto, checked) = (plain?, veto?, checked?);
        quarrels += usize::from(plain.starts_with("10 "));
        if plain.starts_with("0 ") && veto != plain && !comparison.enough() {
            let note = "there is a plain build, and the veto build is another";
            differs(comparison, note, &[vetoes[k].clone()], veto.as_bytes(), plain.as_bytes());
        }
        if checked.starts_with("11 ") && !comparison.enough() {
            let note = "the veto build's tree does not pass PC";
            differs(comparison, note, &[checks[k].clone()], checked.as_bytes(), b"not 11");
        }
    }
    println!("second: {} collections built with a veto, of which {quarrels} quarrel", trees.len());
    loosened(comparison, &tables, &trees)
}

/// Checks each of the trees against its table.
fn checks(tables: &[Listed], trees: &[Vec<u8>]) -> Vec<Call> {
    let check = |((n, _, table), body): (&Listed, &Vec<u8>)| {
        let (table, body) = (table.clone(), body.clone());
        Call::Check { n: *n, table, body }
    };
    tables.iter().zip(trees).map(check).collect()
}

/// Loosens each of the trees by its table, in a room and a list that are just enough.
fn loosens(tables: &[Listed], trees: &[Vec<u8>]) -> Vec<Call> {
    let loosen = |((n, _, table), body): (&Listed, &Vec<u8>)| {
        let (table, body) = (table.clone(), body.clone());
        let room = vec![9; body.len()];
        Call::Loosen { n: *n, table, body, room, list: vec![1; PLACES] }
    };
    tables.iter().zip(trees).map(loosen).collect()
}

/// Trees that their tables do not contradict, loosened: what is left passes the check, has the tree's groups but for the
/// dropped ones, and is left as it is when it is loosened again.
fn loosened(comparison: &mut Comparison, tables: &[Listed], trees: &[Vec<u8>]) -> Option<()> {
    let calls = loosens(tables, trees);
    let lines = comparison.lines(&calls);
    let loose = fronts(&lines, 2)?;
    let checks = checks(tables, &loose);
    let checked = comparison.lines(&checks);
    let again = loosens(tables, &loose);
    let lines_again = comparison.lines(&again);
    let mut some = 0;
    for k in 0..trees.len() {
        let [line, checked, line_again] = [&lines[k], &checked[k], &lines_again[k]].map(Option::as_deref);
        let (line, checked, line_again) = (line?, checked?, line_again?);
        let gone = dropped(line)?;
        some += usize::from(!gone.is_empty());
        let mut left = [Tree::from_body(&loose[k]).groups(), gone].concat();
        let mut before = Tree::from_body(&trees[k]).groups();
        left.sort();
        before.sort();
        let stays = done(line_again)?.1 == loose[k] && dropped(line_again)?.is_empty();
        for (good, note, call, wrote) in [
            (left == before, "the groups that are left and those that went are not the tree's", &calls[k], line),
            (checked.trim_end() == "0", "the loosened tree does not pass the check", &checks[k], checked),
            (stays, "a loosened tree is not left as it is", &again[k], line_again),
        ] {
            if !good && !comparison.enough() {
                differs(comparison, note, &[call.clone()], wrote.as_bytes(), b"");
            }
        }
    }
    println!("second: {} trees so built and loosened, of which {some} lose a group", trees.len());
    Some(())
}

/// Each tree is listed alone, and built from its table over the set that occurs: this gives it in house order.
fn built_again(comparison: &mut Comparison, bodies: &[Handed], house: &[Vec<u8>]) -> Option<()> {
    let some: Vec<usize> = (0..bodies.len()).filter(|&k| bodies[k].0 <= 16 || k % LARGE_IN == 0).collect();
    let alone = |&k: &usize| {
        let (n, body) = &bodies[k];
        (*n as usize, collection(*n as usize, &[body]))
    };
    let tables = listed(comparison, &some.iter().map(alone).collect::<Vec<_>>())?;
    let builds: Vec<Call> = tables.iter().map(|listed| both_builds(listed)[0].clone()).collect();
    let built = written(comparison, &builds, 2)?;
    let house: Vec<Vec<u8>> = some.iter().map(|&k| house[k].clone()).collect();
    let note = "the tree that was listed is not the one that is built over the set that occurs";
    alike(comparison, note, |k| builds[k].clone(), &built, &house);
    println!("second: {} trees listed and built again over the set that occurs", built.len());
    Some(())
}

pub fn compare(comparison: &mut Comparison, seed: u64) {
    if around(comparison, &mut Inputs::new(seed)).is_none() {
        println!("second: the round was not ended: a call that has to give 0 did not");
        comparison.differ += 1;
    }
}

fn around(comparison: &mut Comparison, inputs: &mut Inputs) -> Option<()> {
    let bodies = all_bodies(comparison, inputs)?;
    let texts = rendered(comparison, &bodies)?;
    let read = parsed(comparison, &with(&bodies, &texts))?;
    let house = ordered(comparison, &bodies)?;
    let write = |k: usize| render(&bodies[k]);
    alike(comparison, "the text that was written is not read as the body in house order", write, &read, &house);
    let again = rendered(comparison, &with(&bodies, &read))?;
    alike(comparison, "the body in house order has another text", write, &again, &texts);
    built_again(comparison, &bodies, &house)?;
    vetoed(comparison, inputs)?;

    // the texts of each set of groups, and the other way round
    let mut by_groups: BTreeMap<Vec<u64>, usize> = BTreeMap::new();
    let mut by_text: BTreeMap<&[u8], usize> = BTreeMap::new();
    for (k, (_, body)) in bodies.iter().enumerate() {
        let mut groups = Tree::from_body(body).groups();
        groups.sort();
        let one = *by_groups.entry(groups).or_insert(k);
        let other = *by_text.entry(&texts[k]).or_insert(k);
        if one != other && !comparison.enough() {
            let note = "equal text and not the same groups, or the other way round";
            differs(comparison, note, &[one, other, k].map(write), &texts[k], &texts[one]);
        }
    }
    println!(
        "second: {} bodies, {} sets of groups, {} texts: each two of {} pairs held against each other",
        bodies.len(),
        by_groups.len(),
        by_text.len(),
        bodies.len() * (bodies.len() - 1) / 2
    );
    Some(())
}
