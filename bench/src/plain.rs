// What the second program (`second/`) says, in the form of the C functions: the number, the values as they are laid, and what is written.

use crate::operations::{self, Collection, Counted, Refusal};
use crate::trees::Fault;

pub struct Told {
    pub number: usize,
    pub values: Vec<usize>,
}

fn told(number: usize, values: &[usize]) -> Told {
    Told { number, values: values.to_vec() }
}

// A fault is a kind, 1 to 4 in document 01's order, and what it carries.
fn refused(refusal: Refusal) -> Told {
    let values = match refusal {
        Refusal::Version | Refusal::Size | Refusal::TableLength | Refusal::Room | Refusal::Set => vec![],
        Refusal::Short { tree } | Refusal::BodyLength { tree } => vec![tree],
        Refusal::LeftOver { count } => vec![count],
        Refusal::TreeRule { tree, node, fault } => {
            let (kind, carried) = match fault {
                Fault::Parent(parent) => (1, parent as usize),
                Fault::Species(species) => (2, species as usize),
                Fault::Seen(earlier) => (3, earlier),
                Fault::Only => (4, 0),
            };
            vec![tree, node, kind, carried]
        }
        Refusal::TableByte { place } | Refusal::Text { place } => vec![place],
        Refusal::NoTree { set } => vec![set as usize],
        Refusal::Contradicted { triple, byte } => vec![triple, byte as usize],
        Refusal::NotForced { triple } | Refusal::Outside { triple } => vec![triple],
        Refusal::Record { record } => vec![record],
    };
    told(refusal.number() as usize, &values)
}

// A set comes as a number like the others.
fn counts(collection: Collection) -> Told {
    told(0, &[collection.n, collection.trees.len(), collection.species() as usize])
}

pub fn read(b: &[u8]) -> Told {
    match operations::read(b) {
        Ok(collection) => counts(collection),
        Err(refusal) => refused(refusal),
    }
}

/// What listing into a table of `room` bytes tells, and the table where it is filled.
pub fn list(b: &[u8], room: usize) -> (Told, Option<Vec<u8>>) {
    let mut table = vec![0; room];
    match operations::list(b, &mut table) {
        Ok(collection) => (counts(collection), Some(table)),
        Err(refusal) => (refused(refusal), None),
    }
}

/// What entering records over `n` species into a table of `room` bytes tells, and the table where it is filled.
pub fn enter(n: usize, records: &[[u8; 3]], room: usize) -> (Told, Option<Vec<u8>>) {
    let mut table = vec![0; room];
    match operations::enter(n as u64, records, &mut table) {
        Ok((n, set)) => (told(0, &[n, set as usize]), Some(table)),
        Err(refusal) => (refused(refusal), None),
    }
}

// What an operation tells that writes to a room of so many bytes and returns a count, of nodes or of bytes; and what it writes to the front.
fn written(room: usize, bytes_each: usize, operation: impl FnOnce(&mut [u8]) -> Result<usize, Refusal>) -> (Told, Option<Vec<u8>>) {
    let mut room = vec![0; room];
    match operation(&mut room) {
        Ok(count) => {
            room.truncate(bytes_each * count);
            (told(0, &[count]), Some(room))
        }
        Err(refusal) => (refused(refusal), None),
    }
}

/// What putting a body over `n` species in house order tells, with `room` bytes to write to, and what is written to their front.
pub fn order(n: usize, body: &[u8], room: usize) -> (Told, Option<Vec<u8>>) {
    written(room, 2, |room| operations::order(n as u64, body, room))
}

// The same of a build, whose last value is always the triples looked at.
fn counted(room: usize, build: impl FnOnce(&mut [u8]) -> Counted) -> (Told, Option<Vec<u8>>) {
    let mut looked = 0;
    let (mut told, body) = written(room, 2, |room| {
        let (given, count) = build(room);
        looked = count;
        given
    });
    told.values.push(looked);
    (told, body)
}

/// What building from a table over a set of `n` species tells, with `room` bytes to write to, and what is written to their front.
pub fn build(n: usize, set: u64, table: &[u8], room: usize) -> (Told, Option<Vec<u8>>) {
    counted(room, |room| operations::build(n as u64, set, table, room))
}

/// What building with a veto tells, and what is written, as for `build`.
pub fn veto(n: usize, set: u64, table: &[u8], room: usize) -> (Told, Option<Vec<u8>>) {
    counted(room, |room| operations::veto(n as u64, set, table, room))
}

/// What reading a Newick text over `n` species tells, with `room` bytes to write to, and what is written to their front.
pub fn parse(n: usize, text: &[u8], room: usize) -> (Told, Option<Vec<u8>>) {
    written(room, 2, |room| operations::parse(n as u64, text, room))
}

/// What writing a body over `n` species as Newick text tells, with `room` bytes to write to, and what is written to their front.
pub fn render(n: usize, body: &[u8], room: usize) -> (Told, Option<Vec<u8>>) {
    written(room, 1, |room| operations::render(n as u64, body, room))
}

/// What loosening a body by a table over `n` species tells, with `room` bytes and `list` places to write to, and what is written to their fronts.
pub fn loosen(n: usize, table: &[u8], body: &[u8], room: usize, list: usize) -> (Told, Option<Vec<u8>>, Vec<u64>) {
    let mut list = vec![0; list];
    let mut dropped = 0;
    let (mut told, tree) = written(room, 2, |room| {
        let (nodes, sets) = operations::loosen(n as u64, table, body, room, &mut list)?;
        dropped = sets;
        Ok(nodes)
    });
    if tree.is_some() {
        told.values.push(dropped);
    }
    list.truncate(dropped);
    (told, tree, list)
}

/// What checking a body against a table over `n` species tells.
pub fn check(n: usize, table: &[u8], body: &[u8]) -> Told {
    match operations::check(n as u64, table, body) {
        Ok(()) => told(0, &[]),
        Err(refusal) => refused(refusal),
    }
}
