//! What the program `shelf` prints for any input.

use crate::operations::{build, check, list, Refusal};
use crate::triples::choose;

/// How many bytes of the input are looked at.
pub const LOOKED_AT: usize = 4_100;

pub fn shelf(input: &[u8]) -> String {
    let bytes = &input[..input.len().min(LOOKED_AT)];
    // A table of the length that fits the header, so that 7 is never the answer.
    let n = bytes.get(1).map_or(0, |&n| n as usize);
    let mut table = vec![0; choose(n, 3)];
    let set = match list(bytes, &mut table) {
        Ok(collection) => collection.species(),
        Err(refusal) => {
            let (tree, node) = match refusal {
                Refusal::Short { tree } | Refusal::BodyLength { tree } => (tree, 0),
                Refusal::TreeRule { tree, node, .. } => (tree, node),
                _ => (0, 0),
            };
            return format!("read {} {} {}\n", refusal.number(), tree, node);
        }
    };
    let mut room = vec![0; 4 * n - 2];
    let nodes = match build(n as u64, set, &table, &mut room).0 {
        Ok(nodes) => nodes,
        Err(Refusal::NoTree { set }) => return format!("build 10 {set}\n"),
        // no species occurs
        Err(Refusal::Set) => return "build 15\n".to_string(),
        Err(other) => panic!("shelf's build: {other:?}"),
    };
    let body = &room[..2 * nodes];
    let numbers: Vec<String> = body.iter().map(|b| b.to_string()).collect();
    let checked = match check(n as u64, &table, body) {
        Ok(()) => "0".to_string(),
        Err(Refusal::NotForced { triple }) => format!("12 {triple}"),
        Err(Refusal::Contradicted { triple, .. }) => format!("11 {triple}"),
        Err(other) => panic!("shelf's check: {other:?}"),
    };
    format!("build 0 {}\n{}\ncheck {}\n", nodes, numbers.join(" "), checked)
}
