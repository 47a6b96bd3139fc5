//! What the program `pull` prints for any input: Newick texts, one after another, as authors send them.

use crate::exhaustive::collection;
use crate::newick::LONGEST_TEXT;
use crate::operations::{build, check, list, loosen, parse, render, veto, Refusal, PLACES};
use crate::trees::{Fault, Tree};
use crate::triples::{choose, members, triples, triplets_on};
use crate::writer;

/// The most bytes, and the most papers.
pub const MOST_BYTES: usize = 65_536;
pub const MOST_PAPERS: usize = 16;

/// Texts are read for so many species.
const SPECIES: u64 = 64;

/// Room for any body, and for any text that is written.
const BODY: usize = 254;
const TEXT: usize = 308;

/// The signs that a text may have, in the order in which they are named.
const SIGNS: [(u8, &str); 7] = [
    (b'0', "a digit"),
    (b'(', "an opening bracket"),
    (b')', "a closing bracket"),
    (b',', "a comma"),
    (b':', "a colon"),
    (b'.', "a point"),
    (b';', "a semicolon"),
];

/// Why an input has no papers.
pub enum Refused<'a> {
    Bytes,
    Papers,
    NoPaper,
    /// A text, the paper's number from 1 on, where the text begins, the place in the text, and what is wrong there.
    Text {
        paper: usize,
        start: usize,
        text: &'a [u8],
        place: usize,
        what: String,
    },
}

pub fn pull(input: &[u8]) -> String {
    match papers(input) {
        Ok(bodies) => lines(&bodies),
        Err(Refused::Bytes) => format!("refused: more than {MOST_BYTES} bytes\n"),
        Err(Refused::Papers) => format!("refused: more than {MOST_PAPERS} papers\n"),
        Err(Refused::NoPaper) => "refused: no paper\n".to_string(),
        Err(Refused::Text { paper, start, place, what, .. }) => {
            let (line, column) = line_and_column(&input[..start + place]);
            format!("refused: paper {paper}, line {line}, column {column}: {what}\n")
        }
    }
}

// ---- reading

/// The papers' bodies, in the texts' order.
pub fn papers(input: &[u8]) -> Result<Vec<Vec<u8>>, Refused<'_>> {
    if input.len() > MOST_BYTES {
        return Err(Refused::Bytes);
    }
    let mut bodies = Vec::new();
    for (start, text) in texts(input) {
        if bodies.len() == MOST_PAPERS {
            return Err(Refused::Papers);
        }
        match body(text) {
            Ok(body) => bodies.push(body),
            Err((place, what)) => return Err(Refused::Text { paper: bodies.len() + 1, start, text, place, what }),
        }
    }
    if bodies.is_empty() {
        return Err(Refused::NoPaper);
    }
    Ok(bodies)
}

/// The texts, each with the place where it begins: up to each semicolon, with it; and what stands behind the last one,
/// unless it is blanks only. A text with its semicolon is not blanks only.
pub fn texts(input: &[u8]) -> Vec<(usize, &[u8])> {
    let mut texts = Vec::new();
    let mut start = 0;
    for text in input.split_inclusive(|&byte| byte == b';') {
        texts.push((start, text));
        start += text.len();
    }
    texts.retain(|(_, text)| !text.iter().all(blank));
    texts
}

pub fn blank(byte: &u8) -> bool {
    matches!(byte, b' ' | 10 | 13)
}

/// The line and the column of what stands behind these bytes, both from 1 on.
fn line_and_column(before: &[u8]) -> (usize, usize) {
    let mut lines = before.split(|&byte| byte == 10);
    let last = lines.next_back().expect("even no bytes are a line");
    (lines.count() + 1, last.len() + 1)
}

/// A text's body; or the place where it is wrong, and what is wrong there.
fn body(text: &[u8]) -> Result<Vec<u8>, (usize, String)> {
    let mut room = vec![0; BODY];
    match parse(SPECIES, text, &mut room) {
        Ok(nodes) => {
            assert_eq!(node_places(text).len(), nodes, "the nodes, by where they begin and as they are read");
            Ok(room[..2 * nodes].to_vec())
        }
        Err(Refusal::Text { place: LONGEST_TEXT }) => {
            Err((LONGEST_TEXT, format!("a text has at most {LONGEST_TEXT} bytes")))
        }
        Err(Refusal::Text { place }) => {
            Err((place, format!("found {}, expected {}", found(text, place), expected(&text[..place]))))
        }
        Err(Refusal::TreeRule { node, fault, .. }) => {
            let what = match fault {
                Fault::Species(species) => format!("species {species}, and the highest is {}", SPECIES - 1),
                Fault::Seen(_) => "this species stands twice".to_string(),
                Fault::Only => "this bracket has one child".to_string(),
                Fault::Parent(_) => panic!("a text makes no bad parent"),
            };
            Err((node_places(text)[node], what))
        }
        Err(other) => panic!("pull's reading: {other:?}"),
    }
}

fn found(text: &[u8], place: usize) -> String {
    match text.get(place) {
        None => "the end".to_string(),
        Some(byte) if blank(byte) => "a blank".to_string(),
        Some(&byte @ 33..=126) => format!("'{}'", byte as char),
        Some(byte) => format!("byte {byte}"),
    }
}

/// The signs that may stand behind these bytes: together they are not refused at that very place.
fn expected(before: &[u8]) -> String {
    let may_follow = |sign: u8| {
        let refusal = parse(SPECIES, &[before, &[sign]].concat(), &mut [0; BODY]);
        refusal != Err(Refusal::Text { place: before.len() })
    };
    let names: Vec<&str> = SIGNS.iter().filter(|(sign, _)| may_follow(*sign)).map(|(_, name)| *name).collect();
    if names.is_empty() {
        return "nothing more".to_string();
    }
    names.join(" or ")
}

/// Where the nodes of a text begin, or of its first bytes: each bracket that opens; and each digit at the front, behind such
/// a bracket or behind a comma, blanks aside.
pub fn node_places(text: &[u8]) -> Vec<usize> {
    let mut places = Vec::new();
    let mut last = b',';
    for (place, &byte) in text.iter().enumerate().filter(|(_, byte)| !blank(byte)) {
        if byte == b'(' || byte.is_ascii_digit() && matches!(last, b'(' | b',') {
            places.push(place);
        }
        last = byte;
    }
    places
}

// ---- good papers

fn lines(bodies: &[Vec<u8>]) -> String {
    let papers: Vec<Tree> = bodies.iter().map(|body| Tree::from_body(body).sorted()).collect();
    let highest = papers.iter().flat_map(|tree| members(tree.species())).max().expect("a paper has a species");
    let n = highest + 1;
    let mut table = vec![0; choose(n, 3)];
    let bytes = collection(n, &bodies.iter().map(Vec::as_slice).collect::<Vec<_>>());
    let set = list(&bytes, &mut table).expect("good papers are listed").species();
    let n = n as u64;

    let mut lines = String::new();
    let mut line = |line: String| lines.extend([&line, "\n"]);
    for (k, body) in bodies.iter().enumerate() {
        line(format!("paper {}: {}", k + 1, written(n, body)));
    }
    let mut room = vec![0; BODY];
    let nodes = match build(n, set, &table, &mut room).0 {
        Ok(nodes) => {
            line(format!("built: {}", written(n, &room[..2 * nodes])));
            nodes
        }
        Err(Refusal::NoTree { set: over }) => {
            line(format!("the papers quarrel over{}", spaced(over)));
            for (k, paper) in papers.iter().enumerate() {
                line(match says_of(paper, over) {
                    Some(says) => format!("paper {} says of these: {says}", k + 1),
                    None => format!("paper {} says nothing of these", k + 1),
                });
            }
            let nodes = veto(n, set, &table, &mut room).0.expect("the veto build gives a tree");
            line(format!("built, leaving that open: {}", written(n, &room[..2 * nodes])));
            nodes
        }
        Err(other) => panic!("pull's build: {other:?}"),
    };
    let built = &room[..2 * nodes];
    line(match check(n, &table, built) {
        Ok(()) => "every group is the papers' own".to_string(),
        Err(Refusal::NotForced { triple }) => {
            let (a, b, c) = held(&Tree::from_body(built), n as usize, triple);
            format!("not forced by the papers: {a} and {b} closer to each other than to {c}")
        }
        Err(other) => panic!("pull's check: {other:?}"),
    });

    let (mut left, mut dropped) = (vec![0; BODY], vec![0; PLACES]);
    let (nodes, count) = loosen(n, &table, built, &mut left, &mut dropped).expect("a built tree is loosened");
    let left = &left[..2 * nodes];
    line(format!("may be sent: {}", written(n, left)));
    for &set in &dropped[..count] {
        line(format!("dropped:{}", spaced(set)));
    }
    let groups = Tree::from_body(left).groups();
    let below: Vec<u64> = groups.into_iter().skip(1).filter(|group| group.count_ones() >= 2).collect();
    for &group in &below {
        line(format!("pull together:{}", spaced(group)));
    }
    if below.is_empty() {
        line("pull nothing together: the tree has no group".to_string());
    }
    lines
}

/// A body as text, in house order.
fn written(n: u64, body: &[u8]) -> String {
    let mut room = vec![0; TEXT];
    let length = render(n, body, &mut room).expect("a good body is written");
    String::from_utf8(room[..length].to_vec()).expect("the signs of a text")
}

/// The species of a set, each after a space.
fn spaced(set: u64) -> String {
    members(set).map(|species| format!(" {species}")).collect()
}

/// The triplet that a tree holds on a triple: the close pair, the lower one first, and the third.
fn held(tree: &Tree, n: usize, triple: usize) -> (usize, usize, usize) {
    let (a, b, c) = triples(n).nth(triple).expect("a triple of the n species");
    let byte = tree.triplets(n)[triple];
    let found = triplets_on(a, b, c).into_iter().find(|(bit, _)| *bit == byte);
    found.expect("the tree holds one of the three").1
}

/// A paper's tree in house order, cut to the set of a quarrel, where it has three species of it or more; its children stay as
/// they stand. That is the text of what is left of its groups too, and so in house order: where a child had a species of the
/// set and one outside it, and another child one of the set, the build would have kept the outside one with them.
fn says_of(paper: &Tree, set: u64) -> Option<String> {
    if (paper.species() & set).count_ones() < 3 {
        return None;
    }
    let says = writer::text_as_it_stands(&paper.cut(set).expect("three species are left"));
    let groups: Vec<u64> = paper.groups().into_iter().map(|group| group & set).filter(|&group| group != 0).collect();
    assert_eq!(says.as_bytes(), writer::text_of_groups(&groups), "the tree cut, and its groups cut");
    Some(says)
}
