//! Calls as the program `trial` reads them, and the line that answers each.

use std::fmt::{Display, Write};

use crate::operations::{
    build, check, enter, list, loosen, order, parse, read, render, veto, Collection, Counted, Refusal,
};
use crate::trees::Fault;

/// The longest slice, in bytes, and the longest lists of records and of sets that a call may hand over.
pub const LONGEST: usize = 65_536;
pub const MOST_RECORDS: usize = 21_845;
pub const MOST_SETS: usize = 8_192;

#[derive(Clone, Debug, PartialEq, Eq)]
pub enum Call {
    Read { bytes: Vec<u8> },
    List { bytes: Vec<u8>, table: Vec<u8> },
    Enter { n: u64, records: Vec<[u8; 3]>, table: Vec<u8> },
    Order { n: u64, body: Vec<u8>, room: Vec<u8> },
    Build { n: u64, set: u64, table: Vec<u8>, room: Vec<u8> },
    Veto { n: u64, set: u64, table: Vec<u8>, room: Vec<u8> },
    Check { n: u64, table: Vec<u8>, body: Vec<u8> },
    Loosen { n: u64, table: Vec<u8>, body: Vec<u8>, room: Vec<u8>, list: Vec<u64> },
    Parse { n: u64, text: Vec<u8>, room: Vec<u8> },
    Render { n: u64, body: Vec<u8>, room: Vec<u8> },
}

/// The answer to a call: its number, the values that come with 0, the triples that a build looked at, the word of its fault
/// where there is one, the bytes that were lent as the call leaves them, and its line without the byte 10 at the end.
pub struct Answer {
    pub number: u8,
    pub values: Vec<u64>,
    pub looked: Option<u64>,
    pub fault: Option<&'static str>,
    pub lent: Option<Vec<u8>>,
    pub line: String,
}

impl Call {
    /// The byte that the call begins with.
    pub fn letter(&self) -> char {
        match self {
            Call::Read { .. } => 'r',
            Call::List { .. } => 'l',
            Call::Enter { .. } => 'e',
            Call::Order { .. } => 'o',
            Call::Build { .. } => 'b',
            Call::Veto { .. } => 'v',
            Call::Check { .. } => 'c',
            Call::Loosen { .. } => 'x',
            Call::Parse { .. } => 'n',
            Call::Render { .. } => 'w',
        }
    }

    pub fn put(&self, out: &mut Vec<u8>) {
        fn put_slice(out: &mut Vec<u8>, slice: &[u8]) {
            out.extend((slice.len() as u32).to_be_bytes());
            out.extend(slice);
        }
        out.push(self.letter() as u8);
        match self {
            Call::Read { bytes } => put_slice(out, bytes),
            Call::List { bytes, table } => {
                put_slice(out, bytes);
                put_slice(out, table);
            }
            Call::Enter { n, records, table } => {
                out.extend(n.to_be_bytes());
                out.extend((records.len() as u32).to_be_bytes());
                for record in records {
                    out.extend(record);
                }
                put_slice(out, table);
            }
            Call::Build { n, set, table, room } | Call::Veto { n, set, table, room } => {
                out.extend(n.to_be_bytes());
                out.extend(set.to_be_bytes());
                put_slice(out, table);
                put_slice(out, room);
            }
            Call::Loosen { n, table, body, room, list } => {
                out.extend(n.to_be_bytes());
                put_slice(out, table);
                put_slice(out, body);
                put_slice(out, room);
                out.extend((list.len() as u32).to_be_bytes());
                out.extend(list.iter().flat_map(|set| set.to_be_bytes()));
            }
            Call::Order { n, body: one, room: two }
            | Call::Check { n, table: one, body: two }
            | Call::Parse { n, text: one, room: two }
            | Call::Render { n, body: one, room: two } => {
                out.extend(n.to_be_bytes());
                put_slice(out, one);
                put_slice(out, two);
            }
        }
    }

    /// The build and the veto build of the same.
    pub fn both_builds(n: u64, set: u64, table: Vec<u8>, room: Vec<u8>) -> [Call; 2] {
        let build = Call::Build { n, set, table: table.clone(), room: room.clone() };
        [build, Call::Veto { n, set, table, room }]
    }

    pub fn bytes(&self) -> Vec<u8> {
        let mut out = Vec::new();
        self.put(&mut out);
        out
    }

    pub fn answer(&self) -> Answer {
        match self {
            Call::Read { bytes } => {
                let given = read(bytes).map(collection_values);
                answer(given, None)
            }
            Call::List { bytes, table } => {
                let mut table = table.clone();
                let given = list(bytes, &mut table).map(collection_values);
                answer(given, Some(table))
            }
            Call::Enter { n, records, table } => {
                let mut table = table.clone();
                let given = enter(*n, records, &mut table).map(|(n, set)| vec![n as u64, set]);
                answer(given, Some(table))
            }
            Call::Order { n, body, room } => in_room(room, |room| order(*n, body, room)),
            Call::Build { n, set, table, room } => counted(room, |room| build(*n, *set, table, room)),
            Call::Veto { n, set, table, room } => counted(room, |room| veto(*n, *set, table, room)),
            Call::Check { n, table, body } => {
                let given = check(*n, table, body).map(|()| vec![]);
                answer(given, None)
            }
            Call::Loosen { n, table, body, room, list } => {
                let (mut room, mut list) = (room.clone(), list.clone());
                let given = loosen(*n, table, body, &mut room, &mut list);
                let given = given.map(|(nodes, dropped)| vec![nodes as u64, dropped as u64]);
                let mut answer = answer(given, Some(room));
                put_lent(&mut answer.line, &list);
                answer
            }
            Call::Parse { n, text, room } => in_room(room, |room| parse(*n, text, room)),
            Call::Render { n, body, room } => in_room(room, |room| render(*n, body, room)),
        }
    }

    /// The next call of the input, which is not empty; none where trial says `cut`.
    pub fn take(input: &mut &[u8]) -> Option<Call> {
        fn take<'a>(input: &mut &'a [u8], count: usize) -> Option<&'a [u8]> {
            if input.len() < count {
                return None;
            }
            let (taken, rest) = input.split_at(count);
            *input = rest;
            Some(taken)
        }
        fn number(input: &mut &[u8], width: usize) -> Option<u64> {
            let digits = take(input, width)?;
            Some(digits.iter().fold(0, |value, &digit| value * 256 + digit as u64))
        }
        fn slice(input: &mut &[u8]) -> Option<Vec<u8>> {
            let length = number(input, 4)? as usize;
            if length > LONGEST {
                return None;
            }
            take(input, length).map(<[u8]>::to_vec)
        }
        let letter = number(input, 1)? as u8;
        Some(match letter {
            b'r' => Call::Read { bytes: slice(input)? },
            b'l' => Call::List { bytes: slice(input)?, table: slice(input)? },
            b'e' => {
                let n = number(input, 8)?;
                let count = number(input, 4)? as usize;
                if count > MOST_RECORDS {
                    return None;
                }
                let records = take(input, 3 * count)?;
                let records = records.chunks(3).map(|r| [r[0], r[1], r[2]]).collect();
                Call::Enter { n, records, table: slice(input)? }
            }
            b'o' => Call::Order { n: number(input, 8)?, body: slice(input)?, room: slice(input)? },
            b'b' => {
                let (n, set) = (number(input, 8)?, number(input, 8)?);
                Call::Build { n, set, table: slice(input)?, room: slice(input)? }
            }
            b'v' => {
                let (n, set) = (number(input, 8)?, number(input, 8)?);
                Call::Veto { n, set, table: slice(input)?, room: slice(input)? }
            }
            b'c' => Call::Check { n: number(input, 8)?, table: slice(input)?, body: slice(input)? },
            b'x' => {
                let (n, table, body, room) = (number(input, 8)?, slice(input)?, slice(input)?, slice(input)?);
                let count = number(input, 4)? as usize;
                if count > MOST_SETS {
                    return None;
                }
                let list = (0..count).map(|_| number(input, 8)).collect::<Option<_>>()?;
                Call::Loosen { n, table, body, room, list }
            }
            b'n' => Call::Parse { n: number(input, 8)?, text: slice(input)?, room: slice(input)? },
            b'w' => Call::Render { n: number(input, 8)?, body: slice(input)?, room: slice(input)? },
            _ => return None,
        })
    }
}

/// What reading and listing return: n, the tree count and the set that occurs.
fn collection_values(collection: Collection) -> Vec<u64> {
    vec![collection.n as u64, collection.trees.len() as u64, collection.species()]
}

/// The answer of an operation that writes to a lent room, and returns one number.
fn in_room(room: &[u8], operation: impl FnOnce(&mut [u8]) -> Result<usize, Refusal>) -> Answer {
    let mut room = room.to_vec();
    let given = operation(&mut room).map(|value| vec![value as u64]);
    answer(given, Some(room))
}

/// The answer of a build. Every line of one ends with the triples looked at, before what was lent.
fn counted(room: &[u8], build: impl FnOnce(&mut [u8]) -> Counted) -> Answer {
    let mut room = room.to_vec();
    let (given, looked) = build(&mut room);
    answer_counted(given.map(|nodes| vec![nodes as u64]), Some(looked as u64), Some(room))
}

fn answer(given: Result<Vec<u64>, Refusal>, lent: Option<Vec<u8>>) -> Answer {
    answer_counted(given, None, lent)
}

/// The answer, with the triples looked at where there are some to be told.
fn answer_counted(given: Result<Vec<u64>, Refusal>, looked: Option<u64>, lent: Option<Vec<u8>>) -> Answer {
    let mut fault_word = None;
    let done = given.clone().unwrap_or_default();
    let (number, values) = match given {
        Ok(values) => (0, values.iter().map(|v| v.to_string()).collect()),
        Err(refusal) => {
            let values = match refusal {
                Refusal::Version | Refusal::Size | Refusal::TableLength | Refusal::Room | Refusal::Set => vec![],
                Refusal::Short { tree } | Refusal::BodyLength { tree } => vec![tree.to_string()],
                Refusal::LeftOver { count } => vec![count.to_string()],
                Refusal::TreeRule { tree, node, fault } => {
                    let (word, value) = match fault {
                        Fault::Parent(parent) => ("parent", Some(parent.to_string())),
                        Fault::Species(species) => ("species", Some(species.to_string())),
                        Fault::Seen(earlier) => ("seen", Some(earlier.to_string())),
                        Fault::Only => ("only", None),
                    };
                    fault_word = Some(word);
                    let mut values = vec![tree.to_string(), node.to_string(), word.to_string()];
                    values.extend(value);
                    values
                }
                Refusal::TableByte { place } | Refusal::Text { place } => vec![place.to_string()],
                Refusal::NoTree { set } => vec![set.to_string()],
                Refusal::Contradicted { triple, byte } => {
                    vec![triple.to_string(), byte.to_string()]
                }
                Refusal::NotForced { triple } | Refusal::Outside { triple } => vec![triple.to_string()],
                Refusal::Record { record } => vec![record.to_string()],
            };
            (refusal.number(), values)
        }
    };
    let mut line = number.to_string();
    for value in values.into_iter().chain(looked.map(|count| count.to_string())) {
        line.push(' ');
        line.push_str(&value);
    }
    if let Some(lent) = &lent {
        put_lent(&mut line, lent);
    }
    Answer { number, values: done, looked, fault: fault_word, lent, line }
}

/// A lent memory at the end of a line: a bar, and its content in decimal.
fn put_lent<T: Display>(line: &mut String, lent: &[T]) {
    line.push_str(" |");
    for content in lent {
        write!(line, " {content}").expect("a string takes it");
    }
}

/// Everything that trial writes for an input.
pub fn lines(mut input: &[u8]) -> Vec<u8> {
    let mut out = Vec::new();
    while !input.is_empty() {
        match Call::take(&mut input) {
            Some(call) => {
                out.extend(call.answer().line.bytes());
                out.push(10);
            }
            None => {
                out.extend(b"cut\n");
                break;
            }
        }
    }
    out
}
