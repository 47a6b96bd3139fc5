// Tries the library on good and bad input. The answers of the fixed list are written out by hand from documents 01 and 02; those of the random
// collections, lists of records, bodies, tables, sets, candidates and texts, of all small candidates and sets, and of all indices, come from the
// second program (`second/`). What a call must leave alone holds a pattern before it, and is compared after it.

mod boundary;
mod plain;
mod shapes;

// The second program's own modules.
#[allow(dead_code)]
#[path = "../../second/src/entered.rs"]
mod entered;
#[allow(dead_code)]
#[path = "../../second/src/grammar.rs"]
mod grammar;
#[allow(dead_code)]
#[path = "../../second/src/induced.rs"]
mod induced;
#[allow(dead_code)]
#[path = "../../second/src/limits.rs"]
mod limits;
#[path = "../../second/src/loosening.rs"]
mod loosening;
#[path = "../../second/src/newick.rs"]
mod newick;
#[allow(dead_code)]
#[path = "../../second/src/operations.rs"]
mod operations;
#[allow(dead_code)]
#[path = "../../second/src/random.rs"]
mod random;
#[path = "../../second/src/texts.rs"]
mod texts;
#[allow(dead_code)]
#[path = "../../second/src/trees.rs"]
mod trees;
#[allow(dead_code)]
#[path = "../../second/src/triples.rs"]
mod triples;
#[path = "../../second/src/writer.rs"]
mod writer;

use plain::Told;
use random::Random;
use shapes::{body, candidates, collection, joined, looked_at, loosenings, shuffled, star, text, Dice, Shape, SEED, SHAPES};
use std::fmt::Debug;
use std::hint::black_box;
use trees::Tree;
use triples::all;

const COLLECTIONS: usize = 100_000;
const LISTS: usize = 20_000;
const BODIES: usize = 50_000;
const TABLES: usize = 50_000;
const TREES: usize = 5_000;
const CANDIDATES: usize = 30_000;
const LOOSENINGS: usize = 30_000;
const TEXTS: usize = 50_000;
const NUMBERS: usize = 17;
const MOST_VALUES: usize = 6;
const LEAST_LIST: usize = 62;
const SHOWN: usize = 3;

// What is called, and on what; the last number is the length of the table or room that is lent, where one is.
#[derive(Clone, Copy)]
enum Call<'a> {
    Read(&'a [u8]),
    List(&'a [u8], usize),
    Enter(usize, &'a [[u8; 3]], usize),
    Order(usize, &'a [u8], usize),
    // n, a set and a table.
    Build(usize, u64, &'a [u8], usize),
    Veto(usize, u64, &'a [u8], usize),
    // A table and a body, which are only read.
    Check(usize, &'a [u8], &'a [u8]),
    // The same, and the lengths of the room and of the list.
    Loosen(usize, &'a [u8], &'a [u8], usize, usize),
    Parse(usize, &'a [u8], usize),
    Render(usize, &'a [u8], usize),
    // An index; its answer, yes or no, is the number.
    Triple(usize),
}

#[derive(PartialEq, Debug)]
struct Outcome {
    number: usize,
    values: Vec<usize>,
    lent: Vec<u8>,
    list: Vec<u64>,
}

#[derive(Default)]
struct Tally {
    cases: usize,
    differ: usize,
    part: usize,
}

impl Tally {
    // One call with `places` places for values. The front of what is lent is to become `filled`; what is behind it, or all, is to stay.
    fn call(&mut self, name: &str, call: Call, places: usize, told: &Told, filled: Option<&[u8]>) {
        self.call_with_list(name, call, places, told, filled, &[]);
    }

    // The same; the front of the lent list is to become `dropped`. The check and loosening are handed a copy of the table and the body, which stands
    // before what is lent, and is to stay too.
    fn call_with_list(&mut self, name: &str, call: Call, places: usize, told: &Told, filled: Option<&[u8]>, dropped: &[u64]) {
        let (room, list) = match call {
            Call::Read(_) | Call::Check(..) | Call::Triple(_) => (0, 0),
            Call::List(_, room) | Call::Enter(_, _, room) | Call::Build(_, _, _, room) | Call::Veto(_, _, _, room) => (room, 0),
            Call::Order(_, _, room) | Call::Parse(_, _, room) | Call::Render(_, _, room) => (room, 0),
            Call::Loosen(_, _, _, room, list) => (room, list),
        };
        let mut values: Vec<usize> = (0..places).map(|i| 9_000_000_000 + i).collect();
        let mut list: Vec<u64> = (0..list).map(|i| !(i as u64 * 0x0101_0101_0101_0101)).collect();
        let mut lent = match call {
            Call::Check(_, table, body) | Call::Loosen(_, table, body, ..) => [table, body].concat(),
            _ => vec![],
        };
        let from = lent.len();
        lent.extend((0..room).map(|i| (i % 251) as u8 ^ 0xa5));
        let mut wanted = Outcome { number: told.number, values: values.clone(), lent: lent.clone(), list: list.clone() };
        for (place, x) in wanted.values.iter_mut().zip(&told.values) {
            *place = *x;
        }
        if let Some(filled) = filled {
            wanted.lent[from..from + filled.len()].copy_from_slice(filled);
        }
        wanted.list[..dropped.len()].copy_from_slice(dropped);
        let (read, room) = lent.split_at_mut(from);
        let number = match call {
            Call::Read(bytes) => boundary::read(bytes, &mut values),
            Call::List(bytes, _) => boundary::list(bytes, room, &mut values),
            Call::Enter(n, records, _) => boundary::enter(n, records, room, &mut values),
            Call::Order(n, body, _) => boundary::order(n, body, room, &mut values),
            Call::Build(n, set, table, _) => boundary::build(n, set, table, room, &mut values),
            Call::Veto(n, set, table, _) => boundary::veto(n, set, table, room, &mut values),
            Call::Check(n, table, _) => boundary::check(n, &read[..table.len()], &read[table.len()..], &mut values),
            Call::Loosen(n, table, ..) => boundary::loosen(n, &read[..table.len()], &read[table.len()..], room, &mut list, &mut values),
            Call::Parse(n, text, _) => boundary::parse(n, text, room, &mut values),
            Call::Render(n, body, _) => boundary::render(n, body, room, &mut values),
            Call::Triple(index) => boundary::triple(index, &mut values),
        };
        // The compiler would take it that what is only read stays as it was.
        black_box(&mut lent);
        let got = Outcome { number, values, lent, list };
        self.cases += 1;
        self.part += 1;
        if got != wanted {
            self.differ += 1;
            if self.differ <= SHOWN {
                show(name, call, places, &wanted, &got);
            }
        }
    }

    // One call with every number of places for values.
    fn calls(&mut self, name: &str, call: Call, number: usize, values: &[usize], filled: Option<&[u8]>) {
        let told = Told { number, values: values.to_vec() };
        for places in 0..=MOST_VALUES {
            self.call(name, call, places, &told, filled);
        }
    }

    // Reads and lists a string that is refused, with tables of three lengths.
    fn refused(&mut self, name: &str, bytes: &[u8], number: usize, values: &[usize]) {
        self.calls(name, Call::Read(bytes), number, values, None);
        for room in [0, 4, 41_664] {
            self.calls(name, Call::List(bytes, room), number, values, None);
        }
    }

    // n, the number of trees and the set that occurs; and the table.
    fn good(&mut self, name: &str, bytes: &[u8], values: [usize; 3], table: &[u8]) {
        self.calls(name, Call::Read(bytes), 0, &values, None);
        self.calls(name, Call::List(bytes, table.len()), 0, &values, Some(table));
    }

    fn entered(&mut self, name: &str, n: usize, set: usize, records: &[[u8; 3]], table: &[u8]) {
        self.calls(name, Call::Enter(n, records, table.len()), 0, &[n, set], Some(table));
    }

    // Rooms of the least length and of some more.
    fn ordered(&mut self, name: &str, n: usize, body: &[u8], house: &[u8]) {
        for more in [0, 1, 2, 300] {
            self.calls(name, Call::Order(n, body, body.len() + more), 0, &[house.len() / 2], Some(house));
        }
    }

    // Built over all n species. The triples looked at are those that the groups of the body ask for.
    fn built(&mut self, name: &str, n: usize, table: &[u8], body: &[u8]) {
        self.built_over(name, n, all(n), table, body);
    }

    // The veto build gives the same tree.
    fn built_over(&mut self, name: &str, n: usize, set: u64, table: &[u8], body: &[u8]) {
        for more in [0, 1, 2, 300] {
            self.calls(name, Call::Build(n, set, table, body_room(set) + more), 0, &[body.len() / 2, looked_at(body)], Some(body));
        }
        self.vetoed(name, n, set, table, body);
    }

    fn vetoed(&mut self, name: &str, n: usize, set: u64, table: &[u8], body: &[u8]) {
        for more in [0, 1, 2, 300] {
            self.calls(name, Call::Veto(n, set, table, body_room(set) + more), 0, &[body.len() / 2, looked_at(body)], Some(body));
        }
    }

    // A set that stops, and the triples looked at, built over all n species.
    fn no_tree(&mut self, name: &str, n: usize, table: &[u8], stop: [usize; 2]) {
        self.no_tree_over(name, n, all(n), table, stop);
    }

    fn no_tree_over(&mut self, name: &str, n: usize, set: u64, table: &[u8], stop: [usize; 2]) {
        for more in [0, 1, 300] {
            self.calls(name, Call::Build(n, set, table, body_room(set) + more), 10, &stop, None);
        }
    }

    // Loosening drops nothing of what passes, and something where a triplet is not forced; every other refusal of the check is its own too.
    fn checked(&mut self, name: &str, n: usize, table: &[u8], body: &[u8], number: usize, values: &[usize]) {
        self.calls(name, Call::Check(n, table, body), number, values, None);
        if number == 0 {
            self.loosened(name, n, table, body, &plain::order(n, body, body.len()).1.unwrap(), &[]);
        } else if number == 12 {
            let (_, tree, dropped) = plain::loosen(n, table, body, body.len(), LEAST_LIST);
            assert!(!dropped.is_empty(), "the second program drops nothing where a triplet is not forced");
            self.loosened(name, n, table, body, &tree.unwrap(), &dropped);
        } else {
            for (room, list) in [(0, 0), (body.len(), LEAST_LIST - 1), (body.len() + 1, LEAST_LIST)] {
                self.calls(name, Call::Loosen(n, table, body, room, list), number, values, None);
            }
        }
    }

    // The final tree and the dropped sets, with rooms and lists of the least length and of some more.
    fn loosened(&mut self, name: &str, n: usize, table: &[u8], body: &[u8], tree: &[u8], dropped: &[u64]) {
        for more in [0, 1, 2, 300] {
            self.loosened_into(name, Call::Loosen(n, table, body, body.len() + more, LEAST_LIST + more), tree, dropped);
        }
    }

    // One call that is to give what the second program gives. Returns the final tree where there is one.
    fn loosen(&mut self, name: &str, n: usize, table: &[u8], body: &[u8], room: usize, list: usize, loose: &mut Loose) -> Option<Vec<u8>> {
        let (told, tree, dropped) = plain::loosen(n, table, body, room, list);
        loose.count(&told);
        self.call_with_list(name, Call::Loosen(n, table, body, room, list), self.cases % (MOST_VALUES + 1), &told, tree.as_deref(), &dropped);
        tree
    }

    // One call with every number of places for values.
    fn loosened_into(&mut self, name: &str, call: Call, tree: &[u8], dropped: &[u64]) {
        let told = Told { number: 0, values: vec![tree.len() / 2, dropped.len()] };
        for places in 0..=MOST_VALUES {
            self.call_with_list(name, call, places, &told, Some(tree), dropped);
        }
    }

    fn parsed(&mut self, n: usize, text: &str, body: &[u8]) {
        for more in [0, 1, 2, 300] {
            self.calls(text, Call::Parse(n, text.as_bytes(), body.len() + more), 0, &[body.len() / 2], Some(body));
        }
    }

    fn rendered(&mut self, n: usize, body: &[u8], text: &str) {
        for more in [0, 1, 2, 300] {
            self.calls(text, Call::Render(n, body, text.len() + more), 0, &[text.len()], Some(text.as_bytes()));
        }
    }

    // A text that is refused whatever the room.
    fn text_refused(&mut self, n: usize, text: &[u8], number: usize, values: &[usize]) {
        for room in [0, 2, 300] {
            self.calls("a text", Call::Parse(n, text, room), number, values, None);
        }
    }

    fn end_part(&mut self, what: &str) {
        println!("{what}: {} cases", self.part);
        self.part = 0;
    }
}

// How often each number was the answer, and of 6 each fault.
#[derive(Default)]
struct Answers {
    numbers: [usize; NUMBERS],
    faults: [usize; 5],
}

impl Answers {
    fn count(&mut self, told: &Told) {
        self.numbers[told.number] += 1;
        if told.number == 6 {
            self.faults[told.values[2]] += 1;
        }
    }

    fn show(&self, operation: &str) {
        let given: Vec<String> = (0..NUMBERS).filter(|&i| self.numbers[i] > 0).map(|i| format!("{i}: {}", self.numbers[i])).collect();
        let faults = if self.numbers[6] > 0 { format!("; of 6, faults 1 to 4: {:?}", &self.faults[1..]) } else { String::new() };
        println!("  {operation} answered {}{faults}", given.join(", "));
    }
}

// The same of loosening, and how often 0 to 8 sets were dropped, and more.
#[derive(Default)]
struct Loose {
    answers: Answers,
    dropped: [usize; 10],
}

impl Loose {
    fn count(&mut self, told: &Told) {
        self.answers.count(told);
        if told.number == 0 {
            self.dropped[told.values[1].min(9)] += 1;
        }
    }

    fn show(&self) {
        self.answers.show("loosening");
        println!("  of 0, with 0 to 8 and with more sets dropped: {:?}", self.dropped);
    }
}

// The longest collection has 4,099 bytes; what is longer is one of the fixed list, known by its name, or a random table of over 30 species.
fn start<T: Debug>(items: &[T]) -> String {
    format!("{:?}{}", &items[..items.len().min(4200)], if items.len() > 4200 { " and so on" } else { "" })
}

fn show(name: &str, call: Call, places: usize, wanted: &Outcome, got: &Outcome) {
    println!("DIFFERS: {name}");
    let (what, length, items) = match call {
        Call::Read(bytes) => ("read".to_string(), bytes.len(), start(bytes)),
        Call::List(bytes, room) => (format!("list, table of {room} bytes"), bytes.len(), start(bytes)),
        Call::Enter(n, records, room) => (format!("enter, n {n}, table of {room} bytes"), records.len(), start(records)),
        Call::Order(n, body, room) => (format!("order, n {n}, room of {room} bytes"), body.len(), start(body)),
        Call::Build(n, set, table, room) => (format!("build, n {n}, set {set}, room of {room} bytes"), table.len(), start(table)),
        Call::Veto(n, set, table, room) => (format!("veto, n {n}, set {set}, room of {room} bytes"), table.len(), start(table)),
        Call::Check(n, table, body) => (format!("check, n {n}, body {}", start(body)), table.len(), start(table)),
        Call::Loosen(n, table, body, room, list) => {
            (format!("loosen, n {n}, body {}, room of {room} bytes, list of {list} places", start(body)), table.len(), start(table))
        }
        Call::Parse(n, text, room) => (format!("parse, n {n}, room of {room} bytes"), text.len(), format!("{:?}", String::from_utf8_lossy(text))),
        Call::Render(n, body, room) => (format!("render, n {n}, room of {room} bytes"), body.len(), start(body)),
        Call::Triple(index) => (format!("triple, index {index}"), 0, String::new()),
    };
    println!("  call: {what}, {places} places for values");
    println!("  {length} long: {items}");
    println!("  wanted: number {}, values {:?}", wanted.number, wanted.values);
    println!("  got:    number {}, values {:?}", got.number, got.values);
    show_lent("table, body or room", &wanted.lent, &got.lent);
    show_lent("list", &wanted.list, &got.list);
}

fn show_lent<T: Debug + PartialEq>(what: &str, wanted: &[T], got: &[T]) {
    let places: Vec<usize> = (0..wanted.len()).filter(|&i| wanted[i] != got[i]).collect();
    if let Some(&i) = places.first() {
        println!("  {what}: {} places differ, the first at {i}: wanted {:?}, got {:?}", places.len(), wanted[i], got[i]);
    }
}

// The room for a tree of a set that is not empty.
fn body_room(set: u64) -> usize {
    4 * set.count_ones() as usize - 2
}

// A collection of one tree.
fn one(n: u8, body: &[u8]) -> Vec<u8> {
    collection(n, &[body.to_vec()])
}

// (((0,1),2),3), of document 01's small runs.
const LADDER: [u8; 14] = [255, 255, 0, 255, 1, 255, 2, 0, 2, 1, 1, 2, 0, 3];

fn header_and_lengths(tally: &mut Tally) {
    let strings: [(&str, &[u8], usize, &[usize]); 33] = [
        ("empty", &[], 3, &[0]),
        ("one byte, version 1", &[1], 3, &[0]),
        ("one byte, version 0", &[0], 1, &[]),
        ("one byte, version 2", &[2], 1, &[]),
        ("two bytes", &[1, 4], 3, &[0]),
        ("two bytes, n 0", &[1, 0], 3, &[0]),
        ("two bytes, n 65", &[1, 65], 3, &[0]),
        ("version 0", &[0, 4, 0], 1, &[]),
        ("version 2", &[2, 4, 0], 1, &[]),
        ("version 255", &[255, 4, 0], 1, &[]),
        ("version 2 and n 65", &[2, 65, 0], 1, &[]),
        ("n 0", &[1, 0, 0], 2, &[]),
        ("n 65", &[1, 65, 0], 2, &[]),
        ("n 255", &[1, 255, 0], 2, &[]),
        ("17 trees", &[1, 4, 17], 2, &[]),
        ("255 trees", &[1, 4, 255], 2, &[]),
        ("n 0 and a byte left over", &[1, 0, 0, 7], 2, &[]),
        ("no tree and a byte left over", &[1, 4, 0, 7], 4, &[1]),
        ("no tree and three bytes left over", &[1, 4, 0, 0, 2, 255], 4, &[3]),
        ("no length", &[1, 4, 1], 3, &[0]),
        ("half a length", &[1, 4, 1, 0], 3, &[0]),
        ("half a length, that would be over 254", &[1, 4, 1, 9], 3, &[0]),
        ("length 0", &[1, 4, 1, 0, 0], 5, &[0]),
        ("length 1", &[1, 4, 1, 0, 1, 255], 5, &[0]),
        ("length 3 and the body cut", &[1, 4, 1, 0, 3, 255], 5, &[0]),
        ("length 2 and no body", &[1, 4, 1, 0, 2], 3, &[0]),
        ("length 254 and the body cut", &[1, 4, 1, 0, 254, 255, 0], 3, &[0]),
        ("length 255", &[1, 4, 1, 0, 255, 255, 0], 5, &[0]),
        ("length 256", &[1, 4, 1, 1, 0, 255, 0], 5, &[0]),
        ("length 512, which is 2 by the other order of bytes", &[1, 4, 1, 2, 0, 255, 0], 5, &[0]),
        ("length 65,535", &[1, 4, 1, 255, 255, 255, 0], 5, &[0]),
        ("second length 0", &[1, 4, 2, 0, 2, 255, 0, 0, 0], 5, &[1]),
        ("second length missing", &[1, 4, 2, 0, 2, 255, 0], 3, &[1]),
    ];
    for (name, bytes, number, values) in strings {
        tally.refused(name, bytes, number, values);
    }
    let mut whole = vec![1, 4, 1, 1, 0];
    whole.extend([255; 256]);
    tally.refused("length 256 with all its bytes", &whole, 5, &[0]);
    let mut leaves = vec![1, 4, 17];
    leaves.extend([0, 2, 255, 3].repeat(17));
    tally.refused("17 lone leaves", &leaves, 2, &[]);
    tally.end_part("header and lengths, refused");
}

// Of one tree: name, n, body; then node, fault (1 bad parent, 2 bad species, 3 seen before, 4 only child) and what the fault carries.
const BROKEN: [(&str, u8, &[u8], [usize; 3]); 28] = [
    ("node 0 has parent 0", 1, &[0, 0], [0, 1, 0]),
    ("node 0 has parent 254", 2, &[254, 255, 0, 0, 0, 1], [0, 1, 254]),
    ("a later node has parent 255", 2, &[255, 255, 0, 0, 255, 1], [2, 1, 255]),
    ("node 1 is its own parent", 2, &[255, 255, 1, 0, 0, 1], [1, 1, 1]),
    ("node 2 is its own parent", 2, &[255, 255, 0, 0, 2, 1], [2, 1, 2]),
    ("a parent is a later node", 2, &[255, 255, 2, 0, 0, 1], [1, 1, 2]),
    ("a parent is no node", 2, &[255, 255, 0, 0, 99, 1], [2, 1, 99]),
    ("a leaf is a parent of one", 3, &[255, 255, 0, 0, 0, 1, 1, 2], [1, 2, 0]),
    ("a leaf is a parent of two", 4, &[255, 255, 0, 0, 0, 1, 2, 2, 2, 3], [2, 2, 1]),
    ("the root has children and a species", 2, &[255, 1, 0, 0, 0, 1], [0, 2, 1]),
    ("a species twice", 2, &[255, 255, 0, 0, 0, 0], [2, 3, 1]),
    ("a species twice, far apart", 4, &[255, 255, 0, 3, 0, 255, 2, 0, 2, 1, 0, 2, 0, 3], [6, 3, 1]),
    ("a species three times", 3, &[255, 255, 0, 2, 0, 2, 0, 2], [2, 3, 1]),
    ("255 255 alone", 4, &[255, 255], [0, 2, 255]),
    ("species n", 4, &[255, 4], [0, 2, 4]),
    ("species 64 of 64", 64, &[255, 64], [0, 2, 64]),
    ("species 1 of 1", 1, &[255, 255, 0, 0, 0, 1], [2, 2, 1]),
    ("an inner node without children", 2, &[255, 255, 0, 0, 0, 255], [2, 2, 255]),
    ("only child at the root", 4, &[255, 255, 0, 0], [0, 4, 0]),
    ("only child deep down", 3, &[255, 255, 0, 0, 0, 255, 2, 1, 2, 255, 4, 2], [4, 4, 0]),
    ("one node: bad parent and bad species", 2, &[255, 255, 0, 0, 9, 9], [2, 1, 9]),
    ("one node: bad species and only child", 3, &[255, 255, 0, 0, 0, 7, 2, 1], [2, 2, 7]),
    ("one node: bad species, the same as before", 2, &[255, 255, 0, 0, 0, 0, 2, 1], [2, 2, 0]),
    ("two nodes: bad species, then bad parent", 2, &[255, 255, 0, 9, 255, 0], [2, 1, 255]),
    ("two nodes: only child, then bad species", 2, &[255, 255, 0, 9], [0, 4, 0]),
    ("two nodes: seen before, then bad species", 2, &[255, 255, 0, 0, 0, 0, 0, 9], [2, 3, 1]),
    ("two nodes: bad species, then seen before", 2, &[255, 255, 0, 9, 0, 0, 0, 0], [1, 2, 9]),
    ("two nodes: only child, then seen before", 2, &[255, 255, 0, 255, 0, 0, 1, 0], [1, 4, 0]),
];

fn broken_rules(tally: &mut Tally) {
    for (name, n, body, [node, fault, carried]) in BROKEN {
        tally.refused(name, &one(n, body), 6, &[0, node, fault, carried]);
    }
    let leaf = vec![255, 0];
    tally.refused("the third tree is broken", &collection(2, &[leaf.clone(), leaf.clone(), vec![255, 2]]), 6, &[2, 0, 2, 2]);
    tally.refused("two broken trees", &collection(2, &[leaf.clone(), vec![9, 0], vec![255, 2]]), 6, &[1, 0, 1, 9]);
    tally.refused("a broken tree before a bad length", &[1, 2, 2, 0, 2, 255, 2, 0, 0], 6, &[0, 0, 2, 2]);
    tally.refused("a broken tree and bytes left over", &[1, 2, 1, 0, 2, 255, 2, 0, 0], 6, &[0, 0, 2, 2]);
    tally.end_part("tree rules, refused");
}

fn cuts_and_left_over(tally: &mut Tally) {
    let mut two = vec![1, 4, 2, 0, 14];
    two.extend(LADDER);
    two.extend([0, 6, 255, 255, 0, 2, 0, 1]);
    for end in 0..19 {
        tally.refused("cut in the header or the first tree", &two[..end], 3, &[0]);
    }
    for end in 19..27 {
        tally.refused("cut in the second tree", &two[..end], 3, &[1]);
    }
    two.push(0);
    tally.refused("one byte left over", &two, 4, &[1]);
    tally.end_part("cut at each byte, and one byte left over");
}

fn good_ones(tally: &mut Tally) {
    tally.good("n 1, no tree", &[1, 1, 0], [1, 0, 0], &[]);
    tally.good("n 64, no tree", &[1, 64, 0], [64, 0, 0], &[0; 41_664]);
    tally.good("n 1, the lone leaf", &one(1, &[255, 0]), [1, 1, 1], &[]);
    tally.good("n 2", &one(2, &[255, 255, 0, 1, 0, 0]), [2, 1, 3], &[]);
    tally.good("the lone leaf 63 of 64", &one(64, &[255, 63]), [64, 1, 1 << 63], &[0; 41_664]);
    tally.good("16 lone leaves", &collection(4, &vec![vec![255, 3]; 16]), [4, 16, 8], &[0; 4]);
    tally.good("a fan", &one(3, &[255, 255, 0, 0, 0, 1, 0, 2]), [3, 1, 7], &[8]);
    tally.good("two of the three", &one(3, &[255, 255, 0, 0, 0, 1]), [3, 1, 3], &[0]);
    tally.good("01|2", &one(3, &[255, 255, 0, 255, 1, 0, 1, 1, 0, 2]), [3, 1, 7], &[1]);
    tally.good("02|1", &one(3, &[255, 255, 0, 255, 1, 0, 0, 1, 1, 2]), [3, 1, 7], &[2]);
    tally.good("12|0", &one(3, &[255, 255, 0, 0, 0, 255, 2, 2, 2, 1]), [3, 1, 7], &[4]);
    tally.good("(((0,1),2),3)", &one(4, &LADDER), [4, 1, 15], &[1, 1, 1, 1]);
    tally.good("((0,1),(2,3))", &one(4, &[255, 255, 0, 255, 0, 255, 1, 0, 1, 1, 2, 2, 2, 3]), [4, 1, 15], &[1, 1, 4, 4]);
    let close = vec![255, 255, 0, 255, 1, 0, 1, 1, 0, 2];
    let other = vec![255, 255, 0, 255, 1, 0, 1, 2, 0, 1];
    let fan = vec![255, 255, 0, 0, 0, 1, 0, 2];
    tally.good("01|2 and a fan", &collection(3, &[fan.clone(), close.clone()]), [3, 2, 7], &[9]);
    tally.good("01|2, 02|1 and a fan", &collection(3, &[close.clone(), other, fan]), [3, 3, 7], &[11]);
    tally.good("((0,1),2,3)", &one(4, &[255, 255, 0, 255, 1, 0, 1, 1, 0, 2, 0, 3]), [4, 1, 15], &[1, 1, 8, 8]);
    tally.good("((0,1,2),3)", &one(4, &[255, 255, 0, 255, 1, 0, 1, 1, 1, 2, 0, 3]), [4, 1, 15], &[8, 1, 1, 1]);
    tally.good("a fan of 4", &one(4, &[255, 255, 0, 3, 0, 1, 0, 2, 0, 0]), [4, 1, 15], &[8; 4]);
    // Document 01's run with n = 6: ((0,1),2) and ((0,1),(3,(4,5))).
    let far = vec![255, 255, 0, 255, 1, 0, 1, 1, 0, 255, 4, 3, 4, 255, 6, 4, 6, 5];
    tally.good("the run with n = 6", &collection(6, &[close, far]), [6, 2, 63], &SIX_TABLE);
    // Species that occur nowhere: leaves, fans and trees beside each other.
    tally.good("the leaf 2 of 4", &one(4, &[255, 2]), [4, 1, 4], &[0; 4]);
    tally.good("the fan of 1, 3 and 4 of 5", &one(5, &[255, 255, 0, 4, 0, 1, 0, 3]), [5, 1, 26], &[0, 0, 0, 0, 0, 0, 0, 0, 8, 0]);
    tally.good("the leaves 5 and 0 of 6", &collection(6, &[vec![255, 5], vec![255, 0]]), [6, 2, 33], &[0; 20]);
    tally.good("(0,2) and the leaf 3 of 4", &collection(4, &[vec![255, 255, 0, 2, 0, 0], vec![255, 3]]), [4, 2, 13], &[0; 4]);
    let apart = vec![255, 255, 0, 255, 1, 0, 1, 3, 0, 2];
    tally.good("03|2 of 5, and (0,2)", &collection(5, &[apart, vec![255, 255, 0, 0, 0, 2]]), [5, 2, 13], &[0, 0, 2, 0, 0, 0, 0, 0, 0, 0]);
    tally.end_part("good collections, tables written out");
}

fn tables_and_long_strings(tally: &mut Tally) {
    let ladder = one(4, &LADDER);
    let told = Told { number: 7, values: vec![] };
    for room in [0, 3, 5, 8, 41_664, 1_048_576] {
        tally.call("a table for 4 species", Call::List(&ladder, room), MOST_VALUES, &told, None);
    }
    for n in [1, 2] {
        tally.call("a table for 1 or 2 species", Call::List(&one(n, &[255, 0]), 1), MOST_VALUES, &told, None);
    }
    let all: Vec<u8> = (0..64).collect();
    let nested = one(64, &body(Shape::Nested, &all, &mut Dice(SEED)));
    assert_eq!(nested[..5], [1, 64, 1, 0, 254]);
    for room in [41_663, 41_665, 1_048_576] {
        tally.call("a table for 64 species", Call::List(&nested, room), MOST_VALUES, &told, None);
    }
    // ((((0,1),2),3)..,63): on every triple a < b < c it holds ab|c.
    tally.good("length 254, n 64", &nested, [64, 1, usize::MAX], &[1; 41_664]);
    tally.end_part("tables of a wrong length, and the longest body");

    let mut long = ladder;
    long.resize(19 + 4_194_304, 255);
    tally.refused("four megabytes left over", &long, 4, &[4_194_304]);
    tally.refused("four megabytes of 0", &vec![0; 4_194_304], 1, &[]);
    tally.refused("four megabytes of 1", &vec![1; 4_194_304], 5, &[0]);
    tally.end_part("strings of some megabytes");
}

// n 0 or over 64; 260 is 4 in one byte, and 4,294,967,300 is 4 in four bytes.
const BAD_COUNTS: [usize; 9] = [0, 65, 66, 255, 256, 260, 4_294_967_300, 1 << 63, usize::MAX];

fn lists_refused(tally: &mut Tally) {
    // The last list is bad over any n.
    let lists: [&[[u8; 3]]; 3] = [&[], &[[0, 1, 2]], &[[0, 1, 2], [0, 0, 255]]];
    for n in BAD_COUNTS {
        for records in lists {
            for room in [0, 4, 5, 41_664, 43_680] {
                tally.calls("n 0 or over 64", Call::Enter(n, records, room), 2, &[], None);
            }
        }
    }
    for (n, rooms) in [(1, [1, 2]), (2, [1, 4]), (3, [0, 2]), (4, [3, 5]), (64, [41_663, 41_665])] {
        for records in lists {
            for room in rooms {
                tally.calls("a table of a wrong length", Call::Enter(n, records, room), 7, &[], None);
            }
        }
    }
    tally.calls("n 1, a species three times", Call::Enter(1, &[[0, 0, 0]], 0), 13, &[0], None);
    tally.calls("n 2, a third species", Call::Enter(2, &[[0, 1, 2]], 0), 13, &[0], None);
    tally.calls("n 2, a species twice", Call::Enter(2, &[[0, 1, 1]], 0), 13, &[0], None);
    let twice = [[1, 1, 2], [1, 2, 1], [2, 1, 1], [3, 3, 3]];
    let not_below_4 = [[4, 0, 1], [0, 4, 1], [0, 1, 4], [255, 0, 1], [0, 255, 1], [0, 1, 255], [4, 5, 6]];
    let both = [[4, 4, 0], [255, 1, 255], [255, 255, 255]];
    for bad in [&twice[..], &not_below_4, &both].concat() {
        tally.calls("a bad record", Call::Enter(4, &[bad], 4), 13, &[0], None);
        tally.calls("the last of three is bad", Call::Enter(4, &[[0, 1, 2], [2, 1, 3], bad], 4), 13, &[2], None);
        tally.calls("two bad ones, this one first", Call::Enter(4, &[[0, 1, 2], bad, [3, 1, 0], [0, 2, 0], [9, 0, 1]], 4), 13, &[1], None);
        tally.calls("two bad ones, this one last", Call::Enter(4, &[[3, 4, 0], [0, 1, 2], bad], 4), 13, &[0], None);
    }
    for bad in [[64, 62, 63], [62, 64, 63], [62, 63, 64], [0, 1, 66], [63, 0, 63]] {
        tally.calls("a bad record of 64 species", Call::Enter(64, &[[61, 62, 63], bad], 41_664), 13, &[1], None);
    }
    let mut long = vec![[0, 1, 2]; 70_000];
    long.push([0, 1, 4]);
    tally.calls("the last of 70,001 is bad", Call::Enter(4, &long, 4), 13, &[70_000], None);
    tally.end_part("lists of records, refused");
}

fn lists_entered(tally: &mut Tally) {
    for n in [1, 2] {
        tally.entered("1 or 2 species, no record", n, 0, &[], &[]);
    }
    tally.entered("3 species, no record", 3, 0, &[], &[0]);
    tally.entered("4 species, no record", 4, 0, &[], &[0, 0, 0, 0]);
    tally.entered("64 species, no record", 64, 0, &[], &[0; 41_664]);
    for (record, turned, byte) in [([0, 1, 2], [1, 0, 2], 1), ([0, 2, 1], [2, 0, 1], 2), ([1, 2, 0], [2, 1, 0], 4)] {
        tally.entered("one record", 3, 7, &[record], &[byte]);
        tally.entered("the close pair in the other order", 3, 7, &[turned], &[byte]);
        tally.entered("a record twice", 3, 7, &[record, record], &[byte]);
        tally.entered("a triplet in both orders, and again", 3, 7, &[turned, record, turned], &[byte]);
    }
    tally.entered("01|2 and 02|1", 3, 7, &[[0, 1, 2], [0, 2, 1]], &[3]);
    tally.entered("12|0 and 01|2", 3, 7, &[[1, 2, 0], [0, 1, 2]], &[5]);
    tally.entered("02|1 and 12|0", 3, 7, &[[2, 0, 1], [2, 1, 0]], &[6]);
    tally.entered("all three of a triple", 3, 7, &[[1, 2, 0], [0, 2, 1], [1, 0, 2]], &[7]);
    // Document 01's runs with n = 4.
    tally.entered("01|2 and 12|3", 4, 15, &[[0, 1, 2], [1, 2, 3]], &[1, 0, 0, 1]);
    tally.entered("02|1 and 01|2 of 4", 4, 7, &[[2, 0, 1], [0, 1, 2]], &[3, 0, 0, 0]);
    tally.entered("12|3, 03|1 and 01|2", 4, 15, &[[2, 1, 3], [3, 0, 1], [1, 0, 2]], &[1, 2, 0, 1]);
    tally.entered("13|2 and 23|0", 4, 15, &[[1, 3, 2], [2, 3, 0]], &[0, 0, 4, 2]);
    tally.entered("14|2 and 24|1 of 5", 5, 22, &[[1, 4, 2], [4, 2, 1]], &[0, 0, 0, 0, 0, 0, 6, 0, 0, 0]);
    let mut table = vec![0; 41_664];
    table[0] = 2;
    table[41_663] = 5;
    tally.entered("the first and the last triple of 64", 64, (7 << 61) + 7, &[[63, 62, 61], [2, 0, 1], [61, 62, 63]], &table);
    tally.entered("70,000 records", 4, 11, &[[1, 0, 3]; 70_000], &[0, 1, 0, 0]);
    tally.end_part("lists of records, tables written out");
}

// ((((0,1),2),3)..,63) in house order: the inner nodes, the leaf 0, and each further leaf one node higher up.
fn nested_house() -> Vec<u8> {
    let mut house = vec![255, 255];
    for inner in 1..63 {
        house.extend([inner - 1, 255]);
    }
    house.extend([62, 0]);
    for s in 1..64 {
        house.extend([63 - s, s]);
    }
    house
}

// ((0,1),2,(3,(4,5))), of document 01's run with n = 6.
const SIX: [u8; 20] = [255, 255, 0, 255, 1, 0, 1, 1, 0, 2, 0, 255, 5, 3, 5, 255, 7, 4, 7, 5];

// Bodies that are refused whatever the room, by house order and by the writing of text.
fn bodies_refused(tally: &mut Tally, what: &str, call: fn(usize, &[u8], usize) -> Call) {
    // An empty body, an odd one, a broken one and a good one: n comes first.
    let bodies: [&[u8]; 4] = [&[], &[255, 0, 0], &[9, 9], &LADDER];
    for n in BAD_COUNTS {
        for body in bodies {
            for room in [0, 13, 14, 300] {
                tally.calls("n 0 or over 64", call(n, body, room), 2, &[], None);
            }
        }
    }
    // A body that starts well, up to each bad length.
    let mut long = nested_house();
    long.resize(65_538, 255);
    for length in BAD_LENGTHS {
        for room in [0, 2, length, 300] {
            tally.calls("a body of a bad length", call(64, &long[..length], room), 5, &[0], None);
        }
    }
    tally.calls("an odd length and a bad parent", call(4, &[9, 9, 9], 300), 5, &[0], None);
    tally.calls("256 bytes of 0", call(4, &[0; 256], 300), 5, &[0], None);
    // With no room at all a broken tree is still 6.
    for (name, n, body, [node, fault, carried]) in BROKEN {
        for room in [0, body.len() - 1, body.len(), 300] {
            tally.calls(name, call(n as usize, body, room), 6, &[0, node, fault, carried], None);
        }
    }
    tally.end_part(&format!("bodies {what}, refused"));
}

fn bodies_without_room(tally: &mut Tally) {
    for room in [0, 1] {
        tally.calls("the lone leaf, room too short", Call::Order(64, &[255, 63], room), 9, &[], None);
    }
    for room in [0, 1, 2, 12, 13] {
        tally.calls("(((0,1),2),3), room too short", Call::Order(4, &LADDER, room), 9, &[], None);
    }
    for room in [0, 2, 252, 253] {
        tally.calls("254 bytes, room too short", Call::Order(64, &nested_house(), room), 9, &[], None);
    }
    tally.end_part("bodies to put in house order, room too short");
}

fn bodies_ordered(tally: &mut Tally) {
    tally.ordered("the lone leaf", 1, &[255, 0], &[255, 0]);
    tally.ordered("the lone leaf 63 of 64", 64, &[255, 63], &[255, 63]);
    let pair = [255, 255, 0, 0, 0, 1];
    tally.ordered("(0,1)", 2, &pair, &pair);
    tally.ordered("(1,0)", 2, &[255, 255, 0, 1, 0, 0], &pair);
    let fan = [255, 255, 0, 0, 0, 1, 0, 2];
    for [x, y, z] in [[0, 1, 2], [0, 2, 1], [1, 0, 2], [1, 2, 0], [2, 0, 1], [2, 1, 0]] {
        tally.ordered("a fan", 3, &[255, 255, 0, x, 0, y, 0, z], &fan);
    }
    tally.ordered("(((0,1),2),3)", 4, &LADDER, &LADDER);
    tally.ordered("(3,(2,(1,0)))", 4, &[255, 255, 0, 3, 0, 255, 2, 2, 2, 255, 4, 1, 4, 0], &LADDER);
    tally.ordered("(((0,1),2),3), level by level", 4, &[255, 255, 0, 255, 0, 3, 1, 2, 1, 255, 4, 1, 4, 0], &LADDER);
    let halves = [255, 255, 0, 255, 1, 0, 1, 1, 0, 255, 4, 2, 4, 3];
    tally.ordered("((0,1),(2,3)), level by level", 4, &[255, 255, 0, 255, 0, 255, 1, 0, 1, 1, 2, 2, 2, 3], &halves);
    tally.ordered("((3,2),(1,0)), leaves in turn", 4, &[255, 255, 0, 255, 0, 255, 1, 3, 2, 1, 1, 2, 2, 0], &halves);
    let crossed = [255, 255, 0, 255, 1, 0, 1, 3, 0, 255, 4, 1, 4, 2];
    tally.ordered("((2,1),(0,3))", 4, &[255, 255, 0, 255, 0, 255, 2, 0, 1, 2, 2, 3, 1, 1], &crossed);
    let deep = [255, 255, 0, 255, 1, 255, 2, 0, 2, 2, 1, 3, 0, 1];
    tally.ordered("(1,(3,(2,0))), the lowest species deep down", 4, &[255, 255, 0, 1, 0, 255, 2, 3, 2, 255, 4, 2, 4, 0], &deep);
    let small_first = [255, 255, 0, 0, 0, 255, 2, 1, 2, 2, 2, 3];
    tally.ordered("((3,2,1),0), the larger child last", 4, &[255, 255, 0, 255, 1, 3, 1, 2, 1, 1, 0, 0], &small_first);
    let large_first = [255, 255, 0, 255, 1, 0, 1, 2, 1, 3, 0, 1];
    tally.ordered("(1,(3,2,0)), the larger child first", 4, &[255, 255, 0, 1, 0, 255, 2, 3, 2, 2, 2, 0], &large_first);
    tally.ordered("((4,5),3) of 64", 64, &[255, 255, 0, 255, 1, 5, 1, 4, 0, 3], &[255, 255, 0, 3, 0, 255, 2, 4, 2, 5]);
    tally.ordered("(63,(62,5)) of 64", 64, &[255, 255, 0, 63, 0, 255, 2, 62, 2, 5], &[255, 255, 0, 255, 1, 5, 1, 62, 0, 63]);
    tally.ordered("((0,1),2,(3,(4,5)))", 6, &SIX, &SIX);
    let turned = [255, 255, 0, 255, 1, 255, 2, 5, 2, 4, 1, 3, 0, 2, 0, 255, 7, 1, 7, 0];
    tally.ordered("(((5,4),3),2,(1,0))", 6, &turned, &SIX);
    let all: Vec<u8> = (0..64).collect();
    tally.ordered("((((0,1),2),3)..,63)", 64, &nested_house(), &nested_house());
    tally.ordered("(63..,(3,(2,(1,0))))", 64, &body(Shape::Nested, &all, &mut Dice(SEED)), &nested_house());
    let (mut rising, mut falling) = (vec![255, 255], vec![255, 255]);
    for s in 0..64 {
        rising.extend([0, s]);
        falling.extend([0, 63 - s]);
    }
    tally.ordered("a fan of 64", 64, &falling, &rising);
    tally.end_part("bodies put in house order, written out");
}

// n, a table with bytes over 15, and the place of the first one.
const OVER: [(usize, &[u8], usize); 9] = [
    (3, &[16], 0),
    (3, &[17], 0),
    (3, &[128], 0),
    (3, &[255], 0),
    (4, &[16, 0, 0, 0], 0),
    (4, &[15, 17, 0, 255], 1),
    (4, &[1, 0, 32, 1], 2),
    (4, &[3, 8, 0, 16], 3),
    (5, &[15, 15, 15, 15, 15, 15, 15, 15, 15, 31], 9),
];

// n, and lengths that its table does not have.
const BAD_TABLES: [(usize, [usize; 2]); 6] = [(1, [1, 2]), (2, [1, 4]), (3, [0, 2]), (4, [3, 5]), (5, [0, 11]), (64, [41_663, 41_665])];

// A body's bad lengths; 258 is 2 in one byte, and 65,538 is 2 in two bytes.
const BAD_LENGTHS: [usize; 13] = [0, 1, 3, 5, 127, 253, 255, 256, 257, 258, 512, 65_536, 65_538];

// The two builds.
const BUILDS: [(&str, fn(usize, u64, &[u8], usize) -> Call); 2] = [
    ("to build from", |n, set, table, room| Call::Build(n, set, table, room)),
    ("to build from with a veto", |n, set, table, room| Call::Veto(n, set, table, room)),
];

// No triple was looked at.
fn tables_refused(tally: &mut Tally, what: &str, call: fn(usize, u64, &[u8], usize) -> Call) {
    // 43,680 bytes are a table of 65 species. n comes first, then the length, then the bytes, then the set, what is outside it, and the room.
    for n in BAD_COUNTS {
        for length in [0, 4, 5, 41_664, 43_680] {
            for byte in [0, 1, 255] {
                for (set, room) in [(0, 0), (15, 14), (u64::MAX, 300)] {
                    tally.calls("n 0 or over 64", call(n, set, &vec![byte; length], room), 2, &[0], None);
                }
            }
        }
    }
    for (n, lengths) in BAD_TABLES {
        for length in lengths {
            for byte in [0, 3, 255] {
                for (set, room) in [(0, 0), (all(n), 4 * n - 3), (all(n), 4 * n - 2), (1, 300), (u64::MAX, 300)] {
                    tally.calls("a table of a wrong length", call(n, set, &vec![byte; length], room), 7, &[0], None);
                }
            }
        }
    }
    let mut last = vec![0; 41_664];
    last[41_663] = 16;
    for (n, table, first) in OVER.into_iter().chain([(64, &last[..], 41_663)]) {
        for (set, room) in [(0, 0), (all(n), 4 * n - 3), (all(n), 4 * n - 2), (1, 300), (u64::MAX, 300)] {
            tally.calls("a byte over 15", call(n, set, table, room), 8, &[first, 0], None);
        }
    }
    // Room for the body alone is not enough, and a table that no tree holds is 9 all the same.
    let rooms: [(usize, u64, &[u8], &[usize]); 13] = [
        (1, 1, &[], &[0, 1]),
        (2, 3, &[], &[0, 2, 5]),
        (2, 2, &[], &[0, 1]),
        (3, 7, &[0], &[0, 8, 9]),
        (3, 7, &[7], &[0, 9]),
        (4, 15, &[0, 0, 0, 0], &[0, 10, 13]),
        (4, 15, &[1, 0, 0, 1], &[0, 12, 13]),
        (4, 15, &[3, 0, 0, 0], &[0, 13]),
        (4, 11, &[0, 0, 0, 0], &[0, 8, 9]),
        (4, 7, &[3, 0, 0, 0], &[0, 9]),
        (64, u64::MAX, &[0; 41_664], &[0, 130, 253]),
        (64, 1 << 63, &[0; 41_664], &[0, 1]),
        (64, u64::MAX >> 1, &[0; 41_664], &[0, 249]),
    ];
    for (n, set, table, rooms) in rooms {
        for &room in rooms {
            tally.calls("room too short", call(n, set, table, room), 9, &[0], None);
        }
    }
    tally.end_part(&format!("tables {what}, refused"));
}

fn sets_refused(tally: &mut Tally, what: &str, call: fn(usize, u64, &[u8], usize) -> Call) {
    // Empty, or with a bit at n or above, whatever the table has and the room.
    let sets: [(usize, &[u64]); 5] = [
        (1, &[0, 2, 3, 1 << 32, 1 << 63, u64::MAX]),
        (3, &[0, 8, 9, 15, (1 << 32) + 7, (1 << 63) + 7, u64::MAX]),
        (4, &[0, 16, 17, 31, (1 << 32) + 15, (1 << 63) + 15, u64::MAX - 15, u64::MAX]),
        (63, &[0, 1 << 63, (1 << 63) + 1, u64::MAX]),
        (64, &[0]),
    ];
    for (n, sets) in sets {
        for &set in sets {
            for byte in [0, 1, 8, 15] {
                for room in [0, 4 * n - 2, 300] {
                    tally.calls("no set of the species", call(n, set, &vec![byte; fitting(n)], room), 15, &[0], None);
                }
            }
        }
    }
    // n, a set, a table, and the first triple with a byte and a species outside the set.
    let mut last = vec![0; 41_664];
    last[41_663] = 4;
    let outside: [(usize, u64, &[u8], usize); 20] = [
        (3, 1, &[1], 0),
        (3, 5, &[8], 0),
        (4, 7, &[0, 8, 0, 0], 1),
        (4, 7, &[9, 0, 8, 1], 2),
        (4, 11, &[0, 9, 0, 8], 3),
        (3, 6, &[7], 0),
        (4, 7, &[0, 0, 0, 1], 3),
        (4, 7, &[1, 1, 0, 1], 1),
        (4, 7, &[3, 0, 2, 0], 2),
        (4, 11, &[0, 1, 0, 4], 3),
        (4, 11, &[2, 1, 1, 4], 0),
        (4, 13, &[0, 0, 7, 1], 3),
        (4, 14, &[0, 4, 0, 1], 1),
        (4, 3, &[0, 0, 1, 0], 2),
        (4, 8, &[1, 1, 1, 1], 0),
        (5, 15, &[1, 1, 1, 1, 0, 0, 0, 0, 0, 1], 9),
        (5, 23, &[1, 0, 0, 0, 1, 1, 1, 0, 2, 0], 8),
        (64, u64::MAX >> 1, &last, 41_663),
        (64, u64::MAX - (1 << 61), &last, 41_663),
        // Of the triples with 40 the first is (0,1,40).
        (64, u64::MAX - (1 << 40), &[1; 41_664], 9_880),
    ];
    for (n, set, table, first) in outside {
        for room in [0, body_room(set), 300] {
            tally.calls("a byte outside the set", call(n, set, table, room), 16, &[first, 0], None);
        }
    }
    tally.end_part(&format!("sets with tables {what}, refused"));
}

fn tables_without_a_tree(tally: &mut Tally) {
    for byte in [3, 5, 6, 7] {
        tally.no_tree("two or three of a triple", 3, &[byte], [7, 1]);
        tally.no_tree("two or three of a triple, and a fan", 3, &[byte + 8], [7, 1]);
    }
    tally.no_tree("01|2 and 02|1 of 4", 4, &[3, 0, 0, 0], [7, 5]);
    tally.no_tree("01|2, 03|1 and 12|3", 4, &[1, 2, 0, 1], [15, 4]);
    tally.no_tree("13|2 and 23|1 of 4", 4, &[0, 0, 0, 6], [14, 5]);
    tally.no_tree("01|2 and 12|3, and 02|1", 4, &[3, 0, 0, 1], [7, 5]);
    tally.no_tree("all of 4", 4, &[7; 4], [15, 4]);
    let mut table = [0; 20];
    table[19] = 3;
    tally.no_tree("34|5 and 35|4 of 6", 6, &table, [56, 21]);
    table[0] = 5;
    tally.no_tree("12|0 and 01|2 beside them", 6, &table, [7, 21]);
    // (0,1,2) stops below {0,1,2,3}, which 23|4 joins; (4,5,6) stops higher up and comes later.
    let mut table = [0; 35];
    (table[0], table[9], table[34]) = (3, 1, 3);
    tally.no_tree("a deep set before a high one", 7, &table, [7, 40]);
    // (0,1) and (2,3) are trees, and (4,5,6) stops.
    table[0] = 1;
    tally.no_tree("two trees before a set that stops", 7, &table, [112, 36]);
    let mut table = vec![0; 41_664];
    table[41_663] = 6;
    tally.no_tree("the last triple of 64", 64, &table, [7 << 61, 41_665]);
    table[0] = 3;
    tally.no_tree("the first and the last triple of 64", 64, &table, [7, 41_665]);
    tally.no_tree("all of 64", 64, &[7; 41_664], [usize::MAX, 41_664]);
    tally.no_tree("all of 64, and fans", 64, &[15; 41_664], [usize::MAX, 41_664]);
    // The nested tree with 01|2 and 02|1: all sets are split before the last one stops, which is the most that there can be.
    let mut table = vec![1; 41_664];
    table[0] = 3;
    tally.no_tree("nested, its three lowest quarrel", 64, &table, [7, 677_040]);
    // Over a part of the species: the set that stops is inside it.
    tally.no_tree_over("01|2 and 02|1, over the three", 4, 7, &[3, 0, 0, 0], [7, 1]);
    tally.no_tree_over("01|3 and 03|1, over the three", 4, 11, &[0, 3, 0, 0], [11, 1]);
    tally.no_tree_over("14|2 and 24|1, and 0 beside them", 5, 23, &[0, 0, 0, 0, 0, 0, 6, 0, 0, 0], [22, 5]);
    let mut table = vec![0; 41_664];
    table[41_663] = 3;
    tally.no_tree_over("the last three of 64", 64, 7 << 61, &table, [7 << 61, 1]);
    tally.no_tree_over("the last three of 64, and 5", 64, (7 << 61) + 32, &table, [7 << 61, 5]);
    tally.end_part("tables that no tree holds");
}

// The table of document 01's run with n = 6.
const SIX_TABLE: [u8; 20] = [1, 1, 0, 0, 1, 0, 0, 4, 4, 0, 1, 0, 0, 4, 4, 0, 4, 4, 0, 4];

fn tables_built(tally: &mut Tally) {
    tally.built("n 1", 1, &[], &[255, 0]);
    tally.built("n 2", 2, &[], &[255, 255, 0, 0, 0, 1]);
    tally.built("n 3, nothing entered", 3, &[0], &[255, 255, 0, 0, 0, 1, 0, 2]);
    tally.built("01|2", 3, &[1], &[255, 255, 0, 255, 1, 0, 1, 1, 0, 2]);
    tally.built("02|1", 3, &[2], &[255, 255, 0, 255, 1, 0, 1, 2, 0, 1]);
    tally.built("12|0", 3, &[4], &[255, 255, 0, 0, 0, 255, 2, 1, 2, 2]);
    tally.built("n 4, nothing entered", 4, &[0; 4], &[255, 255, 0, 0, 0, 1, 0, 2, 0, 3]);
    tally.built("01|2 and 12|3", 4, &[1, 0, 0, 1], &LADDER);
    // A fan is not entered.
    tally.built("a fan", 3, &[8], &[255, 255, 0, 0, 0, 1, 0, 2]);
    tally.built("01|2, and a fan", 3, &[9], &[255, 255, 0, 255, 1, 0, 1, 1, 0, 2]);
    tally.built("02|1, and a fan", 3, &[10], &[255, 255, 0, 255, 1, 0, 1, 2, 0, 1]);
    tally.built("12|0, and a fan", 3, &[12], &[255, 255, 0, 0, 0, 255, 2, 1, 2, 2]);
    tally.built("01|2 and 12|3, and fans", 4, &[1, 8, 8, 9], &LADDER);
    tally.built_over("a fan of 4, over its three", 4, 11, &[0, 8, 0, 0], &[255, 255, 0, 0, 0, 1, 0, 3]);
    tally.built("all of (((0,1),2),3)", 4, &[1; 4], &LADDER);
    tally.built("01|2 of 4", 4, &[1, 0, 0, 0], &[255, 255, 0, 255, 1, 0, 1, 1, 0, 2, 0, 3]);
    tally.built("23|1 of 4", 4, &[0, 0, 0, 4], &[255, 255, 0, 0, 0, 1, 0, 255, 3, 2, 3, 3]);
    tally.built("03|1 and 12|0", 4, &[4, 2, 0, 0], &[255, 255, 0, 255, 1, 0, 1, 3, 0, 255, 4, 1, 4, 2]);
    tally.built("01|3 and 12|3", 4, &[0, 1, 0, 1], &[255, 255, 0, 255, 1, 0, 1, 1, 1, 2, 0, 3]);
    tally.built("((0,1),(2,3))", 4, &[1, 1, 4, 4], &[255, 255, 0, 255, 1, 0, 1, 1, 0, 255, 4, 2, 4, 3]);
    tally.built("04|1 of 5", 5, &[0, 0, 0, 0, 2, 0, 0, 0, 0, 0], &[255, 255, 0, 255, 1, 0, 1, 4, 0, 1, 0, 2, 0, 3]);
    tally.built("the run with n = 6", 6, &SIX_TABLE, &SIX);
    tally.built("n 64, nothing entered", 64, &[0; 41_664], &star(0, 64));
    // The triples looked at with 64 species, added up by hand: a star has one set, a nested tree one of each size, and a balanced one 64, 2 of 32, and
    // so on.
    let (fans, [_, _, balanced, _]) = (shapes::fans(), candidates());
    assert_eq!([&fans.body, &nested_house(), &balanced.body].map(|body| looked_at(body)), [41_664, 677_040, 54_336]);
    tally.built(fans.name, 64, &fans.table, &fans.body);
    tally.built("all of ((((0,1),2),3)..,63)", 64, &[1; 41_664], &nested_house());
    tally.built(balanced.name, 64, &balanced.table, &plain::order(64, &balanced.body, 254).1.unwrap());
    let mut table = vec![0; 41_664];
    table[41_663] = 1;
    let mut last = vec![255, 255];
    last.extend((0..61).flat_map(|s| [0, s]));
    last.extend([0, 255, 62, 61, 62, 62, 0, 63]);
    tally.built("the last triple of 64", 64, &table, &last);
    // Over a part of the species.
    tally.built_over("1 of 2", 2, 2, &[], &[255, 1]);
    tally.built_over("2 of 4", 4, 4, &[0; 4], &[255, 2]);
    tally.built_over("1 and 3 of 4", 4, 10, &[0; 4], &[255, 255, 0, 1, 0, 3]);
    tally.built_over("0, 1 and 3 of 4, nothing entered", 4, 11, &[0; 4], &[255, 255, 0, 0, 0, 1, 0, 3]);
    tally.built_over("03|1 of 4", 4, 11, &[0, 2, 0, 0], &[255, 255, 0, 255, 1, 0, 1, 3, 0, 1]);
    tally.built_over("01|2, over the three", 4, 7, &[1, 0, 0, 0], &[255, 255, 0, 255, 1, 0, 1, 1, 0, 2]);
    tally.built_over("14|2 of 5, and 0", 5, 23, &[0, 0, 0, 0, 0, 0, 2, 0, 0, 0], &[255, 255, 0, 0, 0, 255, 2, 1, 2, 4, 0, 2]);
    tally.built_over("the leaf 63 of 64", 64, 1 << 63, &[0; 41_664], &[255, 63]);
    tally.built_over("the last triple of 64, over the three", 64, 7 << 61, &table, &[255, 255, 0, 255, 1, 61, 1, 62, 0, 63]);
    tally.end_part("tables that a tree holds, bodies written out");
}

fn tables_vetoed(tally: &mut Tally) {
    for byte in [3, 5, 6, 7, 11, 13, 14, 15] {
        tally.vetoed("two or three of a triple", 3, 7, &[byte], &FAN);
    }
    let fan = [255, 255, 0, 0, 0, 1, 0, 2, 0, 3];
    tally.vetoed("01|2 and 02|1 of 4", 4, 15, &[3, 0, 0, 0], &[255, 255, 0, 255, 1, 0, 1, 1, 1, 2, 0, 3]);
    tally.vetoed("13|2 and 23|1 of 4", 4, 15, &[0, 0, 0, 6], &[255, 255, 0, 0, 0, 255, 2, 1, 2, 2, 2, 3]);
    tally.vetoed("01|2, 03|1 and 12|3", 4, 15, &[1, 2, 0, 1], &fan);
    tally.vetoed("01|2, 01|3, 23|0 and 13|2: not split again", 4, 15, &[1, 1, 4, 2], &fan);
    tally.vetoed("all of 4", 4, 15, &[7; 4], &fan);
    tally.vetoed("far down", 5, 31, &[3, 1, 1, 1, 1, 1, 1, 1, 1, 1], &[255, 255, 0, 255, 1, 255, 2, 0, 2, 1, 2, 2, 1, 3, 0, 4]);
    let mut table = [0; 20];
    (table[0], table[19]) = (5, 3);
    tally.vetoed("two beside each other", 6, 63, &table, &[255, 255, 0, 255, 1, 0, 1, 1, 1, 2, 0, 255, 5, 3, 5, 4, 5, 5]);
    // (0,1,2) is joined below {0,1,2,3}, which 23|4 joins; (4,5,6) is joined higher up.
    let mut table = [0; 35];
    (table[0], table[9], table[34]) = (3, 1, 3);
    tally.vetoed("a deep set and a high one", 7, 127, &table, &[255, 255, 0, 255, 1, 255, 2, 0, 2, 1, 2, 2, 1, 3, 0, 255, 7, 4, 7, 5, 7, 6]);
    tally.vetoed("01|3 and 03|1, over the three", 4, 11, &[0, 3, 0, 0], &[255, 255, 0, 0, 0, 1, 0, 3]);
    tally.vetoed("14|2 and 24|1, and 0 beside them", 5, 23, &[0, 0, 0, 0, 0, 0, 6, 0, 0, 0], &[255, 255, 0, 0, 0, 255, 2, 1, 2, 2, 2, 4]);
    tally.vetoed("all of 64", 64, u64::MAX, &[7; 41_664], &star(0, 64));
    for quarrel in shapes::quarrels() {
        let (_, house) = plain::order(64, &quarrel.body, 254);
        tally.vetoed(quarrel.name, 64, u64::MAX, &quarrel.table, &house.unwrap());
    }
    tally.end_part("tables that quarrel, built with a veto, bodies written out");
}

// ((0,1),2), ((0,2),1), (0,(1,2)) and the fan of the three.
const CLOSE: [u8; 10] = [255, 255, 0, 255, 1, 0, 1, 1, 0, 2];
const APART: [u8; 10] = [255, 255, 0, 255, 1, 0, 1, 2, 0, 1];
const HIGH: [u8; 10] = [255, 255, 0, 0, 0, 255, 2, 1, 2, 2];
const FAN: [u8; 8] = [255, 255, 0, 0, 0, 1, 0, 2];

fn candidates_refused(tally: &mut Tally) {
    // An empty body, an odd one, a broken one and a good one: n comes first, then the table's length, then its bytes, then the body.
    let bodies: [&[u8]; 4] = [&[], &[255, 0, 0], &[9, 9], &LADDER];
    for body in bodies {
        for n in BAD_COUNTS {
            for length in [0, 4, 5, 41_664, 43_680] {
                for byte in [0, 1, 255] {
                    tally.checked("n 0 or over 64", n, &vec![byte; length], body, 2, &[]);
                }
            }
        }
        for (n, lengths) in BAD_TABLES {
            for length in lengths {
                for byte in [0, 3, 255] {
                    tally.checked("a table of a wrong length", n, &vec![byte; length], body, 7, &[]);
                }
            }
        }
        let mut last = vec![0; 41_664];
        last[41_663] = 16;
        for (n, table, first) in OVER.into_iter().chain([(64, &last[..], 41_663)]) {
            tally.checked("a byte over 15", n, table, body, 8, &[first]);
        }
    }
    // Tables that say nothing, one triplet of each triple, and all three.
    let mut long = nested_house();
    long.resize(65_538, 255);
    for byte in [0, 1, 7] {
        for length in BAD_LENGTHS {
            tally.checked("a body of a bad length", 64, &[byte; 41_664], &long[..length], 5, &[0]);
        }
        tally.checked("an odd length and a bad parent", 4, &[byte; 4], &[9, 9, 9], 5, &[0]);
        tally.checked("256 bytes of 0", 4, &[byte; 4], &[0; 256], 5, &[0]);
        for (name, n, body, [node, fault, carried]) in BROKEN {
            let n = n as usize;
            tally.checked(name, n, &vec![byte; fitting(n)], body, 6, &[0, node, fault, carried]);
        }
    }
    tally.end_part("candidates and tables to check and to loosen, refused");
}

fn candidates_checked(tally: &mut Tally) {
    // Document 01's runs.
    tally.checked("01|2, entered 02|1", 3, &[2], &CLOSE, 11, &[0, 2]);
    tally.checked("01|2, entered 01|2 and 02|1", 3, &[3], &CLOSE, 11, &[0, 3]);
    tally.checked("01|2, nothing entered", 3, &[0], &CLOSE, 12, &[0]);
    tally.checked("01|2, entered itself", 3, &[1], &CLOSE, 0, &[]);
    tally.checked("the fan, entered 01|2 and 02|1", 3, &[3], &FAN, 0, &[]);
    tally.checked("01|2 and 12|3, the tree built from them", 4, &[1, 0, 0, 1], &LADDER, 0, &[]);
    tally.checked("the run with n = 6", 6, &SIX_TABLE, &SIX, 12, &[9]);
    // Each byte against each tree of three species; 8 is no triplet.
    for byte in 0..16 {
        for (body, own) in [(CLOSE, 1), (APART, 2), (HIGH, 4)] {
            let (number, values): (usize, &[usize]) = match byte & 7 {
                0 => (12, &[0]),
                entered if entered == own => (0, &[]),
                _ => (11, &[0, byte as usize]),
            };
            tally.checked("one triplet, one byte", 3, &[byte], &body, number, values);
        }
        tally.checked("the fan, one byte", 3, &[byte], &FAN, 0, &[]);
        tally.checked("the fan of 3 of 4", 4, &[byte; 4], &FAN, 0, &[]);
        tally.checked("the star of 4", 4, &[byte; 4], &[255, 255, 0, 0, 0, 1, 0, 2, 0, 3], 0, &[]);
        tally.checked("a lone leaf of 4", 4, &[byte; 4], &[255, 2], 0, &[]);
        tally.checked("two leaves of 4", 4, &[byte; 4], &[255, 255, 0, 3, 0, 1], 0, &[]);
    }
    tally.checked("the lone leaf", 1, &[], &[255, 0], 0, &[]);
    tally.checked("the lone leaf 1 of 2", 2, &[], &[255, 1], 0, &[]);
    tally.checked("(0,1)", 2, &[], &[255, 255, 0, 0, 0, 1], 0, &[]);

    // What is entered of a triple that the candidate does not resolve is not in R.
    tally.checked("12|3 and 13|2 against 01|2", 4, &[0, 0, 0, 3], &CLOSE, 12, &[0]);
    tally.checked("01|3, 03|2 and 13|2, which together are 01|2", 4, &[0, 1, 2, 2], &CLOSE, 12, &[0]);
    tally.checked("01|2, everything elsewhere", 4, &[1, 7, 7, 7], &CLOSE, 0, &[]);
    tally.checked("(((0,3),1),2) and (((0,1),2),3), the candidate 01|2", 4, &[1, 3, 3, 3], &CLOSE, 0, &[]);
    let mut all = [7; 20];
    all[0] = 1;
    tally.checked("01|2 of 6, everything elsewhere", 6, &all, &CLOSE, 0, &[]);
    let some = [255, 255, 0, 4, 0, 255, 2, 3, 2, 1];
    tally.checked("13|4 of 5, entered", 5, &[7, 7, 7, 7, 7, 7, 7, 7, 1, 7], &some, 0, &[]);
    tally.checked("13|4 of 5, not entered", 5, &[1, 1, 1, 1, 1, 1, 1, 1, 0, 1], &some, 12, &[8]);
    tally.checked("13|4 of 5, entered 14|3", 5, &[1, 1, 1, 1, 1, 1, 1, 1, 2, 1], &some, 11, &[8, 2]);
    let wide = [255, 255, 0, 255, 1, 0, 1, 1, 1, 2, 0, 3];
    tally.checked("((0,1),2,3) and 12|0, the candidate ((0,1,2),3)", 4, &[5, 1, 0, 0], &wide, 12, &[2]);

    // Which triple is named: two short cuts give the right number and another triple.
    tally.checked("a and b are joined, but c is not kept out", 4, &[1, 0, 0, 0], &LADDER, 12, &[1]);
    tally.checked("a group is not joined, but two of its species are", 4, &[0, 1, 0, 0], &wide, 12, &[2]);

    // PC comes first, though PI fails at an earlier triple, or though R fits no tree.
    tally.checked("01|2 is not forced, and 13|2 differs", 4, &[0, 0, 0, 2], &LADDER, 11, &[3, 2]);
    tally.checked("all but the last agree", 4, &[1, 1, 1, 5], &LADDER, 11, &[3, 5]);
    tally.checked("everything of 4", 4, &[7; 4], &LADDER, 11, &[0, 7]);

    // The first in index order, by c, then b, then a. The trees are ((((0,1),2),3),4), ((0,4),((1,2),3)) and ((0,3),(1,2),4).
    let five = [255, 255, 0, 255, 1, 255, 2, 255, 3, 0, 3, 1, 2, 2, 1, 3, 0, 4];
    tally.checked("(1,2,3) and (0,1,4) differ", 5, &[1, 1, 1, 2, 4, 1, 1, 1, 1, 1], &five, 11, &[3, 2]);
    tally.checked("(1,2,4) and (0,3,4) differ", 5, &[1, 1, 1, 1, 1, 1, 5, 3, 1, 1], &five, 11, &[6, 5]);
    let two = [255, 255, 0, 255, 1, 0, 1, 4, 0, 255, 4, 255, 5, 1, 5, 2, 4, 3];
    tally.checked("(1,2,3) and (0,1,4) are not forced", 5, &[4, 4, 4, 0, 0, 0, 0, 0, 0, 0], &two, 12, &[3]);
    let three = [255, 255, 0, 255, 1, 0, 1, 3, 0, 255, 4, 1, 4, 2, 0, 4];
    tally.checked("(1,2,4) and (0,3,4) are not forced", 5, &[4, 2, 2, 1, 0, 0, 0, 0, 0, 0], &three, 12, &[6]);

    // The chain of sets takes several steps. Without 23|4 no two are close against 4, and without 12|3 no two against 3.
    tally.checked("01|2, 12|3 and 23|4", 5, &[1, 0, 0, 1, 0, 0, 0, 0, 0, 1], &five, 0, &[]);
    tally.checked("01|2 and 12|3 of 5", 5, &[1, 0, 0, 1, 0, 0, 0, 0, 0, 0], &five, 12, &[4]);
    tally.checked("01|2 and 23|4", 5, &[1, 0, 0, 0, 0, 0, 0, 0, 0, 1], &five, 12, &[1]);

    // A group is joined beside one sibling and not beside another: ((0,1),2,3) and ((0,1,2),3,4).
    let beside = [255, 255, 0, 255, 1, 0, 1, 1, 0, 2, 0, 3];
    tally.checked("01|2, and 01|3 not entered", 4, &[1, 0, 0, 0], &beside, 12, &[1]);
    tally.checked("01|3, and 01|2 not entered", 4, &[0, 1, 0, 0], &beside, 12, &[0]);
    tally.checked("01|2 and 01|3", 4, &[1, 1, 0, 0], &beside, 0, &[]);
    let beside = [255, 255, 0, 255, 1, 0, 1, 1, 1, 2, 0, 3, 0, 4];
    tally.checked("01|3 and 12|3, and of 4 only 01|4", 5, &[0, 1, 0, 1, 1, 0, 0, 0, 0, 0], &beside, 12, &[5]);
    tally.checked("01|3 and 12|3, 01|4 and 02|4", 5, &[0, 1, 0, 1, 1, 1, 0, 0, 0, 0], &beside, 0, &[]);

    // Source 000's examples.
    let pairs = [255, 255, 0, 255, 1, 0, 1, 1, 0, 255, 4, 2, 4, 3, 0, 4];
    tally.checked("01|4 and 23|4, the candidate ((0,1),(2,3),4)", 5, &[0, 0, 0, 0, 1, 0, 0, 0, 0, 1], &pairs, 12, &[0]);
    tally.checked("01|3 and 02|3, the candidate ((0,1,2),3)", 4, &[0, 1, 1, 0], &wide, 0, &[]);
    tally.checked("01|3 and 02|3, more resolved", 4, &[0, 1, 1, 0], &LADDER, 12, &[0]);
    tally.checked("01|3 and 02|3, resolved by (0,2)", 4, &[0, 1, 1, 0], &[255, 255, 0, 255, 1, 255, 2, 0, 2, 2, 1, 1, 0, 3], 12, &[0]);
    tally.checked("01|3 and 02|3, resolved by (1,2)", 4, &[0, 1, 1, 0], &[255, 255, 0, 255, 1, 0, 1, 255, 3, 1, 3, 2, 0, 3], 12, &[0]);
    // (((0,2),1),(4,5)) and (((0,3),1),2).
    let both = [3, 2, 2, 2, 1, 1, 1, 0, 0, 0, 1, 1, 1, 0, 0, 0, 4, 4, 4, 0];
    let nest = [255, 255, 0, 255, 1, 255, 2, 255, 3, 0, 3, 3, 2, 1, 1, 2, 0, 255, 8, 4, 8, 5];
    tally.checked("two trees, the candidate ((((0,3),1),2),(4,5))", 6, &both, &nest, 11, &[0, 3]);
    let flat = [255, 255, 0, 255, 1, 0, 1, 1, 1, 2, 1, 3, 0, 255, 6, 4, 6, 5];
    tally.checked("two trees, the candidate ((0,1,2,3),(4,5))", 6, &both, &flat, 12, &[7]);
    let half = [255, 255, 0, 255, 1, 255, 2, 0, 2, 3, 1, 1, 1, 2, 0, 255, 7, 4, 7, 5];
    tally.checked("two trees, the candidate (((0,3),1,2),(4,5))", 6, &both, &half, 0, &[]);
    tally.end_part("candidates checked, answers written out, and loosened");
}

fn candidates_of_64(tally: &mut Tally) {
    let nested = nested_house();
    for byte in [0, 1, 7, 8, 15] {
        tally.checked("the star of 64", 64, &[byte; 41_664], &star(0, 64), 0, &[]);
        tally.checked("the lone leaf 63 of 64", 64, &[byte; 41_664], &[255, 63], 0, &[]);
    }
    let last = [255, 255, 0, 255, 1, 61, 1, 62, 0, 63];
    for (byte, number, values) in [(0, 12, &[41_663][..]), (1, 0, &[]), (2, 11, &[41_663, 2]), (5, 11, &[41_663, 5])] {
        let mut table = vec![7; 41_664];
        table[41_663] = byte;
        tally.checked("(61,62)|63 alone of 64", 64, &table, &last, number, values);
    }
    // On every triple a < b < c the candidate holds ab|c.
    tally.checked("nothing entered of 64", 64, &[0; 41_664], &nested, 12, &[0]);
    tally.checked("everything of 64", 64, &[7; 41_664], &nested, 11, &[0, 7]);
    let mut table = vec![1; 41_664];
    table[41_663] = 0;
    tally.checked("all but the last, which the others force", 64, &table, &nested, 0, &[]);
    table[41_663] = 3;
    tally.checked("the last differs", 64, &table, &nested, 11, &[41_663, 3]);
    table[41_663] = 1;
    table[0] = 0;
    tally.checked("all but the first, which nothing forces", 64, &table, &nested, 12, &[0]);
    for candidate in candidates() {
        tally.checked(candidate.name, 64, &candidate.table, &candidate.body, candidate.number, candidate.values);
    }
    // The second one without (38,39)|40: then no two are close against 40, and (0,1,40) has the index C(40,3).
    let [_, second, ..] = candidates();
    let mut table = second.table;
    table[fitting(40) + 39 * 38 / 2 + 38] = 0;
    tally.checked("nested, each c but 40 with the two before it", 64, &table, &nested, 12, &[9_880]);
    tally.end_part("candidates of 64 species checked, answers written out, and loosened");
}

fn candidates_loosened(tally: &mut Tally) {
    // No triplet is entered: every group but the root's goes.
    for byte in [0, 8] {
        tally.loosened("01|2, nothing entered", 3, &[byte], &CLOSE, &FAN, &[3]);
        tally.loosened("02|1, nothing entered", 3, &[byte], &APART, &FAN, &[5]);
        tally.loosened("12|0, nothing entered", 3, &[byte], &HIGH, &FAN, &[6]);
        tally.loosened("(((0,1),2),3), nothing entered", 4, &[byte; 4], &LADDER, &star(0, 4), &[7, 3]);
        let halves = [255, 255, 0, 255, 0, 255, 1, 3, 2, 1, 1, 2, 2, 0];
        tally.loosened("((3,2),(1,0)), which is not in house order", 4, &[byte; 4], &halves, &star(0, 4), &[3, 12]);
        let apart = [255, 255, 0, 255, 1, 0, 1, 3, 0, 1, 0, 2];
        tally.loosened("((0,3),1,2): 3 goes behind 1 and 2", 4, &[byte; 4], &apart, &star(0, 4), &[9]);
        let sorted = [255, 255, 0, 255, 1, 0, 1, 255, 3, 4, 3, 5, 0, 1, 0, 255, 7, 2, 7, 3];
        tally.loosened("((0,(4,5)),1,(2,3)): (4,5) goes behind (2,3)", 6, &[byte; 20], &sorted, &star(0, 6), &[49, 12, 48]);
    }
    tally.loosened("01|2 of 4, everything elsewhere", 4, &[8, 7, 15, 7], &CLOSE, &FAN, &[3]);
    let pair = [255, 255, 0, 255, 1, 0, 1, 1, 0, 2, 0, 3];
    let wide = [255, 255, 0, 255, 1, 0, 1, 1, 1, 2, 0, 3];
    tally.loosened("01|2: (0,1) is earned at first", 4, &[1, 0, 0, 0], &LADDER, &star(0, 4), &[7, 3]);
    tally.loosened("01|2 and 01|3", 4, &[1, 1, 0, 0], &LADDER, &pair, &[7]);
    tally.loosened("01|2 and 01|3, and fans", 4, &[9, 9, 8, 8], &LADDER, &pair, &[7]);
    tally.loosened("01|3 and 12|3", 4, &[0, 1, 0, 1], &LADDER, &wide, &[3]);
    tally.loosened("01|3 and 02|3", 4, &[0, 1, 1, 0], &LADDER, &wide, &[3]);
    tally.loosened("01|3, and 01|2 not entered", 4, &[0, 1, 4, 4], &pair, &star(0, 4), &[3]);
    // Of (((0,1),2,4),3) first (0,1) goes, since 01|4 is not entered. Then 01|2 is not in R any more, and nothing links 0 to the others.
    let afresh = [255, 255, 0, 255, 1, 255, 2, 0, 2, 1, 1, 2, 1, 4, 0, 3];
    tally.loosened("01|2, 12|3 and 24|3: R afresh", 5, &[1, 0, 0, 1, 0, 0, 0, 0, 0, 2], &afresh, &star(0, 5), &[3, 23]);
    // The run with n = 6: nothing says where 2 stands to 3, 4 and 5.
    let six = [255, 255, 0, 255, 1, 0, 1, 1, 0, 2, 0, 3, 0, 4, 0, 5];
    tally.loosened("the run with n = 6", 6, &SIX_TABLE, &SIX, &six, &[56, 48]);
    for case in loosenings() {
        let (_, house) = plain::order(64, &case.tree, 254);
        tally.loosened(case.name, 64, &case.table, &case.body, &house.unwrap(), &case.dropped);
    }
    let [bare, ..] = loosenings();
    tally.loosened("nested, nothing entered", 64, &[8; 41_664], &bare.body, &star(0, 64), &bare.dropped);
    tally.end_part("candidates loosened, trees and sets written out");

    // Every list up to 70 places; every room up to two bytes more than 14, or rooms about 254. The final tree is shorter, and fits long before.
    let short = (4, &[0; 4][..], &LADDER[..], star(0, 4), &[7, 3][..], (0..=16).collect::<Vec<_>>());
    let long = (64, &bare.table[..], &bare.body[..], star(0, 64), &bare.dropped[..], vec![0, 129, 130, 252, 253, 254, 255, 300]);
    for (n, table, body, tree, dropped, rooms) in [short, long] {
        for room in rooms {
            for list in 0..=70 {
                let call = Call::Loosen(n, table, body, room, list);
                if room < body.len() || list < LEAST_LIST {
                    tally.calls("room or list too short", call, 9, &[], None);
                } else {
                    tally.loosened_into("room and list long enough", call, &tree, dropped);
                }
            }
        }
    }
    tally.end_part("candidates to loosen, every list up to 70 places");
}

fn texts_refused(tally: &mut Tally) {
    // A bad text, one that is too long, one of a broken tree and a good one: n comes first.
    let over = "x".repeat(4_097);
    for n in BAD_COUNTS {
        for text in ["", "(0,1", &over, "(0);", "((0,1),2);"] {
            tally.text_refused(n, text.as_bytes(), 2, &[]);
        }
    }
    let places = [
        ("", 0),
        (";", 0),
        ("(0,1", 4),
        ("(0,1)", 5),
        ("(0,1);x", 6),
        ("(0,1);;", 6),
        ("(0,1));", 5),
        ("(0,1;", 4),
        ("0,1;", 1),
        ("()", 1),
        ("(0,,1);", 3),
        ("(,0);", 1),
        ("(0,);", 3),
        ("(0(1));", 2),
        ("00;", 1),
        ("01;", 1),
        ("0 1;", 2),
        ("(0:,1);", 3),
        ("0:.5;", 2),
        ("0:1.;", 4),
        ("0:1 .5;", 4),
        ("0:1. 5;", 4),
        ("0:1:2;", 3),
        ("0:1.5.5;", 5),
        ("0:-1;", 2),
        ("0:1e5;", 3),
        ("(0,1)2;", 5),
        ("(0,1)a;", 5),
        ("('0',1);", 1),
        ("0\t;", 1),
        ("\00;", 0),
        ("255;", 2),
        ("2540;", 3),
        ("25 5;", 3),
    ];
    for (text, place) in places {
        for n in [1, 4, 64] {
            tally.text_refused(n, text.as_bytes(), 14, &[place]);
        }
    }
    // n, a text of a broken tree; then node, fault and what the fault carries, as for bodies.
    let broken = [
        (6, "(5);", [0, 4, 0]),
        (4, "(5);", [0, 4, 0]),
        (1, "1;", [0, 2, 1]),
        (64, "64;", [0, 2, 64]),
        (64, "254:9;", [0, 2, 254]),
        (4, "(0,1,200);", [3, 2, 200]),
        (4, "(0,1,0);", [3, 3, 1]),
        (4, "((0,1),(2,1));", [6, 3, 3]),
        (4, "(4,(1));", [1, 2, 4]),
        (4, "((1),4);", [1, 4, 0]),
        (4, "(1,(1));", [2, 4, 0]),
        (4, "(0,((1)));", [2, 4, 0]),
    ];
    for (n, text, [node, fault, carried]) in broken {
        tally.text_refused(n, text.as_bytes(), 6, &[0, node, fault, carried]);
    }
    for (text, rooms) in [("0;", &[0, 1][..]), ("(0,1);", &[0, 2, 5]), ("((0,1),2);", &[0, 8, 9]), (&limits::ladder(63), &[0, 252, 253])] {
        for &room in rooms {
            tally.calls("room too short for a text", Call::Parse(64, text.as_bytes(), room), 9, &[], None);
        }
    }
    tally.end_part("texts, refused");
}

fn texts_parsed(tally: &mut Tally) {
    for text in ["0;", "0:1;", "0: 1;", "0:003;", "0:0.50;", "0 :1 ;", " \n\r0;\r\n ", "0:18446744073709551616;"] {
        tally.parsed(1, text, &[255, 0]);
    }
    tally.parsed(64, "63;", &[255, 63]);
    tally.parsed(3, "((0,1),2);", &CLOSE);
    tally.parsed(3, "(0,(1,2));", &HIGH);
    tally.parsed(3, "(0,1,2);", &FAN);
    tally.parsed(4, "(((0,1),2),3);", &LADDER);
    tally.parsed(4, "(((0:1,1:2.5):3,2:4):5.0,3:6):7;", &LADDER);
    tally.parsed(4, " ( ( ( 0 , 1 ) , 2 )\n:\r5 , 3 ) ; ", &LADDER);
    tally.parsed(6, "((0,1),2,(3,(4,5)));", &SIX);
    // the text's order, and not house order
    tally.parsed(3, "(2,1,0);", &[255, 255, 0, 2, 0, 1, 0, 0]);
    tally.parsed(4, "(3,(2,(1,0)));", &[255, 255, 0, 3, 0, 255, 2, 2, 2, 255, 4, 1, 4, 0]);
    tally.parsed(64, &limits::ladder(63), &nested_house());
    let all: Vec<u8> = (0..64).collect();
    for shape in [Shape::Nested, Shape::Balanced] {
        let body = body(shape, &all, &mut Dice(SEED));
        tally.parsed(64, &String::from_utf8_lossy(&text(&body)), &body);
    }
    tally.end_part("texts, bodies written out");

    // Where the place is not known by the way the text is made, the second program says the answer.
    for (text, place) in limits::cases() {
        let (told, body) = match place {
            Some(place) => (Told { number: 14, values: vec![place] }, None),
            None => plain::parse(64, &text, 260),
        };
        tally.call("a text at a limit", Call::Parse(64, &text, 260), MOST_VALUES, &told, body.as_deref());
    }
    tally.end_part("texts at the limits");
}

fn texts_without_room(tally: &mut Tally) {
    // The body is short, or as long as the room, or much longer.
    let rooms: [(&[u8], &[usize]); 6] = [
        (&[255, 9], &[0, 1]),
        (&[255, 63], &[0, 1, 2]),
        (&[255, 255, 0, 1, 0, 0], &[0, 5]),
        (&CLOSE, &[0, 8, 9]),
        (&LADDER, &[0, 7, 12, 13]),
        (&nested_house(), &[0, 1, 253, 254, 255, 300, 306, 307]),
    ];
    for (body, rooms) in rooms {
        for &room in rooms {
            tally.calls("room too short for the text", Call::Render(64, body, room), 9, &[], None);
        }
    }
    tally.end_part("bodies to write as text, room too short");
}

fn texts_rendered(tally: &mut Tally) {
    for (n, leaf, text) in [(1, 0, "0;"), (10, 9, "9;"), (11, 10, "10;"), (64, 19, "19;"), (64, 60, "60;"), (64, 63, "63;")] {
        tally.rendered(n, &[255, leaf], text);
    }
    tally.rendered(2, &[255, 255, 0, 0, 0, 1], "(0,1);");
    tally.rendered(2, &[255, 255, 0, 1, 0, 0], "(0,1);");
    tally.rendered(64, &[255, 255, 0, 10, 0, 9], "(9,10);");
    for [x, y, z] in [[0, 1, 2], [0, 2, 1], [1, 0, 2], [1, 2, 0], [2, 0, 1], [2, 1, 0]] {
        tally.rendered(3, &[255, 255, 0, x, 0, y, 0, z], "(0,1,2);");
    }
    tally.rendered(3, &CLOSE, "((0,1),2);");
    tally.rendered(3, &[255, 255, 0, 2, 0, 255, 2, 1, 2, 0], "((0,1),2);");
    tally.rendered(3, &APART, "((0,2),1);");
    tally.rendered(3, &HIGH, "(0,(1,2));");
    tally.rendered(4, &LADDER, "(((0,1),2),3);");
    tally.rendered(4, &[255, 255, 0, 255, 0, 3, 1, 2, 1, 255, 4, 1, 4, 0], "(((0,1),2),3);");
    tally.rendered(4, &[255, 255, 0, 255, 0, 255, 1, 3, 2, 1, 1, 2, 2, 0], "((0,1),(2,3));");
    tally.rendered(4, &[255, 255, 0, 1, 0, 255, 2, 3, 2, 255, 4, 2, 4, 0], "(((0,2),3),1);");
    tally.rendered(4, &[255, 255, 0, 1, 0, 255, 2, 3, 2, 2, 2, 0], "((0,2,3),1);");
    tally.rendered(6, &SIX, "((0,1),2,(3,(4,5)));");
    tally.rendered(64, &[255, 255, 0, 63, 0, 255, 2, 62, 2, 5], "((5,62),63);");
    // The longest text, and a fan of all species.
    let all: Vec<u8> = (0..64).collect();
    for body in [nested_house(), body(Shape::Nested, &all, &mut Dice(SEED))] {
        tally.rendered(64, &body, &limits::ladder(63));
    }
    let falling: Vec<u8> = [255, 255].into_iter().chain((0..64).rev().flat_map(|s| [0, s])).collect();
    let rising: Vec<String> = all.iter().map(u8::to_string).collect();
    tally.rendered(64, &falling, &format!("({});", rising.join(",")));
    tally.end_part("bodies written as text, texts written out");
}

// All ways to split the species into parts.
fn splits(species: &[u8]) -> Vec<Vec<Vec<u8>>> {
    let Some((&last, others)) = species.split_last() else { return vec![vec![]] };
    let mut all = Vec::new();
    for split in splits(others) {
        for k in 0..split.len() {
            let mut with = split.clone();
            with[k].push(last);
            all.push(with);
        }
        all.push([split, vec![vec![last]]].concat());
    }
    all
}

// The bodies of all trees of these species.
fn all_trees(species: &[u8]) -> Vec<Vec<u8>> {
    if let [only] = *species {
        return vec![vec![255, only]];
    }
    let mut trees = Vec::new();
    for parts in splits(species).into_iter().filter(|parts| parts.len() > 1) {
        let mut lists: Vec<Vec<Vec<u8>>> = vec![vec![]];
        for part in parts {
            let under = all_trees(&part);
            lists = lists.iter().flat_map(|list| under.iter().map(|tree| [&list[..], &[tree.clone()]].concat())).collect();
        }
        trees.extend(lists.iter().map(|children| joined(children)));
    }
    trees
}

// The bodies of all trees of some of n species, or of all.
fn all_candidates(n: usize) -> Vec<Vec<u8>> {
    let subset = |set: usize| (0..n).filter(|s| set >> s & 1 == 1).map(|s| s as u8).collect::<Vec<u8>>();
    (1..1 << n).flat_map(|set| all_trees(&subset(set))).collect()
}

// Every table of n species with bytes up to 7, and each once more with fans added, the next ones from table to table.
fn small_tables(n: usize) -> impl Iterator<Item = Vec<u8>> {
    let table = move |code: usize, fans: usize| (0..fitting(n)).map(|i| (code >> (3 * i) & 7 | (fans >> i & 1) << 3) as u8).collect();
    (0..1 << (3 * fitting(n))).flat_map(move |code| [table(code, 0), table(code, 1 + code % 15)])
}

// Every candidate of up to 4 species against every table.
fn small_candidates(tally: &mut Tally) {
    let (mut answers, mut loose) = (Answers::default(), Loose::default());
    for (n, count) in [(1, 1), (2, 3), (3, 10), (4, 52)] {
        let candidates = all_candidates(n);
        assert_eq!(candidates.len(), count, "the trees of some of {n} species");
        for table in small_tables(n) {
            for body in &candidates {
                let told = plain::check(n, &table, body);
                answers.count(&told);
                tally.call("a small candidate", Call::Check(n, &table, body), tally.cases % (MOST_VALUES + 1), &told, None);
                tally.loosen("a small candidate", n, &table, body, body.len(), LEAST_LIST, &mut loose);
            }
        }
    }
    answers.show("checking");
    loose.show();
    tally.end_part("every candidate of up to 4 species and every table, against the second program");
}

// Both builds, each with what the second program tells and writes.
fn builds<'a>(n: usize, set: u64, table: &'a [u8], room: usize) -> [((Told, Option<Vec<u8>>), Call<'a>); 2] {
    [(plain::build(n, set, table, room), Call::Build(n, set, table, room)), (plain::veto(n, set, table, room), Call::Veto(n, set, table, room))]
}

// Every table of up to 4 species and every set of them, with some numbers that are no set, in rooms about the least one.
fn small_sets(tally: &mut Tally) {
    let mut answers = Answers::default();
    for n in 1..=4 {
        let beyond = [1 << n, all(n) + (1 << n), 1 << 63, (1 << 63) + 1, u64::MAX];
        for table in small_tables(n) {
            for set in (0..=all(n)).chain(beyond) {
                let least = (4 * set.count_ones() as usize).saturating_sub(2);
                for room in [least.saturating_sub(1), least] {
                    for ((told, body), call) in builds(n, set, &table, room) {
                        answers.count(&told);
                        tally.call("a small set", call, tally.cases % (MOST_VALUES + 1), &told, body.as_deref());
                    }
                }
            }
        }
    }
    answers.show("building");
    tally.end_part("every table of up to 4 species and every set, against the second program");
}

// Every candidate of 5 species against every part of its own table. Anything else that is entered fails PC or is not in R, so PI and
// loosening meet no other R.
fn parts_of_own_tables(tally: &mut Tally) {
    let (mut answers, mut loose) = (Answers::default(), Loose::default());
    let candidates = all_trees(&[0, 1, 2, 3, 4]);
    assert_eq!(candidates.len(), 236, "the trees of 5 species");
    for body in candidates {
        let own = triplets_of(5, &body);
        for code in 0..1 << 10 {
            // The bit of a triple that the tree does not resolve would give no other table.
            if (0..10).any(|i| code >> i & 1 == 1 && own[i] == 0) {
                continue;
            }
            let table: Vec<u8> = (0..10).map(|i| if code >> i & 1 == 1 { own[i] } else { 0 }).collect();
            let told = plain::check(5, &table, &body);
            answers.count(&told);
            tally.call("a part of the own table", Call::Check(5, &table, &body), tally.cases % (MOST_VALUES + 1), &told, None);
            tally.loosen("a part of the own table", 5, &table, &body, body.len(), LEAST_LIST, &mut loose);
        }
    }
    answers.show("checking");
    loose.show();
    tally.end_part("every candidate of 5 species and every part of its own table, against the second program");
}

// A number of species. Most are small.
fn random_n(dice: &mut Dice) -> usize {
    match dice.below(1_000) {
        0 => 64,
        1..=20 => 13 + dice.below(20),
        _ => 1 + dice.below(12),
    }
}

// The length of a table that n asks for.
fn fitting(n: usize) -> usize {
    (0..n.min(64)).map(|c| c * c.saturating_sub(1) / 2).sum()
}

// That length; at times another one.
fn random_room(n: usize, dice: &mut Dice) -> usize {
    if dice.below(8) == 0 {
        (fitting(n) + dice.below(3)).saturating_sub(1)
    } else {
        fitting(n)
    }
}

// A room for `least` bytes or some more; at times a shorter one.
fn random_body_room(least: usize, dice: &mut Dice) -> usize {
    match dice.below(16) {
        0 => least - 1,
        1 => dice.below(least),
        2 => 300,
        _ => least + dice.below(4),
    }
}

fn another_n(n: usize, dice: &mut Dice) -> usize {
    [0, 65, 255, n + 256, usize::MAX][dice.below(5)]
}

// A good body, of every species or of some.
fn random_body(n: usize, every: bool, dice: &mut Dice) -> Vec<u8> {
    let species = shuffled(n as u8, dice);
    let count = if every || dice.below(2) == 0 { n } else { 1 + dice.below(n) };
    let shape = SHAPES[[0, 1, 2, 2][dice.below(4)]];
    body(shape, &species[..count], dice)
}

// A good collection. Most are small; some have up to 64 species or 16 trees.
fn random_collection(dice: &mut Dice) -> Vec<u8> {
    let n = random_n(dice);
    let trees = if dice.below(50) == 0 { 16 } else { dice.below(5) };
    let bodies: Vec<Vec<u8>> = (0..trees).map(|_| random_body(n, false, dice)).collect();
    collection(n as u8, &bodies)
}

fn damage(bytes: &mut Vec<u8>, dice: &mut Dice) -> &'static str {
    match dice.below(8) {
        0 => {
            bytes.truncate(dice.below(bytes.len()));
            "cut"
        }
        1 => {
            for _ in 0..1 + dice.below(4) {
                bytes.push(dice.below(256) as u8);
            }
            "lengthened"
        }
        _ => {
            for _ in 0..1 + dice.below(3) {
                let at = dice.below(bytes.len());
                // Small numbers and numbers that stand elsewhere do more than a byte of any value.
                bytes[at] = match dice.below(4) {
                    0 => dice.below(256) as u8,
                    1 => 255,
                    2 => bytes[dice.below(bytes.len())],
                    _ => dice.below(14) as u8,
                };
            }
            "damaged"
        }
    }
}

fn random_ones(tally: &mut Tally) {
    let mut dice = Dice(SEED);
    let mut answers = Answers::default();
    for _ in 0..COLLECTIONS {
        let mut bytes = random_collection(&mut dice);
        let kind = if dice.below(3) == 0 { "good" } else { damage(&mut bytes, &mut dice) };
        let told = plain::read(&bytes);
        tally.call(kind, Call::Read(&bytes), dice.below(MOST_VALUES + 1), &told, None);
        // The second byte is n, whether the collection can be read or not.
        let room = random_room(bytes.get(1).map_or(0, |&n| n as usize), &mut dice);
        let (told, table) = plain::list(&bytes, room);
        answers.count(&told);
        tally.call(kind, Call::List(&bytes, room), dice.below(MOST_VALUES + 1), &told, table.as_deref());
    }
    answers.show("listing");
    tally.end_part(&format!("{COLLECTIONS} random collections, seed {SEED}, against the second program"));
}

// A good list of records. Most are short; of one or two species there is only the empty one.
fn random_list(n: usize, dice: &mut Dice) -> Vec<[u8; 3]> {
    let most = if dice.below(50) == 0 { 300 } else { 12 };
    let count = if n < 3 { 0 } else { dice.below(most) };
    (0..count)
        .map(|_| {
            let species = shuffled(n as u8, dice);
            [species[0], species[1], species[2]]
        })
        .collect()
}

fn damage_list(n: &mut usize, records: &mut Vec<[u8; 3]>, dice: &mut Dice) -> &'static str {
    if dice.below(8) == 0 {
        *n = another_n(*n, dice);
        return "another n";
    }
    if records.is_empty() {
        records.push([0, 1, 2]);
    }
    for _ in 0..1 + dice.below(3) {
        let record = dice.below(records.len());
        records[record][dice.below(3)] = match dice.below(4) {
            0 => dice.below(256) as u8,
            1 => *n as u8,
            2 => records[record][dice.below(3)],
            _ => dice.below(14) as u8,
        };
    }
    "damaged"
}

fn random_lists(tally: &mut Tally) {
    let mut dice = Dice(SEED);
    let mut answers = Answers::default();
    for _ in 0..LISTS {
        let mut n = random_n(&mut dice);
        let mut records = random_list(n, &mut dice);
        let kind = if dice.below(3) == 0 { "good" } else { damage_list(&mut n, &mut records, &mut dice) };
        let room = random_room(n, &mut dice);
        let (told, table) = plain::enter(n, &records, room);
        answers.count(&told);
        tally.call(kind, Call::Enter(n, &records, room), dice.below(MOST_VALUES + 1), &told, table.as_deref());
    }
    answers.show("entering");
    tally.end_part(&format!("{LISTS} random lists of records, seed {SEED}, against the second program"));
}

fn random_bodies(tally: &mut Tally) {
    let mut dice = Dice(SEED);
    let (mut answers, mut text_answers) = (Answers::default(), Answers::default());
    for _ in 0..BODIES {
        let mut n = random_n(&mut dice);
        let mut bytes = random_body(n, false, &mut dice);
        let text_length = writer::length(&Tree::from_body(&bytes));
        let kind = match dice.below(16) {
            0..=8 => "good",
            9 => {
                n = if dice.below(2) == 0 { 1 + dice.below(n) } else { another_n(n, &mut dice) };
                "another n"
            }
            _ => damage(&mut bytes, &mut dice),
        };
        let room = random_body_room(bytes.len().max(2), &mut dice);
        let (told, house) = plain::order(n, &bytes, room);
        answers.count(&told);
        tally.call(kind, Call::Order(n, &bytes, room), dice.below(MOST_VALUES + 1), &told, house.as_deref());
        let room = random_body_room(text_length, &mut dice);
        let (told, text) = plain::render(n, &bytes, room);
        text_answers.count(&told);
        tally.call(kind, Call::Render(n, &bytes, room), dice.below(MOST_VALUES + 1), &told, text.as_deref());
    }
    answers.show("house order");
    text_answers.show("writing a text");
    tally.end_part(&format!("{BODIES} random bodies, seed {SEED}, against the second program"));
}

// The table of these trees.
fn table_of(n: usize, bodies: &[Vec<u8>]) -> Vec<u8> {
    plain::list(&collection(n as u8, bodies), fitting(n)).1.unwrap()
}

// The table of a tree's triplets.
fn triplets_of(n: usize, body: &[u8]) -> Vec<u8> {
    triples::without_fans(&table_of(n, &[body.to_vec()]))
}

// The table of some random trees.
fn listed(n: usize, trees: usize, dice: &mut Dice) -> Vec<u8> {
    let bodies: Vec<Vec<u8>> = (0..trees).map(|_| random_body(n, false, dice)).collect();
    table_of(n, &bodies)
}

// The table of one tree, with everything entered of some triples that stand together in it: most meet far down, so sets stop at several depths.
fn quarrels(n: usize, dice: &mut Dice) -> Vec<u8> {
    let species = shuffled(n as u8, dice);
    let shape = SHAPES[dice.below(3)];
    let mut table = table_of(n, &[body(shape, &species, dice)]);
    if n > 2 {
        for _ in 0..2 + dice.below(3) {
            let from = dice.below(n - 2);
            let mut triple = [0, 1, 2].map(|i| species[from + i] as usize);
            triple.sort();
            let [a, b, c] = triple;
            table[fitting(c) + b * b.saturating_sub(1) / 2 + a] = 7;
        }
    }
    table
}

// A table with bytes up to 15, and what it is.
fn random_table(n: usize, dice: &mut Dice) -> (Vec<u8>, &'static str) {
    let (mut table, kind, bits) = match dice.below(8) {
        0..=2 => (vec![0; fitting(n)], "a few bits", dice.below(n)),
        3 => (listed(n, 1, dice), "one tree", 0),
        4 => (listed(n, 2 + dice.below(2), dice), "some trees", 0),
        5 => (quarrels(n, dice), "one tree, and quarrels", 0),
        _ => (listed(n, 1 + dice.below(2), dice), "trees, and a few bits changed", 1 + dice.below(3)),
    };
    if !table.is_empty() {
        for _ in 0..bits {
            let place = dice.below(table.len());
            table[place] ^= 1 << dice.below(4);
        }
    }
    (table, kind)
}

fn damage_table(n: &mut usize, table: &mut Vec<u8>, dice: &mut Dice) -> &'static str {
    match dice.below(3) {
        0 => {
            *n = another_n(*n, dice);
            "another n"
        }
        1 => {
            let length = if dice.below(2) == 0 { dice.below(table.len() + 1) } else { table.len() + dice.below(3) };
            table.resize(length, dice.below(17) as u8);
            "another length"
        }
        _ => {
            for _ in 0..1 + dice.below(3) {
                let place = dice.below(table.len().max(1));
                if let Some(byte) = table.get_mut(place) {
                    *byte = if dice.below(2) == 0 { 16 } else { dice.below(256) as u8 };
                }
            }
            "bytes of any value"
        }
    }
}

// A set to build over: all n species, those that the table speaks of, some more or fewer, or a number that is no set of the n species.
fn random_set(n: usize, table: &[u8], dice: &mut Dice) -> u64 {
    let spoken = triples::triples(n).zip(table).filter(|(_, &byte)| byte != 0);
    let spoken = spoken.fold(0, |set, ((a, b, c), _)| set | 1 << a | 1 << b | 1 << c);
    let any = (dice.below(1 << 32) << 32 | dice.below(1 << 32)) as u64;
    match dice.below(16) {
        0..=4 => all(n),
        // where the table says nothing, species 0 alone
        5..=8 => spoken.max(1),
        9 | 10 => spoken | any & all(n),
        11 => spoken & !(1 << dice.below(n)),
        12 => any & all(n),
        13 => spoken | 1 << dice.below(64),
        14 => [0, 1 << 63, u64::MAX, 1 << (n % 64), all(n) | 1 << (n % 64)][dice.below(5)],
        _ => any,
    }
}

fn random_tables(tally: &mut Tally) {
    let mut dice = Dice(SEED);
    let mut answers = Answers::default();
    let (mut parts, mut inside) = (0, 0);
    for _ in 0..TABLES {
        let mut n = random_n(&mut dice);
        let (mut table, mut kind) = random_table(n, &mut dice);
        let set = random_set(n, &table, &mut dice);
        if dice.below(8) == 0 {
            kind = damage_table(&mut n, &mut table, &mut dice);
        }
        let room = random_body_room(body_room(set.max(1)), &mut dice);
        for ((told, body), call) in builds(n, set, &table, room) {
            answers.count(&told);
            if told.number == 0 && set != all(n) {
                parts += 1;
            }
            if told.number == 10 && told.values[0] as u64 != set {
                inside += 1;
            }
            tally.call(kind, call, dice.below(MOST_VALUES + 1), &told, body.as_deref());
        }
    }
    answers.show("building");
    println!("  of 0, over a part of the species: {parts}; of 10, sets without some of the species: {inside}");
    tally.end_part(&format!("{TABLES} random tables and sets, seed {SEED}, against the second program"));
}

// Listing one tree and building over the set that occurs gives the tree in house order.
fn random_trees(tally: &mut Tally) {
    let mut dice = Dice(SEED);
    for _ in 0..TREES {
        let n = random_n(&mut dice);
        let bytes = random_body(n, false, &mut dice);
        let set = Tree::from_body(&bytes).species();
        let room = body_room(set) + dice.below(3);
        let (told, house) = plain::order(n, &bytes, room);
        tally.call("a tree in house order", Call::Order(n, &bytes, room), MOST_VALUES, &told, house.as_deref());
        let one = one(n as u8, &bytes);
        let (list_told, table) = plain::list(&one, fitting(n));
        tally.call("the table of one tree", Call::List(&one, fitting(n)), MOST_VALUES, &list_told, table.as_deref());
        let table = table.unwrap();
        for ((told, body), call) in builds(n, set, &table, room) {
            assert_eq!(body, house, "the second program builds another tree");
            tally.call("the tree built again", call, MOST_VALUES, &told, house.as_deref());
        }
    }
    tally.end_part(&format!("{TREES} random trees, seed {SEED}: listed, put in house order and built again over the set that occurs"));
}

// What is written is read as the body in house order, and that is written as the same text.
fn texts_again(tally: &mut Tally) {
    let mut dice = Dice(SEED);
    for _ in 0..TREES {
        let n = random_n(&mut dice);
        let bytes = random_body(n, false, &mut dice);
        let (house_told, house) = plain::order(n, &bytes, bytes.len());
        let (text_told, text) = plain::render(n, &bytes, 308);
        let (house, text) = (house.unwrap(), text.unwrap());
        tally.call("a tree written", Call::Render(n, &bytes, 308), MOST_VALUES, &text_told, Some(&text));
        tally.call("what was written, read", Call::Parse(n, &text, 254), MOST_VALUES, &house_told, Some(&house));
        tally.call("what was read, written", Call::Render(n, &house, text.len()), MOST_VALUES, &text_told, Some(&text));
    }
    tally.end_part(&format!("{TREES} random trees, seed {SEED}: written, read and written again"));
}

// A candidate and a table with bytes up to 15, and where the candidate comes from.
fn random_candidate(n: usize, dice: &mut Dice) -> (Vec<u8>, Vec<u8>, &'static str) {
    let bodies: Vec<Vec<u8>> = (0..1 + dice.below(3)).map(|_| random_body(n, dice.below(2) == 0, dice)).collect();
    let (mut table, of_trees) = match dice.below(8) {
        0..=3 => (table_of(n, &bodies[..1]), true),
        4..=6 => (table_of(n, &bodies), true),
        _ => (random_table(n, dice).0, false),
    };
    // Some of it, from all to a few, so that much is forced by other triples.
    let left = [100, 100, 85, 70, 50, 30, 15][dice.below(7)];
    for byte in &mut table {
        if dice.below(100) >= left {
            *byte = 0;
        }
    }
    if dice.below(8) == 0 && !table.is_empty() {
        let place = dice.below(table.len());
        table[place] ^= 1 << dice.below(4);
    }
    match dice.below(8) {
        0 => (random_body(n, false, dice), table, "a random candidate"),
        1..=4 if of_trees => (bodies[0].clone(), table, "the listed tree itself"),
        _ => match plain::build(n, all(n), &table, 4 * n - 2).1 {
            Some(built) => (built, table, "the tree built"),
            None => (bodies[0].clone(), table, "a tree, where none is built"),
        },
    }
}

fn random_candidates(tally: &mut Tally) {
    let mut dice = Dice(SEED);
    let mut answers = Answers::default();
    let (mut resolved, mut later) = (0, 0);
    for _ in 0..CANDIDATES {
        let mut n = if dice.below(16) == 0 { 1 + dice.below(2) } else { 3 + dice.below(8) };
        let (mut bytes, mut table, mut kind) = random_candidate(n, &mut dice);
        let first = triplets_of(n, &bytes).iter().position(|&byte| byte != 0);
        match dice.below(16) {
            0 => kind = damage_table(&mut n, &mut table, &mut dice),
            1 => kind = damage(&mut bytes, &mut dice),
            _ => {}
        }
        let told = plain::check(n, &table, &bytes);
        answers.count(&told);
        if told.number == 0 && first.is_some() {
            resolved += 1;
        }
        if told.number == 12 && Some(told.values[0]) != first {
            later += 1;
        }
        tally.call(kind, Call::Check(n, &table, &bytes), dice.below(MOST_VALUES + 1), &told, None);
    }
    answers.show("checking");
    println!("  of 0, candidates with a triplet: {resolved}; of 12, not at the candidate's first triplet: {later}");
    tally.end_part(&format!("{CANDIDATES} random candidates, seed {SEED}, against the second program"));
}

// A candidate that no entered triplet contradicts, and its table.
fn random_loosening(n: usize, dice: &mut Dice) -> (Vec<u8>, Vec<u8>, &'static str) {
    if dice.below(4) == 0 {
        let table = random_table(n, dice).0;
        let built = plain::veto(n, all(n), &table, 4 * n - 2).1;
        return (built.unwrap(), table, "the tree built with a veto");
    }
    // Some of the tree's own triplets, from all to a few, and anything of the triples that it does not resolve.
    let body = random_body(n, dice.below(2) == 0, dice);
    let left = [100, 97, 90, 80, 65, 50, 30, 10][dice.below(8)];
    let own = triplets_of(n, &body);
    let fan = |dice: &mut Dice| 8 * dice.below(2) as u8;
    let entered = own.iter().map(|&own| match own {
        0 => dice.below(16) as u8,
        _ if dice.below(100) < left => own + fan(dice),
        _ => fan(dice),
    });
    let table = entered.collect();
    (body, table, "a tree and some of its own triplets")
}

// What is loosened passes the check, and nothing of it is dropped again.
fn random_loosenings(tally: &mut Tally) {
    let mut dice = Dice(SEED);
    let mut loose = Loose::default();
    let passes = Told { number: 0, values: vec![] };
    for _ in 0..LOOSENINGS {
        let mut n = random_n(&mut dice);
        let (mut bytes, mut table, mut kind) = random_loosening(n, &mut dice);
        match dice.below(16) {
            0 => kind = damage_table(&mut n, &mut table, &mut dice),
            1 => kind = damage(&mut bytes, &mut dice),
            2 if !table.is_empty() => {
                let place = dice.below(table.len());
                table[place] ^= 1 << dice.below(4);
                kind = "a bit changed";
            }
            _ => {}
        }
        let room = random_body_room(bytes.len().max(2), &mut dice);
        let list = if dice.below(16) == 0 { dice.below(LEAST_LIST) } else { LEAST_LIST + dice.below(9) };
        if let Some(tree) = tally.loosen(kind, n, &table, &bytes, room, list, &mut loose) {
            tally.call("a loosened tree, checked", Call::Check(n, &table, &tree), MOST_VALUES, &passes, None);
            tally.loosened_into("a loosened tree, loosened again", Call::Loosen(n, &table, &tree, tree.len(), LEAST_LIST), &tree, &[]);
        }
    }
    loose.show();
    tally.end_part(&format!("{LOOSENINGS} random candidates loosened, seed {SEED}, against the second program, then checked and loosened again"));
}

fn random_texts(tally: &mut Tally) {
    let (mut dice, mut random) = (Dice(SEED), Random::new(SEED));
    let mut answers = Answers::default();
    for _ in 0..TEXTS {
        let mut n = random_n(&mut dice);
        let mut tree = Tree::from_body(&random_body(n, false, &mut dice));
        let mut kind = "good";
        if dice.below(20) == 0 {
            (tree, kind) = (texts::large(&mut random), "about as large as may be");
        }
        if dice.below(4) == 0 {
            (tree, kind) = (texts::wild(&tree, n, &mut random), "rules broken");
        }
        let mut text = texts::written(&tree, &mut random);
        if dice.below(50) == 0 {
            texts::stretch(&mut text, &mut random);
            kind = "about as long as may be";
        }
        texts::read_again(&tree, &text);
        if dice.below(3) == 0 {
            texts::damage(&mut text, &mut random);
            kind = "damaged";
        }
        if dice.below(20) == 0 {
            n = another_n(n, &mut dice);
            kind = "another n";
        }
        let room = random_body_room(tree.preorder().len(), &mut dice);
        let (told, body) = plain::parse(n, &text, room);
        answers.count(&told);
        tally.call(kind, Call::Parse(n, &text, room), dice.below(MOST_VALUES + 1), &told, body.as_deref());
    }
    answers.show("reading a text");
    tally.end_part(&format!("{TEXTS} random texts, seed {SEED}, against the second program"));
}

// Each index of 64 species, counted by the loop over all triples, and some beyond. 65 species would have 43,680 triples.
fn indices(tally: &mut Tally) {
    let mut index = 0;
    for (a, b, c) in triples::triples(64) {
        tally.calls("an index of 64 species", Call::Triple(index), 1, &[a, b, c], None);
        index += 1;
    }
    assert_eq!(index, 41_664);
    for beyond in [41_664, 41_665, 43_679, 43_680, 1 << 32, (1 << 32) + 9, 1 << 63, usize::MAX] {
        tally.calls("an index beyond", Call::Triple(beyond), 0, &[], None);
    }
    tally.end_part("indices back to their triples, and some beyond");
}

fn main() {
    let mut tally = Tally::default();
    header_and_lengths(&mut tally);
    broken_rules(&mut tally);
    cuts_and_left_over(&mut tally);
    good_ones(&mut tally);
    tables_and_long_strings(&mut tally);
    random_ones(&mut tally);
    lists_refused(&mut tally);
    lists_entered(&mut tally);
    random_lists(&mut tally);
    bodies_refused(&mut tally, "to put in house order", |n, body, room| Call::Order(n, body, room));
    bodies_without_room(&mut tally);
    bodies_ordered(&mut tally);
    random_bodies(&mut tally);
    for (what, call) in BUILDS {
        tables_refused(&mut tally, what, call);
        sets_refused(&mut tally, what, call);
    }
    tables_without_a_tree(&mut tally);
    tables_built(&mut tally);
    tables_vetoed(&mut tally);
    small_sets(&mut tally);
    random_tables(&mut tally);
    random_trees(&mut tally);
    candidates_refused(&mut tally);
    candidates_checked(&mut tally);
    candidates_of_64(&mut tally);
    candidates_loosened(&mut tally);
    small_candidates(&mut tally);
    parts_of_own_tables(&mut tally);
    random_candidates(&mut tally);
    random_loosenings(&mut tally);
    texts_refused(&mut tally);
    texts_parsed(&mut tally);
    random_texts(&mut tally);
    bodies_refused(&mut tally, "to write as text", |n, body, room| Call::Render(n, body, room));
    texts_without_room(&mut tally);
    texts_rendered(&mut tally);
    texts_again(&mut tally);
    indices(&mut tally);
    println!("tries: {} cases, {} differ", tally.cases, tally.differ);
    if tally.differ > 0 {
        std::process::exit(1);
    }
}
