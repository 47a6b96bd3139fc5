//! Runs by name, each with its outcome written out by hand: those of document 01, worked examples of
//! its source papers, Newick texts, read and written (document 02, T-01 and T-02), sets that occur (T-03), fans in
//! tables (T-05), builds with a veto (T-06), trees that are loosened (T-07), the check in the papers' own words (T-08), the
//! triples that a build looks at (T-09), and what pull prints.

use crate::calls::Call;
use crate::compare::{shown, split, Comparison};
use crate::limits::{halves, ladder};
use crate::newick;
use crate::programs::{Feed, Program, Run};
use crate::says;
use crate::triples::{all, choose};

struct Runs {
    calls: Vec<(String, Call, String)>,
    shelf: Vec<(String, Vec<u8>, String)>,
    pull: Vec<(String, Vec<u8>, String)>,
}

impl Runs {
    fn call(&mut self, name: &str, call: Call, line: &str) {
        self.calls.push((name.to_string(), call, line.to_string()));
    }

    /// A build over all n species, in a room of exactly 4n - 2 bytes that hold 9.
    fn build(&mut self, name: &str, n: usize, table: &[u8], line: &str) {
        self.build_over(name, n, all(n), table, 4 * n - 2, line);
    }

    /// A build over a set, in a room of so many bytes that hold 9.
    fn build_over(&mut self, name: &str, n: usize, set: u64, table: &[u8], room: usize, line: &str) {
        let (table, room) = (table.to_vec(), vec![9; room]);
        self.call(name, Call::Build { n: n as u64, set, table, room }, line);
    }

    /// The same, named by what is handed in.
    fn built(&mut self, n: usize, set: u64, table: &[u8], room: usize, told: &str) {
        let (name, line) = told_by_input(n, set, table, room, told);
        self.build_over(&name, n, set, table, room, &line);
    }

    /// The veto build in the same way.
    fn vetoed(&mut self, n: usize, set: u64, table: &[u8], room: usize, told: &str) {
        let (name, line) = told_by_input(n, set, table, room, told);
        let (table, room) = (table.to_vec(), vec![9; room]);
        self.call(&format!("veto, {name}"), Call::Veto { n: n as u64, set, table, room }, &line);
    }

    fn check(&mut self, name: &str, n: usize, table: &[u8], body: &[u8], line: &str) {
        let (table, body) = (table.to_vec(), body.to_vec());
        self.call(name, Call::Check { n: n as u64, table, body }, line);
    }

    /// A tree as it is written, loosened in a room with two bytes 9 behind its body and a list of 62 sets 1: what is told,
    /// the final body, and the dropped sets.
    fn loosened(&mut self, n: usize, table: &[u8], tree: &str, told: &str, body: &str, dropped: &str) {
        let handed = newick::read(format!("{tree};").as_bytes()).expect("a tree").preorder();
        let behind = " 9".repeat(handed.len() + 2 - body.split_whitespace().count());
        let unused = " 1".repeat(62 - dropped.split_whitespace().count());
        let line = format!("{told} | {body}{behind} |{dropped}{unused}");
        self.loosen(n, table, &handed, (2 + handed.len(), 62), &format!("loosen {}", short(tree)), &line);
    }

    /// A body that is not loosened, which leaves its room of bytes 9 and its list of sets 1 as they were.
    fn loosen_refused(&mut self, n: usize, table: &[u8], body: &[u8], (room, list): (usize, usize), refusal: &str) {
        let line = format!("{refusal} |{} |{}", " 9".repeat(room), " 1".repeat(list));
        let name = format!("loosen {}", short(&format!("{body:?}")));
        self.loosen(n, table, body, (room, list), &name, &line);
    }

    fn loosen(&mut self, n: usize, table: &[u8], body: &[u8], (room, list): (usize, usize), name: &str, line: &str) {
        let name = format!("{name}, n={n}, table {}, room of {room} bytes, list of {list} sets", table_name(table));
        let (table, body) = (table.to_vec(), body.to_vec());
        let call = Call::Loosen { n: n as u64, table, body, room: vec![9; room], list: vec![1; list] };
        self.call(&name, call, line);
    }

    fn read(&mut self, name: &str, bytes: &[u8], line: &str) {
        self.call(name, Call::Read { bytes: bytes.to_vec() }, line);
    }

    /// A text into a room with as many bytes 9 behind the body as are given; it is named by itself.
    fn parse(&mut self, n: u64, text: &[u8], nodes: usize, body: &str, behind: usize) {
        let call = Call::Parse { n, text: text.to_vec(), room: vec![9; 2 * nodes + behind] };
        self.call(&text_name(n, text), call, &format!("0 {nodes} | {body}{}", " 9".repeat(behind)));
    }

    /// A text that is refused, which leaves its room of 8 bytes as it was.
    fn parse_refused(&mut self, n: u64, text: &[u8], refusal: &str) {
        let call = Call::Parse { n, text: text.to_vec(), room: vec![9; 8] };
        self.call(&text_name(n, text), call, &format!("{refusal} | 9 9 9 9 9 9 9 9"));
    }

    /// A body written in a room with as many bytes 9 behind the text as are given.
    fn render(&mut self, n: u64, body: &[u8], text: &str, behind: usize) {
        let call = Call::Render { n, body: body.to_vec(), room: vec![9; text.len() + behind] };
        let name = format!("n={n}, written as {:?}", short(text));
        let written = spaced(text.as_bytes());
        self.call(&name, call, &format!("0 {} |{written}{}", text.len(), " 9".repeat(behind)));
    }

    /// A body that is not written, which leaves its room of so many bytes as it was.
    fn render_refused(&mut self, n: u64, body: &[u8], room: usize, refusal: &str) {
        let name = format!("n={n}, body {}, room of {room} bytes", short(&format!("{body:?}")));
        let call = Call::Render { n, body: body.to_vec(), room: vec![9; room] };
        self.call(&name, call, &format!("{refusal} |{}", " 9".repeat(room)));
    }

    fn shelf(&mut self, name: &str, bytes: &[u8], output: &str) {
        self.shelf.push((name.to_string(), bytes.to_vec(), output.to_string()));
    }

    fn pull(&mut self, name: &str, input: &str, lines: &[&str]) {
        let output = lines.iter().map(|line| format!("{line}\n")).collect();
        self.pull.push((name.to_string(), input.as_bytes().to_vec(), output));
    }

    /// An input that is refused; it is named by itself.
    fn pull_refused(&mut self, input: &str, why: &str) {
        self.pull(&format!("{:?}", short(input)), input, &[&format!("refused: {why}")]);
    }

    /// The same where the mistake is in the first paper and its first line, at a column.
    fn mistake(&mut self, input: &str, column: usize, what: &str) {
        self.pull_refused(input, &format!("paper 1, line 1, column {column}: {what}"));
    }
}

/// The body of a tree such as ((0,1),2), in house order.
fn body(tree: &str) -> Vec<u8> {
    newick::read(format!("{tree};").as_bytes()).expect("a tree").house_order()
}

/// The name of a build by what is handed in, and its line. Where nothing is written, the room is as it was.
fn told_by_input(n: usize, set: u64, table: &[u8], room: usize, told: &str) -> (String, String) {
    let name = format!("n={n}, set {set}, table {}, room of {room} bytes", table_name(table));
    let line = if told.contains('|') { told.to_string() } else { format!("{told} |{}", " 9".repeat(room)) };
    (name, line)
}

/// A table in a name: itself, or its length where it is long.
fn table_name(table: &[u8]) -> String {
    if table.len() <= 10 {
        format!("{table:?}")
    } else {
        format!("of {} bytes", table.len())
    }
}

/// Bytes in decimal, each after a space.
fn spaced(bytes: &[u8]) -> String {
    bytes.iter().map(|byte| format!(" {byte}")).collect()
}

fn star_of_64() -> String {
    let species: Vec<String> = (0..64).map(|species| species.to_string()).collect();
    format!("({})", species.join(","))
}

fn text_name(n: u64, text: &[u8]) -> String {
    format!("n={n}, text {:?}", short(&String::from_utf8_lossy(text)))
}

fn collection(n: usize, papers: &[&str]) -> Vec<u8> {
    let mut bytes = vec![1, n as u8, papers.len() as u8];
    for paper in papers {
        let body = body(paper);
        bytes.extend([0, body.len() as u8]);
        bytes.extend(body);
    }
    bytes
}

/// The body that document 01 gives for n = 4 and table 1 0 0 1.
const NESTED: [u8; 14] = [255, 255, 0, 255, 1, 255, 2, 0, 2, 1, 1, 2, 0, 3];

/// ((0,1),2) and the fan of three.
const CHERRY: [u8; 10] = [255, 255, 0, 255, 1, 0, 1, 1, 0, 2];
const FAN: [u8; 8] = [255, 255, 0, 0, 0, 1, 0, 2];

fn document_01(runs: &mut Runs) {
    runs.build("n=1, empty table", 1, &[], "0 1 0 | 255 0");
    runs.build("n=2", 2, &[], "0 3 0 | 255 255 0 0 0 1");
    runs.build("n=3, table 0", 3, &[0], "0 4 1 | 255 255 0 0 0 1 0 2 9 9");
    runs.build("n=4, table 1 0 0 1", 4, &[1, 0, 0, 1], "0 7 5 | 255 255 0 255 1 255 2 0 2 1 1 2 0 3");
    runs.check("n=4, table 1 0 0 1: the check passes that tree", 4, &[1, 0, 0, 1], &NESTED, "0");
    runs.build("n=4, table 3 0 0 0", 4, &[3, 0, 0, 0], "10 7 5 | 9 9 9 9 9 9 9 9 9 9 9 9 9 9");
    runs.build("n=4, table 1 2 0 1", 4, &[1, 2, 0, 1], "10 15 4 | 9 9 9 9 9 9 9 9 9 9 9 9 9 9");
    runs.check("n=3, ((0,1),2), table 2", 3, &[2], &CHERRY, "11 0 2");
    runs.check("n=3, ((0,1),2), table 3", 3, &[3], &CHERRY, "11 0 3");
    runs.check("n=3, ((0,1),2), table 0", 3, &[0], &CHERRY, "12 0");
    runs.check("n=3, ((0,1),2), table 1", 3, &[1], &CHERRY, "0");
    runs.check("n=3, the fan, table 3", 3, &[3], &FAN, "0");
    let only = vec![255, 255, 0, 0];
    runs.read("body 255 255, 0 0, read", &[1, 1, 1, 0, 4, 255, 255, 0, 0], "6 0 0 only");
    runs.call(
        "body 255 255, 0 0, into house order",
        Call::Order { n: 1, body: only.clone(), room: vec![9; 5] },
        "6 0 0 only | 9 9 9 9 9",
    );
    runs.check("body 255 255, 0 0, checked", 3, &[0], &only, "6 0 0 only");

    // n=6, after source document 000's example 4
    let papers = ["((0,1),2)", "((0,1),(3,(4,5)))"];
    row(
        runs,
        "n=6, ((0,1),2) and ((0,1),(3,(4,5)))",
        (6, 63),
        &papers,
        &[1, 1, 0, 0, 1, 0, 0, 4, 4, 0, 1, 0, 0, 4, 4, 0, 4, 4, 0, 4],
        Built::Tree(10, 21, "255 255 0 255 1 0 1 1 0 2 0 255 5 3 5 255 7 4 7 5", "12 9"),
    );
    // 64 species and 65
    let zeros = vec![0; 41_664];
    let star: String = (0..64).map(|i| format!(" 0 {i}")).collect();
    let behind = " 9".repeat(254 - 2 * 65);
    let table = " 0".repeat(41_664);
    runs.read("64 species, read", &[1, 64, 0], "0 64 0 0");
    runs.read("65 species, read", &[1, 65, 0], "2");
    let list = |n: u8| Call::List { bytes: vec![1, n, 0], table: vec![9; 41_664] };
    runs.call("64 species, listed", list(64), &format!("0 64 0 0 |{table}"));
    runs.call("65 species, listed", list(65), &format!("2 |{}", " 9".repeat(41_664)));
    let enter = |n: u64| Call::Enter { n, records: vec![[61, 63, 62]], table: vec![9; 41_664] };
    let last = format!("{}2", &table[..table.len() - 1]);
    // 7 at 61
    runs.call("64 species, entered 61 63|62", enter(64), &format!("0 64 16140901064495857664 |{last}"));
    runs.call("65 species, entered", enter(65), &format!("2 |{}", " 9".repeat(41_664)));
    let order = |n: u64| Call::Order { n, body: vec![255, 63], room: vec![9; 2] };
    runs.call("64 species, into house order", order(64), "0 1 | 255 63");
    runs.call("65 species, into house order", order(65), "2 | 9 9");
    let build = |n: u64| Call::Build { n, set: u64::MAX, table: zeros.clone(), room: vec![9; 254] };
    runs.call("64 species, built", build(64), &format!("0 65 41664 | 255 255{star}{behind}"));
    runs.call("65 species, built", build(65), &format!("2 0 |{}", " 9".repeat(254)));
    runs.check("64 species, checked", 64, &zeros, &[255, 63], "0");
    runs.check("65 species, checked", 65, &zeros, &[255, 63], "2");

    // 16 trees and 17
    for (count, line, listed) in [(16, "0 3 16 4", "0 3 16 4 | 0"), (17, "2", "2 | 9")] {
        let mut bytes = vec![1, 3, count];
        for _ in 0..count {
            bytes.extend([0, 2, 255, 2]);
        }
        runs.read(&format!("{count} trees, read"), &bytes, line);
        let call = Call::List { bytes, table: vec![9] };
        runs.call(&format!("{count} trees, listed"), call, listed);
    }

    // room of 14 bytes for n=4, and of 13
    let build = |room: usize| Call::Build { n: 4, set: 15, table: vec![0; 4], room: vec![9; room] };
    runs.call("n=4, build room of 14 bytes", build(14), "0 5 4 | 255 255 0 0 0 1 0 2 0 3 9 9 9 9");
    runs.call("n=4, build room of 13 bytes", build(13), "9 0 | 9 9 9 9 9 9 9 9 9 9 9 9 9");

    // R is the entered triplets on triples that the candidate resolves, and no others
    runs.check("n=4, table 0 0 0 3, ((0,1),2)", 4, &[0, 0, 0, 3], &CHERRY, "12 0");
    runs.check("n=4, table 1 0 0 0, (((0,1),2),3)", 4, &[1, 0, 0, 0], &NESTED, "12 1");
    runs.check("n=4, table 0 1 0 0, ((0,1,2),3)", 4, &[0, 1, 0, 0], &body("((0,1,2),3)"), "12 2");

    // the program shelf
    let mut example = vec![1, 4, 1, 0, 14];
    example.extend(NESTED);
    runs.shelf("the example of document 01", &example, "build 0 7\n255 255 0 255 1 255 2 0 2 1 1 2 0 3\ncheck 0\n");
    runs.shelf("no byte", &[], "read 3 0 0\n");
    runs.shelf("version 2", &[2, 4, 0], "read 1 0 0\n");
    runs.shelf("65 species", &[1, 65, 0], "read 2 0 0\n");
    runs.shelf("17 trees", &[1, 4, 17], "read 2 0 0\n");
    let leaf = [0, 2, 255, 0];
    let second = |more: &[u8]| [&[1, 4, 2], &leaf[..], more].concat();
    runs.shelf("second tree's length cut", &second(&[0]), "read 3 1 0\n");
    runs.shelf("second tree's body cut", &second(&[0, 2, 255]), "read 3 1 0\n");
    runs.shelf("second tree of length 3", &second(&[0, 3]), "read 5 1 0\n");
    runs.shelf("second tree with an only child", &second(&[0, 4, 255, 255, 0, 0]), "read 6 1 0\n");
    runs.shelf("second tree with species 4", &second(&[0, 6, 255, 255, 0, 1, 0, 4]), "read 6 1 2\n");
    runs.shelf("three bytes left over", &second(&[0, 2, 255, 0, 1, 2, 3]), "read 4 0 0\n");
}

/// What a build gives: the node count, the triples looked at, the body and the check of it; or the stopping set, and the
/// triples looked at.
enum Built {
    Tree(usize, usize, &'static str, &'static str),
    Stops(u64, usize),
}

/// One collection, with n and the set that occurs: listed, built over that set, its built tree checked, and all of it by shelf.
fn row(runs: &mut Runs, name: &str, (n, set): (usize, u64), papers: &[&str], table: &[u8], built: Built) {
    let bytes = collection(n, papers);
    let call = Call::List { bytes: bytes.clone(), table: vec![9; table.len()] };
    runs.call(&format!("{name}: list"), call, &format!("0 {n} {} {set} |{}", papers.len(), spaced(table)));
    let build = format!("{name}: build");
    let room = 4 * set.count_ones() as usize - 2;
    match built {
        Built::Tree(nodes, looked, body, checked) => {
            let behind = " 9".repeat(room - 2 * nodes);
            runs.build_over(&build, n, set, table, room, &format!("0 {nodes} {looked} | {body}{behind}"));
            let body_bytes: Vec<u8> = body.split(' ').map(|number| number.parse().expect("a byte")).collect();
            runs.check(&format!("{name}: check"), n, table, &body_bytes, checked);
            runs.shelf(name, &bytes, &format!("build 0 {nodes}\n{body}\ncheck {checked}\n"));
        }
        Built::Stops(stop, looked) => {
            let untouched = " 9".repeat(room);
            runs.build_over(&build, n, set, table, room, &format!("10 {stop} {looked} |{untouched}"));
            runs.shelf(name, &bytes, &format!("build 10 {stop}\n"));
        }
    }
}

/// The source papers' examples, their letters in order from 0.
fn papers(runs: &mut Runs) {
    row(
        runs,
        "papers 1, ((A,B),C) and ((B,C),D)",
        (4, 15),
        &["((0,1),2)", "((1,2),3)"],
        &[1, 0, 0, 1],
        Built::Tree(7, 5, "255 255 0 255 1 255 2 0 2 1 1 2 0 3", "0"),
    );

    row(
        runs,
        "papers 2, ((A,B),E) and ((C,D),E)",
        (5, 31),
        &["((0,1),4)", "((2,3),4)"],
        &[0, 0, 0, 0, 1, 0, 0, 0, 0, 1],
        Built::Tree(8, 10, "255 255 0 255 1 0 1 1 0 255 4 2 4 3 0 4", "12 0"),
    );

    let table = [0, 1, 1, 0];
    row(
        runs,
        "papers 3, ((A,B),D) and ((A,C),D)",
        (4, 15),
        &["((0,1),3)", "((0,2),3)"],
        &table,
        Built::Tree(6, 5, "255 255 0 255 1 0 1 1 1 2 0 3", "0"),
    );
    for resolved in ["(((0,1),2),3)", "(((0,2),1),3)", "(((1,2),0),3)"] {
        runs.check(&format!("papers 3: check {resolved}"), 4, &table, &body(resolved), "12 0");
    }

    let table = [3, 2, 2, 2, 1, 1, 1, 0, 0, 0, 1, 1, 1, 0, 0, 0, 4, 4, 4, 0];
    row(
        runs,
        "papers 4, (((A,C),B),(E,F)) and (((A,D),B),C)",
        (6, 63),
        &["(((0,2),1),(4,5))", "(((0,3),1),2)"],
        &table,
        Built::Stops(15, 24),
    );
    for (candidate, line) in
        [("((((0,3),1),2),(4,5))", "11 0 3"), ("((0,1,2,3),(4,5))", "12 7"), ("(((0,3),1,2),(4,5))", "0")]
    {
        runs.check(&format!("papers 4: check {candidate}"), 6, &table, &body(candidate), line);
    }

    let table = [1, 3, 3, 3];
    row(
        runs,
        "papers 5, (((A,E),B),C) and (((A,B),C),E)",
        (4, 15),
        &["(((0,3),1),2)", "(((0,1),2),3)"],
        &table,
        Built::Stops(15, 4),
    );
    runs.check("papers 5: check ((0,1),2)", 4, &table, &CHERRY, "0");

    let table = [5, 1, 8, 8];
    row(
        runs,
        "papers 6, ((A,B),C,X) and ((B,C),A)",
        (4, 15),
        &["((0,1),2,3)", "((1,2),0)"],
        &table,
        Built::Stops(7, 5),
    );
    runs.check("papers 6: check ((0,1,2),3)", 4, &table, &body("((0,1,2),3)"), "12 2");

    let table = [1, 3, 6, 6, 3, 6, 6, 3, 3, 3, 5, 6, 6, 3, 3, 3, 5, 6, 6, 4];
    row(
        runs,
        "papers 7, (((A,D),B),((C,F),E)) and (((A,E),(B,F)),(C,D))",
        (6, 63),
        &["(((0,3),1),((2,5),4))", "(((0,4),(1,5)),(2,3))"],
        &table,
        Built::Stops(63, 20),
    );
    runs.check("papers 7: check ((0,1),2)", 6, &table, &CHERRY, "0");

    row(
        runs,
        "papers 8, ((A,B),W) and ((A,B),(X,(Y,Z)))",
        (6, 63),
        &["((0,1),2)", "((0,1),(3,(4,5)))"],
        &[1, 1, 0, 0, 1, 0, 0, 4, 4, 0, 1, 0, 0, 4, 4, 0, 4, 4, 0, 4],
        Built::Tree(10, 21, "255 255 0 255 1 0 1 1 0 2 0 255 5 3 5 255 7 4 7 5", "12 9"),
    );
}

/// The set that occurs, as it is returned.
fn sets_returned(runs: &mut Runs) {
    let papers: [(usize, &[&str], u64); 9] = [
        (4, &[], 0),
        (1, &["0"], 1),
        (4, &["3"], 8),
        (64, &["63"], 1 << 63),
        (64, &[&star_of_64()], u64::MAX),
        (5, &["(1,3,4)"], 26),
        (5, &["((4,1),3)", "(3,1)", "4"], 26),
        (6, &["(0,2)", "5"], 37),
        (6, &["((0,1),2)", "((2,4),1)"], 23),
    ];
    for (n, papers, set) in papers {
        let told = format!("0 {n} {} {set}", papers.len());
        let name = format!("n={n}, {}", short(&papers.join(" and ")));
        runs.read(&format!("{name}: read"), &collection(n, papers), &told);
        // no tree here has three species
        if papers.iter().all(|paper| paper.len() < 6) && n < 8 {
            let table = vec![9; choose(n, 3)];
            let zeros = " 0".repeat(table.len());
            let call = Call::List { bytes: collection(n, papers), table };
            runs.call(&format!("{name}: list"), call, &format!("{told} |{zeros}"));
        }
    }
    let enter = |records: &[[u8; 3]]| Call::Enter { n: 5, records: records.to_vec(), table: vec![9; 10] };
    runs.call("n=5, no record entered", enter(&[]), "0 5 0 | 0 0 0 0 0 0 0 0 0 0");
    runs.call("n=5, 41|2 entered, and 14|2", enter(&[[4, 1, 2], [1, 4, 2]]), "0 5 22 | 0 0 0 0 0 0 2 0 0 0");
    runs.call("n=5, 01|2 and 03|2 entered", enter(&[[0, 1, 2], [3, 0, 2]]), "0 5 15 | 1 0 2 0 0 0 0 0 0 0");
    runs.call("n=5, 01|2 and 01|5 entered", enter(&[[0, 1, 2], [0, 1, 5]]), "13 1 | 9 9 9 9 9 9 9 9 9 9");
}

/// The build over a set, and its refusals in their order.
fn sets_built(runs: &mut Runs) {
    let mut build = |n, set, table: &[u8], room, told: &str| runs.built(n, set, table, room, told);
    build(4, 15, &[0, 0, 0, 0], 14, "0 5 4 | 255 255 0 0 0 1 0 2 0 3 9 9 9 9");
    build(4, 11, &[0, 0, 0, 0], 10, "0 4 1 | 255 255 0 0 0 1 0 3 9 9");
    build(4, 11, &[0, 1, 0, 0], 10, "0 5 1 | 255 255 0 255 1 0 1 1 0 3");
    build(4, 11, &[0, 2, 0, 0], 12, "0 5 1 | 255 255 0 255 1 0 1 3 0 1 9 9");
    build(4, 14, &[0, 0, 0, 4], 10, "0 5 1 | 255 255 0 1 0 255 2 2 2 3");
    build(4, 10, &[0, 0, 0, 0], 6, "0 3 0 | 255 255 0 1 0 3");
    build(4, 8, &[0, 0, 0, 0], 2, "0 1 0 | 255 3");
    build(2, 2, &[], 3, "0 1 0 | 255 1 9");
    build(1, 1, &[], 2, "0 1 0 | 255 0");
    // 2, 7 and 8 come first
    build(0, 1, &[], 2, "2 0");
    build(65, 1, &[0; 10], 2, "2 0");
    build(4, 0, &[0, 0, 0], 0, "7 0");
    build(4, 0, &[0, 17, 0, 16], 0, "8 1 0");
    build(4, 7, &[0, 0, 0, 16], 0, "8 3 0");
    // an empty set, or a bit at n or above
    for set in [0, 16, 31, 17, 1 << 63, (1 << 63) | 15, 1 << 32, u64::MAX] {
        build(4, set, &[0, 0, 0, 0], 300, "15 0");
        build(4, set, &[1, 0, 0, 0], 0, "15 0");
    }
    build(1, 2, &[], 2, "15 0");
    build(1, 3, &[], 6, "15 0");
    // a byte outside the set: the first one, and before the room
    build(4, 7, &[1, 0, 0, 0], 10, "0 5 1 | 255 255 0 255 1 0 1 1 0 2");
    build(4, 7, &[1, 0, 0, 1], 10, "16 3 0");
    build(4, 7, &[7, 1, 0, 1], 10, "16 1 0");
    build(4, 7, &[0, 0, 4, 0], 0, "16 2 0");
    build(4, 14, &[2, 0, 0, 1], 10, "16 0 0");
    build(4, 13, &[0, 0, 3, 7], 9, "16 3 0");
    build(4, 3, &[0, 7, 0, 0], 6, "16 1 0");
    build(3, 1, &[5], 2, "16 0 0");
    // the room for the species of the set, whatever the body has; then the tree
    build(4, 11, &[0, 0, 0, 0], 9, "9 0");
    build(4, 11, &[0, 3, 0, 0], 9, "9 0");
    build(4, 11, &[0, 3, 0, 0], 10, "10 11 1");
    build(4, 8, &[0, 0, 0, 0], 1, "9 0");
    build(5, 22, &[0, 0, 0, 0, 0, 0, 3, 0, 0, 0], 10, "10 22 1");
    build(5, 23, &[0, 0, 0, 0, 0, 0, 3, 0, 0, 0], 14, "10 22 5");
    // 64 species: no bit is above them
    let zeros = vec![0; 41_664];
    let star: String = (0..64).map(|i| format!(" 0 {i}")).collect();
    build(64, u64::MAX, &zeros, 254, &format!("0 65 41664 | 255 255{star}{}", " 9".repeat(254 - 2 * 65)));
    build(64, u64::MAX, &zeros, 253, "9 0");
    build(64, 1 << 63, &zeros, 2, "0 1 0 | 255 63");
    build(64, 3 << 62, &zeros, 6, "0 3 0 | 255 255 0 62 0 63");
    build(64, 3 << 62, &zeros, 5, "9 0");
    build(64, 0, &zeros, 254, "15 0");
    build(63, 1 << 63, &zeros[..39_711], 254, "15 0");
    build(63, u64::MAX, &zeros[..39_711], 254, "15 0");
    build(63, 1 << 62, &zeros[..39_711], 2, "0 1 0 | 255 62");
    let mut last = zeros;
    last[41_663] = 1;
    build(64, 7 << 61, &last, 10, "0 5 1 | 255 255 0 255 1 61 1 62 0 63");
    build(64, u64::MAX >> 1, &last, 254, "16 41663 0");
    last[41_663] = 5;
    build(64, 7 << 61, &last, 10, "10 16140901064495857664 1");
}

/// Collections with species that occur nowhere.
fn sets_on_the_shelf(runs: &mut Runs) {
    for n in [1, 2, 3, 4, 64] {
        runs.shelf(&format!("no trees, n={n}"), &[1, n, 0], "build 15\n");
    }
    let mut shelf = |n: usize, papers: &[&str], output: &str| {
        runs.shelf(&format!("n={n}, {}", papers.join(" and ")), &collection(n, papers), output);
    };
    shelf(1, &["0"], "build 0 1\n255 0\ncheck 0\n");
    shelf(2, &["1"], "build 0 1\n255 1\ncheck 0\n");
    shelf(64, &["63"], "build 0 1\n255 63\ncheck 0\n");
    shelf(6, &["(1,3,5)"], "build 0 4\n255 255 0 1 0 3 0 5\ncheck 0\n");
    shelf(6, &["4", "2"], "build 0 3\n255 255 0 2 0 4\ncheck 0\n");
    shelf(6, &["((0,1),2)"], "build 0 5\n255 255 0 255 1 0 1 1 0 2\ncheck 0\n");
    shelf(6, &["((0,1),2)", "5"], "build 0 6\n255 255 0 255 1 0 1 1 0 2 0 5\ncheck 12 10\n");
    shelf(6, &["((1,3),5)", "((1,5),3)"], "build 10 42\n");

    // papers 2 once more, the letters from 1 on: the same tree and the same triple
    let mut table = [0; 35];
    (table[12], table[19]) = (1, 1);
    row(
        runs,
        "((1,2),5) and ((3,4),5) of 7",
        (7, 62),
        &["((1,2),5)", "((3,4),5)"],
        &table,
        Built::Tree(8, 10, "255 255 0 255 1 1 1 2 0 255 4 3 4 4 0 5", "12 3"),
    );
}

/// Fans that are listed, and such that are none: three species that are not all in one tree.
fn fans_listed(runs: &mut Runs) {
    let mut list = |n: usize, papers: &[&str], set: u64, table: &[u8]| {
        let call = Call::List { bytes: collection(n, papers), table: vec![255; choose(n, 3)] };
        let line = format!("0 {n} {} {set} |{}", papers.len(), spaced(table));
        runs.call(&format!("n={n}, {}: list", short(&papers.join(" and "))), call, &line);
    };
    list(3, &["(0,1,2)"], 7, &[8]);
    list(3, &["(2,0,1)", "(0,1,2)"], 7, &[8]);
    list(3, &["(0,1,2)", "((0,1),2)"], 7, &[9]);
    list(3, &["((0,2),1)", "(0,1,2)"], 7, &[10]);
    list(3, &["(0,1,2)", "(0,(1,2))"], 7, &[12]);
    list(3, &["((0,1),2)", "((0,2),1)", "(0,1,2)"], 7, &[11]);
    list(3, &["(0,1,2)", "((0,1),2)", "((0,2),1)", "(0,(1,2))"], 7, &[15]);
    list(3, &["((0,1),2)", "((0,2),1)", "(0,(1,2))"], 7, &[7]);
    list(3, &["(0,1)"], 3, &[0]);
    list(3, &["(0,1)", "(1,2)", "(0,2)", "2"], 7, &[0]);
    list(3, &["(0,1)", "((0,1),2)"], 7, &[1]);
    list(4, &["(0,1,2,3)"], 15, &[8, 8, 8, 8]);
    list(4, &["(0,1,3)"], 11, &[0, 8, 0, 0]);
    list(4, &["((0,1),2,3)"], 15, &[1, 1, 8, 8]);
    list(4, &["((0,1,2),3)"], 15, &[8, 1, 1, 1]);
    list(4, &["(0,(1,2,3))"], 15, &[4, 4, 4, 8]);
    list(4, &["((0,3),1,2)"], 15, &[8, 2, 2, 8]);
    list(4, &["((0,1),(2,3))"], 15, &[1, 1, 4, 4]);
    list(4, &["(0,1,2)", "(0,1,3)", "((1,2),3)"], 15, &[8, 8, 0, 1]);
    list(5, &["(1,3,4)"], 26, &[0, 0, 0, 0, 0, 0, 0, 0, 8, 0]);
    list(5, &["(0,1,2)", "(3,4)"], 31, &[8, 0, 0, 0, 0, 0, 0, 0, 0, 0]);
    list(5, &["((0,4),(1,2,3))"], 31, &[4, 4, 4, 8, 2, 2, 1, 2, 1, 1]);
    list(64, &[&star_of_64()], u64::MAX, &[8; 41_664]);

    // entering never sets it, whatever the table held
    let enter = |n: u64, records: &[[u8; 3]], table: &[u8]| {
        let (records, table) = (records.to_vec(), table.to_vec());
        Call::Enter { n, records, table }
    };
    runs.call("n=3, no record entered over a fan", enter(3, &[], &[8]), "0 3 0 | 0");
    runs.call("n=3, 01|2 entered over a fan", enter(3, &[[0, 1, 2]], &[8]), "0 3 7 | 1");
    runs.call("n=3, all three entered over 15", enter(3, &[[0, 1, 2], [2, 0, 1], [1, 2, 0]], &[15]), "0 3 7 | 7");
    runs.call("n=4, 12|3 entered over fans", enter(4, &[[2, 1, 3]], &[8; 4]), "0 4 14 | 0 0 0 1");
}

/// Tables with fans, and bytes over 15, to build from and to check against; fans on the shelf.
fn fans_used(runs: &mut Runs) {
    let mut build = |n, set, table: &[u8], room, told: &str| runs.built(n, set, table, room, told);
    build(3, 7, &[8], 10, "0 4 1 | 255 255 0 0 0 1 0 2 9 9");
    build(3, 7, &[9], 10, "0 5 1 | 255 255 0 255 1 0 1 1 0 2");
    build(3, 7, &[10], 10, "0 5 1 | 255 255 0 255 1 0 1 2 0 1");
    build(3, 7, &[12], 10, "0 5 1 | 255 255 0 0 0 255 2 1 2 2");
    for byte in [11, 13, 14, 15] {
        build(3, 7, &[byte], 10, "10 7 1");
        build(3, 7, &[byte], 9, "9 0");
    }
    for byte in [16, 17, 24, 31, 32, 64, 128, 255] {
        build(3, 7, &[byte], 10, "8 0 0");
        build(3, 0, &[byte], 0, "8 0 0");
    }
    build(4, 15, &[1, 8, 8, 1], 14, "0 7 5 | 255 255 0 255 1 255 2 0 2 1 1 2 0 3");
    build(4, 15, &[8, 8, 8, 8], 14, "0 5 4 | 255 255 0 0 0 1 0 2 0 3 9 9 9 9");
    build(4, 15, &[11, 8, 8, 8], 14, "10 7 5");
    build(4, 15, &[9, 10, 8, 9], 14, "10 15 4");
    build(4, 15, &[15, 15, 15, 16], 14, "8 3 0");
    build(4, 7, &[8, 16, 0, 255], 10, "8 1 0");
    // a fan that reaches outside the set, after 15 and before 9
    build(4, 7, &[0, 8, 0, 0], 10, "16 1 0");
    build(4, 7, &[0, 8, 0, 0], 0, "16 1 0");
    build(4, 7, &[9, 8, 0, 0], 10, "16 1 0");
    build(4, 7, &[8, 0, 0, 0], 10, "0 4 1 | 255 255 0 0 0 1 0 2 9 9");
    build(4, 11, &[8, 0, 8, 0], 10, "16 0 0");
    build(4, 11, &[0, 8, 8, 1], 10, "16 2 0");
    build(4, 13, &[0, 0, 8, 8], 10, "16 3 0");
    build(4, 11, &[0, 8, 0, 0], 10, "0 4 1 | 255 255 0 0 0 1 0 3 9 9");
    build(4, 11, &[0, 10, 0, 0], 10, "0 5 1 | 255 255 0 255 1 0 1 3 0 1");
    build(4, 0, &[8, 8, 8, 8], 14, "15 0");
    build(4, 31, &[8, 8, 8, 8], 14, "15 0");

    for (byte, line) in [
        (8, "12 0"),
        (9, "0"),
        (10, "11 0 10"),
        (11, "11 0 11"),
        (12, "11 0 12"),
        (13, "11 0 13"),
        (14, "11 0 14"),
        (15, "11 0 15"),
        (16, "8 0"),
        (255, "8 0"),
    ] {
        runs.check(&format!("n=3, ((0,1),2), table {byte}"), 3, &[byte], &CHERRY, line);
        let line = if byte < 16 { "0" } else { line };
        runs.check(&format!("n=3, the fan, table {byte}"), 3, &[byte], &FAN, line);
        runs.check(&format!("n=3, (0,1), table {byte}"), 3, &[byte], &[255, 255, 0, 0, 0, 1], line);
    }
    let wide = body("((0,1,2),3)");
    for (tree, body, table, line) in [
        ("(((0,1),2),3)", &NESTED[..], [1, 8, 8, 1], "0"),
        ("(((0,1),2),3)", &NESTED, [9, 9, 9, 9], "0"),
        ("(((0,1),2),3)", &NESTED, [1, 8, 8, 8], "12 1"),
        ("(((0,1),2),3)", &NESTED, [8, 8, 8, 10], "11 3 10"),
        ("((0,1,2),3)", &wide, [8, 1, 1, 1], "0"),
        ("((0,1,2),3)", &wide, [15, 9, 1, 9], "0"),
        ("((0,1,2),3)", &wide, [8, 1, 8, 8], "12 2"),
        ("((0,1),2)", &CHERRY, [8, 15, 15, 15], "12 0"),
    ] {
        runs.check(&format!("n=4, {tree}, table {table:?}"), 4, &table, body, line);
    }

    row(runs, "(0,1,2) of 3", (3, 7), &["(0,1,2)"], &[8], Built::Tree(4, 1, "255 255 0 0 0 1 0 2", "0"));
    row(
        runs,
        "(0,1,2) and ((0,1),2)",
        (3, 7),
        &["(0,1,2)", "((0,1),2)"],
        &[9],
        Built::Tree(5, 1, "255 255 0 255 1 0 1 1 0 2", "0"),
    );
    row(
        runs,
        "((0,1),2,3) and (0,1,2)",
        (4, 15),
        &["((0,1),2,3)", "(0,1,2)"],
        &[9, 1, 8, 8],
        Built::Tree(6, 4, "255 255 0 255 1 0 1 1 0 2 0 3", "0"),
    );
    row(
        runs,
        "(0,1,3) and (0,2) of 5",
        (5, 15),
        &["(0,1,3)", "(0,2)"],
        &[0, 8, 0, 0, 0, 0, 0, 0, 0, 0],
        Built::Tree(5, 4, "255 255 0 0 0 1 0 2 0 3", "0"),
    );
    row(
        runs,
        "(0,1,2), ((0,1),2) and ((0,2),1)",
        (4, 7),
        &["(0,1,2)", "((0,1),2)", "((0,2),1)"],
        &[11, 0, 0, 0],
        Built::Stops(7, 1),
    );
}

/// Builds with a veto, and their refusals in their order.
fn vetoes(runs: &mut Runs) {
    let mut veto = |n, set, table: &[u8], room, told: &str| runs.vetoed(n, set, table, room, told);
    // no quarrel: as the plain build
    veto(1, 1, &[], 2, "0 1 0 | 255 0");
    veto(2, 3, &[], 6, "0 3 0 | 255 255 0 0 0 1");
    veto(2, 2, &[], 3, "0 1 0 | 255 1 9");
    veto(3, 7, &[0], 10, "0 4 1 | 255 255 0 0 0 1 0 2 9 9");
    veto(3, 7, &[2], 10, "0 5 1 | 255 255 0 255 1 0 1 2 0 1");
    veto(4, 15, &[1, 0, 0, 1], 14, "0 7 5 | 255 255 0 255 1 255 2 0 2 1 1 2 0 3");
    veto(4, 15, &[1, 1, 4, 4], 14, "0 7 4 | 255 255 0 255 1 0 1 1 0 255 4 2 4 3");
    veto(4, 11, &[0, 2, 0, 0], 12, "0 5 1 | 255 255 0 255 1 0 1 3 0 1 9 9");
    // a set that is joined: its species are leaves under it
    for byte in [3, 5, 6, 7, 11, 13, 14, 15] {
        veto(3, 7, &[byte], 10, "0 4 1 | 255 255 0 0 0 1 0 2 9 9");
    }
    veto(4, 15, &[3, 0, 0, 0], 14, "0 6 5 | 255 255 0 255 1 0 1 1 1 2 0 3 9 9");
    veto(4, 15, &[0, 0, 0, 6], 14, "0 6 5 | 255 255 0 0 0 255 2 1 2 2 2 3 9 9");
    veto(4, 15, &[1, 2, 0, 1], 14, "0 5 4 | 255 255 0 0 0 1 0 2 0 3 9 9 9 9");
    veto(4, 15, &[7, 7, 7, 7], 15, "0 5 4 | 255 255 0 0 0 1 0 2 0 3 9 9 9 9 9");
    // all agree on 0 and 1, and the set of all four is joined: it is not split again
    veto(4, 15, &[1, 1, 4, 2], 14, "0 5 4 | 255 255 0 0 0 1 0 2 0 3 9 9 9 9");
    // ((((0,1),2),3),4) and ((((0,2),1),3),4): they quarrel far down
    let deep = [3, 1, 1, 1, 1, 1, 1, 1, 1, 1];
    veto(5, 31, &deep, 18, "0 8 15 | 255 255 0 255 1 255 2 0 2 1 2 2 1 3 0 4 9 9");
    // 01|2 and 02|1, 34|5 and 35|4: two quarrels beside each other
    let mut beside = [0; 20];
    (beside[0], beside[19]) = (3, 3);
    veto(6, 63, &beside, 22, "0 9 22 | 255 255 0 255 1 0 1 1 1 2 0 255 5 3 5 4 5 5 9 9 9 9");
    // over a part of the species
    veto(4, 11, &[0, 3, 0, 0], 10, "0 4 1 | 255 255 0 0 0 1 0 3 9 9");
    veto(5, 23, &[0, 0, 0, 0, 0, 0, 3, 0, 0, 0], 14, "0 6 5 | 255 255 0 0 0 255 2 1 2 2 2 4 9 9");
    // the source papers' examples that quarrel
    let papers4 = [3, 2, 2, 2, 1, 1, 1, 0, 0, 0, 1, 1, 1, 0, 0, 0, 4, 4, 4, 0];
    veto(6, 63, &papers4, 22, "0 9 24 | 255 255 0 255 1 0 1 1 1 2 1 3 0 255 6 4 6 5 9 9 9 9");
    veto(4, 15, &[1, 3, 3, 3], 14, "0 5 4 | 255 255 0 0 0 1 0 2 0 3 9 9 9 9");
    veto(4, 15, &[5, 1, 8, 8], 14, "0 6 5 | 255 255 0 255 1 0 1 1 1 2 0 3 9 9");
    let papers7 = [1, 3, 6, 6, 3, 6, 6, 3, 3, 3, 5, 6, 6, 3, 3, 3, 5, 6, 6, 4];
    veto(6, 63, &papers7, 22, "0 7 20 | 255 255 0 0 0 1 0 2 0 3 0 4 0 5 9 9 9 9 9 9 9 9");
    // the refusals of the plain build, and never 10
    veto(0, 1, &[], 2, "2 0");
    veto(65, 1, &[3; 10], 2, "2 0");
    veto(4, 0, &[3, 0, 0], 0, "7 0");
    veto(4, 0, &[3, 17, 0, 16], 0, "8 1 0");
    veto(4, 0, &[3, 0, 0, 0], 14, "15 0");
    veto(4, 16, &[3, 0, 0, 0], 14, "15 0");
    veto(4, u64::MAX, &[3, 0, 0, 0], 300, "15 0");
    veto(4, 7, &[3, 1, 0, 0], 0, "16 1 0");
    veto(4, 7, &[3, 8, 0, 0], 10, "16 1 0");
    veto(4, 15, &[3, 0, 0, 0], 13, "9 0");
    veto(3, 7, &[7], 9, "9 0");
    veto(3, 4, &[0], 1, "9 0");
    // 64 species
    let star: String = (0..64).map(|i| format!(" 0 {i}")).collect();
    let behind = " 9".repeat(254 - 2 * 65);
    for byte in [7, 15] {
        veto(64, u64::MAX, &[byte; 41_664], 254, &format!("0 65 41664 | 255 255{star}{behind}"));
    }
    veto(64, u64::MAX, &[7; 41_664], 253, "9 0");
    let mut last = [0; 41_664];
    last[41_663] = 5;
    let first: String = (0..61).map(|i| format!(" 0 {i}")).collect();
    let behind = " 9".repeat(254 - 2 * 66);
    veto(64, u64::MAX, &last, 254, &format!("0 66 41665 | 255 255{first} 0 255 62 61 62 62 62 63{behind}"));
    veto(64, 7 << 61, &last, 10, "0 4 1 | 255 255 0 61 0 62 0 63 9 9");

    // PC passes; PI need not
    let wide = body("((0,1,2),3)");
    runs.check("the veto build of table 3 0 0 0, checked", 4, &[3, 0, 0, 0], &wide, "12 1");
    let split = body("((0,1,2,3),(4,5))");
    runs.check("the veto build of papers 4, checked", 6, &papers4, &split, "12 7");
    let nested = body("(((0,1,2),3),4)");
    runs.check("the veto build of a quarrel far down, checked", 5, &deep, &nested, "0");
}

/// The triples that a build looks at: "for every set split, or found joined, the combinations of three of its species, added
/// up", "over the sets visited in order, up to any stop".
fn looked_at(runs: &mut Runs) {
    // what the plain build and the veto build tell, in a room of exactly 4s - 2 bytes, and the tree
    let mut both = |n: usize, set: u64, table: &[u8], plain: &str, veto: &str, tree: &str| {
        let room = 4 * set.count_ones() as usize - 2;
        let body = body(tree);
        let written = format!("{}{}", spaced(&body), " 9".repeat(room - body.len()));
        let told = |line: &str| if line.starts_with("0 ") { format!("{line} |{written}") } else { line.to_string() };
        runs.built(n, set, table, room, &told(plain));
        runs.vetoed(n, set, table, room, &told(veto));
    };
    // a set of two has no triple, and one species is not split
    both(2, 3, &[], "0 3 0", "0 3 0", "(0,1)");
    both(5, 16, &[0; 10], "0 1 0", "0 1 0", "4");
    // 5 species: 10, 4 and 1, also where the last three are a star; 10 and 4; 10 and 1; 10 alone
    both(5, 31, &[1; 10], "0 9 15", "0 9 15", "((((0,1),2),3),4)");
    both(5, 31, &[8, 1, 1, 1, 1, 1, 1, 1, 1, 1], "0 8 15", "0 8 15", "(((0,1,2),3),4)");
    both(5, 31, &[1, 1, 4, 4, 1, 1, 1, 1, 1, 1], "0 9 14", "0 9 14", "(((0,1),(2,3)),4)");
    both(5, 31, &[1, 1, 1, 1, 1, 1, 1, 4, 4, 4], "0 9 11", "0 9 11", "(((0,1),2),(3,4))");
    both(5, 31, &[0; 10], "0 6 10", "0 6 10", "(0,1,2,3,4)");
    // the set that stops counts; what the plain build does not come to does not: 01|2 and 02|1, 34|5 and 35|4
    let mut beside = [0; 20];
    (beside[0], beside[19]) = (3, 3);
    both(6, 63, &beside, "10 7 21", "0 9 22", "((0,1,2),(3,4,5))");
    // {0,1,2} stops below {0,1,2,3}, which 23|4 joins: 35, 4 and 1; {4,5,6} comes later
    let mut deep = [0; 35];
    (deep[0], deep[9], deep[34]) = (3, 1, 3);
    both(7, 127, &deep, "10 7 40", "0 11 41", "(((0,1,2),3),(4,5,6))");
    // 01|2 alone, and 12|4: {0,1,2,3} becomes a tree before {4,5,6} stops: 35, 4 and 1
    (deep[0], deep[6]) = (1, 1);
    both(7, 127, &deep, "10 112 40", "0 11 40", "(((0,1),2,3),(4,5,6))");
    // of 9 species only those of the set count: 10 and 1; 10 and 4
    let mut part = vec![0; 84];
    part[choose(8, 3) + choose(6, 2) + 4] = 3;
    both(9, 0b1_0101_0101, &part, "10 336 11", "0 7 11", "(0,2,(4,6,8))");
    part.fill(0);
    for (a, b, c) in [(0, 2, 8), (2, 4, 8), (4, 6, 8)] {
        part[choose(c, 3) + choose(b, 2) + a] = 1;
    }
    both(9, 0b1_0101_0101, &part, "0 7 14", "0 7 14", "((0,2,4,6),8)");

    // 64 species, fully nested: C(65,4). With 01|2 and 02|1 the last set stops, and all is looked at
    let nested = ladder(63);
    let nested = nested.trim_end_matches(';');
    let mut table = vec![1; 41_664];
    both(64, u64::MAX, &table, "0 127 677040", "0 127 677040", nested);
    table[0] = 3;
    let joined = nested.replacen("((0,1),2)", "(0,1,2)", 1);
    both(64, u64::MAX, &table, "10 7 677040", "0 126 677040", &joined);
    // all that can be entered: the first set stops, C(64,3)
    table.fill(7);
    both(64, u64::MAX, &table, "10 18446744073709551615 41664", "0 65 41664", &star_of_64());
    // the star; and halves of halves: 41,664 and 2 times 4,960, 4 times 560, 8 times 56, 16 times 4
    for byte in [0, 8] {
        table.fill(byte);
        both(64, u64::MAX, &table, "0 65 41664", "0 65 41664", &star_of_64());
    }
    let balanced = halves(0, 64);
    let table = newick::read(format!("{balanced};").as_bytes()).expect("a tree").table(64);
    both(64, u64::MAX, &table, "0 127 54336", "0 127 54336", &balanced);
}

/// Trees that are loosened.
fn loosened(runs: &mut Runs) {
    let mut loosen = |n, table: &[u8], tree: &str, told: &str, body: &str, dropped: &str| {
        runs.loosened(n, table, tree, told, body, dropped);
    };
    // nothing that could be dropped
    loosen(1, &[], "0", "0 1 0", "255 0", "");
    loosen(3, &[7], "2", "0 1 0", "255 2", "");
    loosen(2, &[], "(1,0)", "0 3 0", "255 255 0 0 0 1", "");
    loosen(3, &[7], "(2,1,0)", "0 4 0", "255 255 0 0 0 1 0 2", "");
    // one group, entered or not; a fan makes no difference
    for (empty, entered) in [(0, 1), (8, 9)] {
        loosen(3, &[entered], "((0,1),2)", "0 5 0", "255 255 0 255 1 0 1 1 0 2", "");
        loosen(3, &[empty], "((0,1),2)", "0 4 1", "255 255 0 0 0 1 0 2", " 3");
        loosen(3, &[empty], "((2,1),0)", "0 4 1", "255 255 0 0 0 1 0 2", " 6");
    }
    loosen(3, &[2], "(1,(2,0))", "0 5 0", "255 255 0 255 1 0 1 2 0 1", "");
    // document 01's tree that passes; and the same where nothing but 01|2 is entered
    let star_of_4 = "255 255 0 0 0 1 0 2 0 3";
    for table in [[1, 0, 0, 1], [9, 8, 8, 9], [1, 1, 1, 1]] {
        loosen(4, &table, "(3,(2,(1,0)))", "0 7 0", "255 255 0 255 1 255 2 0 2 1 1 2 0 3", "");
    }
    for table in [[1, 0, 0, 0], [9, 8, 8, 8]] {
        loosen(4, &table, "(((0,1),2),3)", "0 5 2", star_of_4, " 7 3");
    }
    // 12|0 and 12|3
    loosen(4, &[4, 0, 0, 1], "((0,3),(1,2))", "0 6 1", "255 255 0 0 0 255 2 1 2 2 0 3", " 9");
    // 01|3 alone: 0 and 1 are not linked on 0, 1 and 2; and 01|2 as well
    loosen(4, &[0, 1, 0, 0], "((0,1),2,3)", "0 5 1", star_of_4, " 3");
    loosen(4, &[1, 1, 0, 0], "((0,1),2,3)", "0 6 0", "255 255 0 255 1 0 1 1 0 2 0 3", "");
    // 01|2 and 12|3 would join 0, 1 and 2, but the tree has these three as a fan: 01|2 is not in R
    loosen(4, &[1, 0, 0, 1], "((0,1,2),3)", "0 5 1", star_of_4, " 7");
    // papers that quarrel about a fan of the tree; 01|3 and 12|3 join it, 01|3 alone does not
    loosen(4, &[7, 1, 0, 1], "((0,1,2),3)", "0 6 0", "255 255 0 255 1 0 1 1 1 2 0 3", "");
    loosen(4, &[7, 1, 0, 0], "((0,1,2),3)", "0 5 1", star_of_4, " 7");
    // some of the species: 13|4 is entered, or 13|0 with 0 outside the tree
    loosen(5, &[7, 7, 7, 7, 7, 7, 7, 7, 1, 7], "(4,(3,1))", "0 5 0", "255 255 0 255 1 1 1 3 0 4", "");
    loosen(5, &[7, 4, 7, 7, 7, 7, 7, 7, 0, 7], "(4,(3,1))", "0 4 1", "255 255 0 1 0 3 0 4", " 10");

    // 01|2, 01|4, 23|0 and 23|4: for {0,1} and {2,3} one third species of the other is enough
    let star_of_5 = "255 255 0 0 0 1 0 2 0 3 0 4";
    let kept = "255 255 0 255 1 0 1 1 0 255 4 2 4 3 0 4";
    loosen(5, &[1, 0, 4, 0, 1, 0, 0, 0, 0, 1], "((0,1),(2,3),4)", "0 8 0", kept, "");
    // without 23|4: {2,3} goes, and then 3 stands alone beside {0,1}, which was earned before
    loosen(5, &[1, 0, 4, 0, 1, 0, 0, 0, 0, 0], "((0,1),(2,3),4)", "0 6 2", star_of_5, " 12 3");
    // ((0,1),2), ((2,3),4) and ((1,2),4): {0,1,2,3} is earned, {0,1,2} goes, and {0,1}; now the tree has 0, 1 and 2 as a
    // fan, 01|2 is not in R any more, and {0,1,2,3} goes too
    let chain = [1, 0, 0, 0, 0, 0, 1, 0, 0, 1];
    loosen(5, &chain, "((((0,1),2),3),4)", "0 6 3", star_of_5, " 7 3 15");
    // house order, whatever order is handed in: children by their lowest species, and a node before those below it
    let star_of_6 = "255 255 0 0 0 1 0 2 0 3 0 4 0 5";
    loosen(6, &[0; 20], "((5,3),(2,1),(4,0))", "0 7 3", star_of_6, " 17 6 40");
    loosen(6, &[0; 20], "((4,(2,1)),((5,0),3))", "0 7 4", star_of_6, " 41 33 22 6");
    // 03|1 and 35|1: {0,3,5} is earned, and {0,5} below it goes before {1,2,4}; then 2 stands alone
    let mut below = [0; 20];
    (below[1], below[14]) = (2, 4);
    loosen(6, &below, "((1,2,4),((0,5),3))", "0 7 3", star_of_6, " 33 22 41");
    // the papers after source document 000's example 4: the built tree
    let papers = [1, 1, 0, 0, 1, 0, 0, 4, 4, 0, 1, 0, 0, 4, 4, 0, 4, 4, 0, 4];
    let left = "255 255 0 255 1 0 1 1 0 2 0 3 0 4 0 5";
    loosen(6, &papers, "((0,1),2,(3,(4,5)))", "0 8 2", left, " 56 48");
    loosen(6, &papers, "((0,1),2,3,4,5)", "0 8 0", left, "");

    // 64 species, fully nested, with 12|3, 23|4 and so on: 0 is linked with none, and all 62 groups go; with 01|2 they stay
    let nested = ladder(63);
    let nested = nested.trim_end_matches(';');
    let mut links = vec![0; 41_664];
    for c in 3..64 {
        links[choose(c, 3) + choose(c - 1, 2) + c - 2] = 1;
    }
    let star: String = (0..64).map(|i| format!(" 0 {i}")).collect();
    let star = format!("255 255{star}");
    let dropped: String = (2..64).rev().map(|k| format!(" {}", (1u64 << k) - 1)).collect();
    loosen(64, &links, nested, "0 65 62", &star, &dropped);
    loosen(64, &[0; 41_664], nested, "0 65 62", &star, &dropped);
    links[0] = 1;
    let inner: String = (0..62).map(|k| format!(" {k} 255")).collect();
    let leaves: String = (1..64).map(|i| format!(" {} {i}", 63 - i)).collect();
    let stays = format!("255 255{inner} 62 0{leaves}");
    loosen(64, &links, nested, "0 127 0", &stays, "");
    loosen(64, &[1; 41_664], nested, "0 127 0", &stays, "");

    // the trees that are left, and those that were handed in
    for (n, table, tree, line) in [
        (6, &papers[..], "((0,1),2,(3,(4,5)))", "12 9"),
        (6, &papers, "((0,1),2,3,4,5)", "0"),
        (5, &chain, "((((0,1),2),3),4)", "12 1"),
        (5, &chain, "((0,1,2,3),4)", "12 4"),
        (5, &chain, "(0,1,2,3,4)", "0"),
        (4, &[4, 0, 0, 1], "((0,3),(1,2))", "12 1"),
        (4, &[4, 0, 0, 1], "(0,(1,2),3)", "0"),
        (64, &links, nested, "0"),
    ] {
        runs.check(&format!("n={n}, {}, checked", short(tree)), n, table, &body(tree), line);
    }
}

/// Loosening that is refused, and rooms and lists that are just enough.
fn loosening_refused(runs: &mut Runs) {
    let mut refused = |n, table: &[u8], body: &[u8], lent, refusal: &str| {
        runs.loosen_refused(n, table, body, lent, refusal);
    };
    // the room is as long as the candidate's body, and the list has 62 places, whatever is dropped
    for byte in [0, 1] {
        refused(3, &[byte], &CHERRY, (9, 62), "9");
        refused(3, &[byte], &CHERRY, (10, 61), "9");
        refused(3, &[byte], &CHERRY, (0, 0), "9");
        refused(3, &[byte], &CHERRY, (8, 63), "9");
    }
    refused(3, &[7], &FAN, (7, 62), "9");
    refused(3, &[7], &[255, 2], (2, 61), "9");
    refused(3, &[7], &[255, 2], (1, 62), "9");
    refused(1, &[], &[255, 0], (2, 0), "9");
    // 2, 7, 8, 5, 6, 11, 9, in this order
    for lent in [(10, 62), (0, 0), (10, 61)] {
        for n in [0, 65, 256 + 3] {
            refused(n, &[16], &[], lent, "2");
            refused(n, &[0], &CHERRY, lent, "2");
        }
        refused(3, &[], &[], lent, "7");
        refused(3, &[16, 0], &CHERRY, lent, "7");
        refused(4, &[0, 17, 16, 0], &[], lent, "8 1");
        refused(3, &[16], &CHERRY, lent, "8 0");
        refused(3, &[2], &[], lent, "5 0");
        refused(3, &[2], &CHERRY[..9], lent, "5 0");
        refused(3, &[2], &[255; 256], lent, "5 0");
        refused(3, &[2], &[0, 0], lent, "6 0 0 parent 0");
        refused(3, &[2], &[255, 3], lent, "6 0 0 species 3");
        refused(3, &[2], &[255, 255, 0, 1, 0, 1], lent, "6 0 2 seen 1");
        refused(3, &[2], &[255, 255, 0, 0], lent, "6 0 0 only");
        refused(3, &[2], &CHERRY, lent, "11 0 2");
        refused(3, &[15], &CHERRY, lent, "11 0 15");
        refused(4, &[1, 0, 10, 2], &NESTED, lent, "11 2 10");
    }
    // one more of each than is needed
    let call = |room, list| Call::Loosen { n: 3, table: vec![0], body: CHERRY.to_vec(), room, list };
    let (room, list) = ((1..12).collect::<Vec<u8>>(), (0..63).collect::<Vec<u64>>());
    let behind: String = (1..63).map(|k| format!(" {k}")).collect();
    let line = format!("0 4 1 | 255 255 0 0 0 1 0 2 9 10 11 | 3{behind}");
    runs.call("loosen ((0,1),2), what stands behind", call(room, list), &line);
}

/// Checks that tell the papers' PC and PI from others, with the papers' words; their letters are in order from 0.
fn own_words(runs: &mut Runs) {
    let mut check = |n: usize, table: &[u8], tree: &str, line: &str| {
        let name = format!("own words, n={n}, table {}, {tree}", table_name(table));
        runs.check(&name, n, table, &body(tree), line);
    };
    // 000: "any tree displaying {AB|C,BC|D} also has to display the triplet AC|D"
    let chain = [1, 0, 0, 1];
    check(4, &chain, "(((0,1),2),3)", "0");
    // R has only what is entered on triples that the tree resolves: nothing for the first two, then BC|D, then AB|C
    check(4, &chain, "((0,2),3)", "12 2");
    check(4, &chain, "((0,1),3)", "12 1");
    check(4, &chain, "((0,1,2),3)", "12 1");
    check(4, &chain, "((0,1),2,3)", "12 1");
    check(4, &chain, "((0,1),(2,3))", "11 3 1");
    check(4, &chain, "(((0,1),3),2)", "11 3 1");

    // 004, Definition 4: R induces t when some R' in R "est compatible et R' ⊢ t". No tree holds 01|2 and 02|1; each of the
    // two alone induces itself
    check(4, &[3, 0, 0, 0], "(((0,1),2),3)", "11 0 3");
    check(4, &[3, 0, 0, 0], "((0,1),2)", "11 0 3");
    // 000: "PI_eq holds as soon as R(T,T) is incompatible". It holds in all of these, and the papers' PI in the last one only
    check(3, &[3], "(0,(1,2))", "11 0 3");
    check(3, &[6], "((0,1),2)", "11 0 6");
    check(3, &[5], "((0,2),1)", "11 0 5");
    check(3, &[7], "((0,2),1)", "11 0 7");
    // no tree holds these either, and no triple is entered twice. PI_eq holds; no part of 01|2, 03|1 and 02|3 induces 12|0
    check(4, &[1, 2, 1, 0], "(0,(1,2,3))", "11 0 1");
    // 12|0 and 13|0 induce 23|0, and the papers' PI holds; 02|3 induces itself
    check(4, &[4, 4, 1, 0], "(0,(1,2,3))", "11 2 1");
    // 01|2 and 12|3 induce every triplet of the first tree; 03|1 induces itself
    check(4, &[1, 2, 0, 1], "(((0,1),2),3)", "11 1 2");
    check(4, &[1, 2, 0, 1], "(((0,3),1),2)", "11 3 1");
    check(4, &[1, 2, 0, 1], "((0,(1,2)),3)", "11 0 1");
    // a tree without a triplet: R is empty
    check(4, &[7, 7, 7, 7], "(0,1,2,3)", "0");
    // 02|3 and 23|1 induce 02|1 and 03|1, against the tree on the triples 0 and 1; what is named is 23|1 itself, at 3
    check(4, &[0, 0, 1, 4], "(((0,1),2),3)", "11 3 4");

    // 004, Fig. 1: "T vérifie PI et PC, mais pas PC' ({ae|b, ac|e} ⊢ ac|b)". PC' is of all that is entered, and PC of R
    check(4, &[1, 2, 1, 0], "((0,1),2)", "0");
    check(4, &[0, 2, 1, 0], "((0,1),2)", "12 0");
    check(4, &[0, 2, 1, 0], "((0,2),1)", "12 0");
    check(4, &[0, 2, 1, 0], "(((0,2),3),1)", "0");
    check(4, &[1, 2, 1, 0], "(((0,2),3),1)", "11 0 1");
    // the sources of that figure: every triple with e is resolved in two ways
    let rogue = [1, 3, 3, 3];
    check(4, &rogue, "((0,2),1)", "11 0 1");
    check(4, &rogue, "(((0,1),2),3)", "11 1 3");
    check(4, &rogue, "(((0,3),1),2)", "11 1 3");

    // 000, Example 2: "{AB|X, BC|A} ⊢ {BC|X, AC|X}", and "here R(T,T) only contains the triplet AB|X and thus it does not
    // induce the triplet AC|X present in T"
    check(4, &[4, 1, 0, 0], "((0,(1,2)),3)", "0");
    check(4, &[4, 1, 0, 0], "((0,1,2),3)", "12 2");
    check(4, &[5, 1, 0, 0], "((0,1,2),3)", "12 2");
    check(4, &[5, 1, 0, 0], "((0,1),3)", "0");
    check(4, &[5, 1, 0, 0], "((0,2),3)", "12 2");
    check(4, &[5, 1, 0, 0], "((0,(1,2)),3)", "11 0 5");

    // 000: "AB|E and CD|E ... numerous supertrees are possible, e.g., ((A,C),(B,D),E)", as printed; with one group more it
    // holds both
    let apart = [0, 0, 0, 0, 1, 0, 0, 0, 0, 1];
    check(5, &apart, "((0,2),(1,3),4)", "12 0");
    check(5, &apart, "(((0,2),(1,3)),4)", "12 0");
    check(5, &apart, "((0,1,2,3),4)", "12 5");
    check(5, &apart, "((0,1),4)", "0");
    check(5, &apart, "((2,3),4)", "0");

    // 000, Example 3: "Triplets AB|C and EF|D are displayed by both trees". "Since rt(T) contains AB|D and AD|B, any tree T
    // displaying a triplet for the three leaves does not satisfy PC"; "for similar reasons" none on A, C and D
    let papers7 = [1, 3, 6, 6, 3, 6, 6, 3, 3, 3, 5, 6, 6, 3, 3, 3, 5, 6, 6, 4];
    check(6, &papers7, "(3,(4,5))", "0");
    for tree in ["((0,1),3)", "((0,3),1)", "(0,(1,3))"] {
        check(6, &papers7, tree, "11 1 3");
    }
    for tree in ["((0,2),3)", "((0,3),2)", "(0,(2,3))"] {
        check(6, &papers7, tree, "11 2 6");
    }

    // 000, Example 4: "the supertree ((A,B),(X,Y),W,Z)", as printed, contradicts YZ|X of its second source
    let papers8 = [1, 1, 0, 0, 1, 0, 0, 4, 4, 0, 1, 0, 0, 4, 4, 0, 4, 4, 0, 4];
    check(6, &papers8, "((0,1),(3,4),2,5)", "11 19 4");
}

/// Newick texts that are read: the body in the text's order.
fn texts_read(runs: &mut Runs) {
    runs.parse(4, b"((0,1),2);", 5, "255 255 0 255 1 0 1 1 0 2", 2);
    runs.parse(4, b"(2,(1,0));", 5, "255 255 0 2 0 255 2 1 2 0", 0);
    runs.parse(4, b"(3,0,(2,1));", 6, "255 255 0 3 0 0 0 255 3 2 3 1", 1);
    runs.parse(6, b"5;", 1, "255 5", 3);
    runs.parse(6, b"5:1;", 1, "255 5", 0);
    runs.parse(64, b"63;", 1, "255 63", 0);
    runs.parse(1, b"0;", 1, "255 0", 0);
    // lengths are thrown away, and only a species number may not begin with a 0
    for text in ["0: 1;", "0:003;", "0:0;", "0:00.00;", "0:1.5;", "0 :1;", "0:1 ;", "0:999;", "0:18446744073709551616;"]
    {
        runs.parse(1, text.as_bytes(), 1, "255 0", 1);
    }
    runs.parse(3, b"((0:1,1:2.25):0.5,2:7):0;", 5, "255 255 0 255 1 0 1 1 0 2", 0);
    // blanks before the first byte, about every sign, and behind the semicolon
    runs.parse(3, b"\r\n ( ( 0 , 1 ) : 3.5 , 2 )\n:\r1 ; \n\r", 5, "255 255 0 255 1 0 1 1 0 2", 0);
}

/// Newick texts that are refused.
fn texts_refused(runs: &mut Runs) {
    for (text, place) in [
        ("(0,1", 4),
        ("", 0),
        (" ", 1),
        (";", 0),
        ("0", 1),
        ("x;", 0),
        // a number has no leading zeros, and no blanks inside
        ("00;", 1),
        ("01;", 1),
        ("0 1;", 2),
        ("1 2;", 2),
        // a colon asks for digits, and a point too
        ("(0:,1);", 3),
        ("0:;", 2),
        ("0:.5;", 2),
        ("0:1.;", 4),
        ("0:1 .5;", 4),
        ("0:1. 5;", 4),
        ("0:1 5;", 4),
        ("0:1.5.5;", 5),
        ("0:1:2;", 3),
        ("0:1 :2;", 4),
        ("0:-1;", 2),
        ("0:1e5;", 3),
        (":1;", 0),
        // empty brackets and empty places
        ("()", 1),
        ("();", 1),
        ("(0,,1);", 3),
        ("(,0);", 1),
        ("(0,);", 3),
        ("(0 1);", 3),
        ("(0(1));", 2),
        // inner labels and quotes
        ("(0,1)2;", 5),
        ("(0,1)a;", 5),
        ("('0',1);", 1),
        // brackets and semicolons that do not fit
        ("(0,1));", 5),
        ("(0,1;", 4),
        ("0,1;", 1),
        ("0);", 1),
        ("(0,1);x", 6),
        ("(0,1);;", 6),
        // a tab is no blank, nor is NUL
        ("\t0;", 0),
        ("0\t;", 1),
        ("0;\t", 2),
        ("0;\0", 2),
        // the digit that takes a number past 254
        ("255;", 2),
        ("300;", 2),
        ("2540;", 3),
        ("(0,999);", 5),
        ("25 5;", 3),
    ] {
        runs.parse_refused(4, text.as_bytes(), &format!("14 {place}"));
    }
    // the limits: the bracket one too deep, the first sign of the 128th node, the bytes
    runs.parse_refused(64, "(".repeat(64).as_bytes(), "14 63");
    runs.parse_refused(64, format!("{}0{};", "(".repeat(63), ")".repeat(63)).as_bytes(), "6 0 0 only");
    runs.parse_refused(64, format!("({}0);", "0,".repeat(126)).as_bytes(), "14 253");
    runs.parse_refused(64, format!("({}0);", "0,".repeat(125)).as_bytes(), "6 0 2 seen 1");
    runs.parse_refused(64, format!("x{}", " ".repeat(4_096)).as_bytes(), "14 4096");
    runs.parse_refused(64, format!("x{}", " ".repeat(4_095)).as_bytes(), "14 0");
    runs.parse_refused(64, " ".repeat(4_096).as_bytes(), "14 4096");

    // 2 comes before 14, then comes 6 in the body's order, then 9
    for n in [0, 65, 1 << 32, u64::MAX] {
        runs.parse_refused(n, b"(0,1);", "2");
        runs.parse_refused(n, b"x", "2");
    }
    for (n, text, refusal) in [
        (6, "(5);", "6 0 0 only"),
        (4, "(5);", "6 0 0 only"),
        (4, "4;", "6 0 0 species 4"),
        (4, "254;", "6 0 0 species 254"),
        (4, "(0,1,200);", "6 0 3 species 200"),
        (4, "(0,1,0);", "6 0 3 seen 1"),
        (4, "(4,(1));", "6 0 1 species 4"),
        (4, "((1),4);", "6 0 1 only"),
        (4, "(1,(1));", "6 0 2 only"),
    ] {
        runs.parse_refused(n, text.as_bytes(), refusal);
    }
    let short_room = |text: &[u8], room| Call::Parse { n: 4, text: text.to_vec(), room: vec![9; room] };
    runs.call("text \"(0,1);\", room of 5 bytes", short_room(b"(0,1);", 5), "9 | 9 9 9 9 9");
    runs.call("text \"0;\", no room", short_room(b"0;", 0), "9 |");
    runs.call("text \"(0);\", no room", short_room(b"(0);", 0), "6 0 0 only |");
    runs.call("text \"(0)\", no room", short_room(b"(0)", 0), "14 3 |");
}

/// Bodies that are written as Newick text, and such that are not.
fn texts_written(runs: &mut Runs) {
    // the example of the calls, byte by byte
    let call = Call::Render { n: 4, body: CHERRY.to_vec(), room: vec![9; 12] };
    runs.call("((0,1),2) written, room of 12 bytes", call, "0 10 | 40 40 48 44 49 41 44 50 41 59 9 9");

    runs.render(1, &[255, 0], "0;", 1);
    runs.render(64, &[255, 63], "63;", 0);
    runs.render(10, &[255, 9], "9;", 0);
    runs.render(11, &[255, 10], "10;", 4);
    runs.render(2, &[255, 255, 0, 0, 0, 1], "(0,1);", 0);
    // children by their lowest species, wherever their nodes stand
    runs.render(2, &[255, 255, 0, 1, 0, 0], "(0,1);", 2);
    runs.render(64, &[255, 255, 0, 10, 0, 9], "(9,10);", 0);
    for [x, y, z] in [[0, 1, 2], [0, 2, 1], [1, 0, 2], [1, 2, 0], [2, 0, 1], [2, 1, 0]] {
        runs.render(3, &[255, 255, 0, x, 0, y, 0, z], "(0,1,2);", 0);
    }
    runs.render(3, &[255, 255, 0, 2, 0, 255, 2, 1, 2, 0], "((0,1),2);", 0);
    runs.render(4, &NESTED, "(((0,1),2),3);", 0);
    runs.render(4, &[255, 255, 0, 255, 0, 3, 1, 2, 1, 255, 4, 1, 4, 0], "(((0,1),2),3);", 1);
    runs.render(4, &[255, 255, 0, 255, 0, 255, 1, 3, 2, 1, 1, 2, 2, 0], "((0,1),(2,3));", 0);
    runs.render(4, &[255, 255, 0, 255, 0, 255, 2, 0, 1, 2, 2, 3, 1, 1], "((0,3),(1,2));", 0);
    runs.render(4, &[255, 255, 0, 1, 0, 255, 2, 3, 2, 255, 4, 2, 4, 0], "(((0,2),3),1);", 0);
    runs.render(64, &[255, 255, 0, 63, 0, 255, 2, 62, 2, 5], "((5,62),63);", 0);
    let six = [255, 255, 0, 255, 1, 255, 2, 5, 2, 4, 1, 3, 0, 2, 0, 255, 7, 1, 7, 0];
    runs.render(6, &six, "((0,1),2,(3,(4,5)));", 3);
    // the longest text, from its own order and from (63,(62,..(1,0)..))
    let longest = ladder(63);
    let opened: String = (1..64).rev().map(|species| format!("({species},")).collect();
    let turned = format!("{opened}0{};", ")".repeat(63));
    let [house, turned] = [&longest, &turned].map(|text| newick::read(text.as_bytes()).expect("a tree").preorder());
    for body in [&house, &turned] {
        for behind in [0, 1] {
            runs.render(64, body, &longest, behind);
        }
        runs.render_refused(64, body, 307, "9");
    }

    // 2, 5, 6, 9, in this order
    for n in [0, 65, 1 << 32, u64::MAX] {
        for body in [&[][..], &[255], &[255, 255, 0, 0], &CHERRY] {
            runs.render_refused(n, body, 12, "2");
        }
    }
    let long = [&house[..], &[0, 0]].concat();
    for body in [&[][..], &[255], &CHERRY[..9], &long[..253], &long[..255], &long] {
        runs.render_refused(4, body, 0, "5 0");
    }
    for (body, refusal) in [
        (&[0, 0][..], "6 0 0 parent 0"),
        (&[255, 4], "6 0 0 species 4"),
        (&[255, 255], "6 0 0 species 255"),
        (&[255, 255, 0, 0], "6 0 0 only"),
        (&[255, 255, 0, 3, 0, 3], "6 0 2 seen 1"),
        (&[255, 255, 0, 9, 5, 0], "6 0 2 parent 5"),
    ] {
        runs.render_refused(4, body, 0, refusal);
        runs.render_refused(4, body, 9, refusal);
    }
    for room in [0, 1, 9] {
        runs.render_refused(4, &CHERRY, room, "9");
    }
    runs.render_refused(64, &[255, 63], 2, "9");
    runs.render_refused(64, &[255, 9], 1, "9");
}

/// The examples for pull, and papers of few species.
fn pulled(runs: &mut Runs) {
    runs.pull(
        "papers-agree",
        include_str!("../../examples/papers-agree"),
        &[
            "paper 1: (((0,1),2),(3,4));",
            "paper 2: ((0,2),(3,4),5);",
            "built: (((0,1),2),(3,4),5);",
            "every group is the papers' own",
            "may be sent: (((0,1),2),(3,4),5);",
            "pull together: 0 1 2",
            "pull together: 0 1",
            "pull together: 3 4",
        ],
    );
    runs.pull(
        "papers-gap",
        include_str!("../../examples/papers-gap"),
        &[
            "paper 1: ((0,1),2);",
            "paper 2: ((0,1),(3,(4,5)));",
            "built: ((0,1),2,(3,(4,5)));",
            "not forced by the papers: 3 and 4 closer to each other than to 2",
            "may be sent: ((0,1),2,3,4,5);",
            "dropped: 3 4 5",
            "dropped: 4 5",
            "pull together: 0 1",
        ],
    );
    runs.pull(
        "papers-quarrel",
        include_str!("../../examples/papers-quarrel"),
        &[
            "paper 1: (((0,1),2),3);",
            "paper 2: (((0,2),1),3);",
            "paper 3: ((1,3),4);",
            "the papers quarrel over 0 1 2",
            "paper 1 says of these: ((0,1),2);",
            "paper 2 says of these: ((0,2),1);",
            "paper 3 says nothing of these",
            "built, leaving that open: (((0,1,2),3),4);",
            "every group is the papers' own",
            "may be sent: (((0,1,2),3),4);",
            "pull together: 0 1 2 3",
            "pull together: 0 1 2",
        ],
    );
    runs.pull(
        "papers-author",
        include_str!("../../examples/papers-author"),
        &[
            "paper 1: ((0,1),(2,(3,4)),5);",
            "paper 2: ((0,1),((3,4),6),5);",
            "built: ((0,1),(2,(3,4),6),5);",
            "every group is the papers' own",
            "may be sent: ((0,1),(2,(3,4),6),5);",
            "pull together: 0 1",
            "pull together: 2 3 4 6",
            "pull together: 3 4",
        ],
    );
    runs.pull(
        "papers-broken",
        include_str!("../../examples/papers-broken"),
        &["refused: paper 2, line 3, column 8: found 'M', expected a digit or an opening bracket"],
    );
    runs.pull(
        "two papers of one species each",
        "5;3;",
        &[
            "paper 1: 5;",
            "paper 2: 3;",
            "built: (3,5);",
            "every group is the papers' own",
            "may be sent: (3,5);",
            "pull nothing together: the tree has no group",
        ],
    );
    runs.pull(
        "a quarrel and a gap",
        "((0,1),2);((0,2),1);((3,4),5);",
        &[
            "paper 1: ((0,1),2);",
            "paper 2: ((0,2),1);",
            "paper 3: ((3,4),5);",
            "the papers quarrel over 0 1 2",
            "paper 1 says of these: ((0,1),2);",
            "paper 2 says of these: ((0,2),1);",
            "paper 3 says nothing of these",
            "built, leaving that open: ((0,1,2),(3,4),5);",
            "not forced by the papers: 0 and 1 closer to each other than to 3",
            "may be sent: (0,1,2,3,4,5);",
            "dropped: 0 1 2",
            "dropped: 3 4",
            "pull nothing together: the tree has no group",
        ],
    );
    runs.pull(
        "two quarrels, of which one is named",
        "(((0,1),2,9),((5,6),7));(((0,2),1),((5,7),6));(1,2);",
        &[
            "paper 1: (((0,1),2,9),((5,6),7));",
            "paper 2: (((0,2),1),((5,7),6));",
            "paper 3: (1,2);",
            "the papers quarrel over 0 1 2",
            "paper 1 says of these: ((0,1),2);",
            "paper 2 says of these: ((0,2),1);",
            "paper 3 says nothing of these",
            "built, leaving that open: (((0,1,2),9),(5,6,7));",
            "not forced by the papers: 0 and 2 closer to each other than to 9",
            "may be sent: ((0,1,2,9),(5,6,7));",
            "dropped: 0 1 2",
            "pull together: 0 1 2 9",
            "pull together: 5 6 7",
        ],
    );
}

/// Inputs that pull refuses: each form of its line.
fn pull_refused(runs: &mut Runs) {
    let blanks = " ".repeat(65_536);
    for input in ["", " ", "\r\n", &blanks] {
        runs.pull_refused(input, "no paper");
    }
    runs.pull_refused(&format!("{blanks} "), "more than 65536 bytes");
    for behind in ["0;", "x", ";", "0"] {
        runs.pull_refused(&format!("{}{behind}", "0;".repeat(16)), "more than 16 papers");
    }
    let sixteenth = format!("{}x;0;", "0;".repeat(15));
    runs.pull_refused(&sixteenth, "paper 16, line 1, column 31: found 'x', expected a digit or an opening bracket");

    runs.mistake(";", 1, "found ';', expected a digit or an opening bracket");
    runs.mistake("()", 2, "found ')', expected a digit or an opening bracket");
    runs.mistake("((0,1),2;", 9, "found ';', expected a digit or a closing bracket or a comma or a colon");
    runs.mistake("(0x", 3, "found 'x', expected a closing bracket or a comma or a colon");
    runs.mistake("(0:1x", 5, "found 'x', expected a digit or a closing bracket or a comma or a point");
    runs.mistake("(0:1.5x", 7, "found 'x', expected a digit or a closing bracket or a comma");
    runs.mistake("(0:1 x", 6, "found 'x', expected a closing bracket or a comma");
    runs.mistake("0x", 2, "found 'x', expected a colon or a semicolon");
    runs.mistake("0,1;", 2, "found ',', expected a colon or a semicolon");
    runs.mistake("1'", 2, "found ''', expected a digit or a colon or a semicolon");
    runs.mistake("0:x", 3, "found 'x', expected a digit");
    runs.mistake("0:1x", 4, "found 'x', expected a digit or a point or a semicolon");
    runs.mistake("0:1.x", 5, "found 'x', expected a digit");
    runs.mistake("0:1.5x", 6, "found 'x', expected a digit or a semicolon");
    runs.mistake("0:1 .5;", 5, "found '.', expected a semicolon");
    runs.mistake("0:1. 5;", 5, "found a blank, expected a digit");
    runs.mistake("0:1.\n5;", 5, "found a blank, expected a digit");
    runs.mistake("(0,1)", 6, "found the end, expected a colon or a semicolon");
    runs.mistake("(0\t,1);", 3, "found byte 9, expected a closing bracket or a comma or a colon");
    runs.mistake("(0\u{7f}", 3, "found byte 127, expected a closing bracket or a comma or a colon");
    runs.mistake("(0~", 3, "found '~', expected a closing bracket or a comma or a colon");
    runs.mistake("(0!", 3, "found '!', expected a closing bracket or a comma or a colon");
    // byte 13 ends no line
    runs.mistake("0\r1;", 3, "found '1', expected a colon or a semicolon");
    runs.pull_refused("0;\n0 1;", "paper 2, line 2, column 3: found '1', expected a colon or a semicolon");
    runs.pull_refused("0;00;", "paper 2, line 1, column 4: found '0', expected a colon or a semicolon");
    runs.pull_refused("\n\n (0,\n", "paper 1, line 4, column 1: found the end, expected a digit or an opening bracket");

    // the limits
    runs.mistake(&"(".repeat(64), 64, "found '(', expected a digit");
    runs.mistake(&format!("({}0);", "0,".repeat(126)), 254, "found '0', expected nothing more");
    runs.mistake("255;", 3, "found '5', expected a digit or a colon or a semicolon");
    runs.mistake("260;", 3, "found '0', expected a colon or a semicolon");
    for (text, blanks) in [("(0,1);", 4_091), ("(0,1)", 4_091), ("(0,1", 4_093), ("x", 4_096)] {
        runs.mistake(&format!("{}{text}", " ".repeat(blanks)), 4_097, "a text has at most 4096 bytes");
    }

    // the rules of trees
    runs.mistake("(0,64);", 4, "species 64, and the highest is 63");
    runs.mistake("( 1 , 1 );", 7, "this species stands twice");
    runs.mistake("(0:1, (1:2):3);", 7, "this bracket has one child");
    runs.mistake("((7),7,99);", 2, "this bracket has one child");
    runs.mistake("(7,99,(7));", 4, "species 99, and the highest is 63");
    runs.pull_refused("0;(0,\n254);", "paper 2, line 2, column 1: species 254, and the highest is 63");
}

fn all_runs() -> Runs {
    let mut runs = Runs { calls: Vec::new(), shelf: Vec::new(), pull: Vec::new() };
    document_01(&mut runs);
    papers(&mut runs);
    sets_returned(&mut runs);
    sets_built(&mut runs);
    sets_on_the_shelf(&mut runs);
    fans_listed(&mut runs);
    fans_used(&mut runs);
    vetoes(&mut runs);
    looked_at(&mut runs);
    loosened(&mut runs);
    loosening_refused(&mut runs);
    own_words(&mut runs);
    texts_read(&mut runs);
    texts_refused(&mut runs);
    texts_written(&mut runs);
    pulled(&mut runs);
    pull_refused(&mut runs);
    runs
}

/// The first of a long line, for a reader.
fn short(line: &str) -> String {
    if line.len() <= 70 {
        return line.to_string();
    }
    format!("{} ... ({} bytes)", &line[..60], line.len())
}

/// This program alone against the outcomes: how many it misses.
pub fn alone() -> usize {
    let runs = all_runs();
    let mut missed = 0;
    let mut tell = |name: &str, expected: &str, says: &str| {
        let good = says == expected;
        missed += usize::from(!good);
        let verdict = if good { "ok" } else { "WRONG" };
        println!("{name}: {}: {verdict}", short(says.trim_end()).replace('\n', " / "));
    };
    for (name, call, line) in &runs.calls {
        tell(name, line, &call.answer().line);
    }
    for (program, runs) in [(Program::Shelf, &runs.shelf), (Program::Pull, &runs.pull)] {
        for (name, input, output) in runs {
            tell(&format!("{}, {name}", program.name()), output, &shown(&says(program, input)));
        }
    }
    missed
}

pub fn compare(comparison: &mut Comparison) {
    let runs = all_runs();
    let input: Vec<u8> = runs.calls.iter().flat_map(|(_, call, _)| call.bytes()).collect();
    let run = comparison.programs.run(Program::Trial, input, Feed::Whole);
    let wrote = split(&run.wrote);
    for (k, (name, call, line)) in runs.calls.iter().enumerate() {
        let expected = format!("{line}\n").into_bytes();
        let own = format!("{}\n", call.answer().line).into_bytes();
        let given = wrote.get(k).copied().unwrap_or_default();
        tell(comparison, Program::Trial, name, &call.bytes(), &expected, &own, given);
    }
    if wrote.len() > runs.calls.len() || run.trouble.is_some() {
        let input: Vec<u8> = runs.calls.iter().flat_map(|(_, call, _)| call.bytes()).collect();
        comparison.differs(Program::Trial, "the named runs", &input, &run, b"");
    }
    for (program, runs) in [(Program::Shelf, &runs.shelf), (Program::Pull, &runs.pull)] {
        let inputs: Vec<(Vec<u8>, Feed)> = runs.iter().map(|(_, input, _)| (input.clone(), Feed::Whole)).collect();
        let given = comparison.programs.run_each(program, &inputs);
        for ((name, input, output), run) in runs.iter().zip(&given) {
            let (expected, own) = (output.as_bytes(), says(program, input));
            tell(comparison, program, name, input, expected, &own, &run.wrote);
            if run.trouble.is_some() {
                comparison.differs(program, name, input, run, expected);
            }
        }
    }
}

fn tell(
    comparison: &mut Comparison,
    program: Program,
    name: &str,
    input: &[u8],
    expected: &[u8],
    own: &[u8],
    given: &[u8],
) {
    comparison.compared += 1;
    let good = given == expected && own == expected;
    let seen = short(shown(given).trim_end()).replace('\n', " / ");
    let verdict = if good { "ok" } else { "WRONG" };
    println!("second: {}: {name}: {seen}: {verdict}", program.name());
    if own != expected {
        println!("second: the second program says {}", short(shown(own).trim_end()));
    }
    if !good {
        let run = Run { wrote: given.to_vec(), trouble: None };
        comparison.differs(program, name, input, &run, expected);
    }
}
