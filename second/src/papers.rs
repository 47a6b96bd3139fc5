//! Inputs for pull, each a run of its own, and which forms of its output and of its input they reach.

use std::collections::BTreeMap;

use crate::inputs::Inputs;
use crate::limits::{halves, ladder};
use crate::newick::{self, LONGEST_TEXT, MOST_BRACKETS, MOST_NODES};
use crate::programs::Feed;
use crate::pull::{blank, node_places, papers, pull, texts, Refused, MOST_BYTES, MOST_PAPERS};
use crate::random::Random;
use crate::texts::{damage, large, stretch, wild, written};
use crate::trees::Tree;

/// The folder of the examples, and how the names of those for pull begin.
const EXAMPLES: &str = "examples";
const FOR_PULL: &str = "papers-";

type Case = (String, Vec<u8>, Feed, Vec<u8>);

/// A form: of what, and which.
pub type Form = (&'static str, &'static str);

/// Every form that random inputs have to reach.
pub const FORMS: [(&str, &[&str]); 14] = [
    ("refused", &["bytes", "papers", "no paper", "4096 bytes", "found", "species", "twice", "one child"]),
    ("found", &["the end", "a blank", "a sign", "a byte"]),
    (
        "expected",
        &[
            "nothing more",
            "a digit",
            "a digit or an opening bracket",
            "a digit or a closing bracket or a comma",
            "a digit or a closing bracket or a comma or a colon",
            "a digit or a closing bracket or a comma or a point",
            "a digit or a colon or a semicolon",
            "a digit or a point or a semicolon",
            "a digit or a semicolon",
            "a closing bracket or a comma",
            "a closing bracket or a comma or a colon",
            "a colon or a semicolon",
            "a semicolon",
        ],
    ),
    ("limit passed", &["63 brackets", "127 nodes", "species 254", "4096 bytes, closed", "4096 bytes, not closed"]),
    ("place", &["paper 1", "later paper", "line 1", "later line", "column 1", "later column"]),
    ("refused input", &["65536 bytes", "65537 bytes", "more bytes", "no semicolon at the end"]),
    ("papers", &["1", "2", "3", "4", "5", "6", "7", "8", "9", "10", "11", "12", "13", "14", "15", "16"]),
    ("good input", &["65536 bytes", "space", "byte 10", "byte 13", "length", "blanks at the end", "none at the end"]),
    ("species", &["1", "2", "3 to 8", "9 to 16", "17 to 48", "49 to 64", "some number occurs nowhere"]),
    ("built", &["forced", "not forced", "left open and forced", "left open and not forced"]),
    ("quarrel", &["over all", "over some", "says", "says nothing"]),
    ("not forced", &["ab|c", "ac|b", "bc|a"]),
    ("dropped", &["0", "1", "2", "3 or more"]),
    ("pull together", &["0", "1", "2", "3 or more"]),
];

/// What pull has to print.
fn said(input: &[u8]) -> String {
    std::panic::catch_unwind(|| pull(input)).unwrap_or_else(|_| {
        println!("second: FAILED: the second program disagrees with itself on {input:?}");
        std::process::exit(1)
    })
}

// ---- inputs that are always the same

/// Such inputs, whole, and some of them in pieces.
pub fn cases(seed: u64) -> Vec<Case> {
    let mut inputs = examples();
    let mut input = |name: &str, bytes: &[u8]| inputs.push((name.to_string(), bytes.to_vec()));

    for blanks in ["", " ", "\n", "\r\n", " \n\r ", ";", ";;", " ; ", "\n;\n0;"] {
        input(&format!("{blanks:?}"), blanks.as_bytes());
    }
    // 65,536 bytes: blanks behind one paper; 16 papers of 4,096 bytes each; and a text that is too long
    let sixteen: String =
        (10..26).map(|species| format!("((0,1),{}{species});", " ".repeat(LONGEST_TEXT - 11))).collect();
    assert_eq!(sixteen.len(), MOST_BYTES);
    for length in [65_535, 65_536, 65_537, 65_538, 131_072, 200_000] {
        for (what, front) in [("one paper", "((0,1),2);"), ("16 papers", &sixteen), ("a text", "x")] {
            let mut bytes = front.as_bytes().to_vec();
            bytes.resize(length, b' ');
            input(&format!("{what}, {length} bytes"), &bytes);
        }
    }
    // 16 papers, and something behind them
    for count in [1, 15, 16, 17, 18] {
        for behind in ["", " ", "\n", "\t", "x", ";", "0", "0;"] {
            let papers = "((1,2),0);\n".repeat(count) + behind;
            input(&format!("{count} papers and {behind:?}"), papers.as_bytes());
        }
    }
    input("a mistake in paper 16 of 17", ("0;".repeat(15) + "00;0;").as_bytes());
    input("a mistake in paper 17", ("0;".repeat(16) + "00;").as_bytes());
    // a text of 4,096 bytes, closed and not closed
    for length in [4_095, 4_096, 4_097] {
        for (front, back) in [("(0,1)", ";"), ("(0,1)", ""), ("(0,1", ";"), ("", "x"), ("(0,1)", "x;")] {
            let text = format!("{front}{}{back}", " ".repeat(length - front.len() - back.len()));
            input(&format!("{front} .. {back}, {length} bytes"), text.as_bytes());
            input(&format!("{front} .. {back}, {length} bytes, as paper 2"), format!("\n0;{text}").as_bytes());
        }
    }
    // every byte at the front, behind a species and behind a point
    for byte in 0..=255 {
        for before in ["", "(0", "\r\n(12:3."] {
            input(&format!("{before:?} and byte {byte}"), &[before.as_bytes(), &[byte]].concat());
        }
    }
    // 64 species
    let star = format!("({});", (0..64).map(|species| species.to_string()).collect::<Vec<_>>().join(","));
    let [nested, halves] = [ladder(63), format!("{};", halves(0, 64))];
    let other = nested.replace("((0,1),2)", "((0,2),1)");
    for (name, papers) in [
        ("nested", vec![&nested]),
        ("in halves", vec![&halves]),
        ("a star", vec![&star]),
        ("16 times nested", vec![&nested; 16]),
        ("nested, with a quarrel at the bottom", vec![&nested, &other, &star]),
        ("nested and in halves", vec![&nested, &halves]),
    ] {
        let papers: String = papers.into_iter().map(String::as_str).collect();
        input(&format!("64 species, {name}"), papers.as_bytes());
    }
    fed(inputs, seed)
}

/// The files of the examples that are for pull.
fn examples() -> Vec<(String, Vec<u8>)> {
    let mut found = Vec::new();
    for file in std::fs::read_dir(EXAMPLES).into_iter().flatten().flatten() {
        let name = file.file_name().to_string_lossy().into_owned();
        if name.starts_with(FOR_PULL) {
            found.push((format!("{EXAMPLES}/{name}"), std::fs::read(file.path()).expect("an example can be read")));
        }
    }
    if found.is_empty() {
        println!("second: FAILED: no file {EXAMPLES}/{FOR_PULL}*, seen from the folder it runs in");
        std::process::exit(1)
    }
    found.sort();
    found
}

/// Each input whole, or one in ten in pieces, with what pull has to print.
fn fed(inputs: Vec<(String, Vec<u8>)>, seed: u64) -> Vec<Case> {
    let mut random = Random::new(seed);
    let mut makes = Inputs::new(random.next());
    let with_feed = |(k, (name, input)): (usize, (String, Vec<u8>))| {
        let says = said(&input).into_bytes();
        if k % 10 != 0 {
            return (name, input, Feed::Whole, says);
        }
        let most = random.pick(&[3, 100, 5_000]);
        let pieces = makes.pieces(input.len().min(20 * most), most);
        (format!("{name}, in pieces of up to {most} bytes"), input, Feed::Pieces(pieces), says)
    };
    inputs.into_iter().enumerate().map(with_feed).collect()
}

// ---- random inputs

/// So many random inputs.
pub fn random_cases(seed: u64, count: usize) -> Vec<Case> {
    let mut random = Random::new(seed);
    let mut maker = Maker { inputs: Inputs::new(random.next()), random };
    let inputs = (0..count).map(|k| (format!("input {k} of seed {seed}"), maker.input())).collect();
    fed(inputs, seed)
}

struct Maker {
    random: Random,
    inputs: Inputs,
}

impl Maker {
    fn input(&mut self) -> Vec<u8> {
        match self.random.below(40) {
            0..=14 => self.papers().concat(),
            15 => {
                let count = self.random.pick(&[0, 1, 2, 5, 70_000]);
                self.blanks(count)
            }
            16 | 17 => self.many(),
            18..=20 => self.long(),
            21..=23 => self.with_text(|maker| {
                let mut text = maker.papers().swap_remove(0);
                damage(&mut text, &mut maker.random);
                text
            }),
            24 | 25 => {
                let mut input = self.papers().concat();
                let byte = if self.random.chance(1, 4) { b'\t' } else { self.random.byte() };
                if self.random.chance(1, 3) {
                    input.push(byte);
                } else {
                    let place = self.random.below(input.len());
                    input[place] = byte;
                }
                input
            }
            26 | 27 => {
                let mut input = self.papers().concat();
                input.truncate(self.random.below(input.len()));
                input
            }
            28..=30 => self.with_text(|maker| {
                let tree = maker.trees().swap_remove(0);
                let n = maker.random.pick(&[4, 8, 64]);
                written(&wild(&tree, n, &mut maker.random), &mut maker.random)
            }),
            31 | 32 => self.with_text(|maker| written(&large(&mut maker.random), &mut maker.random)),
            33 | 34 => self.with_text(|maker| {
                let mut text = maker.papers().swap_remove(0);
                if maker.random.chance(1, 2) {
                    text.retain(|&byte| byte != b';');
                }
                stretch(&mut text, &mut maker.random);
                text
            }),
            _ => self.with_text(Maker::broken_off),
        }
    }

    /// Mostly few species, now and then many.
    fn trees(&mut self) -> Vec<Tree> {
        let n = match self.random.below(100) {
            0..=3 => self.random.between(49, 64),
            4..=8 => self.random.between(17, 48),
            9..=22 => self.random.between(9, 16),
            23..=26 => self.random.between(1, 2),
            _ => self.random.between(3, 8),
        };
        self.inputs.some_papers(n)
    }

    /// The texts of good papers.
    fn papers(&mut self) -> Vec<Vec<u8>> {
        self.trees().iter().map(|tree| written(tree, &mut self.random)).collect()
    }

    fn blanks(&mut self, count: usize) -> Vec<u8> {
        (0..count).map(|_| self.random.pick(b" \n\r")).collect()
    }

    /// Some good papers, and a text in front of them, between them or behind them.
    fn with_text(&mut self, text: impl FnOnce(&mut Maker) -> Vec<u8>) -> Vec<u8> {
        let text = text(self);
        let mut papers = if self.random.chance(1, 3) { Vec::new() } else { self.papers() };
        papers.truncate(self.random.between(1, 3));
        papers.insert(self.random.below(papers.len() + 1), text);
        papers.concat()
    }

    /// As many papers as there may be, or more; in one of three inputs a mistake in one of them.
    fn many(&mut self) -> Vec<u8> {
        let count = self.random.pick(&[16, 17, 17, 18, 40]);
        let mut papers: Vec<Vec<u8>> = std::iter::from_fn(|| Some(self.papers())).flatten().take(count).collect();
        if self.random.chance(1, 3) {
            damage(&mut papers[self.random.below(count)], &mut self.random);
        }
        if self.random.chance(1, 3) {
            papers[count - 1].retain(|&byte| byte != b';');
        }
        papers.concat()
    }

    /// As many bytes as there may be, or some more or less: blanks behind the papers; in front of each of them, so that 16
    /// fill it; or another sign again and again.
    fn long(&mut self) -> Vec<u8> {
        let length = self.random.pick(&[65_535, 65_536, 65_536, 65_536, 65_537, 65_537, 65_538, 131_072]);
        let mut input = self.papers().concat();
        match self.random.below(3) {
            0 => {}
            1 => {
                input.clear();
                let papers = std::iter::from_fn(|| Some(self.papers())).flatten().take(MOST_PAPERS).collect::<Vec<_>>();
                for mut paper in papers {
                    let blanks = LONGEST_TEXT.saturating_sub(paper.len());
                    paper.splice(0..0, self.blanks(blanks));
                    input.extend(paper);
                }
            }
            _ => {
                let sign = self.random.pick(b"0(x;");
                input.resize(length, sign);
            }
        }
        let blanks = length.saturating_sub(input.len());
        input.extend(self.blanks(blanks));
        input.truncate(length);
        input
    }

    /// A text that is good as far as it goes, and then mostly something that does not belong there. One in five goes as far
    /// as the point of a length, and one in five to a species of two digits, where it can.
    fn broken_off(&mut self) -> Vec<u8> {
        let mut signs: Vec<u8> =
            (0..self.random.between(0, 24)).map(|_| self.random.pick(b"((00123456789,):::... \n ")).collect();
        match self.random.below(5) {
            0 => signs.extend(b":1."),
            1 => signs.extend(b",25"),
            _ => {}
        }
        let mut text = Vec::new();
        for sign in signs {
            text.push(sign);
            if newick::read(&text) != Err(text.len()) {
                text.pop();
            }
        }
        match self.random.below(5) {
            0 => {}
            1 => text.push(self.random.pick(b" \n\r")),
            2 => text.push(self.random.byte()),
            3 => text.push(self.random.pick(b"()09,:.;")),
            _ => text.push(self.random.pick(b"x'_[-+")),
        }
        text
    }
}

// ---- forms

/// How often each form is reached by these inputs.
pub fn count_forms(cases: &[Case], counts: &mut BTreeMap<Form, u64>) {
    for (_, input, _, says) in cases {
        for form in forms(input, std::str::from_utf8(says).expect("pull prints signs")) {
            *counts.entry(form).or_default() += 1;
        }
    }
}

/// One of the forms of a kind, by its word.
fn form(kind: &'static str, word: &str) -> Form {
    let words = FORMS.iter().find(|(name, _)| *name == kind).expect("a kind of forms").1;
    (kind, words.iter().find(|&&other| other == word).unwrap_or_else(|| panic!("{kind} has no form {word}")))
}

/// The forms that an input and its output have.
fn forms(input: &[u8], says: &str) -> Vec<Form> {
    let mut forms = match papers(input) {
        Ok(_) => return good_forms(input, says),
        Err(Refused::Bytes) => vec![form("refused", "bytes")],
        Err(Refused::Papers) => vec![form("refused", "papers")],
        Err(Refused::NoPaper) => vec![form("refused", "no paper")],
        Err(Refused::Text { text, place, what, .. }) => {
            let mut forms = mistake_forms(text, place, &what);
            let numbers: Vec<usize> = says.split(|sign: char| !sign.is_ascii_digit()).flat_map(str::parse).collect();
            for (number, kind) in numbers.into_iter().zip(["paper", "line", "column"]) {
                forms.push(form("place", &if number == 1 { format!("{kind} 1") } else { format!("later {kind}") }));
            }
            forms
        }
    };
    match input.len() {
        MOST_BYTES => forms.push(form("refused input", "65536 bytes")),
        length if length == MOST_BYTES + 1 => forms.push(form("refused input", "65537 bytes")),
        length if length > MOST_BYTES => forms.push(form("refused input", "more bytes")),
        _ => {}
    }
    if texts(input).last().is_some_and(|(_, text)| !text.ends_with(b";")) {
        forms.push(form("refused input", "no semicolon at the end"));
    }
    forms
}

/// The forms of a mistake at a place of a text.
fn mistake_forms(text: &[u8], place: usize, what: &str) -> Vec<Form> {
    let Some((found, expected)) = what.strip_prefix("found ").and_then(|what| what.rsplit_once(", expected ")) else {
        let closed = if text.ends_with(b";") { "4096 bytes, closed" } else { "4096 bytes, not closed" };
        return match what {
            "a text has at most 4096 bytes" => vec![form("refused", "4096 bytes"), form("limit passed", closed)],
            "this species stands twice" => vec![form("refused", "twice")],
            "this bracket has one child" => vec![form("refused", "one child")],
            _ => vec![form("refused", "species")],
        };
    };
    let word = match found {
        "the end" | "a blank" => found,
        _ if found.starts_with('\'') => "a sign",
        _ => "a byte",
    };
    let mut forms = vec![form("refused", "found"), form("found", word), form("expected", expected)];

    // a limit is passed where a text of the form could go on
    let before = &text[..place];
    let count = |sign: u8| before.iter().filter(|&&byte| byte == sign).count();
    let last = before.iter().rev().find(|byte| !blank(byte));
    let begins = matches!(last, None | Some(b'(' | b','));
    match text.get(place) {
        Some(b'(') if begins && count(b'(') - count(b')') == MOST_BRACKETS => {
            forms.push(form("limit passed", "63 brackets"));
        }
        Some(b'(' | b'0'..=b'9') if begins && node_places(before).len() == MOST_NODES => {
            forms.push(form("limit passed", "127 nodes"));
        }
        Some(b'0'..=b'9') => {
            let node = node_places(before).last().copied().unwrap_or(place);
            if before[node..].iter().all(u8::is_ascii_digit) && !before[node..].starts_with(b"0") && !before.is_empty()
            {
                forms.push(form("limit passed", "species 254"));
            }
        }
        _ => {}
    }
    forms
}

/// The forms of good papers.
fn good_forms(input: &[u8], says: &str) -> Vec<Form> {
    let mut forms = Vec::new();
    let lines = |head: &'static str| says.lines().filter_map(move |line| line.strip_prefix(head));
    let many = |count: usize| if count < 3 { count.to_string() } else { "3 or more".to_string() };

    let bodies = papers(input).unwrap_or_default();
    forms.push(form("papers", &bodies.len().to_string()));
    let set = bodies.iter().fold(0, |set, body| set | Tree::from_body(body).species());
    forms.push(form(
        "species",
        match set.count_ones() {
            1 => "1",
            2 => "2",
            3..=8 => "3 to 8",
            9..=16 => "9 to 16",
            17..=48 => "17 to 48",
            _ => "49 to 64",
        },
    ));
    if set.trailing_ones() + set.leading_zeros() < 64 {
        forms.push(form("species", "some number occurs nowhere"));
    }

    let written = [(b' ', "space"), (10, "byte 10"), (13, "byte 13"), (b':', "length")];
    forms.extend(written.iter().filter(|(byte, _)| input.contains(byte)).map(|(_, word)| form("good input", word)));
    let end = if input.ends_with(b";") { "none at the end" } else { "blanks at the end" };
    forms.push(form("good input", end));
    if input.len() == MOST_BYTES {
        forms.push(form("good input", "65536 bytes"));
    }

    let forced = lines("every group is the papers' own").count() == 1;
    let open = lines("built, leaving that open: ").count() == 1;
    forms.push(form(
        "built",
        match (open, forced) {
            (false, true) => "forced",
            (false, false) => "not forced",
            (true, true) => "left open and forced",
            (true, false) => "left open and not forced",
        },
    ));
    for over in lines("the papers quarrel over") {
        let all = over.split_whitespace().count() == set.count_ones() as usize;
        forms.push(form("quarrel", if all { "over all" } else { "over some" }));
    }
    for line in lines("paper ") {
        if line.ends_with(" says nothing of these") {
            forms.push(form("quarrel", "says nothing"));
        }
        if line.contains(" says of these: ") {
            forms.push(form("quarrel", "says"));
        }
    }
    for line in lines("not forced by the papers: ") {
        let numbers: Vec<usize> = line.split_whitespace().flat_map(str::parse).collect();
        let [a, b, c] = numbers[..] else { panic!("three species") };
        let word = if c > b {
            "ab|c"
        } else if c > a {
            "ac|b"
        } else {
            "bc|a"
        };
        forms.push(form("not forced", word));
    }
    forms.push(form("dropped", &many(lines("dropped: ").count())));
    forms.push(form("pull together", &many(lines("pull together: ").count())));
    forms.sort();
    forms.dedup();
    forms
}
