//! The second program: the operations of documents 01 and 02 once more, in the plainest way, and the
//! comparison of the proved programs with it. README.md says how to run it.

mod calls;
mod collections;
mod compare;
mod entered;
mod exhaustive;
mod grammar;
mod induced;
mod inputs;
mod limits;
mod loosening;
mod named;
mod newick;
mod operations;
mod papers;
mod programs;
mod protocol;
mod pull;
mod random;
mod rounds;
mod shelf;
mod texts;
mod trees;
mod triples;
mod writer;

use std::collections::BTreeMap;
use std::io::{Read, Write};
use std::path::PathBuf;
use std::process::ExitCode;
use std::time::Instant;

use compare::{shown, Comparison, Counts, FEWER_LOOKED_AT, MANY_DROPPED, MOST_LOOKED_AT, NONE_LOOKED_AT};
use inputs::Inputs;
use programs::{Feed, Program, Programs};

/// What the gate runs.
const CALLS: u64 = 100_000;
const SEED: u64 = 1;
const TEXTS: usize = 5;
const INPUTS: usize = 2_000;

/// Every number that each operation has, and every fault of its refusal 6.
const NUMBERS: [(char, &str, &[u8], &[&str]); 10] = [
    ('r', "read", &[0, 1, 2, 3, 4, 5, 6], &FAULTS),
    ('l', "list", &[0, 1, 2, 3, 4, 5, 6, 7], &FAULTS),
    ('e', "enter", &[0, 2, 7, 13], &[]),
    ('o', "order", &[0, 2, 5, 6, 9], &FAULTS),
    ('b', "build", &[0, 2, 7, 8, 9, 10, 15, 16], &[]),
    ('v', "veto", &[0, 2, 7, 8, 9, 15, 16], &[]),
    ('c', "check", &[0, 2, 5, 6, 7, 8, 11, 12], &FAULTS),
    ('x', "loosen", &[0, 2, 5, 6, 7, 8, 9, 11], &FAULTS),
    // a text cannot make a bad parent
    ('n', "parse", &[0, 2, 6, 9, 14], &["species", "seen", "only"]),
    ('w', "render", &[0, 2, 5, 6, 9], &FAULTS),
];
const FAULTS: [&str; 4] = ["parent", "species", "seen", "only"];

/// How many triples a build looks at with each number; a set that stops has three species or more.
const LOOKED: [(char, &str, u8, &[&str]); 3] = [
    ('b', "build", 0, &[NONE_LOOKED_AT, FEWER_LOOKED_AT, MOST_LOOKED_AT]),
    ('b', "build", 10, &[FEWER_LOOKED_AT, MOST_LOOKED_AT]),
    ('v', "veto", 0, &[NONE_LOOKED_AT, FEWER_LOOKED_AT, MOST_LOOKED_AT]),
];

fn main() -> ExitCode {
    let words: Vec<String> = std::env::args().skip(1).collect();
    match words.first().map(String::as_str) {
        Some("answer") if words.len() == 1 => write(&says(Program::Trial, &input())),
        Some("shelf") if words.len() == 1 => write(&says(Program::Shelf, &input())),
        Some("pull") if words.len() == 1 => write(&says(Program::Pull, &input())),
        Some("named") if words.len() == 1 => match named::alone() {
            0 => ExitCode::SUCCESS,
            _ => ExitCode::FAILURE,
        },
        Some("compare") => compare(&words[1..]),
        _ => usage(),
    }
}

fn usage() -> ExitCode {
    eprintln!("second answer < CALLS       the lines that trial has to write");
    eprintln!("second shelf < COLLECTION   what shelf has to write");
    eprintln!("second pull < TEXTS         what pull has to write");
    eprintln!("second named                the runs by name, without the proved programs");
    eprintln!("second compare [--calls N] [--seed S] [--texts L] [--inputs N]");
    eprintln!("               [--trial FILE] [--shelf FILE] [--pull FILE] -- [WORDS]");
    eprintln!("                            compares trial, shelf and pull in target/bin, which");
    eprintln!("                            WORDS run; .ci/compare/second calls it");
    ExitCode::from(2)
}

fn input() -> Vec<u8> {
    let mut bytes = Vec::new();
    std::io::stdin().read_to_end(&mut bytes).expect("standard input can be read");
    bytes
}

fn write(bytes: &[u8]) -> ExitCode {
    match std::io::stdout().write_all(bytes) {
        Ok(()) => ExitCode::SUCCESS,
        Err(_) => ExitCode::FAILURE,
    }
}

fn compare(words: &[String]) -> ExitCode {
    let (mut calls, mut seed, mut texts, mut inputs, mut again) = (CALLS, SEED, TEXTS, INPUTS, Vec::new());
    let mut words = words.iter();
    while let Some(word) = words.next() {
        if word == "--" {
            break;
        }
        let value = words.next();
        match (word.as_str(), value, value.and_then(|v| v.parse().ok())) {
            ("--calls", _, Some(number)) => calls = number,
            ("--seed", _, Some(number)) => seed = number,
            ("--texts", _, Some(number)) => texts = number as usize,
            ("--inputs", _, Some(number)) => inputs = number as usize,
            ("--trial", Some(file), _) => again.push((Program::Trial, file.clone())),
            ("--shelf", Some(file), _) => again.push((Program::Shelf, file.clone())),
            ("--pull", Some(file), _) => again.push((Program::Pull, file.clone())),
            _ => return usage(),
        }
    }
    let programs = Programs { words: words.cloned().collect() };
    if again.is_empty() {
        compare_all(programs, calls, seed, texts, inputs)
    } else {
        compare_again(&programs, &again)
    }
}

/// What a program has to write for an input.
fn says(program: Program, input: &[u8]) -> Vec<u8> {
    match program {
        Program::Trial => calls::lines(input),
        Program::Shelf => shelf::shelf(input).into_bytes(),
        Program::Pull => pull::pull(input).into_bytes(),
    }
}

/// One input once more: what the program writes and what this one says.
fn compare_again(programs: &Programs, again: &[(Program, String)]) -> ExitCode {
    let mut differ = 0;
    for (program, file) in again {
        let input = match std::fs::read(file) {
            Ok(input) => input,
            Err(error) => {
                eprintln!("second: {file}: {error}");
                return ExitCode::from(2);
            }
        };
        let says = says(*program, &input);
        let run = programs.run(*program, input, Feed::Whole);
        println!("{} writes:\n{}", program.name(), shown(&run.wrote));
        if let Some(trouble) = &run.trouble {
            println!("{} {trouble}", program.name());
        }
        println!("the second program says:\n{}", shown(&says));
        if run.trouble.is_some() || run.wrote != says {
            differ += 1;
        }
    }
    println!("second: {} inputs, {differ} differ", again.len());
    if differ == 0 {
        ExitCode::SUCCESS
    } else {
        ExitCode::FAILURE
    }
}

fn compare_all(programs: Programs, calls: u64, seed: u64, texts: usize, inputs: usize) -> ExitCode {
    let folder = PathBuf::from("target/second");
    if let Ok(files) = std::fs::read_dir(&folder) {
        for file in files.flatten() {
            if file.file_name().to_string_lossy().starts_with("counterexample-") {
                let _ = std::fs::remove_file(file.path());
            }
        }
    }
    let mut comparison = Comparison::new(programs, folder);

    part(&mut comparison, "by name", named::compare);
    part(&mut comparison, "trial, one run each", |c| {
        c.runs(Program::Trial, &protocol::cases(seed));
    });
    part(&mut comparison, "shelf, one run each", |c| {
        c.runs(Program::Shelf, &collections::cases(seed));
    });
    part(&mut comparison, "pull, one run each", |c| {
        let cases = papers::cases(seed);
        papers::count_forms(&cases, &mut c.counts.forms);
        c.runs(Program::Pull, &cases);
    });
    part(&mut comparison, "all tables, sets and candidates up to n = 4", |c| {
        induced::tell();
        c.calls(exhaustive::exhaustive);
    });
    part(&mut comparison, "tables with fans", |c| {
        c.calls(|push| {
            exhaustive::fans(push);
        });
    });
    part(&mut comparison, "trees loosened", |c| {
        c.calls(|push| {
            exhaustive::loosened(push);
        });
    });
    part(&mut comparison, "sets to build over", |c| {
        c.calls(|push| {
            exhaustive::sets(push);
        });
    });
    part(&mut comparison, "triples looked at", |c| {
        c.calls(|push| {
            exhaustive::looked_at(push);
        });
    });
    part(&mut comparison, &format!("all texts of up to {texts} signs"), |c| {
        c.calls(|push| {
            exhaustive::texts(texts, push);
        });
    });
    part(&mut comparison, "texts at the limits", |c| {
        c.calls(|push| {
            exhaustive::limits(push);
        });
    });
    part(&mut comparison, "texts written, in every room", |c| {
        c.calls(|push| {
            exhaustive::rooms(push);
        });
    });
    part(
        &mut comparison,
        "texts written and read again, trees listed and built again, with a veto too, and loosened",
        |c| rounds::compare(c, seed),
    );
    let fixed = std::mem::take(&mut comparison.counts);
    part(&mut comparison, "pull, random inputs", |c| {
        let cases = papers::random_cases(seed, inputs);
        papers::count_forms(&cases, &mut c.counts.forms);
        c.runs(Program::Pull, &cases);
    });
    let mut made = (0, 0);
    part(&mut comparison, "random calls", |c| {
        c.calls(|push| {
            let mut inputs = Inputs::new(seed);
            let slow = if calls > CALLS { 100 } else { 20 };
            for k in 0..calls {
                // the slow checks are spread over all calls
                let allowed = (slow * (k + 1)).div_ceil(calls.max(1));
                if !push(inputs.call(allowed as usize)) {
                    break;
                }
            }
            made = inputs.made();
        });
    });
    println!("second: among the random calls {} with more than 48 species, {} slow checks", made.1, made.0);

    println!("second: how often each number came, each byte in a table that was listed, so many sets dropped, and so many triples looked at, among the fixed calls and among the random ones:");
    let never = tell_counts(&fixed, &comparison.counts);
    for what in &never {
        println!("second: never came among the random calls: {what}");
    }
    println!("second: how often each form of pull was reached, by the fixed inputs and by the random ones:");
    let not_reached = tell_forms(&fixed, &comparison.counts);
    for what in &not_reached {
        println!("second: never reached by the random inputs: {what}");
    }
    println!("second: {} calls, {} differ (seed {seed})", comparison.compared, comparison.differ);
    let met = (never.is_empty() || calls < CALLS) && (not_reached.is_empty() || inputs < INPUTS);
    if comparison.differ == 0 && met {
        ExitCode::SUCCESS
    } else {
        ExitCode::FAILURE
    }
}

fn part(comparison: &mut Comparison, name: &str, run: impl FnOnce(&mut Comparison)) {
    let began = Instant::now();
    let (compared, differ) = (comparison.compared, comparison.differ);
    run(comparison);
    println!(
        "second: {name}: {} compared, {} differ, {:.1} s",
        comparison.compared - compared,
        comparison.differ - differ,
        began.elapsed().as_secs_f64()
    );
}

/// Prints how often each number came, each fault, each byte that was listed, so many sets dropped, and so many triples
/// looked at; returns those that never did among the random calls.
fn tell_counts(fixed: &Counts, random: &Counts) -> Vec<String> {
    let mut never = Vec::new();
    for (letter, name, numbers, faults) in NUMBERS {
        let keys = numbers.iter().map(|&number| (number.to_string(), (letter, number)));
        never.extend(tell_line(&format!("{name:<6}"), keys, &fixed.numbers, &random.numbers));
        if !faults.is_empty() {
            let keys = faults.iter().map(|&fault| (fault.to_string(), (letter, fault)));
            never.extend(tell_line(&format!("{name:<6}  of the 6:"), keys, &fixed.faults, &random.faults));
        }
    }
    let bytes = (0..16).map(|byte: u8| (byte.to_string(), byte));
    never.extend(tell_line("bytes listed:", bytes, &fixed.listed, &random.listed));
    let dropped =
        (0..=MANY_DROPPED).map(|count| (format!("{count}{}", if count == MANY_DROPPED { "+" } else { "" }), count));
    never.extend(tell_line("sets dropped:", dropped, &fixed.dropped, &random.dropped));
    for (letter, name, number, words) in LOOKED {
        let keys = words.iter().map(|&word| (word.to_string(), (letter, number, word)));
        never.extend(tell_line(&format!("{name:<6} {number:>2}, triples:"), keys, &fixed.looked, &random.looked));
    }
    never
}

/// Prints how often each form of pull was reached; returns those that never were by the random inputs.
fn tell_forms(fixed: &Counts, random: &Counts) -> Vec<String> {
    let told = papers::FORMS.iter().map(|&(kind, words)| {
        let keys = words.iter().map(|&word| (word.to_string(), (kind, word)));
        tell_line(&format!("{kind}:"), keys, &fixed.forms, &random.forms)
    });
    told.flatten().collect()
}

/// One line of it: each word, with how often its key came.
fn tell_line<K: Ord>(
    head: &str,
    keys: impl Iterator<Item = (String, K)>,
    fixed: &BTreeMap<K, u64>,
    random: &BTreeMap<K, u64>,
) -> Vec<String> {
    let mut never = Vec::new();
    let mut line = format!("second:   {head}");
    for (word, key) in keys {
        let [before, often] = [fixed, random].map(|counts| counts.get(&key).copied().unwrap_or(0));
        line.push_str(&format!("  {word}: {before} + {often}"));
        if often == 0 {
            never.push(format!("{head} {word}"));
        }
    }
    println!("{line}");
    never
}
