//! Compares what trial, shelf and pull write with what this program says, byte by byte.

use std::collections::BTreeMap;
use std::path::PathBuf;
use std::sync::atomic::{AtomicBool, Ordering};
use std::sync::mpsc::{channel, sync_channel, SyncSender};
use std::sync::Mutex;

use crate::calls::{lines, Answer, Call};
use crate::operations::most_looked_at;
use crate::papers::Form;
use crate::programs::{Feed, Program, Programs, Run, AT_A_TIME};

/// A batch is one run of trial; it is closed when it passes one of these.
const CALLS_IN_A_BATCH: usize = 20_000;
const BYTES_IN_A_BATCH: usize = 2_000_000;

/// How many counterexamples are kept; after them a part stops.
const KEPT: usize = 10;

/// From this number on, it does not matter how many sets were dropped.
pub const MANY_DROPPED: u64 = 3;

/// Of the triples that a build looked at: there were none; fewer than the most that the species of its set allow; or these.
pub const NONE_LOOKED_AT: &str = "none";
pub const FEWER_LOOKED_AT: &str = "fewer";
pub const MOST_LOOKED_AT: &str = "the most";

/// How often each number of each operation came, each fault, each byte in the tables that were listed, how often so many
/// sets were dropped, how often a build that gave each number looked at so many triples, and how often each form of pull
/// was reached.
#[derive(Default)]
pub struct Counts {
    pub numbers: BTreeMap<(char, u8), u64>,
    pub faults: BTreeMap<(char, &'static str), u64>,
    pub listed: BTreeMap<u8, u64>,
    pub dropped: BTreeMap<u64, u64>,
    pub looked: BTreeMap<(char, u8, &'static str), u64>,
    pub forms: BTreeMap<Form, u64>,
}

impl Counts {
    fn add(&mut self, call: &Call, answer: &Answer) {
        *self.numbers.entry((call.letter(), answer.number)).or_default() += 1;
        if let Some(word) = answer.fault {
            *self.faults.entry((call.letter(), word)).or_default() += 1;
        }
        if let (Call::List { .. }, 0, Some(table)) = (call, answer.number, &answer.lent) {
            for byte in table {
                *self.listed.entry(*byte).or_default() += 1;
            }
        }
        if let (Call::Loosen { .. }, [_, dropped]) = (call, &answer.values[..]) {
            *self.dropped.entry((*dropped).min(MANY_DROPPED)).or_default() += 1;
        }
        if let (Call::Build { set, .. } | Call::Veto { set, .. }, Some(looked)) = (call, answer.looked) {
            let word = match looked {
                0 => NONE_LOOKED_AT,
                most if most == most_looked_at(set.count_ones() as usize) as u64 => MOST_LOOKED_AT,
                _ => FEWER_LOOKED_AT,
            };
            *self.looked.entry((call.letter(), answer.number, word)).or_default() += 1;
        }
    }

    fn add_all(&mut self, more: Counts) {
        fn add_each<K: Ord>(to: &mut BTreeMap<K, u64>, more: BTreeMap<K, u64>) {
            for (key, count) in more {
                *to.entry(key).or_default() += count;
            }
        }
        add_each(&mut self.numbers, more.numbers);
        add_each(&mut self.faults, more.faults);
        add_each(&mut self.listed, more.listed);
        add_each(&mut self.dropped, more.dropped);
        add_each(&mut self.looked, more.looked);
        add_each(&mut self.forms, more.forms);
    }
}

pub struct Comparison {
    pub programs: Programs,
    pub folder: PathBuf,
    pub counts: Counts,
    pub compared: u64,
    pub differ: u64,
    kept: usize,
}

/// Calls, with the end of each among the bytes, and what this program says.
#[derive(Default)]
struct Batch {
    input: Vec<u8>,
    ends: Vec<usize>,
    says: Vec<u8>,
}

impl Batch {
    /// A call more, and what this program says, whose numbers are counted.
    fn add(&mut self, call: &Call, counts: &mut Counts) {
        let answer = std::panic::catch_unwind(|| call.answer()).unwrap_or_else(|_| {
            println!("second: FAILED: the second program disagrees with itself on {call:?}");
            std::process::exit(1)
        });
        counts.add(call, &answer);
        call.put(&mut self.input);
        self.ends.push(self.input.len());
        self.says.extend(answer.line.bytes());
        self.says.push(10);
    }
}

impl Comparison {
    pub fn new(programs: Programs, folder: PathBuf) -> Comparison {
        let counts = Counts::default();
        Comparison { programs, folder, counts, compared: 0, differ: 0, kept: 0 }
    }

    /// Are as many counterexamples kept as may be?
    pub fn enough(&self) -> bool {
        self.kept >= KEPT
    }

    /// Compares trial on many calls. `make` hands each call to the function that it gets, which
    /// says false when enough differ. Calls are made and answered here while trial runs.
    pub fn calls(&mut self, make: impl FnOnce(&mut dyn FnMut(Call) -> bool) + Send) {
        let enough = AtomicBool::new(self.enough());
        let (send, receive) = sync_channel::<Batch>(AT_A_TIME);
        let receive = Mutex::new(receive);
        let (done, ran) = channel::<(Batch, Run)>();
        let programs = self.programs.clone();
        std::thread::scope(|scope| {
            let maker = scope.spawn(|| make_batches(make, send, &enough));
            for _ in 0..AT_A_TIME {
                let done = done.clone();
                scope.spawn(|| {
                    let done = done;
                    loop {
                        let next = receive.lock().expect("no thread failed").recv();
                        let Ok(batch) = next else { return };
                        let run = programs.run(Program::Trial, batch.input.clone(), Feed::Whole);
                        done.send((batch, run)).expect("the runs are waited for");
                    }
                });
            }
            drop(done);
            for (batch, run) in ran {
                self.batch(&batch, &run);
                enough.store(self.enough(), Ordering::Relaxed);
            }
            self.counts.add_all(maker.join().expect("this program answers every call"));
        });
    }

    /// Compares trial on these calls, and hands back its own lines: none where it stopped before.
    pub fn lines(&mut self, calls: &[Call]) -> Vec<Option<String>> {
        let mut given = Vec::new();
        for some in calls.chunks(CALLS_IN_A_BATCH / 4) {
            let mut batch = Batch::default();
            some.iter().for_each(|call| batch.add(call, &mut self.counts));
            let run = self.programs.run(Program::Trial, batch.input.clone(), Feed::Whole);
            self.batch(&batch, &run);
            let wrote = split(&run.wrote);
            given.extend((0..some.len()).map(|k| wrote.get(k).map(|line| shown(line))));
        }
        given
    }

    fn batch(&mut self, batch: &Batch, run: &Run) {
        self.compared += batch.ends.len() as u64;
        if run.trouble.is_none() && run.wrote == batch.says {
            return;
        }
        let wrote = split(&run.wrote);
        let says = split(&batch.says);
        for (k, end) in batch.ends.iter().enumerate() {
            if wrote.get(k) == says.get(k) {
                continue;
            }
            let start = if k == 0 { 0 } else { batch.ends[k - 1] };
            let call = &batch.input[start..*end];
            // does the call by itself show it, or only after the calls before it?
            let alone = self.programs.run(Program::Trial, call.to_vec(), Feed::Whole);
            if alone.trouble.is_some() || alone.wrote != says[k] {
                self.differs(Program::Trial, "a call", call, &alone, says[k]);
            } else {
                let note = "a call after others (it is the last one)";
                let up_to = &batch.input[..*end];
                self.differs(Program::Trial, note, up_to, run, &lines(up_to));
            }
            if self.enough() || wrote.len() <= k {
                return;
            }
        }
        if wrote.len() > says.len() || run.trouble.is_some() {
            self.differs(Program::Trial, "many calls", &batch.input, run, &batch.says);
        }
    }

    /// Compares a program on inputs that are a run each.
    pub fn runs(&mut self, program: Program, cases: &[(String, Vec<u8>, Feed, Vec<u8>)]) {
        let inputs: Vec<(Vec<u8>, Feed)> =
            cases.iter().map(|(_, input, feed, _)| (input.clone(), feed.clone())).collect();
        let runs = self.programs.run_each(program, &inputs);
        for ((name, input, _, says), run) in cases.iter().zip(&runs) {
            self.compared += 1;
            if run.trouble.is_some() || run.wrote != *says {
                self.differs(program, name, input, run, says);
            }
        }
    }

    /// Counts a difference, and keeps it as a counterexample.
    pub fn differs(&mut self, program: Program, note: &str, input: &[u8], run: &Run, says: &[u8]) {
        self.differ += 1;
        let name = program.name();
        println!("second: DIFFERS: {name}: {note}");
        if self.enough() {
            return;
        }
        self.kept += 1;
        let stem = format!("counterexample-{}-{name}", self.kept);
        let bytes = self.folder.join(format!("{stem}.input"));
        let text = self.folder.join(format!("{stem}.txt"));
        let mut told = format!(
            "{name} and the second program differ: {note}\n\nRun it again from the repository's root:\n\n    .ci/compare/second --{name} {}\n\n",
            bytes.display()
        );
        if let Some(trouble) = &run.trouble {
            told.push_str(&format!("{name} {trouble}\n\n"));
        }
        told.push_str(&format!("{name} wrote:\n{}\n", shown(&run.wrote)));
        told.push_str(&format!("the second program says:\n{}\n", shown(says)));
        if program == Program::Trial {
            let mut rest = input;
            let mut last = None;
            while !rest.is_empty() {
                match Call::take(&mut rest) {
                    Some(call) => last = Some(call),
                    None => break,
                }
            }
            told.push_str(&format!("the last whole call:\n{last:?}\n\n"));
        }
        told.push_str(&format!("the input, {} bytes:\n{input:?}\n", input.len()));
        let written = std::fs::write(&bytes, input).and_then(|()| std::fs::write(&text, told));
        match written {
            Ok(()) => println!("second: kept as {}", text.display()),
            Err(error) => println!("second: could not keep {}: {error}", text.display()),
        }
    }
}

/// Makes the calls and answers them, a batch at a time; counts the numbers.
fn make_batches(
    make: impl FnOnce(&mut dyn FnMut(Call) -> bool),
    send: SyncSender<Batch>,
    enough: &AtomicBool,
) -> Counts {
    let mut counts = Counts::default();
    let mut batch = Batch::default();
    make(&mut |call: Call| {
        batch.add(&call, &mut counts);
        let full = batch.ends.len() >= CALLS_IN_A_BATCH || batch.input.len() + batch.says.len() >= BYTES_IN_A_BATCH;
        if full {
            send.send(std::mem::take(&mut batch)).expect("the batches are waited for");
        }
        !enough.load(Ordering::Relaxed)
    });
    send.send(batch).expect("the batches are waited for");
    counts
}

/// The lines of an output, each with its byte 10 where it has one.
pub fn split(output: &[u8]) -> Vec<&[u8]> {
    output.split_inclusive(|&byte| byte == 10).collect()
}

pub fn shown(output: &[u8]) -> String {
    String::from_utf8_lossy(output).into_owned()
}
