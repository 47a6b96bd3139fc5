//! Runs trial, shelf and pull as child processes.

use std::io::{Read, Write};
use std::process::{Command, Stdio};
use std::sync::atomic::{AtomicUsize, Ordering};
use std::sync::mpsc::{channel, RecvTimeoutError};
use std::sync::Mutex;
use std::time::Duration;

/// A run that takes longer than this is ended, and counts as a difference.
const LONGEST_RUN: Duration = Duration::from_secs(300);

/// How many runs go on side by side.
pub const AT_A_TIME: usize = 2;

#[derive(Clone, Copy, PartialEq, Eq)]
pub enum Program {
    Trial,
    Shelf,
    Pull,
}

impl Program {
    pub fn name(self) -> &'static str {
        match self {
            Program::Trial => "trial",
            Program::Shelf => "shelf",
            Program::Pull => "pull",
        }
    }
}

/// How the input gets to the program.
#[derive(Clone)]
pub enum Feed {
    /// All at once.
    Whole,
    /// In pieces of these lengths, with a short wait after each; the rest at once.
    Pieces(Vec<usize>),
    /// All at once, and the input does not end before the program does.
    Open,
}

pub struct Run {
    pub wrote: Vec<u8>,
    /// How it ended, unless with status 0.
    pub trouble: Option<String>,
}

/// The words before the program's own path, as an emulator's; the gate has none.
#[derive(Clone)]
pub struct Programs {
    pub words: Vec<String>,
}

impl Programs {
    pub fn run(&self, program: Program, input: Vec<u8>, feed: Feed) -> Run {
        let path = format!("target/bin/{}", program.name());
        let mut words = self.words.clone();
        words.push(path);
        let spawned = Command::new(&words[0]).args(&words[1..]).stdin(Stdio::piped()).stdout(Stdio::piped()).spawn();
        let mut child = match spawned {
            Ok(child) => child,
            Err(error) => {
                let trouble = Some(format!("could not be started: {error}"));
                return Run { wrote: Vec::new(), trouble };
            }
        };
        let mut to = child.stdin.take().expect("a pipe");
        let mut from = child.stdout.take().expect("a pipe");
        // A write fails once the program has ended early; what it wrote is compared all the same.
        let writer = std::thread::spawn(move || {
            let mut rest = &input[..];
            if let Feed::Pieces(lengths) = &feed {
                for &length in lengths {
                    let (piece, after) = rest.split_at(length.min(rest.len()));
                    if to.write_all(piece).is_err() {
                        return None;
                    }
                    std::thread::sleep(Duration::from_micros(200));
                    rest = after;
                }
            }
            let _ = to.write_all(rest);
            // the pipe is closed where it is dropped: here, or once the program has ended
            matches!(feed, Feed::Open).then_some(to)
        });
        let (send, receive) = channel();
        let reader = std::thread::spawn(move || {
            let mut wrote = Vec::new();
            let result = from.read_to_end(&mut wrote);
            let _ = send.send(());
            (wrote, result)
        });
        let mut trouble = None;
        if receive.recv_timeout(LONGEST_RUN) == Err(RecvTimeoutError::Timeout) {
            trouble = Some(format!("had not ended after {} s", LONGEST_RUN.as_secs()));
            let _ = child.kill();
        }
        let status = child.wait().expect("the program was started");
        let (wrote, result) = reader.join().expect("the reader ends");
        drop(writer.join().expect("the writer ends"));
        if let Err(error) = result {
            trouble.get_or_insert(format!("its output could not be read: {error}"));
        }
        if !status.success() {
            trouble.get_or_insert(format!("ended with {status}"));
        }
        Run { wrote, trouble }
    }

    /// Runs a program on each of the inputs, some at a time.
    pub fn run_each(&self, program: Program, inputs: &[(Vec<u8>, Feed)]) -> Vec<Run> {
        let next = AtomicUsize::new(0);
        let runs: Mutex<Vec<Option<Run>>> = Mutex::new(inputs.iter().map(|_| None).collect());
        std::thread::scope(|scope| {
            for _ in 0..AT_A_TIME {
                scope.spawn(|| loop {
                    let own = next.fetch_add(1, Ordering::Relaxed);
                    let Some((input, feed)) = inputs.get(own) else { return };
                    let run = self.run(program, input.clone(), feed.clone());
                    runs.lock().expect("no thread failed")[own] = Some(run);
                });
            }
        });
        let runs = runs.into_inner().expect("no thread failed");
        runs.into_iter().map(|run| run.expect("each was run")).collect()
    }
}
