//! The two sides of a comparison: the proved program, which is run, and the second decoder, which is called.

use std::io::{Read, Write};
use std::panic::{self, UnwindSafe};
use std::process::{Command, Stdio};
use std::sync::atomic::{AtomicUsize, Ordering};
use std::sync::Mutex;
use std::thread;

/// Requests that one run of bin/calls answers: it starts a program for each layer, which takes a while.
const BATCH: usize = 5_000;
/// Runs at a time.
const WORKERS: usize = 2;

#[derive(Clone, Copy, PartialEq)]
pub enum What {
    /// A case is an input of the program `listing`, which is run once for each.
    Listing,
    /// A case is a request to bin/calls, which answers many in a run.
    Calls,
    /// A case is a request to a program in C over the archive, which answers many in a run.
    Host,
}

impl What {
    pub fn name(self) -> &'static str {
        match self {
            What::Listing => "listing",
            What::Calls => "calls",
            What::Host => "host",
        }
    }

    /// What runs the proved program.
    pub fn command(self) -> &'static str {
        match self {
            What::Listing => "target/bin/listing",
            What::Calls => "bin/calls",
            What::Host => "target/host_answers",
        }
    }

    /// How the file of a case ends.
    pub fn ending(self) -> &'static str {
        match self {
            What::Listing => "input",
            What::Calls => "request",
            What::Host => "in-c",
        }
    }
}

#[derive(Clone, PartialEq)]
pub struct Answers {
    pub proved: Vec<u8>,
    pub second: Vec<u8>,
}

impl Answers {
    pub fn differ(&self) -> bool {
        self.proved != self.second
    }
}

pub struct Sides {
    pub what: What,
    /// What runs the proved program: a command, or an emulator with a program behind it.
    pub program: Vec<String>,
}

impl Sides {
    /// What both sides answer to each of the cases.
    pub fn ask(&self, cases: &[Vec<u8>]) -> Vec<Answers> {
        let batch = if self.what == What::Listing { 1 } else { BATCH };
        let batches: Vec<&[Vec<u8>]> = cases.chunks(batch).collect();
        let next = AtomicUsize::new(0);
        let answered: Vec<Mutex<Vec<Answers>>> = batches.iter().map(|_| Mutex::default()).collect();
        thread::scope(|scope| {
            for _ in 0..WORKERS.min(batches.len()) {
                scope.spawn(|| loop {
                    let at = next.fetch_add(1, Ordering::Relaxed);
                    let Some(batch) = batches.get(at) else { break };
                    *answered[at].lock().unwrap() = self.ask_batch(batch);
                });
            }
        });
        answered
            .into_iter()
            .flat_map(|batch| batch.into_inner().unwrap())
            .collect()
    }

    fn ask_batch(&self, cases: &[Vec<u8>]) -> Vec<Answers> {
        let proved = match self.what {
            What::Listing => cases
                .iter()
                .map(|case| output(&self.program, case))
                .collect(),
            What::Calls | What::Host => answered_lines(&self.program, cases),
        };
        let second = cases.iter().map(|case| self.second(case));
        proved
            .into_iter()
            .zip(second)
            .map(|(proved, second)| Answers { proved, second })
            .collect()
    }

    fn second(&self, case: &[u8]) -> Vec<u8> {
        match self.what {
            What::Listing => unless_it_panics(|| second::listing(case)),
            What::Calls | What::Host => second_answer(case),
        }
    }
}

/// What the second decoder answers to a request. By its name it is one to a call for C, or to another function.
pub fn second_answer(request: &[u8]) -> Vec<u8> {
    if request.starts_with(b"bolsterweft_") {
        unless_it_panics(|| second::answer_from_c(request))
    } else {
        unless_it_panics(|| second::answer(request))
    }
}

fn unless_it_panics(answer: impl FnOnce() -> Vec<u8> + UnwindSafe) -> Vec<u8> {
    panic::catch_unwind(answer).unwrap_or_else(|_| b"(the second decoder panicked)".to_vec())
}

/// One line for each request. A program that stops early leaves the rest without an answer.
fn answered_lines(program: &[String], requests: &[Vec<u8>]) -> Vec<Vec<u8>> {
    let printed = output(program, &joined(requests));
    let mut lines: Vec<Vec<u8>> = printed.split(|b| *b == b'\n').map(<[u8]>::to_vec).collect();
    let behind_the_last_line = lines.pop().unwrap_or_default();
    if !behind_the_last_line.is_empty() {
        lines.push([b"(no LF behind this) " as &[u8], &behind_the_last_line].concat());
    }
    if lines.len() > requests.len() {
        lines[requests.len() - 1] =
            format!("({} lines for {} requests)", lines.len(), requests.len()).into_bytes();
    }
    lines.resize(requests.len(), b"(no answer)".to_vec());
    lines
}

/// The requests as lines. The last one needs no LF, unless it is empty: every other batch goes without.
fn joined(requests: &[Vec<u8>]) -> Vec<u8> {
    let mut lines = requests.join(&b'\n');
    let last = requests.last().map_or(0, Vec::len);
    if last == 0 || lines.len() % 2 == 0 {
        lines.push(b'\n');
    }
    lines
}

/// What a program prints for an input.
fn output(program: &[String], input: &[u8]) -> Vec<u8> {
    let mut child = Command::new(&program[0])
        .args(&program[1..])
        .stdin(Stdio::piped())
        .stdout(Stdio::piped())
        .spawn()
        .unwrap_or_else(|why| panic!("{} cannot be run: {why}", program[0]));
    let mut stdin = child.stdin.take().unwrap();
    let mut printed = Vec::new();
    thread::scope(|scope| {
        // a program that has seen enough stops reading, and the rest cannot be written
        scope.spawn(move || stdin.write_all(input).ok());
        child
            .stdout
            .take()
            .unwrap()
            .read_to_end(&mut printed)
            .unwrap();
    });
    let status = child.wait().unwrap();
    if !status.success() {
        printed.extend(format!("({status})\n").bytes());
    }
    printed
}
