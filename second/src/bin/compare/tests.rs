//! Tests: many cases of one sort, compared, counted by what was answered, and reported.

use crate::reduce;
use crate::sides::{Answers, Sides};
use std::collections::BTreeMap;
use std::fs;
use std::io;

/// Where a case is kept on which the sides differ.
const FAILED: &str = "target/second-failed";
/// So many cases of a run are made small, which takes a while; the others are kept as they are.
const REDUCED: usize = 3;
/// So much of an answer is shown.
const SHOWN: usize = 400;

pub struct Test {
    pub name: String,
    pub cases: Vec<Vec<u8>>,
    /// What must have been answered at least once: a test that never saw it compares less than it says.
    pub needs: Vec<String>,
    /// Counts an answer: of the test, to the case, the answer.
    pub count: fn(&Test, &[u8], &[u8], &mut Counts),
}

pub type Counts = BTreeMap<String, usize>;

/// Counts whose names begin so are printed for all tests together, and not for each.
pub const DETAIL: char = '`';

/// An answer is counted under this name if it is of a sort that should not come.
pub const UNLISTED: &str = "NOT LISTED";

#[derive(Default)]
pub struct Totals {
    pub passed: usize,
    pub failed: usize,
    pub cases: usize,
    /// How many cases the sides differ on, and the number of the first, counted from 1.
    pub differing: usize,
    pub first: Option<usize>,
    pub counts: Counts,
}

impl Totals {
    pub fn add(&mut self, test_passed: bool) {
        if test_passed {
            self.passed += 1;
        } else {
            self.failed += 1;
        }
    }

    pub fn join(&mut self, other: Totals) {
        self.first = self.first.or(other.first.map(|nth| self.cases + nth));
        self.passed += other.passed;
        self.failed += other.failed;
        self.cases += other.cases;
        self.differing += other.differing;
    }
}

/// Runs the tests and prints a line for each. The cases of all are asked together, so that the program is started few times.
pub fn run(sides: &Sides, seed: u64, tests: &[Test]) -> Totals {
    let cases: Vec<Vec<u8>> = tests
        .iter()
        .flat_map(|test| test.cases.iter().cloned())
        .collect();
    let answers = sides.ask(&cases);
    let mut totals = Totals {
        cases: cases.len(),
        differing: answers.iter().filter(|answers| answers.differ()).count(),
        first: answers.iter().position(Answers::differ).map(|at| at + 1),
        ..Totals::default()
    };
    let mut reports = 0;
    let mut from = 0;
    for test in tests {
        let to = from + test.cases.len();
        let complete = counted(test, &answers[from..to], &mut totals.counts);
        let differing = answers[from..to].iter().position(Answers::differ);
        if let Some(first) = differing {
            reports += 1;
            report(sides, seed, test, first, reports <= REDUCED);
        }
        totals.add(complete && differing.is_none());
        from = to;
    }
    totals
}

/// Prints what the answers are, by sort. Whether all sorts have come, and no other.
fn counted(test: &Test, answers: &[Answers], totals: &mut Counts) -> bool {
    let mut counts = Counts::new();
    for (case, answers) in test.cases.iter().zip(answers) {
        (test.count)(test, case, &answers.proved, &mut counts);
    }
    let told: Vec<String> = counts
        .iter()
        .filter(|(what, _)| !what.starts_with(DETAIL))
        .map(|(what, times)| format!("{what} {times}"))
        .collect();
    println!(
        "{}: {} compared: {}",
        test.name,
        test.cases.len(),
        told.join(", ")
    );
    let complete = all_seen(test, &counts);
    for (what, times) in counts {
        *totals.entry(what).or_default() += times;
    }
    complete
}

fn all_seen(test: &Test, counts: &Counts) -> bool {
    let never: Vec<&String> = test
        .needs
        .iter()
        .filter(|what| !counts.contains_key(*what))
        .collect();
    for what in &never {
        println!("   FAILED: {}: never seen: {what}", test.name);
    }
    let unlisted = counts.contains_key(UNLISTED);
    if unlisted {
        println!(
            "   FAILED: {}: an answer of a sort that is not listed",
            test.name
        );
    }
    never.is_empty() && !unlisted
}

/// Keeps the first case on which the sides differ in a file, made small if asked, and prints what both answer.
fn report(sides: &Sides, seed: u64, test: &Test, first: usize, small: bool) {
    let given = &test.cases[first];
    println!(
        "   FAILED: {}: case {} of {} differs",
        test.name,
        first + 1,
        test.cases.len()
    );
    let case = if small {
        reduce::reduced(sides, given)
    } else {
        given.clone()
    };
    match kept(sides, seed, test, &case) {
        Ok(path) => println!("   {} bytes, made from {}: {path}", case.len(), given.len()),
        Err(why) => println!("   it could not be kept: {why}"),
    }
    show(sides, &case);
}

fn kept(sides: &Sides, seed: u64, test: &Test, case: &[u8]) -> io::Result<String> {
    let name: String = test
        .name
        .chars()
        .map(|c| if c.is_ascii_alphanumeric() { c } else { '-' })
        .collect();
    let path = format!(
        "{FAILED}/{}-{name}-{seed}.{}",
        sides.what.name(),
        sides.what.ending()
    );
    fs::create_dir_all(FAILED)?;
    fs::write(&path, case)?;
    Ok(path)
}

/// Prints a case and what both sides answer. Whether they agree.
pub fn show(sides: &Sides, case: &[u8]) -> bool {
    let answers = &sides.ask(&[case.to_vec()])[0];
    println!("   case:   {}", shown(case));
    println!("   proved: {}", shown(&answers.proved));
    println!("   second: {}", shown(&answers.second));
    !answers.differ()
}

fn shown(bytes: &[u8]) -> String {
    let text: String = bytes
        .iter()
        .take(SHOWN)
        .map(|b| b.escape_ascii().to_string())
        .collect();
    if bytes.len() > SHOWN {
        format!("{text}.. ({} bytes)", bytes.len())
    } else {
        text
    }
}
