//! The comparison of the listing: inputs of every sort, over all kinds.

use crate::captures::{self, Make, SORTS};
use crate::frames::KINDS;
use crate::random::Random;
use crate::rows::ROWS;
use crate::sides::Sides;
use crate::tests::{self, Counts, Test, Totals, DETAIL, UNLISTED};

pub fn compare(sides: &Sides, seed: u64, count: usize) -> Totals {
    let each = count.div_ceil(SORTS.len());
    let tests: Vec<Test> = SORTS.iter().map(|sort| test(sort, seed, each)).collect();
    let mut totals = tests::run(sides, seed, &tests);
    let every = every_message(&totals.counts);
    totals.add(every);
    totals
}

fn test(sort: &captures::Sort, seed: u64, count: usize) -> Test {
    let mut random = Random::of(seed, sort.name);
    let cases = (0..count)
        .map(|nth| captures::input(sort.make, nth, count, &mut random))
        .collect();
    let needs = match sort.make {
        Make::Starts => vec!["refused 2".to_string()],
        _ => KINDS
            .iter()
            .map(|kind| format!("frames of kind {kind}"))
            .collect(),
    };
    let needs = match sort.make {
        Make::Lengths => [needs, vec!["refused 5".to_string()]].concat(),
        _ => needs,
    };
    Test {
        name: sort.name.to_string(),
        cases,
        needs,
        count: count_lines,
    }
}

/// Counts a listing's frames by the kind, its messages, its refusals, and the bytes in no frame.
fn count_lines(_: &Test, input: &[u8], listing: &[u8], counts: &mut Counts) {
    let text = String::from_utf8_lossy(listing);
    for line in text.lines() {
        let what = if let Some(number) = between(line, "{\"refused\":", "}") {
            format!("refused {number}")
        } else if let Some(skipped) = between(line, ",\"skipped\":", "}") {
            *counts.entry("bytes in no frame".to_string()).or_default() +=
                skipped.parse().unwrap_or(0);
            continue;
        } else if let Some(message) = between(line, "\"msg\":\"", "\"") {
            *counts
                .entry(format!("frames of kind {}", input[0] - b'0'))
                .or_default() += 1;
            format!("{DETAIL}{message}")
        } else {
            UNLISTED.to_string()
        };
        *counts.entry(what).or_default() += 1;
    }
}

fn between<'a>(line: &'a str, before: &str, behind: &str) -> Option<&'a str> {
    let (_, rest) = line.split_once(before)?;
    Some(rest.split_once(behind)?.0)
}

/// Whether each message of the table was listed at least once.
fn every_message(counts: &Counts) -> bool {
    let times = |name: &str| counts.get(&format!("{DETAIL}{name}")).copied().unwrap_or(0);
    let told: Vec<String> = ROWS
        .iter()
        .map(|row| format!("{} {}", row.name, times(row.name)))
        .collect();
    println!("every message: {}", told.join(", "));
    let never: Vec<&str> = ROWS
        .iter()
        .map(|row| row.name)
        .filter(|name| times(name) == 0)
        .collect();
    if !never.is_empty() {
        println!("   FAILED: never listed: {never:?}");
    }
    never.is_empty()
}
