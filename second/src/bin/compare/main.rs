//! Compares the proved programs with the second decoder, on many cases that are made from a seed.

mod arguments;
mod books;
mod bytewise;
mod calls;
mod captures;
mod commands;
mod contents;
mod damages;
mod frames;
mod functions;
mod listing;
mod malformed;
mod messages;
mod random;
mod reduce;
mod rows;
mod sheets;
mod sides;
mod systematic;
mod tests;
mod texts;

use sides::{Sides, What};
use std::fs;
use std::process::ExitCode;
use std::time::{SystemTime, UNIX_EPOCH};
use tests::Totals;

const USAGE: &str = "\
usage: compare listing [--seed N] [--count N] [--program COMMAND..]
       compare calls [--seed N] [--count N] [--program COMMAND..]
       compare host [--seed N] [--count N] --program COMMAND..
       compare again FILE [--program COMMAND..]

Compares what the proved program answers with what the second decoder answers: `listing` on at least 2,000 inputs of the listing, `calls`
on at least 40,000 requests to every public function, half as many by register sheets, half as many on texts of JSON and three eighths as
many on commands as JSON, `host` on at least 40,000 requests to the calls for C, a quarter as many by register maps and a quarter as many on
commands as JSON. Without a seed it runs seed 1 and a new one; each is printed. A case on which they differ is made small and kept in
target/second-failed; `again` runs such a file again. The last line is `N passed, M failed`: a test is a sort of input or a function, over all
its cases, for a seed.

COMMAND runs the proved program: target/bin/listing, bin/calls or target/host_answers if none is given. It may begin with an emulator.
";

/// The seed that is always run.
const FIXED: u64 = 1;

struct Asked {
    seeds: Vec<u64>,
    count: usize,
    sides: Sides,
}

fn main() -> ExitCode {
    let words: Vec<String> = std::env::args().skip(1).collect();
    let words: Vec<&str> = words.iter().map(String::as_str).collect();
    let ran = match words.split_first() {
        Some((&"listing", options)) => {
            asked(What::Listing, 2_000, options).map(|asked| compare(&asked, listing::compare))
        }
        Some((&"calls", options)) => {
            asked(What::Calls, 40_000, options).map(|asked| compare(&asked, calls::compare))
        }
        Some((&"host", options)) => {
            asked(What::Host, 40_000, options).map(|asked| compare(&asked, calls::compare_from_c))
        }
        Some((&"again", [file, options @ ..])) => again(file, options),
        _ => None,
    };
    match ran {
        Some(true) => ExitCode::SUCCESS,
        Some(false) => ExitCode::FAILURE,
        None => {
            eprint!("{USAGE}");
            ExitCode::from(2)
        }
    }
}

fn asked(what: What, count: usize, options: &[&str]) -> Option<Asked> {
    let program = vec![what.command().to_string()];
    let mut asked = Asked {
        seeds: vec![FIXED, new_seed()],
        count,
        sides: Sides { what, program },
    };
    let mut rest = options;
    while let [option, values @ ..] = rest {
        match (*option, values) {
            ("--seed", [value, ..]) => asked.seeds = vec![value.parse().ok()?],
            ("--count", [value, ..]) => asked.count = value.parse().ok()?,
            ("--program", [_, ..]) => {
                asked.sides.program = values.iter().map(|word| word.to_string()).collect();
                return Some(asked);
            }
            _ => return None,
        }
        rest = &values[1..];
    }
    Some(asked)
}

fn new_seed() -> u64 {
    SystemTime::now()
        .duration_since(UNIX_EPOCH)
        .map_or(2, |time| time.as_nanos() as u64 % 1_000_000_000)
}

fn compare(asked: &Asked, with: fn(&Sides, u64, usize) -> Totals) -> bool {
    let mut totals = Totals::default();
    for seed in &asked.seeds {
        println!("{}, seed {seed}", asked.sides.what.name());
        totals.join(with(&asked.sides, *seed, asked.count));
    }
    let what = asked.sides.what.name();
    match totals.first {
        None => println!("{what}: {} cases compared, none differs", totals.cases),
        Some(first) => println!(
            "{what}: {} cases compared, {} differ, the first is number {first}",
            totals.cases, totals.differing
        ),
    }
    println!("{} passed, {} failed", totals.passed, totals.failed);
    totals.failed == 0
}

/// Runs a kept case again. Whether the sides agree on it.
fn again(file: &str, options: &[&str]) -> Option<bool> {
    let what = [What::Listing, What::Calls, What::Host]
        .into_iter()
        .find(|what| file.ends_with(what.ending()))?;
    let asked = asked(what, 1, options)?;
    match fs::read(file) {
        Ok(case) => Some(tests::show(&asked.sides, &case)),
        Err(why) => {
            eprintln!("compare: {file}: {why}");
            Some(false)
        }
    }
}
