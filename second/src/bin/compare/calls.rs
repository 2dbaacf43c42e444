//! The comparison of the calls: requests to every public function, and to every call for C.

use crate::functions::{self, Fixed, Function, ANY, AT, ROOM};
use crate::malformed;
use crate::random::Random;
use crate::sides::{self, Sides};
use crate::tests::{self, Counts, Test, Totals, UNLISTED};
use std::collections::BTreeSet;

const NO_REQUEST: &str = "request?";
const LONGEST_ROOM: usize = 2_097_202;
/// What a register map has.
const MAP: usize = 65_536;
/// How many requests of the tests that are of no function.
const UNKNOWN: usize = 60;
const LONGEST: usize = 40;
/// How many times as many requests are made if a rare sort of answer is looked for.
const MORE: usize = 50;

pub fn compare(sides: &Sides, seed: u64, count: usize) -> Totals {
    let mut all = tests_of(&functions::all(), seed, count);
    all.extend(tests_of(&functions::by_sheet(), seed, count / 2));
    all.extend(tests_of(&functions::on_texts(), seed, count / 2));
    all.extend(tests_of(&functions::on_commands(), seed, 3 * count / 8));
    all.push(unknown(seed));
    all.extend(functions::all_fixed().into_iter().map(fixed));
    all.push(of_requests(
        "the longest requests",
        seed,
        LONGEST,
        &["ok", "refused 8", "refused 1", NO_REQUEST],
        functions::longest,
    ));
    tests::run(sides, seed, &all)
}

pub fn compare_from_c(sides: &Sides, seed: u64, count: usize) -> Totals {
    let mut all = tests_of(&functions::from_c(), seed, count);
    all.extend(tests_of(&functions::from_c_by_map(), seed, count / 4));
    all.extend(tests_of(&functions::from_c_on_commands(), seed, count / 4));
    all.push(unknown(seed));
    all.extend(functions::fixed_from_c().into_iter().map(fixed));
    tests::run(sides, seed, &all)
}

/// A test of requests that are listed.
fn fixed(listed: Fixed) -> Test {
    Test {
        name: listed.test,
        cases: listed
            .requests
            .into_iter()
            .map(String::into_bytes)
            .collect(),
        needs: listed.answers,
        count: count_answer,
    }
}

/// A test for each function, by their weights.
fn tests_of(functions: &[Function], seed: u64, count: usize) -> Vec<Test> {
    let weights: usize = functions.iter().map(|function| function.weight).sum();
    functions
        .iter()
        .map(|function| test(function, seed, (count * function.weight).div_ceil(weights)))
        .collect()
}

/// A test of what is no function.
fn unknown(seed: u64) -> Test {
    of_requests(
        "no function",
        seed,
        UNKNOWN,
        &[NO_REQUEST],
        malformed::unknown,
    )
}

fn test(function: &Function, seed: u64, count: usize) -> Test {
    let mut answers: Vec<&str> = function.answers.iter().map(String::as_str).collect();
    answers.push(NO_REQUEST);
    of_requests(&function.test, seed, count, &answers, |random| {
        request(function, random)
    })
}

/// A test of this many requests, and of more if a sort of answer is not among those that the second decoder gives.
fn of_requests(
    name: &str,
    seed: u64,
    count: usize,
    needs: &[&str],
    make: impl Fn(&mut Random) -> Vec<u8>,
) -> Test {
    let mut random = Random::of(seed, name);
    let needs: Vec<String> = needs.iter().map(ToString::to_string).collect();
    let mut test = Test {
        name: name.to_string(),
        cases: Vec::new(),
        needs,
        count: count_answer,
    };
    let mut seen = BTreeSet::new();
    for nth in 0..MORE * count {
        let complete = test.needs.iter().all(|sort| seen.contains(sort));
        if nth >= count && complete {
            break;
        }
        let request = make(&mut random);
        let new = seen.insert(sort_of(&test.needs, &sides::second_answer(&request)).to_string());
        if nth < count || new {
            test.cases.push(request);
        }
    }
    test
}

/// The longest of the sorts that an answer begins with.
fn sort_of<'a>(sorts: &'a [String], answer: &[u8]) -> &'a str {
    let text = String::from_utf8_lossy(answer);
    let is_number = |word: &str| word.bytes().all(|byte| byte.is_ascii_digit());
    let begins = |sort: &&String| {
        let mut words = text.split(' ');
        let mut is_next = |listed| {
            words
                .next()
                .is_some_and(|word| word == listed || listed == ANY && is_number(word))
        };
        sort.split(' ').all(|listed| is_next(listed))
    };
    sorts
        .iter()
        .filter(begins)
        .max_by_key(|sort| sort.len())
        .map_or(UNLISTED, String::as_str)
}

fn count_answer(test: &Test, _: &[u8], answer: &[u8], counts: &mut Counts) {
    *counts
        .entry(sort_of(&test.needs, answer).to_string())
        .or_default() += 1;
}

fn request(function: &Function, random: &mut Random) -> Vec<u8> {
    let mut words = vec![function.name.to_string()];
    words.extend((function.make)(random));
    choose_room(&mut words, random);
    let request = words.join(" ").into_bytes();
    if !random.one_in(14) {
        return request;
    }
    let spoilt = malformed::spoilt(&request, random);
    if is_of_another_test(function, &request, &spoilt) {
        request
    } else {
        spoilt
    }
}

/// Whether a request was spoilt to one of another test, whose answers are not listed here: to another function, or, if there is a test for
/// each kind, tag or message, to one with another.
fn is_of_another_test(function: &Function, request: &[u8], spoilt: &[u8]) -> bool {
    let nth_word =
        |line: &[u8], nth: usize| line.split(|b| *b == b' ').nth(nth).map(<[u8]>::to_vec);
    let part = function.test.split_once(", ").map(|(_, part)| part);
    let kind = part.and_then(|part| part.strip_prefix("kind "));
    let part = kind.or(part);
    let names_it = |line: &[u8]| nth_word(line, 1).as_deref() == part.map(str::as_bytes);
    let another = nth_word(request, 0) != nth_word(spoilt, 0)
        || part.is_some() && (kind.is_some() || names_it(request)) && !names_it(spoilt);
    another && sides::second_answer(spoilt) != NO_REQUEST.as_bytes()
}

/// Puts a length in the place of the room, and a number in that of its place: what is written just fits, or does not, or is far off.
fn choose_room(words: &mut [String], random: &mut Random) {
    let Some(room) = words.iter().position(|word| word == ROOM) else {
        return;
    };
    let at = words.iter().position(|word| word == AT);
    words[room] = generous(words).to_string();
    match at {
        None => {
            let length = written(words);
            words[room] = room_for(length, random).to_string();
        }
        Some(at) => {
            words[at] = "0".to_string();
            let length = written(words);
            let (chosen_room, chosen_at) = room_and_place(length.unwrap_or(20), random);
            words[room] = chosen_room.to_string();
            words[at] = chosen_at.to_string();
        }
    }
}

/// A room that is long enough for every answer but the longest listings'.
fn generous(words: &[String]) -> usize {
    if words[0] == "sheet::map" || words[0] == "bolsterweft_sheet_map" {
        return MAP;
    }
    let bytes: usize = words.iter().map(String::len).sum::<usize>() / 2;
    (40 * bytes + 400).min(LONGEST_ROOM)
}

/// How many bytes a request writes: the last number before the room of its answer; none if it is refused.
fn written(words: &[String]) -> Option<usize> {
    let answer = String::from_utf8(sides::second_answer(words.join(" ").as_bytes())).ok()?;
    let (values, _) = answer.strip_prefix("ok ")?.split_once(" room ")?;
    values.split(' ').next_back()?.parse().ok()
}

fn room_for(length: Option<usize>, random: &mut Random) -> usize {
    let Some(length) = length else {
        return random.pick(&[0, 1, 12, 40, 300]);
    };
    let room = match random.below(8) {
        0 => 0,
        1 => length.saturating_sub(1),
        2 => random.below(length + 1),
        3 => length + 1,
        4 => length + random.from_to(2, 40),
        _ => length,
    };
    room.min(LONGEST_ROOM)
}

/// A room, and where in it this many bytes are put: at its front, up to its end, over it, behind it, and near 2^64.
fn room_and_place(length: usize, random: &mut Random) -> (usize, u64) {
    let before = random.below(10);
    let (room, at) = match random.below(9) {
        0 => (length, 0),
        1 => (before + length, before),
        2 => ((before + length).saturating_sub(1), before),
        3 => (before + length + random.from_to(1, 9), before),
        4 => (before + random.below(length + 1), before),
        5 => (before, before),
        6 => (before, before + 1),
        7 => (0, before),
        _ => return (before, near_the_largest(length, random)),
    };
    (room.min(LONGEST_ROOM), at as u64)
}

fn near_the_largest(length: usize, random: &mut Random) -> u64 {
    let length = length as u64;
    random.pick(&[
        u64::MAX,
        u64::MAX - length,
        u64::MAX - length + 1,
        (u64::MAX - length).saturating_sub(1),
        1 << 63,
    ])
}
