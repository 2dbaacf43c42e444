//! `why`, and what it says of the bytes at the head: the tests that a frame can fail, drawn at random and one byte away from good frames.

use super::framed::{at_the_head, capture, one_frame};
use super::{function, words, Fixed, Function};
use crate::arguments::{self, hex};
use crate::bytewise;
use crate::contents;
use crate::frames::KINDS;
use crate::random::Random;

/// The tests, each at its number for C.
const TESTS: [&str; 6] = ["none", "start", "length", "fields", "first", "second"];

/// The tests that bytes can fail as a frame of the kind, `none` among them.
fn tests_of(kind: u8) -> &'static [usize] {
    match kind {
        1 => &[0, 1, 2, 3, 4, 5],
        // every id and payload is allowed
        2 | 3 => &[0, 1, 2, 4],
        4 => &[0, 1, 2, 3, 4],
        // what is cut short fails at its fields
        _ => &[0, 1, 3, 4],
    }
}

/// The words of a verdict: without a failed check, the values too.
fn verdict(test: usize, named: bool) -> String {
    let word = if named {
        TESTS[test].to_string()
    } else {
        test.to_string()
    };
    if test < 4 {
        format!("{word} 0 0")
    } else {
        word
    }
}

/// What `why` can answer: the test by its name, or for C by its number.
fn answers(kind: u8, named: bool) -> Vec<String> {
    let verdicts = tests_of(kind).iter();
    let mut answers: Vec<String> = verdicts
        .map(|test| format!("ok {}", verdict(*test, named)))
        .collect();
    answers.extend(["refused 2".to_string(), "refused 3".to_string()]);
    answers
}

/// What the recogniser of the kind's layout can answer: `ok` alone stands for a frame.
pub fn answers_at_the_head(kind: u8) -> Vec<String> {
    let failed = tests_of(kind).iter().filter(|test| **test != 0);
    let mut answers: Vec<String> = failed
        .map(|test| format!("ok 0 0 0 {}", verdict(*test, true)))
        .collect();
    answers.push("ok".to_string());
    answers
}

/// A known kind by its number, now and then one that there is not.
fn kind_or_none(kind: u8, random: &mut Random) -> String {
    let number = match random.below(20) {
        0 => random.pick(&[0, 6, 7, 255]),
        1 => random.from_to(6, 255) as u8,
        _ => kind,
    };
    number.to_string()
}

/// A kind, bytes and a place: that of a frame, good or not, that of a byte with which one could begin, or any.
pub fn asked(kind: u8, random: &mut Random) -> Vec<String> {
    let (bytes, place) = match random.below(8) {
        0 => (capture(kind, random), None),
        1 | 2 => {
            let bytes = capture(kind, random);
            let place = place_of_a_start(kind, &bytes, random);
            (bytes, place)
        }
        3 => (at_the_head(kind, random), Some(0)),
        _ => {
            let before = contents::many(random, 0, 3);
            let frame = one_frame(kind, random);
            let behind = contents::many(random, 0, 3);
            (
                [&before as &[u8], &frame, &behind].concat(),
                Some(before.len()),
            )
        }
    };
    let place = match place {
        Some(place) if !random.one_in(16) => place.to_string(),
        _ => arguments::place(bytes.len(), random),
    };
    words([kind_or_none(kind, random), hex(&bytes), place])
}

fn place_of_a_start(kind: u8, bytes: &[u8], random: &mut Random) -> Option<usize> {
    let starts: &[u8] = match kind {
        1 => b"$#",
        2 | 3 => b"\xD5",
        4 => b"\xC0",
        _ => b"<",
    };
    let places: Vec<usize> = (0..bytes.len())
        .filter(|at| starts.contains(&bytes[*at]))
        .collect();
    (!places.is_empty()).then(|| random.pick(&places))
}

/// Requests to a function of that name for each kind, the words of its requests being made from those of `frames::why`.
pub fn by_kind(
    name: &'static str,
    named: bool,
    change: fn(Vec<String>, &mut Random) -> Vec<String>,
) -> Vec<Function> {
    let of_kind = |kind: u8| {
        let mut function = function(name, 24, &[], move |r| change(asked(kind, r), r));
        function.answers = answers(kind, named);
        function.test += &format!(", kind {kind}");
        function
    };
    KINDS.into_iter().map(of_kind).collect()
}

pub fn why() -> Vec<Function> {
    by_kind("frames::why", true, |words, _| words)
}

/// A byte away from good frames; each place of a good frame, and places beyond it; the kinds that there are not.
pub fn byte_by_byte(name: &'static str, named: bool) -> Vec<Fixed> {
    let unknown: &[u64] = if named {
        &[255]
    } else {
        &[255, 256, 257, 260, 511, 65_540, 4_294_967_295]
    };
    let of_kind = |kind: u8| {
        let at_the_head = bytewise::all(kind)
            .into_iter()
            .map(|bytes| (u64::from(kind), bytes, 0));
        let good = bytewise::good(kind);
        let placed = good.iter().flat_map(|frame| {
            let end = frame.len() as u64;
            let far = [1 << 32, 1 << 63, u64::MAX - end, u64::MAX];
            (0..end + 4)
                .chain(far)
                .map(|place| (u64::from(kind), frame.clone(), place))
        });
        let strangers = [0]
            .into_iter()
            .chain(6..20)
            .chain(unknown.iter().copied())
            .flat_map(|number| [0, 999].map(|place| (number, good[0].clone(), place)));
        Fixed {
            test: format!("{name}, kind {kind}, byte by byte"),
            answers: answers(kind, named),
            requests: at_the_head
                .chain(placed)
                .chain(strangers)
                .map(|(kind, bytes, place)| format!("{name} {kind} {} {place}", hex(&bytes)))
                .collect(),
        }
    };
    KINDS.into_iter().map(of_kind).collect()
}

/// The same bytes for the recognisers.
pub fn heads_byte_by_byte() -> Vec<Fixed> {
    let of_kind = |kind: u8| {
        let name = match kind {
            1 => "layouts::nikobus::frame",
            2 => "layouts::nest::frame command",
            3 => "layouts::nest::frame response",
            4 => "layouts::nibe::frame",
            _ => "layouts::homiq::frame",
        };
        Fixed {
            test: format!("{name}, byte by byte"),
            answers: answers_at_the_head(kind),
            requests: bytewise::all(kind)
                .iter()
                .map(|bytes| format!("{name} {}", hex(bytes)))
                .collect(),
        }
    };
    KINDS.into_iter().map(of_kind).collect()
}
