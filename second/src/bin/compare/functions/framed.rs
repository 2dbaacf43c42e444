//! The functions on frames in bytes: built, searched, decoded and listed.

use super::{any_kind, at, function, number, of_length, room, words, Function};
use crate::arguments::{self, hex};
use crate::captures;
use crate::contents::{self, HEX};
use crate::damages;
use crate::frames::KINDS;
use crate::messages;
use crate::random::Random;
use crate::rows::ROWS;
use crate::sheets;

pub fn direction(kind: u8, random: &mut Random) -> String {
    let right = if kind == 2 { "command" } else { "response" };
    let word = if random.one_in(8) {
        random.pick(&["command", "response"])
    } else {
        right
    };
    word.to_string()
}

/// A frame, mostly good, and what may follow it.
pub fn at_the_head(kind: u8, random: &mut Random) -> Vec<u8> {
    let mut bytes = one_frame(kind, random);
    if random.one_in(2) {
        bytes.extend(captures::short(kind, random));
    }
    bytes
}

/// One frame, good or not.
pub fn one_frame(kind: u8, random: &mut Random) -> Vec<u8> {
    match random.below(24) {
        0 => damages::flipped(kind, random),
        1 => damages::cut(kind, random),
        2 => damages::false_start(kind, random),
        3 => damages::other_kind(kind, random),
        4 => damages::line_ends(kind, random),
        5 => damages::changed_case(kind, random),
        6 => damages::wrong_order(kind, random),
        7 | 8 => damages::limits(kind, random),
        9 => damages::wrong_layout(kind, random),
        10 => [contents::frame(kind, random), random.bytes(1)].concat(),
        11 => Vec::new(),
        _ => contents::frame(kind, random),
    }
}

pub fn builds() -> Vec<Function> {
    let answers = ["ok", "refused 5", "refused 4"];
    vec![
        function("builds::nikobus::link", 6, &answers, |r| {
            let payload = if r.one_in(4) {
                of_length(&[0, 1, 122, 123, 124, 300], r)
            } else {
                contents::link(r)
            };
            words([hex(&payload), room()])
        }),
        function("builds::nikobus::press", 5, &answers, |r| {
            words([hex(&nearly_press(r)), room()])
        }),
        function("builds::nikobus::tail", 2, &["ok", "refused 4"], |_| {
            words([room()])
        }),
        function("builds::nest::frame", 6, &answers, |r| {
            let id = contents::nest_id(r);
            let payload = if r.one_in(6) {
                of_length(&[0, 1_024, 1_025, 1_026], r)
            } else {
                contents::nest_payload(id, r)
            };
            words([
                direction(r.pick(&[2, 3]), r),
                id.to_string(),
                hex(&payload),
                room(),
            ])
        }),
        function("builds::nibe::frame", 6, &answers, |r| {
            let command = if r.one_in(6) {
                r.byte()
            } else {
                r.pick(&contents::COMMANDS)
            };
            let data = if r.one_in(6) {
                of_length(&[0, 255, 256, 257, 512], r)
            } else {
                contents::nibe_data(command, r)
            };
            words([command.to_string(), hex(&data), room()])
        }),
        function("builds::homiq::frame", 8, &answers, |r| {
            words([hex(&homiq_payload(r)), room()])
        }),
    ]
}

/// The digits of a press, or other characters, or more or fewer.
pub fn nearly_press(random: &mut Random) -> Vec<u8> {
    let count = if random.one_in(6) { random.below(9) } else { 6 };
    let alphabet = if random.one_in(5) {
        b"0123456789ABCDEFabcdefG:@/"
    } else {
        HEX
    };
    random.bytes_of(alphabet, count)
}

pub fn homiq_payload(random: &mut Random) -> Vec<u8> {
    match random.below(8) {
        0 | 1 => damages::homiq_limits(random),
        2 => {
            let mut content = contents::homiq(random);
            let at = random.below(content.len());
            content[at] = random.pick(b";<> \x7F\x20\x21~\x80\x00");
            content
        }
        3 => contents::many(random, 0, 20),
        4 => with_a_field_more(random),
        _ => contents::homiq(random),
    }
}

/// CMD to TYPE with a `;`, or with a field behind or before them that is like one of theirs.
fn with_a_field_more(random: &mut Random) -> Vec<u8> {
    let content = contents::homiq(random);
    let more = random.pick(&[";", ";s", ";a", "s", ";42", "I.3;", ";"]);
    if random.one_in(3) {
        [more.as_bytes(), &content].concat()
    } else {
        [&content, more.as_bytes()].concat()
    }
}

/// A capture, now and then of 64 KiB.
pub fn capture(kind: u8, random: &mut Random) -> Vec<u8> {
    if random.one_in(150) {
        let length = random.pick(&[65_534, 65_536]);
        captures::filled(kind, length, random)
    } else {
        captures::short(kind, random)
    }
}

pub fn searched(kind: u8, random: &mut Random) -> Vec<String> {
    let capture = capture(kind, random);
    words([
        arguments::kind(kind, random),
        hex(&capture),
        arguments::place(capture.len(), random),
    ])
}

const KIND_NAMES: [&str; 5] = ["nikobus", "nest-command", "nest-response", "nibe", "homiq"];

pub fn searches() -> Vec<Function> {
    let found = ["ok", "refused 2", "refused 3", "refused 1"];
    let by_kind = |kind: u8| {
        let mut function = function("frames::search", 8, &found, move |r| searched(kind, r));
        function.test += &format!(", kind {kind}");
        function
    };
    let others = vec![
        function("frames::kinds::known", 1, &["ok true", "ok false"], |r| {
            words([arguments::kind(any_kind(r), r)])
        }),
        function(
            "frames::kinds::of",
            2,
            &[
                "ok nikobus",
                "ok nest-command",
                "ok nest-response",
                "ok nibe",
                "ok homiq",
                "refused 2",
            ],
            |r| words([arguments::kind(any_kind(r), r)]),
        ),
        function(
            "frames::kinds::number",
            2,
            &["ok 1", "ok 2", "ok 3", "ok 4", "ok 5"],
            |r| words([r.pick(&KIND_NAMES).to_string()]),
        ),
        function("frames::frame", 8, &["ok", "ok -"], |r| {
            searched(any_kind(r), r)
        }),
        function("frames::payload", 8, &["ok", "ok -"], |r| {
            searched(any_kind(r), r)
        }),
        function(
            "frames::one_frame",
            14,
            &["ok", "refused 2", "refused 5"],
            of_one_frame,
        ),
        function("messages::find", 16, &found, |r| searched(any_kind(r), r)),
    ];
    KINDS.into_iter().map(by_kind).chain(others).collect()
}

pub fn of_one_frame(random: &mut Random) -> Vec<String> {
    let kind = any_kind(random);
    words([arguments::kind(kind, random), hex(&one_frame(kind, random))])
}

pub fn decoded() -> Vec<Function> {
    let by_message: Vec<String> = ROWS.iter().map(|row| format!("ok {}", row.name)).collect();
    let answers: Vec<&str> = by_message
        .iter()
        .map(String::as_str)
        .chain(["refused 2", "refused 5"])
        .collect();
    vec![
        function("messages::decode", 30, &answers, of_one_frame),
        function("messages::content", 8, &["ok", "ok -"], of_one_frame),
        function(
            "messages::nest::for_panel",
            4,
            &["ok single", "refused 5"],
            |r| {
                let name = if r.one_in(2) {
                    "climate"
                } else {
                    r.pick(&ROWS.map(|row| row.name))
                };
                messages::message(name, r).words
            },
        ),
        function("messages::nest::voltages", 4, &["ok", "refused 5"], |r| {
            words([hex(&if r.one_in(3) {
                arguments::bytes(r)
            } else {
                contents::many(r, 14, 18)
            })])
        }),
        function("messages::homiq::field", 6, &["ok", "ok -"], |r| {
            let content = if r.one_in(3) {
                r.bytes_of(b";;ab", 6)
            } else {
                contents::homiq(r)
            };
            words([hex(&content), arguments::entry(6, r)])
        }),
        function(
            "messages::homiq::next_id",
            4,
            &["ok", "ok 0", "refused 5"],
            |r| {
                let id = match r.below(3) {
                    0 => r.below(512),
                    1 => r.pick(&[0, 1, 510, 511, 512, 513, 1023, 65_535]),
                    _ => r.below(65_536),
                };
                words([id.to_string()])
            },
        ),
    ]
}

/// A register map, mostly none.
pub fn any_map(random: &mut Random) -> String {
    if random.one_in(4) {
        hex(&sheets::any_map(random).0)
    } else {
        hex(&[])
    }
}

pub fn lines() -> Vec<Function> {
    vec![
        function(
            "lines::write",
            24,
            &["ok", "refused 2", "refused 5", "refused 4"],
            |r| {
                let [kind, frame] = of_one_frame(r).try_into().unwrap();
                words([kind, frame, number(64, r), room()])
            },
        ),
        function(
            "lines::next",
            40,
            &["ok", "refused 2", "refused 3", "refused 1", "refused 4"],
            |r| {
                let [kind, capture, place] = searched(any_kind(r), r).try_into().unwrap();
                words([kind, capture, place, any_map(r), room(), at()])
            },
        ),
        function(
            "lines::measure",
            16,
            &["ok", "refused 2", "refused 3", "refused 1"],
            |r| [searched(any_kind(r), r), vec![any_map(r)]].concat(),
        ),
        function("list::write", 14, &["ok", "refused 4"], |r| {
            words([hex(&listing_input(r)), room()])
        }),
    ]
}

pub fn listing_input(random: &mut Random) -> Vec<u8> {
    let kind = any_kind(random);
    match random.below(100) {
        0 => {
            let length = random.pick(&captures::LENGTHS);
            captures::with_kind(kind, &captures::filled(kind, length, random))
        }
        1..=12 => {
            let mut input = captures::wrong_start(kind, random);
            input.truncate(100);
            input
        }
        _ => captures::with_kind(kind, &captures::short(kind, random)),
    }
}
