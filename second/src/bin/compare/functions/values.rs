//! The functions on digits, check values, rooms, numbers and JSON.

use super::{at, bytes, function, number, room, words, Fixed, Function};
use crate::arguments::{self, hex};
use crate::contents::{self, HEX};
use crate::random::Random;

/// Each pair of characters as a byte.
pub fn each_pair() -> Vec<Fixed> {
    let pairs = (0..=255).flat_map(|high| (0..=255).map(move |low| (high, low)));
    vec![Fixed {
        test: "digits::hex::byte_of, each pair".to_string(),
        answers: ["ok", "refused 5"].map(String::from).to_vec(),
        requests: pairs
            .map(|(high, low)| format!("digits::hex::byte_of {high} {low}"))
            .collect(),
    }]
}

pub fn digits() -> Vec<Function> {
    const REFUSALS: [&str; 12] = [
        "NoFrame",
        "Kind",
        "Place",
        "Room",
        "Limits",
        "Above",
        "Form",
        "Book",
        "NoRegister",
        "BadSheet",
        "NotInGrammar",
        "BadMembers",
    ];
    vec![
        function("digits::hex::digit", 2, &["ok"], |r| words([number(8, r)])),
        function("digits::hex::value", 2, &["ok", "refused 5"], |r| {
            words([hex_character(r)])
        }),
        function("digits::hex::two_digits", 2, &["ok"], |r| {
            words([number(8, r)])
        }),
        function("digits::hex::byte_of", 2, &["ok", "refused 5"], |r| {
            words([hex_character(r), hex_character(r)])
        }),
        function("digits::hex::four_digits", 2, &["ok"], |r| {
            words([number(16, r)])
        }),
        function("digits::hex::word_of", 2, &["ok", "refused 5"], |r| {
            words([hex(&four_characters(r))])
        }),
        function("digits::decimal::digits", 2, &["ok"], |r| {
            words([number(64, r)])
        }),
        function("digits::decimal::number_of", 3, &["ok", "refused 7"], |r| {
            words([hex(&arguments::decimal_digits(r))])
        }),
        function("digits::low_first::one", 2, &["ok"], |r| {
            words([number(8, r)])
        }),
        function("digits::low_first::two", 2, &["ok"], |r| {
            words([number(16, r)])
        }),
        function("digits::low_first::four", 2, &["ok"], |r| {
            words([number(32, r)])
        }),
        function(
            "digits::low_first::number_of",
            2,
            &["ok", "refused 7"],
            |r| words([hex(&contents::many(r, 0, 6))]),
        ),
        function("digits::slices::same", 2, &["ok true", "ok false"], |r| {
            two_slices(r)
        }),
        function(
            "digits::refusal::number",
            2,
            &[
                "ok 1", "ok 2", "ok 3", "ok 4", "ok 5", "ok 6", "ok 7", "ok 8", "ok 9", "ok 10",
                "ok 11", "ok 12",
            ],
            |r| words([r.pick(&REFUSALS).to_string()]),
        ),
    ]
}

fn hex_character(random: &mut Random) -> String {
    let character = if random.one_in(2) {
        random.pick(HEX)
    } else {
        random.pick(b"/:@Gg`af 0\x00\xFF")
    };
    character.to_string()
}

fn four_characters(random: &mut Random) -> Vec<u8> {
    if random.one_in(3) {
        random.bytes_of(b"0123456789ABCDEFabcdefG:@/", 4)
    } else {
        random.bytes_of(HEX, 4)
    }
}

fn two_slices(random: &mut Random) -> Vec<String> {
    let first = arguments::bytes(random);
    let mut other = first.clone();
    match random.below(4) {
        0 => other.push(random.byte()),
        1 => drop(other.pop()),
        2 if !other.is_empty() => {
            let at = random.below(other.len());
            other[at] ^= 1 << random.below(8);
        }
        _ => {}
    }
    words([hex(&first), hex(&other)])
}

pub fn checks() -> Vec<Function> {
    const NAMES: [[&str; 3]; 5] = [
        [
            "checks::nikobus::Crc16::rule",
            "checks::nikobus::Crc16::of",
            "checks::nikobus::Crc16::fed",
        ],
        [
            "checks::nikobus::Crc8::rule",
            "checks::nikobus::Crc8::of",
            "checks::nikobus::Crc8::fed",
        ],
        [
            "checks::nest::Crc::rule",
            "checks::nest::Crc::of",
            "checks::nest::Crc::fed",
        ],
        [
            "checks::nibe::Xor::rule",
            "checks::nibe::Xor::of",
            "checks::nibe::Xor::fed",
        ],
        [
            "checks::homiq::Crc::rule",
            "checks::homiq::Crc::of",
            "checks::homiq::Crc::fed",
        ],
    ];
    let three = |[rule, of, fed]: [&'static str; 3]| {
        [
            function(rule, 1, &["ok"], |_| Vec::new()),
            function(of, 3, &["ok"], |r| words([bytes(r)])),
            function(fed, 2, &["ok"], |r| {
                words([bytes(r), number(8, r), bytes(r)])
            }),
        ]
    };
    NAMES.into_iter().flat_map(three).collect()
}

pub fn puts() -> Vec<Function> {
    vec![
        function("puts::front", 3, &["ok", "refused 4"], |r| {
            words([bytes(r), room()])
        }),
        function("puts::byte", 3, &["ok"], |r| {
            words([number(8, r), room(), at()])
        }),
        function("puts::bytes", 3, &["ok"], |r| {
            words([bytes(r), room(), at()])
        }),
        function("puts::whole", 3, &["ok"], |r| {
            words([number(64, r), room(), at()])
        }),
        function("puts::hex", 3, &["ok"], |r| words([bytes(r), room(), at()])),
    ]
}

pub fn numbers() -> Vec<Function> {
    vec![
        function(
            "numbers::text::write",
            14,
            &["ok", "refused 7", "refused 5", "refused 4"],
            |r| {
                words([
                    arguments::raw(r).to_string(),
                    arguments::decimals(r),
                    room(),
                ])
            },
        ),
        function("numbers::text::read", 14, &["ok", "refused 7"], |r| {
            words([hex(&arguments::number_text(r))])
        }),
        function(
            "numbers::byte_values::write",
            10,
            &["ok", "refused 7", "refused 5", "refused 4"],
            |r| {
                words([
                    arguments::raw(r).to_string(),
                    arguments::width(r).to_string(),
                    arguments::truth(r),
                    room(),
                ])
            },
        ),
        function(
            "numbers::byte_values::read",
            8,
            &["ok", "refused 7", "refused 5"],
            byte_value,
        ),
        function(
            "numbers::single::fits",
            8,
            &["ok true", "ok false", "refused 5"],
            |r| words([arguments::raw(r).to_string()]),
        ),
        function(
            "numbers::panel::of",
            8,
            &["ok single", "ok double", "refused 5"],
            |r| words([arguments::raw(r).to_string()]),
        ),
        function("numbers::panel::pair", 3, &["ok single"], |r| {
            words([arguments::signed(16, r).to_string(), number(16, r)])
        }),
    ]
}

/// As many bytes as the width says, mostly.
pub fn byte_value(random: &mut Random) -> Vec<String> {
    let width = arguments::width(random);
    let count = if random.one_in(5) {
        random.below(6)
    } else {
        width.min(8)
    };
    let value = if random.one_in(3) {
        random.bytes_of(b"\x00\x7F\x80\xFF", count)
    } else {
        random.bytes(count)
    };
    words([hex(&value), width.to_string(), arguments::truth(random)])
}

pub fn json() -> Vec<Function> {
    let text = |r: &mut Random| {
        if r.one_in(2) {
            contents::text(r)
        } else {
            arguments::bytes(r)
        }
    };
    vec![
        function("json::hex", 4, &["ok"], |r| words([bytes(r), room(), at()])),
        function("json::chars", 6, &["ok"], move |r| {
            words([hex(&text(r)), room(), at()])
        }),
        function("json::truth", 2, &["ok"], |r| {
            words([arguments::truth(r), room(), at()])
        }),
        function("json::signed", 5, &["ok"], |r| {
            words([
                (arguments::raw(r) as i32).to_string(),
                r.below(4).to_string(),
                room(),
                at(),
            ])
        }),
        function("json::unsigned", 5, &["ok"], |r| {
            words([
                (arguments::raw(r) as u32).to_string(),
                r.below(4).to_string(),
                room(),
                at(),
            ])
        }),
    ]
}
