//! The calls for C: the arguments are those of the functions that they are, with kinds, widths, decimals and signs that C could cut.

use super::framed::{listing_input, of_one_frame, one_frame, searched};
use super::judged;
use super::kept::{added, any_book, numbered};
use super::sheeted;
use super::values::byte_value;
use super::{any_kind, function, number, room, words, Function};
use crate::arguments::{self, hex};
use crate::frames::KINDS;
use crate::random::Random;
use crate::sheets;

/// A number that 8, 16 or 24 bits would cut to this one, now and then.
fn wide(word: String, random: &mut Random) -> String {
    let above = random.pick(&[1 << 8, 1 << 16, 1 << 24, 1_u64 << 31]);
    match word.parse::<u64>() {
        Ok(number) if random.one_in(8) => (number + above).to_string(),
        _ => word,
    }
}

/// 0 is unsigned, and all else is signed.
fn sign(random: &mut Random) -> String {
    let number = random.pick(&[
        0,
        0,
        0,
        1,
        1,
        2,
        255,
        256,
        65_536,
        1_u64 << 31,
        4_294_967_295,
    ]);
    number.to_string()
}

/// The words with the one at the place made wide.
fn with_wide(mut words: Vec<String>, at: usize, random: &mut Random) -> Vec<String> {
    words[at] = wide(words[at].clone(), random);
    words
}

fn with_room(words: Vec<String>) -> Vec<String> {
    [words, vec![room()]].concat()
}

pub fn calls() -> Vec<Function> {
    [frames(), judged(), lines(), numbers(), books()]
        .into_iter()
        .flatten()
        .collect()
}

fn frames() -> Vec<Function> {
    let found = ["ok", "refused 2", "refused 3", "refused 1"];
    let by_kind = |kind: u8| {
        let mut function = function("bolsterweft_search", 8, &found, move |r| {
            with_wide(searched(kind, r), 0, r)
        });
        function.test += &format!(", kind {kind}");
        function
    };
    let others = [
        function(
            "bolsterweft_one_frame",
            20,
            &["ok", "refused 2", "refused 5"],
            |r| with_wide(of_one_frame(r), 0, r),
        ),
        function(
            "bolsterweft_acknowledge",
            20,
            &["ok", "refused 5", "refused 4"],
            |r| words([hex(&one_frame(5, r)), room()]),
        ),
    ];
    KINDS.into_iter().map(by_kind).chain(others).collect()
}

fn judged() -> Vec<Function> {
    judged::by_kind("bolsterweft_why", false, |words, r| with_wide(words, 0, r))
}

fn lines() -> Vec<Function> {
    vec![
        function(
            "bolsterweft_line",
            40,
            &["ok", "refused 2", "refused 5", "refused 4"],
            |r| {
                let [kind, frame] = of_one_frame(r).try_into().unwrap();
                words([wide(kind, r), frame, number(64, r), room()])
            },
        ),
        function(
            "bolsterweft_line_next",
            50,
            &["ok", "refused 2", "refused 3", "refused 4", "refused 1"],
            |r| with_room(with_wide(searched(any_kind(r), r), 0, r)),
        ),
        function("bolsterweft_list", 24, &["ok", "refused 4"], |r| {
            words([hex(&listing_input(r)), room()])
        }),
    ]
}

/// The register sheet, and lines by a register map: the requests of the functions that take one, without the place in the room.
pub fn by_map() -> Vec<Function> {
    vec![
        function(
            "bolsterweft_sheet_map",
            3,
            &["ok 65536", "refused 10", "refused 4"],
            |r| words([hex(&sheets::any_sheet(r).0), room()]),
        ),
        function(
            "bolsterweft_sheet_fault",
            30,
            &[
                "ok", "ok 0 0", "ok 1 1", "ok 2 1", "ok 3 1", "ok 4 1", "ok 5 2", "ok 6 501",
                "ok 7 1",
            ],
            |r| words([hex(&sheeted::sheet_at_its_limits(r))]),
        ),
        function(
            "bolsterweft_line_with",
            50,
            &["ok", "refused 2", "refused 5", "refused 4"],
            |r| with_wide(sheeted::frame_by_map(r), 0, r),
        ),
        function(
            "bolsterweft_line_next_with",
            50,
            &["ok", "refused 2", "refused 3", "refused 4", "refused 1"],
            |r| with_room(with_wide(sheeted::capture_by_map(r), 0, r)),
        ),
        function("bolsterweft_list_with", 30, &["ok", "refused 4"], |r| {
            sheeted::input_by_map(r)
        }),
        function(
            "bolsterweft_book_line_with",
            30,
            &["ok", "refused 8", "refused 3", "refused 4"],
            |r| with_wide(sheeted::entry_by_map(r), 1, r),
        ),
        function(
            "bolsterweft_book_list_with",
            24,
            &["ok", "refused 8", "refused 4"],
            sheeted::book_by_map,
        ),
    ]
}

fn numbers() -> Vec<Function> {
    vec![
        function(
            "bolsterweft_text",
            20,
            &["ok", "refused 7", "refused 5", "refused 4"],
            |r| {
                let decimals = wide(arguments::decimals(r), r);
                words([arguments::raw(r).to_string(), decimals, room()])
            },
        ),
        function("bolsterweft_number", 20, &["ok", "refused 7"], |r| {
            words([hex(&arguments::number_text(r))])
        }),
        function(
            "bolsterweft_value",
            16,
            &["ok", "refused 7", "refused 5", "refused 4"],
            |r| {
                let width = wide(arguments::width(r).to_string(), r);
                words([arguments::raw(r).to_string(), width, sign(r), room()])
            },
        ),
        function(
            "bolsterweft_value_read",
            14,
            &["ok", "refused 7", "refused 5"],
            |r| {
                let [bytes, width, _] = byte_value(r).try_into().unwrap();
                words([bytes, wide(width, r), sign(r)])
            },
        ),
        function(
            "bolsterweft_fits",
            10,
            &["ok 0", "ok 1", "refused 5"],
            |r| words([arguments::raw(r).to_string()]),
        ),
        function(
            "bolsterweft_panel",
            12,
            &["ok single", "ok double", "refused 5"],
            |r| words([arguments::raw(r).to_string()]),
        ),
        function(
            "bolsterweft_climate",
            14,
            &["ok single", "refused 5"],
            |r| {
                let (temperature, humidity) =
                    (r.pick(&[16, 16, 17, 32]), r.pick(&[16, 16, 17, 32]));
                words([
                    arguments::signed(temperature, r).to_string(),
                    number(humidity, r),
                ])
            },
        ),
    ]
}

fn books() -> Vec<Function> {
    vec![
        function(
            "bolsterweft_book_open",
            20,
            &["ok", "ok 0", "ok 1000", "refused 8"],
            |r| words([hex(&any_book(r).0)]),
        ),
        function(
            "bolsterweft_book_entry",
            20,
            &["ok", "refused 8", "refused 3"],
            |r| with_wide(numbered(r), 1, r),
        ),
        function(
            "bolsterweft_book_line",
            24,
            &["ok", "refused 8", "refused 3", "refused 4"],
            |r| with_room(with_wide(numbered(r), 1, r)),
        ),
        function(
            "bolsterweft_book_list",
            20,
            &["ok", "ok 0", "refused 8", "refused 4"],
            |r| words([hex(&any_book(r).0), room()]),
        ),
        function(
            "bolsterweft_book_add",
            40,
            &[
                "ok",
                "ok 65536",
                "refused 8",
                "refused 2",
                "refused 5",
                "refused 4",
            ],
            |r| with_wide(added(r), 1, r),
        ),
    ]
}
