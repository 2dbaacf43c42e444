//! The functions on books.

use super::framed::one_frame;
use super::{any_kind, function, room, words, Function};
use crate::arguments::{self, hex};
use crate::books::{self, Entry};
use crate::contents;
use crate::random::Random;

pub fn book() -> Vec<Function> {
    vec![
        function(
            "book::open",
            16,
            &["ok", "ok 0", "ok 1000", "refused 8"],
            |r| words([hex(&any_book(r).0)]),
        ),
        function(
            "book::entry",
            14,
            &["ok", "refused 8", "refused 3"],
            numbered,
        ),
        function("book::frame", 8, &["ok", "ok -"], numbered),
        function(
            "book::line",
            16,
            &["ok", "refused 8", "refused 3", "refused 4"],
            |r| [numbered(r), vec![room()]].concat(),
        ),
        function(
            "book::list",
            14,
            &["ok", "ok 0", "refused 8", "refused 4"],
            |r| words([hex(&any_book(r).0), room()]),
        ),
        function(
            "book::add",
            30,
            &[
                "ok",
                "ok 65536",
                "refused 8",
                "refused 2",
                "refused 5",
                "refused 4",
            ],
            added,
        ),
    ]
}

/// A book, good or not, and about how many entries it has.
pub fn any_book(random: &mut Random) -> (Vec<u8>, usize) {
    if random.one_in(60) {
        return (books::long(random), 999);
    }
    if random.one_in(3) {
        return (books::damaged(random), 3);
    }
    let entries = books::entries(random);
    (books::book(&entries), entries.len())
}

pub fn numbered(random: &mut Random) -> Vec<String> {
    let (book, count) = any_book(random);
    words([hex(&book), arguments::entry(count, random)])
}

pub fn added(random: &mut Random) -> Vec<String> {
    let kind = any_kind(random);
    if random.one_in(60) {
        let frame = contents::frame(kind, random);
        let book = nearly_full(&frame, random);
        return words([
            hex(&books::book(&book)),
            kind.to_string(),
            hex(&frame),
            room(),
        ]);
    }
    let frame = one_frame(kind, random);
    words([
        hex(&any_book(random).0),
        arguments::kind(kind, random),
        hex(&frame),
        room(),
    ])
}

/// Entries that the frame makes just as many or as long as may be, or one more.
fn nearly_full(frame: &[u8], random: &mut Random) -> Vec<Entry> {
    let room_for_it = books::MOST_BYTES - books::BESIDE - frame.len();
    match random.below(5) {
        0 => books::many(books::MOST_ENTRIES),
        1 => books::many(books::MOST_ENTRIES - 1),
        2 => books::of_size(room_for_it + 1, random),
        _ => books::of_size(room_for_it, random),
    }
}
