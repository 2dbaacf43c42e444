//! The functions on layouts: the frame at the bytes' head, and what is asked of bytes alone.

use super::framed::{at_the_head, direction, homiq_payload};
use super::judged::answers_at_the_head;
use super::{bytes, function, words, Function};
use crate::arguments::{self, hex};
use crate::contents::{self, HEX};
use crate::messages;
use crate::random::Random;

pub fn layouts() -> Vec<Function> {
    let recogniser = |name: &'static str, kind: u8| {
        let mut function = function(name, 8, &[], move |r| words([hex(&at_the_head(kind, r))]));
        function.answers = answers_at_the_head(kind);
        function
    };
    let mut nest = function("layouts::nest::frame", 8, &[], |r| {
        let kind = r.pick(&[2, 3]);
        words([direction(kind, r), hex(&at_the_head(kind, r))])
    });
    nest.answers = answers_at_the_head(2);
    vec![
        recogniser("layouts::nikobus::frame", 1),
        nest,
        recogniser("layouts::nibe::frame", 4),
        recogniser("layouts::homiq::frame", 5),
        function("layouts::homiq::crc", 3, &["ok"], |r| {
            words([if r.one_in(3) {
                bytes(r)
            } else {
                hex(&contents::homiq(r))
            }])
        }),
    ]
}

/// What says `true` or `false` of bytes.
pub fn tests() -> Vec<Function> {
    let answers = ["ok true", "ok false"];
    vec![
        function("layouts::nikobus::may_start", 4, &answers, |r| {
            words([hex(&start(1, r))])
        }),
        function("layouts::nest::may_start", 5, &answers, |r| {
            let kind = r.pick(&[2, 3]);
            words([direction(kind, r), hex(&start(kind, r))])
        }),
        function("layouts::nibe::may_start", 4, &answers, |r| {
            words([hex(&start(4, r))])
        }),
        function("layouts::homiq::may_start", 4, &answers, |r| {
            words([hex(&start(5, r))])
        }),
        function("layouts::nikobus::all_digits", 4, &answers, |r| {
            words([hex(&any_digits(r))])
        }),
        function("layouts::nibe::is_command", 4, &answers, |r| {
            words([nearly_command(r).to_string()])
        }),
        function("layouts::homiq::is_payload", 8, &answers, |r| {
            words([hex(&homiq_payload(r))])
        }),
    ]
}

/// What a frame may begin with, or nearly: the first bytes of a frame, good or not, or three bytes of those that the kind looks at and of
/// their neighbours, all of them or fewer, or with more behind.
fn start(kind: u8, random: &mut Random) -> Vec<u8> {
    if random.one_in(4) {
        let mut bytes = at_the_head(kind, random);
        bytes.truncate(random.below(6));
        return bytes;
    }
    let (first, second, third): (&[u8], &[u8], &[u8]) = match kind {
        1 => (b"$#$#\"%", b"01N/0\x2F\x00\xFF\x80\x7F$#", b"\x000\xFF"),
        2 | 3 => (
            b"\xD5\xD5\xD4\xAA",
            b"\xD5\xAA\xAA\x96",
            b"\xAA\x96\x96\xD5",
        ),
        4 => (
            b"\xC0\xC0\xC0\xC1\x40",
            b"\x60\x69\x6F\x5F\x70\x6D\xE9\x06",
            b"\x00\x02\xFF",
        ),
        _ => (b"<<<>;", b";;;:<", b"\x00I;\xFF"),
    };
    let mut bytes = vec![random.pick(first), random.pick(second), random.pick(third)];
    match random.below(6) {
        0 => bytes.truncate(random.below(3)),
        1 => bytes.extend(arguments::bytes(random)),
        _ => {}
    }
    bytes
}

/// Hex digits, or nearly: one of the characters beside them anywhere.
fn any_digits(random: &mut Random) -> Vec<u8> {
    let mut digits = match random.below(6) {
        0 => return messages::link_digits(random),
        1 => return arguments::bytes(random),
        2 => random.bytes_of(HEX, 1),
        _ => {
            let count = random.from_to(1, 12);
            random.bytes_of(HEX, count)
        }
    };
    if random.one_in(2) {
        let at = random.below(digits.len());
        digits[at] = random.pick(b"/:@G`afg \x00\xFF");
    }
    digits
}

/// A command, or one beside them.
fn nearly_command(random: &mut Random) -> u8 {
    match random.below(3) {
        0 => random.pick(&contents::COMMANDS),
        1 => random.from_to(0x5E, 0x6E) as u8,
        _ => random.byte(),
    }
}
