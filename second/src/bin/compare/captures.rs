//! Inputs of the listing, by sort.

use crate::contents;
use crate::damages;
use crate::frames::KINDS;
use crate::random::Random;
use crate::systematic;

pub const LONGEST: usize = 65_534;

/// Lengths of captures, from none to too many.
pub const LENGTHS: [usize; 12] = [
    0,
    1,
    2,
    3,
    100,
    LONGEST - 1,
    LONGEST,
    LONGEST + 1,
    LONGEST + 2,
    LONGEST + 3,
    66_000,
    131_072,
];

/// What a line brings: of a kind, a stretch of bytes.
type Piece = fn(u8, &mut Random) -> Vec<u8>;

pub struct Sort {
    pub name: &'static str,
    pub make: Make,
}

#[derive(Clone, Copy)]
pub enum Make {
    /// Stretches of the sort among good frames.
    Pieces(Piece),
    /// Frames of every length and number, shared out among the captures.
    Systematic,
    /// Everything at once.
    Mixture,
    /// Captures that are empty, full, and too long.
    Lengths,
    /// Inputs whose first two bytes are wrong.
    Starts,
}

pub const SORTS: [Sort; 15] = [
    Sort {
        name: "good frames",
        make: Make::Pieces(contents::frame),
    },
    Sort {
        name: "every length, code and number",
        make: Make::Systematic,
    },
    Sort {
        name: "flipped bits",
        make: Make::Pieces(damages::flipped),
    },
    Sort {
        name: "cut frames",
        make: Make::Pieces(damages::cut),
    },
    Sort {
        name: "false starts",
        make: Make::Pieces(damages::false_start),
    },
    Sort {
        name: "frames of other kinds",
        make: Make::Pieces(damages::other_kind),
    },
    Sort {
        name: "changed line ends",
        make: Make::Pieces(damages::line_ends),
    },
    Sort {
        name: "changed case",
        make: Make::Pieces(damages::changed_case),
    },
    Sort {
        name: "check values in the wrong order",
        make: Make::Pieces(damages::wrong_order),
    },
    Sort {
        name: "fields at their limits",
        make: Make::Pieces(damages::limits),
    },
    Sort {
        name: "right checks around wrong layouts",
        make: Make::Pieces(damages::wrong_layout),
    },
    Sort {
        name: "noise",
        make: Make::Pieces(damages::noise),
    },
    Sort {
        name: "mixtures",
        make: Make::Mixture,
    },
    Sort {
        name: "short and long captures",
        make: Make::Lengths,
    },
    Sort {
        name: "wrong first bytes",
        make: Make::Starts,
    },
];

/// Every piece of the table above.
fn any_piece(kind: u8, random: &mut Random) -> Vec<u8> {
    let pieces: Vec<Piece> = SORTS
        .iter()
        .filter_map(|sort| match sort.make {
            Make::Pieces(piece) => Some(piece),
            _ => None,
        })
        .collect();
    random.pick(&pieces)(kind, random)
}

/// An input of the sort, the `nth` of `of`; the kinds take turns.
pub fn input(make: Make, nth: usize, of: usize, random: &mut Random) -> Vec<u8> {
    let kind = KINDS[nth % KINDS.len()];
    let capture = match make {
        Make::Pieces(piece) => among_good_frames(kind, piece, 12, random),
        Make::Systematic => {
            systematic::capture(kind, nth / KINDS.len(), (of / KINDS.len()).max(1), random)
        }
        Make::Mixture => among_good_frames(kind, any_piece, 40, random),
        Make::Lengths => {
            let length = LENGTHS[nth / KINDS.len() % LENGTHS.len()];
            filled(kind, length, random)
        }
        Make::Starts => return wrong_start(kind, random),
    };
    with_kind(kind, &capture)
}

pub fn with_kind(kind: u8, capture: &[u8]) -> Vec<u8> {
    [&[b'0' + kind, b'\n'], capture].concat()
}

/// A short capture for calls: anything, or only noise, or nothing.
pub fn short(kind: u8, random: &mut Random) -> Vec<u8> {
    match random.below(12) {
        0 => Vec::new(),
        1 => damages::noise(kind, random),
        2..=4 => [contents::many(random, 0, 4), contents::frame(kind, random)].concat(),
        _ => among_good_frames(kind, any_piece, 4, random),
    }
}

fn among_good_frames(kind: u8, piece: Piece, most: usize, random: &mut Random) -> Vec<u8> {
    let mut capture = Vec::new();
    for _ in 0..random.from_to(1, most) {
        let next = match random.below(8) {
            0 => contents::frame(kind, random),
            1 => random.bytes(3),
            _ => piece(kind, random),
        };
        capture.extend(next);
    }
    if random.one_in(2) {
        capture.extend(contents::frame(kind, random));
    }
    capture
}

/// Just this many bytes: good frames, anything, or one sort of stretch. The last one is cut off, or padded.
pub fn filled(kind: u8, length: usize, random: &mut Random) -> Vec<u8> {
    let piece = random.pick(&[
        contents::frame as Piece,
        any_piece,
        damages::false_start,
        damages::noise,
        damages::limits,
    ]);
    let mut capture = Vec::new();
    if !random.one_in(4) {
        capture.extend(contents::frame(kind, random));
    }
    loop {
        let next = piece(kind, random);
        if capture.len() + next.len() > length {
            break;
        }
        capture.extend(next);
    }
    if random.one_in(2) {
        capture.extend(contents::frame(kind, random));
    }
    let fill = random.pick(b"\x00\xFF$<\xC0\xD5");
    capture.resize(length, fill);
    capture
}

pub fn wrong_start(kind: u8, random: &mut Random) -> Vec<u8> {
    let starts: [&[u8]; 24] = [
        b"", b"1", b"5", b"\n", b"12", b"0\n", b"6\n", b"9\n", b":\n", b"/\n", b"1\r\n", b"2\r",
        b" 1\n", b"1 \n", b"\n1\n", b"11\n", b"01\n", b"-1\n", b"\x01\n", b"3\x00", b"4;", b"a\n",
        b"\xB1\n", b"5\x8A",
    ];
    let mut input = random.pick(&starts).to_vec();
    match random.below(4) {
        0 => {}
        // both faults
        1 => input.extend(filled(kind, LONGEST + 10, random)),
        _ => input.extend(contents::frame(kind, random)),
    }
    input
}
