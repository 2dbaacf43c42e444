//! The functions on the register sheet (02, K2), and lines, books and listings by it.

use super::{framed, function, number, room, words, Function};
use crate::arguments::{self, hex};
use crate::captures;
use crate::random::Random;
use crate::sheets::{self, Row, LIMITS, TYPES};

pub fn sheets() -> Vec<Function> {
    let types = types();
    let types = |more: &[&'static str]| -> Vec<&str> {
        types
            .iter()
            .map(String::as_str)
            .chain(more.iter().copied())
            .collect()
    };
    vec![
        function("digits::low_first::eight", 2, &["ok"], |r| {
            words([number(64, r)])
        }),
        function(
            "sheet::open",
            16,
            &["ok", "ok 0", "ok 1", "ok 499", "ok 500", "refused 10"],
            |r| words([hex(&sheet_at_its_limits(r))]),
        ),
        function("sheet::fault", 30, &FAULTS, |r| {
            words([hex(&sheet_at_its_limits(r))])
        }),
        function(
            "sheet::type_of",
            20,
            &types(&["refused 10", "refused 9"]),
            |r| {
                let (sheet, rows) = sheets::any_sheet(r);
                words([hex(&sheet), register(&rows, r)])
            },
        ),
        function("sheet::type_in", 16, &types(&["refused 9"]), |r| {
            let (map, rows) = sheets::any_map(r);
            words([hex(&map), register(&rows, r)])
        }),
        function(
            "sheet::split",
            24,
            &[
                "ok",
                "ok 0",
                "refused 5",
                "refused 10",
                "refused 9",
                "refused 4",
            ],
            split,
        ),
        function(
            "sheet::join",
            28,
            &[
                "ok",
                "ok 0",
                "ok 255",
                "refused 5",
                "refused 10",
                "refused 9",
                "refused 4",
            ],
            joined,
        ),
        function(
            "sheet::map",
            3,
            &["ok 65536", "refused 10", "refused 4"],
            |r| words([hex(&sheets::any_sheet(r).0), room()]),
        ),
        function("sheet::splits", 18, &["ok true", "ok false"], |r| {
            let (map, rows) = sheets::any_map(r);
            words([hex(&map), hex(&sheets::any_data(&rows, r))])
        }),
        function("sheet::unsolicited", 4, &["ok true", "ok false"], |r| {
            words([sheets::command(r).to_string()])
        }),
    ]
}

/// The tests of a line as a first line fails them, or where they can fail first.
const FAULTS: [&str; 9] = [
    "ok 0 none",
    "ok 1 form",
    "ok 1 register",
    "ok 1 type",
    "ok 1 decimals",
    "ok 2 not-rising",
    "ok 501 over-500",
    "ok 1 no-last-LF",
    "ok",
];

/// Each type with each number of decimals, as it is answered.
fn types() -> Vec<String> {
    let answer = |sort: usize, decimals: u8| {
        let row = Row {
            register: 0,
            sort,
            decimals,
        };
        let signed = LIMITS[sort].0 < 0;
        format!("ok {} {signed} {decimals}", row.width())
    };
    (0..TYPES.len())
        .flat_map(|sort| (0..4).map(move |decimals| answer(sort, decimals)))
        .collect()
}

/// A sheet, and more often than elsewhere one of the limits or with a fault.
pub fn sheet_at_its_limits(random: &mut Random) -> Vec<u8> {
    match random.below(12) {
        0 => sheets::long(random).0,
        1..=5 => {
            let rows = sheets::rows(random);
            sheets::damaged(&rows, random)
        }
        _ => sheets::any_sheet(random).0,
    }
}

/// A register of the rows, mostly; one beside it, or any.
fn register(rows: &[Row], random: &mut Random) -> String {
    if rows.is_empty() || random.one_in(6) {
        return number(16, random);
    }
    let listed = random.pick(rows).register;
    let register = match random.below(6) {
        0 => listed.wrapping_add(1),
        1 => listed.wrapping_sub(1),
        _ => listed,
    };
    register.to_string()
}

fn split(random: &mut Random) -> Vec<String> {
    let (sheet, rows) = sheets::any_sheet(random);
    let data = sheets::any_data(&rows, random);
    words([
        sheets::command(random).to_string(),
        hex(&data),
        hex(&sheet),
        room(),
    ])
}

/// Pairs of ten bytes: of values that are held, just not held, far off; of registers that are not listed; with bytes more or fewer.
fn joined(random: &mut Random) -> Vec<String> {
    let (sheet, rows) = sheets::any_sheet(random);
    let mut pairs = Vec::new();
    for row in paired(&rows, random) {
        pairs.extend(row.register.to_le_bytes());
        pairs.extend(sheets::value(&row, random).to_le_bytes());
    }
    if random.one_in(4) {
        spoil_pair(&mut pairs, &rows, random);
    }
    match random.below(24) {
        0 => drop(pairs.pop()),
        1 => pairs.push(random.byte()),
        2 => pairs.truncate(random.below(pairs.len() + 1)),
        _ => {}
    }
    words([
        sheets::command(random).to_string(),
        hex(&pairs),
        hex(&sheet),
        room(),
    ])
}

/// A few rows; now and then as many of one as just go into a message, or one more.
fn paired(rows: &[Row], random: &mut Random) -> Vec<Row> {
    if rows.is_empty() {
        return Vec::new();
    }
    if random.one_in(8) {
        let row = random.pick(rows);
        let most = 255 / (2 + row.width());
        return vec![row; most + random.below(2)];
    }
    (0..random.below(6)).map(|_| random.pick(rows)).collect()
}

/// Another register in a pair, or a number that its type does not hold.
fn spoil_pair(pairs: &mut [u8], rows: &[Row], random: &mut Random) {
    if pairs.is_empty() {
        return;
    }
    let at = 10 * random.below(pairs.len() / 10);
    let pair = &mut pairs[at..at + 10];
    if random.one_in(3) {
        pair[..2].copy_from_slice(&(random.next() as u16).to_le_bytes());
        return;
    }
    let listed = u16::from_le_bytes([pair[0], pair[1]]);
    let sort = rows.iter().find(|row| row.register == listed);
    let (least, most) = LIMITS[sort.map_or(0, |row| row.sort)];
    let beyond = [
        least - 1,
        most + 1,
        -1,
        i64::MIN,
        i64::MAX,
        most + (1 << 32),
        least - (1 << 32),
        1 << 63,
    ];
    pair[2..].copy_from_slice(&random.pick(&beyond).to_le_bytes());
}

/// A frame of Nibe that these rows say something of, or any frame, and its kind.
fn any_frame(rows: &[Row], random: &mut Random) -> [String; 2] {
    if random.one_in(6) {
        return framed::of_one_frame(random).try_into().unwrap();
    }
    let mut frame = sheets::frame(rows, random);
    if random.one_in(12) {
        let at = random.below(frame.len());
        frame[at] ^= 1 << random.below(8);
    }
    [arguments::kind(4, random), hex(&frame)]
}

/// A capture that these rows say something of, its kind, and a place in it.
fn searched(rows: &[Row], random: &mut Random) -> [String; 3] {
    let capture = sheets::capture(rows, random);
    [
        arguments::kind(4, random),
        hex(&capture),
        arguments::place(capture.len(), random),
    ]
}

/// A frame, where it stands, a map that says something of it, and a room.
pub fn frame_by_map(random: &mut Random) -> Vec<String> {
    let (map, rows) = sheets::any_map(random);
    let [kind, frame] = any_frame(&rows, random);
    words([kind, frame, number(64, random), hex(&map), room()])
}

/// A capture, a place in it, and a map that says something of it.
pub fn capture_by_map(random: &mut Random) -> Vec<String> {
    let (map, rows) = sheets::any_map(random);
    let [kind, capture, place] = searched(&rows, random);
    words([kind, capture, place, hex(&map)])
}

/// An input of the listing, a map that says something of it, and a room.
pub fn input_by_map(random: &mut Random) -> Vec<String> {
    let (map, rows) = sheets::any_map(random);
    words([hex(&input(&rows, random)), hex(&map), room()])
}

/// A book, an entry's number, a map that says something of it, and a room.
pub fn entry_by_map(random: &mut Random) -> Vec<String> {
    let (map, rows) = sheets::any_map(random);
    let (book, count) = sheets::book(&rows, random);
    let number = arguments::entry(count, random);
    words([hex(&book), number, hex(&map), room()])
}

/// A book, a map that says something of it, and a room.
pub fn book_by_map(random: &mut Random) -> Vec<String> {
    let (map, rows) = sheets::any_map(random);
    words([hex(&sheets::book(&rows, random).0), hex(&map), room()])
}

pub fn lines() -> Vec<Function> {
    let mut next = function(
        "lines::next",
        24,
        &["ok", "refused 2", "refused 3", "refused 1", "refused 4"],
        |r| [capture_by_map(r), vec![room(), super::at()]].concat(),
    );
    let mut measure = function(
        "lines::measure",
        14,
        &["ok", "refused 2", "refused 3", "refused 1"],
        capture_by_map,
    );
    for function in [&mut next, &mut measure] {
        function.test += " by a map";
    }
    vec![
        next,
        measure,
        function(
            "lines::write_with",
            30,
            &["ok", "refused 2", "refused 5", "refused 10", "refused 4"],
            |r| {
                let (sheet, rows) = sheets::any_sheet(r);
                let [kind, frame] = any_frame(&rows, r);
                words([kind, frame, number(64, r), hex(&sheet), room()])
            },
        ),
        function(
            "lines::write_mapped",
            24,
            &["ok", "refused 2", "refused 5", "refused 4"],
            frame_by_map,
        ),
        function("list::write_with", 20, &["ok", "refused 4"], |r| {
            let (sheet, rows) = sheets::any_sheet(r);
            words([hex(&input(&rows, r)), hex(&sheet), room()])
        }),
        function("list::write_mapped", 14, &["ok", "refused 4"], input_by_map),
    ]
}

/// An input of the listing, mostly of Nibe.
fn input(rows: &[Row], random: &mut Random) -> Vec<u8> {
    if random.one_in(5) {
        return framed::listing_input(random);
    }
    captures::with_kind(4, &sheets::capture(rows, random))
}

pub fn books() -> Vec<Function> {
    vec![
        function(
            "book::line_with",
            16,
            &["ok", "refused 8", "refused 3", "refused 10", "refused 4"],
            |r| {
                let (sheet, rows) = sheets::any_sheet(r);
                let (book, count) = sheets::book(&rows, r);
                words([hex(&book), arguments::entry(count, r), hex(&sheet), room()])
            },
        ),
        function(
            "book::line_mapped",
            12,
            &["ok", "refused 8", "refused 3", "refused 4"],
            entry_by_map,
        ),
        function(
            "book::list_with",
            14,
            &["ok", "refused 8", "refused 10", "refused 4"],
            |r| {
                let (sheet, rows) = sheets::any_sheet(r);
                words([hex(&sheets::book(&rows, r).0), hex(&sheet), room()])
            },
        ),
        function(
            "book::list_mapped",
            12,
            &["ok", "refused 8", "refused 4"],
            book_by_map,
        ),
    ]
}
