//! What frames carry: payloads of every row of the message table, at their limits, and such as are nearly a row's.

use crate::frames;
use crate::random::Random;
use crate::rows;

pub const COMMANDS: [u8; 7] = [0x60, 0x62, 0x68, 0x69, 0x6A, 0x6B, 0x6C];
pub const TEXTS: [u16; 3] = [0x0001, 0x0018, 0x0019];
pub const HEX: &[u8] = b"0123456789ABCDEF";

/// The ids of Nest's messages and their neighbours.
const IDS: [u16; 19] = [
    0x0000, 0x0001, 0x0002, 0x0003, 0x000A, 0x000B, 0x000C, 0x0017, 0x0018, 0x0019, 0x001A, 0x002E,
    0x002F, 0x0030, 0x00FF, 0x0100, 0x0200, 0x0B00, 0xFFFF,
];

/// One good frame of the kind.
pub fn frame(kind: u8, random: &mut Random) -> Vec<u8> {
    if random.one_in(2) {
        rows::frame(kind, random)
    } else {
        any_frame(kind, random)
    }
}

/// The same, of any row or nearly of one.
pub fn any_frame(kind: u8, random: &mut Random) -> Vec<u8> {
    match kind {
        1 => nikobus(random),
        2 | 3 => {
            let id = nest_id(random);
            let payload = nest_payload(id, random);
            frames::nest(kind, id, &payload)
        }
        4 => {
            let command = random.pick(&COMMANDS);
            frames::nibe(command, &nibe_data(command, random))
        }
        _ => frames::homiq(&homiq(random)),
    }
}

fn nikobus(random: &mut Random) -> Vec<u8> {
    match random.below(8) {
        0 => frames::tail(),
        1 | 2 => frames::press(&random.bytes_of(HEX, 6)),
        _ => frames::link(&link(random)),
    }
}

/// A link's payload: of a read, a set, an answer, or nearly so, or any.
pub fn link(random: &mut Random) -> Vec<u8> {
    match random.below(11) {
        0 => read(random),
        1 => set(random),
        2 => random.bytes(9),
        3 => near_read(random),
        4 | 5 => near_set(random),
        6 => random.bytes(1),
        7 if random.one_in(3) => many(random, 120, 122),
        7 => many(random, 1, 122),
        _ => many(random, 1, 20),
    }
}

pub fn many(random: &mut Random, fewest: usize, most: usize) -> Vec<u8> {
    let count = random.from_to(fewest, most);
    random.bytes(count)
}

pub fn read(random: &mut Random) -> Vec<u8> {
    let code = random.pick(&[0x12, 0x17]);
    [vec![code], random.bytes(2)].concat()
}

pub fn set(random: &mut Random) -> Vec<u8> {
    let code = random.pick(&[0x15, 0x16]);
    [vec![code], random.bytes(8), vec![0xFF]].concat()
}

fn near_read(random: &mut Random) -> Vec<u8> {
    let code = random.pick(&[0x11, 0x12, 0x13, 0x15, 0x16, 0x17, 0x18]);
    [vec![code], many(random, 1, 3)].concat()
}

fn near_set(random: &mut Random) -> Vec<u8> {
    let code = random.pick(&[0x12, 0x14, 0x15, 0x16, 0x17]);
    let last = random.pick(&[0xFF, 0xFE, 0x00]);
    [vec![code], many(random, 7, 9), vec![last]].concat()
}

pub fn nest_id(random: &mut Random) -> u16 {
    match random.below(6) {
        0 => random.next() as u16,
        1 | 2 => random.pick(&[0x0001, 0x0002, 0x000B, 0x002F]),
        _ => random.pick(&IDS),
    }
}

/// A payload of Nest: as the id's message has it, or nearly, or any.
pub fn nest_payload(id: u16, random: &mut Random) -> Vec<u8> {
    if random.one_in(40) {
        let any = random.below(1_025);
        let count = random.pick(&[any, 255, 256, 257, 1_023, 1_024]);
        return random.bytes(count);
    }
    match (id, random.below(5)) {
        (1, 0 | 1) => random
            .pick(&[b"BRK" as &[u8], b"BRK", b"BRk", b"BR", b"BRKK", b"brk"])
            .to_vec(),
        (2, 0..=3) => climate(random),
        (0x0B, 0..=3) => many(random, 15, 20),
        (0x2F, 0..=2) => Vec::new(),
        (_, 0) => Vec::new(),
        (_, 1) => many(random, 3, 5),
        (_, 2) => text(random),
        _ => many(random, 0, 40),
    }
}

/// Temperature and humidity with and without a high bit; sometimes a byte too few or too many.
fn climate(random: &mut Random) -> Vec<u8> {
    let limits = [
        0x0000_u16, 0x0001, 0x7FFF, 0x8000, 0x8001, 0xFFFF, 0x0866, 0xFF9C,
    ];
    let mut payload = Vec::new();
    for _ in 0..2 {
        let number = if random.one_in(3) {
            random.next() as u16
        } else {
            random.pick(&limits)
        };
        payload.extend(number.to_le_bytes());
    }
    match random.below(8) {
        0 => payload.truncate(3),
        1 => payload.push(0),
        _ => {}
    }
    payload
}

/// Bytes of every sort that a line writes otherwise.
pub fn text(random: &mut Random) -> Vec<u8> {
    let count = random.from_to(1, 24);
    (0..count)
        .map(|_| {
            if random.one_in(2) {
                random.from_to(0x20, 0x7E) as u8
            } else {
                random.pick(b"\"\\\x00\x0A\x0D\x1F\x20\x7E\x7F\x80\xFF/")
            }
        })
        .collect()
}

/// Nibe's data: as the command's message has it, or nearly, or any.
pub fn nibe_data(command: u8, random: &mut Random) -> Vec<u8> {
    if random.one_in(40) {
        let any = random.below(256);
        let count = random.pick(&[any, any, 127, 128, 254, 255]);
        return random.bytes(count);
    }
    match (command, random.below(5)) {
        (0x69, 0..=2) => random.bytes(2),
        (0x6A | 0x6B, 0..=2) => {
            let width = random.pick(&[1, 2, 4]);
            [random.bytes(2), value_bytes(width, random)].concat()
        }
        (0x6C, 0..=2) => vec![random.pick(&[0, 1])],
        (0x6C, 3) => vec![random.pick(&[2, 0xFF])],
        _ => many(random, 0, 8),
    }
}

/// A value of this many bytes, often one that a single float just holds or just does not.
pub fn value_bytes(width: usize, random: &mut Random) -> Vec<u8> {
    if width < 4 || random.one_in(2) {
        return random.bytes(width);
    }
    let values = [
        0_u32,
        1,
        0xFF_FFFF,
        0x100_0000,
        0x100_0001,
        0x200_0002,
        0xFFFF_FF00,
        0xFFFF_FF80,
        0x8000_0000,
        0xFFFF_FFFF,
    ];
    random.pick(&values).to_le_bytes().to_vec()
}

/// CMD to TYPE of a Homiq frame.
pub fn homiq(random: &mut Random) -> Vec<u8> {
    let (command, value) = homiq_command(random);
    homiq_with(&command, &value, random)
}

pub fn homiq_with(command: &[u8], value: &[u8], random: &mut Random) -> Vec<u8> {
    let source = characters(random, 4);
    let target = characters(random, 4);
    let number = homiq_number(random).to_string();
    let sort = acknowledged(random);
    [command, value, &source, &target, number.as_bytes(), &sort].join(&b';')
}

/// TYPE.
pub fn acknowledged(random: &mut Random) -> Vec<u8> {
    let sort = if random.one_in(3) { b'a' } else { b's' };
    vec![sort]
}

fn homiq_number(random: &mut Random) -> usize {
    if random.one_in(2) {
        random.from_to(0, 511)
    } else {
        random.pick(&[0, 1, 9, 10, 99, 100, 255, 256, 510, 511])
    }
}

/// CMD and VAL of a row, or nearly, or any.
fn homiq_command(random: &mut Random) -> (Vec<u8>, Vec<u8>) {
    let (commands, values): (&[&str], &[&str]) = match random.below(6) {
        0 => (
            &["O.0", "O.1", "O.5", "O.9", "O.10", "O.00", "O.", "o.1"],
            &["0", "1", "2", "01", "u"],
        ),
        1 => (
            &["I.0", "I.9", "I.10", "I.15", "I.16", "I.01", "I.", "I.150"],
            &["0", "1", "x", "00"],
        ),
        2 => (&["UD", "UD", "ud", "UDD"], &["u", "d", "s", "U", "0"]),
        3 => (&["HB", "HB", "Hb"], &["1", "0", "11"]),
        _ => return (characters(random, 8), characters(random, 16)),
    };
    (random.pick(commands).into(), random.pick(values).into())
}

/// 1 to `most` characters as a Homiq field may have them.
pub fn characters(random: &mut Random, most: usize) -> Vec<u8> {
    let count = match random.below(4) {
        0 => 1,
        1 => most,
        _ => random.from_to(1, most),
    };
    let allowed: Vec<u8> = (0x21..=0x7E).filter(|c| !b";<>".contains(c)).collect();
    random.bytes_of(&allowed, count)
}
