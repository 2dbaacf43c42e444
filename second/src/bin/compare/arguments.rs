//! Arguments of requests: numbers at the limits of their types and of document 01's rules, kinds, places, texts.

use crate::frames;
use crate::random::Random;

/// Bytes as a request has them.
pub fn hex(bytes: &[u8]) -> String {
    if bytes.is_empty() {
        return "-".to_string();
    }
    String::from_utf8(frames::digits_of(bytes)).unwrap()
}

/// A number of this many bits: near 0, near the largest, or any.
pub fn unsigned(bits: u32, random: &mut Random) -> u64 {
    let largest = u64::MAX >> (64 - bits);
    match random.below(4) {
        0 => random.below(12) as u64,
        1 => largest - random.below(3) as u64,
        2 => random.next() >> random.from_to(0, 63) & largest,
        _ => random.next() & largest,
    }
}

/// The same with a sign.
pub fn signed(bits: u32, random: &mut Random) -> i64 {
    let any = unsigned(bits, random) as i64;
    (any << (64 - bits)) >> (64 - bits)
}

pub fn truth(random: &mut Random) -> String {
    random.one_in(2).to_string()
}

/// Mostly the kind that is right.
pub fn kind(right: u8, random: &mut Random) -> String {
    let kind = match random.below(14) {
        0 => random.pick(&[0, 6, 7, 255]),
        1 => random.byte(),
        2 | 3 => random.pick(&frames::KINDS),
        _ => right,
    };
    kind.to_string()
}

/// A place in this many bytes: at the front, inside, at the end, beyond it, or near 2^64.
pub fn place(length: usize, random: &mut Random) -> String {
    let end = length as u64;
    let place = match random.below(10) {
        0..=4 => 0,
        5 => random.below(length + 1) as u64,
        6 => end,
        7 => end.saturating_sub(random.from_to(1, 4) as u64),
        8 => end + random.from_to(1, 3) as u64,
        _ => random.pick(&[u64::MAX, u64::MAX - 1, 1 << 63, 1 << 32, u64::MAX - end]),
    };
    place.to_string()
}

/// The number of one of this many entries, or of none.
pub fn entry(count: usize, random: &mut Random) -> String {
    let number = match random.below(8) {
        0 => count as u64,
        1 => random.pick(&[count as u64 + 1, 1_000, 65_536, u64::MAX, 1 << 32]),
        _ => random.below(count.max(1)) as u64,
    };
    number.to_string()
}

/// A raw number, or one that is nearly one.
pub fn raw(random: &mut Random) -> i64 {
    const LIMITS: [i64; 30] = [
        0,
        1,
        9,
        10,
        99,
        100,
        999,
        1_000,
        1_001,
        127,
        128,
        129,
        255,
        256,
        32_767,
        32_768,
        32_769,
        65_535,
        65_536,
        16_777_215,
        16_777_216,
        16_777_217,
        33_554_434,
        2_147_483_647,
        2_147_483_648,
        2_147_483_649,
        4_294_967_040,
        4_294_967_295,
        4_294_967_296,
        i64::MAX,
    ];
    let number = match random.below(8) {
        0 => random.next() as i64,
        1 => i64::from(random.next() as i32),
        2 => i64::from(random.next() as u32),
        3 | 4 => near_single(random),
        _ => random.pick(&LIMITS),
    };
    match random.below(12) {
        0 => i64::MIN,
        1..=4 => -number,
        _ => number,
    }
}

/// A number whose bits without zeros at either end are about as many as a single float holds.
fn near_single(random: &mut Random) -> i64 {
    let bits = random.from_to(22, 26) as u32;
    let odd = random.next() >> (64 - bits) | 1 | 1 << (bits - 1);
    (odd << random.below(10)) as i64
}

pub fn decimals(random: &mut Random) -> String {
    let decimals = match random.below(8) {
        0 => random.pick(&[4, 5, 255, 256, 258, u32::MAX]),
        _ => random.below(4) as u32,
    };
    decimals.to_string()
}

pub fn width(random: &mut Random) -> usize {
    match random.below(6) {
        0 => random.pick(&[0, 3, 5, 8, 256, 258, usize::MAX]),
        _ => random.pick(&[1, 2, 4]),
    }
}

/// A number's text, or what looks like one.
pub fn number_text(random: &mut Random) -> Vec<u8> {
    const WRONG: [&str; 30] = [
        "",
        "-",
        ".",
        "-.",
        "-0",
        "-0.0",
        "-0.00",
        "-0.000",
        "00",
        "01",
        "00.5",
        "1.",
        ".5",
        "-.5",
        "+1",
        "--1",
        "1.2345",
        "1.2.3",
        "1e3",
        " 1",
        "1 ",
        "1,5",
        "0x10",
        "4294967296",
        "4294967.296",
        "-2147483649",
        "-2147483.649",
        "18446744073709551616",
        "99999999999999999999999",
        "1\0",
    ];
    match random.below(4) {
        0 => random.pick(&WRONG).into(),
        1 => {
            let mut text = right_text(random);
            let at = random.below(text.len());
            match random.below(3) {
                0 => drop(text.remove(at)),
                1 => text.insert(at, random.pick(b"0.-19 +")),
                _ => text[at] = random.pick(b"0.-19:/ "),
            }
            text
        }
        _ => right_text(random),
    }
}

fn right_text(random: &mut Random) -> Vec<u8> {
    let number = raw(random);
    let size = number.unsigned_abs();
    let places = random.below(4) as u32;
    let (whole, behind) = (size / 10_u64.pow(places), size % 10_u64.pow(places));
    let sign = if number < 0 { "-" } else { "" };
    if places == 0 {
        return format!("{sign}{whole}").into_bytes();
    }
    format!("{sign}{whole}.{behind:0width$}", width = places as usize).into_bytes()
}

/// Digits of a number of 32 bits without leading zeros, or what looks like them.
pub fn decimal_digits(random: &mut Random) -> Vec<u8> {
    const WRONG: [&str; 12] = [
        "",
        "00",
        "01",
        "007",
        "4294967296",
        "18446744073709551616",
        "-1",
        "+1",
        "1 ",
        "1a",
        "/",
        ":",
    ];
    match random.below(3) {
        0 => random.pick(&WRONG).into(),
        _ => unsigned(32, random).to_string().into_bytes(),
    }
}

/// A few bytes; now and then many.
pub fn bytes(random: &mut Random) -> Vec<u8> {
    let count = match random.below(60) {
        0 => random.from_to(1_000, 3_000),
        1..=9 => 0,
        _ => random.from_to(1, 30),
    };
    random.bytes(count)
}
