//! Raw numbers: their text, their bytes, and whether a single float holds them. Integers only.

use crate::digits;
use crate::refusal::Refusal;

pub const LEAST: i64 = -2_147_483_648;
pub const MOST: i64 = 4_294_967_295;
pub const MOST_DECIMALS: u32 = 3;

fn in_range(raw: i64) -> Result<i64, Refusal> {
    if (LEAST..=MOST).contains(&raw) {
        Ok(raw)
    } else {
        Err(Refusal::Limits)
    }
}

/// The text of a raw number: 7 for the decimals, then 5 for the number.
pub fn text(raw: i64, decimals: u32) -> Result<Vec<u8>, Refusal> {
    if decimals > MOST_DECIMALS {
        return Err(Refusal::Form);
    }
    in_range(raw)?;
    let scale = 10u64.pow(decimals);
    let magnitude = raw.unsigned_abs();
    let mut text = Vec::new();
    if raw < 0 {
        text.push(b'-');
    }
    text.extend(digits::decimal(magnitude / scale));
    if decimals > 0 {
        text.push(b'.');
        let behind = digits::decimal(magnitude % scale);
        text.resize(text.len() + decimals as usize - behind.len(), b'0');
        text.extend(behind);
    }
    Ok(text)
}

/// The raw number and the decimals of a text: the one whose text this is.
pub fn read(text: &[u8]) -> Result<(i64, u32), Refusal> {
    parse(text).ok_or(Refusal::Form)
}

fn parse(text: &[u8]) -> Option<(i64, u32)> {
    let negative = text.first() == Some(&b'-');
    let unsigned = if negative { &text[1..] } else { text };
    let (whole, behind) = match unsigned.iter().position(|c| *c == b'.') {
        None => (unsigned, None),
        Some(point) => (&unsigned[..point], Some(&unsigned[point + 1..])),
    };
    let mut number = digits::number_of_decimal(whole, MOST as u64)?;
    let mut decimals = 0;
    if let Some(behind) = behind {
        if behind.is_empty() || behind.len() > MOST_DECIMALS as usize {
            return None;
        }
        for character in behind {
            if !character.is_ascii_digit() {
                return None;
            }
            number = number * 10 + u64::from(character - b'0');
            decimals += 1;
        }
    }
    if negative && number == 0 {
        return None;
    }
    let magnitude = i64::try_from(number).ok()?;
    let raw = if negative { -magnitude } else { magnitude };
    in_range(raw).ok()?;
    Some((raw, decimals))
}

/// The bytes of a raw number, low byte first: 7 for the width, then 5 if it is not held.
pub fn bytes(raw: i64, width: u64, signed: bool) -> Result<Vec<u8>, Refusal> {
    let width = known_width(width)?;
    let states = 1i64 << (8 * width);
    let (least, most) = if signed {
        (-states / 2, states / 2 - 1)
    } else {
        (0, states - 1)
    };
    if raw < least || raw > most {
        return Err(Refusal::Limits);
    }
    Ok(raw.to_le_bytes()[..width].to_vec())
}

/// The number that bytes are: 7 for the width, then 5 if they are not as many as the width.
pub fn number(bytes: &[u8], width: u64, signed: bool) -> Result<i64, Refusal> {
    let width = known_width(width)?;
    if bytes.len() != width {
        return Err(Refusal::Limits);
    }
    let states = 1i64 << (8 * width);
    let number = i64::from(digits::low_first(bytes)?);
    if signed && number >= states / 2 {
        Ok(number - states)
    } else {
        Ok(number)
    }
}

fn known_width(width: u64) -> Result<usize, Refusal> {
    match width {
        1 => Ok(1),
        2 => Ok(2),
        4 => Ok(4),
        _ => Err(Refusal::Form),
    }
}

/// Whether a raw number fits a single: zero, or at most 24 bits of its magnitude without leading
/// and trailing zeros.
pub fn fits_single(raw: i64) -> Result<bool, Refusal> {
    let magnitude = in_range(raw)?.unsigned_abs();
    if magnitude == 0 {
        return Ok(true);
    }
    let bits = 64 - magnitude.leading_zeros() - magnitude.trailing_zeros();
    Ok(bits <= 24)
}

#[cfg(test)]
mod tests {
    use super::*;

    #[test]
    fn texts() {
        let cases: [(i64, u32, &[u8]); 10] = [
            (-5, 2, b"-0.05"),
            (0, 0, b"0"),
            (0, 3, b"0.000"),
            (-125, 1, b"-12.5"),
            (7, 0, b"7"),
            (1000, 3, b"1.000"),
            (-1000, 3, b"-1.000"),
            (LEAST, 3, b"-2147483.648"),
            (MOST, 0, b"4294967295"),
            (MOST, 3, b"4294967.295"),
        ];
        for (raw, decimals, expected) in cases {
            assert_eq!(text(raw, decimals).as_deref(), Ok(expected));
            assert_eq!(read(expected), Ok((raw, decimals)));
        }
    }

    #[test]
    fn text_refusals_in_order() {
        assert_eq!(text(MOST + 1, 4), Err(Refusal::Form));
        assert_eq!(text(MOST + 1, 0), Err(Refusal::Limits));
        assert_eq!(text(LEAST - 1, 0), Err(Refusal::Limits));
    }

    #[test]
    fn texts_that_are_none() {
        let wrong: [&[u8]; 20] = [
            b"",
            b"-",
            b"-0",
            b"-0.0",
            b"-0.000",
            b"00",
            b"01",
            b"+1",
            b"1.",
            b".5",
            b"-.5",
            b"1.0000",
            b"1.2.3",
            b"1,5",
            b" 1",
            b"1 ",
            b"--1",
            b"4294967296",
            b"-2147483649",
            b"4294967.296",
        ];
        for text in wrong {
            assert_eq!(read(text), Err(Refusal::Form), "{:?}", text);
        }
        assert_eq!(read(b"99999999999999999999.999"), Err(Refusal::Form));
    }

    #[test]
    fn bytes_and_numbers() {
        assert_eq!(bytes(-125, 2, true), Ok(vec![0x83, 0xFF]));
        assert_eq!(number(&[0x83, 0xFF], 2, true), Ok(-125));
        assert_eq!(number(&[0x83, 0xFF], 2, false), Ok(0xFF83));
        for width in [1u64, 2, 4] {
            let states = 1i64 << (8 * width);
            for (raw, signed, held) in [
                (states - 1, false, true),
                (states, false, false),
                (-1, false, false),
                (states / 2 - 1, true, true),
                (states / 2, true, false),
                (-states / 2, true, true),
                (-states / 2 - 1, true, false),
            ] {
                match bytes(raw, width, signed) {
                    Ok(written) => {
                        assert!(held);
                        assert_eq!(number(&written, width, signed), Ok(raw));
                    }
                    Err(refusal) => {
                        assert!(!held);
                        assert_eq!(refusal, Refusal::Limits);
                    }
                }
            }
        }
        assert_eq!(bytes(i64::MIN, 3, true), Err(Refusal::Form));
        assert_eq!(number(&[], 0, true), Err(Refusal::Form));
        assert_eq!(number(&[1], 2, true), Err(Refusal::Limits));
    }

    #[test]
    fn singles() {
        for raw in [0, 1, -1, 16_777_215, 16_777_216, 4_294_967_040, LEAST] {
            assert_eq!(fits_single(raw), Ok(true));
            assert_eq!(raw as f32 as f64, raw as f64);
        }
        for raw in [16_777_217, 33_554_434, MOST, LEAST + 1] {
            assert_eq!(fits_single(raw), Ok(false));
            assert_ne!(raw as f32 as f64, raw as f64);
        }
        assert_eq!(fits_single(MOST + 1), Err(Refusal::Limits));
        assert_eq!(fits_single(i64::MIN), Err(Refusal::Limits));
    }
}
