//! The listing program: what it prints for its standard input.

use crate::frames;
use crate::lines::{self, Value};
use crate::refusal::Refusal;
use crate::sheet::{self, Lookup};

/// A digit, LF and the capture, in all.
pub const MOST_INPUT: usize = 65_536;

/// A line a frame, and a last line with the frames and the bytes in no frame.
pub fn listing(input: &[u8], by: Option<&dyn Lookup>) -> Vec<u8> {
    match capture(input) {
        Ok((kind, capture)) => of_capture(kind, capture, by),
        Err(refusal) => refused(refusal),
    }
}

/// The same with the text of a sheet. A bad one is refused after document 01's two.
pub fn listing_with(input: &[u8], text: &[u8]) -> Vec<u8> {
    match capture(input).and_then(|capture| Ok((capture, sheet::open(text)?))) {
        Ok(((kind, capture), sheet)) => of_capture(kind, capture, Some(&sheet)),
        Err(refusal) => refused(refusal),
    }
}

/// The kind and the capture of an input: 2, 5.
fn capture(input: &[u8]) -> Result<(u8, &[u8]), Refusal> {
    let kind = match input {
        [digit, b'\n', ..] if frames::known(digit.wrapping_sub(b'0')) => digit - b'0',
        _ => return Err(Refusal::Kind),
    };
    if input.len() > MOST_INPUT {
        return Err(Refusal::Limits);
    }
    Ok((kind, &input[2..]))
}

fn of_capture(kind: u8, capture: &[u8], by: Option<&dyn Lookup>) -> Vec<u8> {
    let mut lines = Vec::new();
    let (mut place, mut count, mut framed) = (0, 0, 0);
    while let Ok((found, line)) = lines::next(kind, capture, place as u64, by) {
        lines.extend(line);
        place = found.start + found.length;
        count += 1;
        framed += found.length;
    }
    lines.extend(lines::object(&[
        ("frames", Value::Whole(count)),
        ("skipped", Value::Whole((capture.len() - framed) as u64)),
    ]));
    lines
}

fn refused(refusal: Refusal) -> Vec<u8> {
    lines::object(&[("refused", Value::Whole(u64::from(refusal.number())))])
}

#[cfg(test)]
mod tests {
    use super::*;
    use crate::frames::build;

    fn counts(frames: usize, skipped: usize) -> String {
        format!("{{\"frames\":{frames},\"skipped\":{skipped}}}")
    }

    fn last_line(input: &[u8]) -> String {
        let text = String::from_utf8(listing(input, None)).expect("a listing is text");
        text.lines().last().unwrap_or("").to_string()
    }

    /// A false start that claims more bytes than the good frame behind it has.
    #[test]
    fn a_false_start_swallows_nothing() {
        let input = b"2\n\xD5\xAA\x96\x00\x00\x09\x00\xD5\xAA\x96\xFF\x00\x00\x00\xA3\x4B00";
        assert_eq!(last_line(input), counts(1, 9));
        let input = b"1\n$1E15$10110000B8CF9D\r000000000000000000";
        assert_eq!(last_line(input), counts(1, 23));
        let input = b"5\n<;O.3;1;<;I.3;1;0H;0;42;s;134;>\r\n";
        assert_eq!(last_line(input), counts(1, 8));
        let input = b"3\n\xD5\xD5\xD5\xAA\x96\x2F\x00\x00\x00\xA0\xE3";
        assert_eq!(last_line(input), counts(1, 1));
    }

    /// 0D changed to 0A on input.
    #[test]
    fn a_changed_byte_is_no_frame() {
        let frame = build::nest(&[0xD5, 0xD5, 0xAA, 0x96], 0x18, b"a\rb").expect("a frame");
        let input = [b"3\n", &frame[..]].concat();
        assert_eq!(last_line(&input), counts(1, 0));
        let changed: Vec<u8> = input
            .iter()
            .map(|byte| if *byte == 0x0D { 0x0A } else { *byte })
            .collect();
        assert_eq!(last_line(&changed), counts(0, frame.len()));
        assert_eq!(last_line(b"1\n#E1\r#E1\n"), counts(1, 4));
    }

    #[test]
    fn lower_case_hex_is_no_frame() {
        assert_eq!(last_line(b"1\n$10110000b8cf9d\r"), counts(0, 16));
        assert_eq!(last_line(b"1\n#N4ecb1a\r"), counts(0, 9));
    }

    /// A frame inside another one is not found again.
    #[test]
    fn the_next_search_begins_at_the_end() {
        let inner = build::nibe(0x62, &[]).expect("a frame");
        let outer = build::nibe(0x68, &inner).expect("a frame");
        let input = [b"4\n", &outer[..], &inner, &inner].concat();
        assert_eq!(last_line(&input), counts(3, 0));
    }
}
