//! Document 02, K1: the examples of verdicts, and what is read where the document leaves something open.

use crate::answer;
use crate::checks;
use crate::frames::{self, build, Failed};
use crate::refusal::Refusal;

const ASK: &[u8] = &[0xC0, 0x69, 0x02, 0x64, 0x00, 0x66];
const RESET: &[u8] = &[0xD5, 0xAA, 0x96, 0xFF, 0, 0, 0, 0xA3, 0x4B];
const LINK: &[u8] = b"$10110000B8CF9D\r";
const HOMIQ: &[u8] = b"<;I.3;1;0H;0;42;s;134;>\r\n";

/// What is answered to `frames::why`, without its `ok`.
fn verdict(kind: u8, bytes: &[u8], place: usize) -> String {
    let hex: String = bytes.iter().map(|byte| format!("{byte:02X}")).collect();
    let bytes = if hex.is_empty() { "-" } else { &hex };
    let line = answer(format!("frames::why {kind} {bytes} {place}").as_bytes());
    let text = String::from_utf8(line).expect("an answer is text");
    text.strip_prefix("ok ").unwrap_or(&text).to_string()
}

fn all_are(kind: u8, cases: &[&[u8]], expected: &str) {
    for bytes in cases {
        let shown = bytes.escape_ascii();
        assert_eq!(verdict(kind, bytes, 0), expected, "{shown}");
    }
}

#[test]
fn the_examples() {
    let cases: [(u8, &[u8], &str); 11] = [
        (1, LINK, "none 0 0"),
        (1, b"$10110000B8CE9D\r", "first 47310 47311"),
        (1, b"$10110000B8CF9C\r", "second 156 157"),
        (1, b"$10110000000000\r", "first 0 47311"),
        (1, b"$10110000B8CF9D\n", "fields 0 0"),
        (1, b"$12110000B8CF9D\r", "length 0 0"),
        (1, b"#N4ECB1A", "length 0 0"),
        (1, b"#E", "start 0 0"),
        (
            2,
            b"\xD5\xAA\x96\x82\x00\x02\x00\x00\x00\xB2\x08",
            "first 2226 45576",
        ),
        (4, b"\xC0\x06\x00\x01", "fields 0 0"),
        (5, b"<;I.3;1;0H;0;42;s;143;>\r", "fields 0 0"),
    ];
    for (kind, bytes, expected) in cases {
        let shown = bytes.escape_ascii();
        assert_eq!(verdict(kind, bytes, 0), expected, "{shown}");
    }
}

#[test]
fn without_the_whole_mark_it_is_start() {
    all_are(
        1,
        &[b"", b"#", b"#E", b"#E2\r", b"#n123456\r", b"%0C", b"#$0C"],
        "start 0 0",
    );
    all_are(
        2,
        &[b"", b"\xD5", b"\xD5\xAA", b"\xD5\xAA\x97"],
        "start 0 0",
    );
    all_are(2, &[b"\xD5\xD5\xAA\x96\xFF\0\0\0\xA3\x4B"], "start 0 0");
    all_are(3, &[b"\xD5\xD5\xAA", b"\xD5\xAA\x96"], "start 0 0");
    all_are(4, &[b"", b"\xC1\x69\x00\x00", b"\x69\xC0"], "start 0 0");
    all_are(5, &[b"", b"<", b"<,I.3", b";<;"], "start 0 0");
}

#[test]
fn too_few_bytes_and_a_length_that_is_not_allowed() {
    all_are(1, &[b"$", b"$1", b"$0C", b"$10110000B8CF9D"], "length 0 0");
    // Not of two digits, odd, too small: before anything behind it is looked at.
    all_are(
        1,
        &[b"$1G", b"$0c11FFFFFF00\r", b"$0D", b"$0A", b"$00", b"$FF"],
        "length 0 0",
    );
    // A press or a tail that is cut short; what is there need not be digits.
    all_are(
        1,
        &[b"#N", b"#Nxyz", b"#N12AB34", b"#N12AB3\r", b"#E1"],
        "length 0 0",
    );
    all_are(2, &[b"\xD5\xAA\x96", &RESET[..8]], "length 0 0");
    let over = [&[0xD5, 0xAA, 0x96, 0xFF, 0, 0x01, 0x04], &[0; 1027][..]].concat();
    all_are(2, &[&over], "length 0 0");
    all_are(
        4,
        &[&ASK[..1], &ASK[..2], &ASK[..3], &ASK[..5]],
        "length 0 0",
    );
    // A command that is not listed, and too few bytes: the length goes first.
    all_are(4, &[b"\xC0\x06", b"\xC0\x06\x01\x00"], "length 0 0");
}

#[test]
fn digits_fields_and_what_stands_around_them() {
    all_are(
        1,
        &[
            b"$10g10000B8CF9D\r",
            b"$10110000b8cf9d\r",
            b"$10110000B8CF9d\r",
            b"$1011000/B8CF9D\r",
        ],
        "fields 0 0",
    );
    all_are(
        1,
        &[b"#N12ab34\r", b"#N12AB34\n", b"#N\r#E1\r$10", b"#E1\n"],
        "fields 0 0",
    );
    all_are(4, &[b"\xC0\x61\x00\x00", b"\xC0\x61\x00\x01"], "fields 0 0");
    // Homiq has no test of the length: every cut frame that has the mark.
    for length in 2..HOMIQ.len() {
        assert_eq!(verdict(5, &HOMIQ[..length], 0), "fields 0 0", "{length}");
    }
    all_are(
        5,
        &[
            b"<;I.3;1;0H;0;42;s;0134;>\r\n",
            b"<;I.3;1;0H;0;42;s;007;>\r\n",
            b"<;I.3;1;0H;0;42;s;256;>\r\n",
            b"<;I.3;1;0H;0;42;s;390;>\r\n",
            b"<;HB;1;0H;0;00;s;250;>\r\n",
            b"<;HB;1;0H;0;512;s;101;>\r\n",
            b"<;I.3;1;0H;0;42;s;134;>\n\n",
        ],
        "fields 0 0",
    );
}

#[test]
fn the_checks() {
    // Found is what stands there, expected what is worked out.
    all_are(5, &[b"<;I.3;1;0H;0;42;s;143;>\r\n"], "first 143 134");
    all_are(4, &[b"\xC0\x69\x02\x64\x00\x67"], "first 103 102");
    all_are(
        3,
        &[b"\xD5\xD5\xAA\x96\xFF\0\0\0\x4B\xA3"],
        "first 41803 19363",
    );
    // Both checks are wrong: the first alone. CRC8 is that of the characters as they stand.
    all_are(1, &[b"$10110000B8CE00\r"], "first 47310 47311");
    let characters = b"$10110000B8CE";
    let crc8 = checks::NIKOBUS_CRC8.of(characters);
    let frame = format!("$10110000B8CE{crc8:02X}\r").into_bytes();
    all_are(1, &[&frame], "first 47310 47311");
}

#[test]
fn places_and_refusals() {
    let capture = [b"$", LINK, b"#N12AB34\r#E"].concat();
    assert_eq!(verdict(1, &capture, 0), "length 0 0");
    assert_eq!(verdict(1, &capture, 1), "none 0 0");
    assert_eq!(verdict(1, &capture, 2), "start 0 0");
    assert_eq!(verdict(1, &capture, 17), "none 0 0");
    assert_eq!(verdict(1, &capture, 26), "start 0 0");
    // The place equal to the length, and beyond it.
    assert_eq!(verdict(1, &capture, capture.len()), "start 0 0");
    assert_eq!(verdict(1, &capture, capture.len() + 1), "refused 3");
    assert_eq!(verdict(1, b"", 0), "start 0 0");
    assert_eq!(verdict(1, &capture, usize::MAX), "refused 3");
    for kind in [0, 6, 7, 255] {
        assert_eq!(verdict(kind, &capture, 1), "refused 2");
        assert_eq!(verdict(kind, &capture, 999), "refused 2");
    }
}

#[test]
fn a_frame_at_the_head_has_six_values() {
    let cases = [
        ("layouts::nikobus::frame 2345310D", "ok 4 4 4 none 0 0"),
        ("layouts::nikobus::frame 2345", "ok 0 0 0 start 0 0"),
        (
            "layouts::nibe::frame C06902640067",
            "ok 0 0 0 first 103 102",
        ),
        (
            "layouts::nest::frame command D5AA96FF000000A34B",
            "ok 9 7 7 none 0 0",
        ),
        ("layouts::homiq::frame 3C3B", "ok 0 0 0 fields 0 0"),
    ];
    for (request, expected) in cases {
        let given = answer(request.as_bytes());
        assert_eq!(String::from_utf8_lossy(&given), expected, "{request}");
    }
}

/// `none` exactly where the search answers that place; values exactly with a failed check, and then they differ. Every value of every byte.
#[test]
fn none_is_a_frame_and_values_differ() {
    let response = build::nest(frames::RESPONSE_PREAMBLE, 1, b"BRK").expect("short");
    let good: [(u8, &[u8]); 7] = [
        (1, LINK),
        (1, b"#N12AB34\r"),
        (1, b"#E1\r"),
        (2, RESET),
        (3, &response),
        (4, ASK),
        (5, HOMIQ),
    ];
    for (kind, frame) in good {
        for at in 0..frame.len() {
            for value in 0..=255 {
                let mut changed = frame.to_vec();
                changed[at] = value;
                judged_as_searched(kind, &changed);
            }
        }
        for length in 0..frame.len() {
            judged_as_searched(kind, &frame[..length]);
        }
    }
}

fn judged_as_searched(kind: u8, bytes: &[u8]) {
    let shown = bytes.escape_ascii();
    let failed = frames::why(kind, bytes, 0).expect("a known kind and place");
    let is_here = frames::search(kind, bytes, 0).is_ok_and(|found| found.start == 0);
    assert_eq!(failed.is_none(), is_here, "{shown}");
    if let Some(Failed::First(values) | Failed::Second(values)) = failed {
        assert_ne!(values.found, values.expected, "{shown}");
    }
    let beyond = frames::why(kind, bytes, bytes.len() as u64 + 1);
    assert_eq!(beyond, Err(Refusal::Place), "{shown}");
}
