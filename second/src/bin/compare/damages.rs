//! What a line brings beside good frames: a function for each sort, all of which give bytes that may or may not have frames in them.
//! Whether they have is for the two sides to say.

use crate::contents::{self, COMMANDS, HEX};
use crate::frames;
use crate::random::Random;

/// A good frame with up to three bits flipped.
pub fn flipped(kind: u8, random: &mut Random) -> Vec<u8> {
    let mut frame = contents::frame(kind, random);
    for _ in 0..random.from_to(1, 3) {
        let bit = random.below(8 * frame.len());
        frame[bit / 8] ^= 1 << (bit % 8);
    }
    frame
}

/// A good frame without its head, its end, or a part of its middle.
pub fn cut(kind: u8, random: &mut Random) -> Vec<u8> {
    let frame = contents::frame(kind, random);
    let from = random.below(frame.len());
    match random.below(3) {
        0 => frame[from..].to_vec(),
        1 => frame[..from].to_vec(),
        _ => {
            let to = random.from_to(from, frame.len());
            [&frame[..from], &frame[to..]].concat()
        }
    }
}

/// The start of a frame whose claimed length reaches over the good frames behind it, or a frame, right or wrong, around a good one.
pub fn false_start(kind: u8, random: &mut Random) -> Vec<u8> {
    let good = contents::frame(kind, random);
    if random.one_in(2) {
        return around(kind, &good, random);
    }
    let mut bytes = [head(kind, good.len(), random), good].concat();
    for _ in 0..random.below(3) {
        bytes.extend(contents::frame(kind, random));
    }
    if random.one_in(3) {
        let more = random.below(300);
        bytes.extend(random.bytes(more));
    }
    bytes
}

/// A frame's first bytes, which claim as many bytes as follow, or a few more, or other lengths.
fn head(kind: u8, follow: usize, random: &mut Random) -> Vec<u8> {
    let claimed = follow + random.below(8);
    match kind {
        1 => nikobus_head(claimed, random),
        2 | 3 => {
            let preamble = frames::preamble(random.pick(&[2, 3]));
            let id = contents::nest_id(random).to_le_bytes();
            let claims = random.pick(&[claimed, 1024, 1025, 0, 0xFFFF]) as u16;
            some_of([preamble, &id, &claims.to_le_bytes()].concat(), random)
        }
        4 => {
            let claims = random.pick(&[claimed as u8, 0, 0xFF, 2]);
            some_of(vec![0xC0, random.pick(&COMMANDS), claims], random)
        }
        _ => {
            let mut start = some_of(frames::homiq(&contents::homiq(random)), random);
            start.pop();
            start
        }
    }
}

fn nikobus_head(claimed: usize, random: &mut Random) -> Vec<u8> {
    match random.below(4) {
        0 => b"$".to_vec(),
        1 => b"#N".to_vec(),
        2 => b"#N12".to_vec(),
        _ => {
            let claims = random.pick(&[0x0C, 0x10, 0x20, 0xFE, claimed.min(0xFE) & !1]);
            format!("${claims:02X}").into_bytes()
        }
    }
}

/// At least the first byte, at most all.
fn some_of(mut bytes: Vec<u8>, random: &mut Random) -> Vec<u8> {
    bytes.truncate(random.from_to(1, bytes.len()));
    bytes
}

/// A frame of the kind around the good one, with a right or a wrong check; if a kind's payload holds no frame, a start before it.
fn around(kind: u8, good: &[u8], random: &mut Random) -> Vec<u8> {
    let payload = [random.bytes(2), good.to_vec(), random.bytes(1)].concat();
    let mut frame = match kind {
        1 => [b"$0E1234", good].concat(),
        2 | 3 if payload.len() <= 1024 => frames::nest(kind, contents::nest_id(random), &payload),
        4 if payload.len() <= 255 => frames::nibe(random.pick(&COMMANDS), &payload),
        _ => [b"<;I.0;1;", good].concat(),
    };
    if random.one_in(2) {
        let last = frame.len() - 1;
        frame[last] ^= 1 << random.below(8);
    }
    frame
}

/// A good frame of another kind.
pub fn other_kind(kind: u8, random: &mut Random) -> Vec<u8> {
    let other = (kind + random.from_to(1, 4) as u8 - 1) % 5 + 1;
    contents::frame(other, random)
}

/// A frame that has passed a port which changes line ends.
pub fn line_ends(kind: u8, random: &mut Random) -> Vec<u8> {
    let frame = match kind {
        2 | 3 => frames::nest(
            kind,
            random.pick(&[0x0D, 0x0A, 0x0018]),
            &random.bytes_of(b"\r\nab", 5),
        ),
        4 => frames::nibe(0x68, &random.bytes_of(b"\r\nab", 5)),
        _ => contents::frame(kind, random),
    };
    let changes: [(&[u8], &[u8]); 7] = [
        (b"\r", b"\n"),
        (b"\r", b"\n"),
        (b"\r\n", b"\n"),
        (b"\r\n", b"\r"),
        (b"\r", b"\r\n"),
        (b"\n", b"\r\n"),
        (b"\r\n", b"\n\r"),
    ];
    let (from, to) = random.pick(&changes);
    replaced(&frame, from, to)
}

fn replaced(bytes: &[u8], from: &[u8], to: &[u8]) -> Vec<u8> {
    let mut out = Vec::new();
    let mut rest = bytes;
    while !rest.is_empty() {
        if rest.starts_with(from) {
            out.extend(to);
            rest = &rest[from.len()..];
        } else {
            out.push(rest[0]);
            rest = &rest[1..];
        }
    }
    out
}

/// A frame with letters of the other case. Nikobus' check values are those of the characters as they then stand.
pub fn changed_case(kind: u8, random: &mut Random) -> Vec<u8> {
    if kind != 1 {
        let mut frame = contents::frame(kind, random);
        for _ in 0..random.from_to(1, 4) {
            let at = random.below(frame.len());
            frame[at] = other_case(frame[at]);
        }
        return frame;
    }
    let payload = [
        random.bytes_of(&[0xAB, 0xCD, 0xEF, 0x5A], 1),
        contents::link(random),
    ]
    .concat();
    let mut digits = frames::digits_of(&payload[..payload.len().min(122)]);
    let mut length = format!("{:02X}", digits.len() + 10).into_bytes();
    let mut crc16 = format!("{:04X}", frames::link_crc16(&digits)).into_bytes();
    match random.below(6) {
        0 => return frames::press(&random.bytes_of(b"0123456789ABCDEFabcdef", 6)),
        1 => length.make_ascii_lowercase(),
        2 => crc16.make_ascii_lowercase(),
        3 => {
            let at = random.below(digits.len());
            digits[at] = other_case(digits[at]);
        }
        4 => digits.make_ascii_lowercase(),
        _ => return frames::link_with(&length, &digits, &crc16).to_ascii_lowercase(),
    }
    frames::link_with(&length, &digits, &crc16)
}

fn other_case(c: u8) -> u8 {
    if c.is_ascii_alphabetic() {
        c ^ 0x20
    } else {
        c
    }
}

/// A frame whose check values, id or length stand in the wrong order, or cover too much or too little.
pub fn wrong_order(kind: u8, random: &mut Random) -> Vec<u8> {
    match kind {
        1 => nikobus_wrong_order(random),
        2 | 3 => nest_wrong_order(kind, random),
        4 => nibe_wrong_check(random),
        _ => homiq_wrong_check(random),
    }
}

fn nikobus_wrong_order(random: &mut Random) -> Vec<u8> {
    let digits = frames::digits_of(&contents::link(random));
    let length = format!("{:02X}", digits.len() + 10).into_bytes();
    let mut frame = frames::link_claiming(&length, &digits);
    let crc16_at = frame.len() - 7;
    match random.below(3) {
        0 => frame[crc16_at..crc16_at + 4].rotate_left(2),
        1 => frame[crc16_at + 4..crc16_at + 6].reverse(),
        _ => {
            let crc16 = format!("{:04X}", (frames::link_crc16(&digits) as u16).swap_bytes());
            frame = frames::link_with(&length, &digits, crc16.as_bytes());
        }
    }
    frame
}

fn nest_wrong_order(kind: u8, random: &mut Random) -> Vec<u8> {
    let id = contents::nest_id(random);
    let payload = contents::nest_payload(id, random);
    let length = payload.len() as u16;
    match random.below(4) {
        0 => frames::nest_claiming(frames::preamble(kind), id, length.swap_bytes(), &payload),
        1 => frames::nest(kind, id.swap_bytes(), &payload),
        _ => {
            let mut frame = frames::nest(kind, id, &payload);
            let end = frame.len();
            frame[end - 2..].reverse();
            frame
        }
    }
}

/// Checks that begin at C0, at the command, or at the data.
fn nibe_wrong_check(random: &mut Random) -> Vec<u8> {
    let command = random.pick(&COMMANDS);
    let mut frame = frames::nibe(command, &contents::nibe_data(command, random));
    let last = frame.len() - 1;
    frame[last] ^= match random.below(4) {
        0 => 0xC0 ^ command,
        1 => command,
        2 => frame[2],
        _ => 0xC0,
    };
    frame
}

/// CRCs with leading zeros, too large, in hex, over the separators too, or of the neighbouring value.
fn homiq_wrong_check(random: &mut Random) -> Vec<u8> {
    let content = contents::homiq(random);
    let crc = u32::from(frames::homiq_crc(&content));
    let text = match random.below(6) {
        0 => format!("0{crc}"),
        1 => format!("{:03}", crc),
        2 => format!("{}", crc + 256),
        3 => format!("{crc:X}"),
        4 => format!("{}", crc ^ 1),
        _ => format!("+{crc}"),
    };
    frames::homiq_with(&content, text.as_bytes())
}

/// Lengths and fields at their limits and just beyond, with right check values.
pub fn limits(kind: u8, random: &mut Random) -> Vec<u8> {
    match kind {
        1 => {
            let count = random.pick(&[0, 1, 2, 3, 4, 242, 243, 244, 245, 246]);
            let digits = random.bytes_of(HEX, count);
            let claims = random.pick(&[
                count + 10,
                count + 10,
                count + 10,
                0x0A,
                0x0C,
                0x0D,
                0xFE,
                0xFF,
                0x00,
            ]);
            frames::link_claiming(format!("{:02X}", claims as u8).as_bytes(), &digits)
        }
        2 | 3 => {
            let count = random.pick(&[0, 1, 255, 256, 1023, 1024, 1025, 1026, 2048]);
            frames::nest(kind, contents::nest_id(random), &random.bytes(count))
        }
        4 => {
            let count = random.pick(&[0, 1, 2, 127, 128, 254, 255]);
            let claims = if random.one_in(4) {
                random.byte()
            } else {
                count as u8
            };
            frames::nibe_claiming(random.pick(&COMMANDS), claims, &random.bytes(count))
        }
        _ => frames::homiq(&homiq_limits(random)),
    }
}

/// CMD to TYPE with one or two fields at a limit or beyond.
pub fn homiq_limits(random: &mut Random) -> Vec<u8> {
    let mut fields: Vec<Vec<u8>> = contents::homiq(random)
        .split(|c| *c == b';')
        .map(<[u8]>::to_vec)
        .collect();
    for _ in 0..random.from_to(1, 2) {
        let at = random.below(6);
        fields[at] = match at {
            4 => homiq_number(random),
            5 => random
                .pick(&[b"s" as &[u8], b"a", b"S", b"x", b"", b"ss"])
                .to_vec(),
            _ => {
                let most = [8, 16, 4, 4][at];
                let count = random.pick(&[0, 1, most, most + 1]);
                random.bytes_of(b"!09:=?AZaz~", count)
            }
        };
    }
    fields.join(&b';')
}

fn homiq_number(random: &mut Random) -> Vec<u8> {
    let texts = [
        "0",
        "00",
        "000",
        "1",
        "511",
        "512",
        "0511",
        "01",
        "",
        "-1",
        "+1",
        "513",
        "999",
        "1000",
        "4294967297",
        "18446744073709551617",
        "1a",
    ];
    random.pick(&texts).into()
}

/// Wrong layouts with the check values that they would have.
pub fn wrong_layout(kind: u8, random: &mut Random) -> Vec<u8> {
    match kind {
        1 => nikobus_wrong_layout(random),
        2 | 3 => {
            let preambles: [&[u8]; 8] = [
                b"\xD5\xAA",
                b"\xAA\x96",
                b"\xD5\xD5\xD5\xAA\x96",
                b"\xD5\xAA\x97",
                b"\xD5\xD5\x96",
                b"\xD5\xAA\xAA\x96",
                frames::preamble(5 - kind),
                b"\xD5\xD5\xAA\x69",
            ];
            let id = contents::nest_id(random);
            let payload = contents::nest_payload(id, random);
            let claims = payload.len() as u16 + random.pick(&[0, 0, 1, 0xFFFF_u16]);
            frames::nest_claiming(random.pick(&preambles), id, claims, &payload)
        }
        4 => {
            let command = random.pick(&[0x00, 0x5F, 0x61, 0x63, 0x67, 0x6D, 0xE9, 0xFF]);
            let mut frame = frames::nibe(command, &contents::nibe_data(0x69, random));
            if random.one_in(2) {
                frame[1] = random.pick(&COMMANDS);
                frame[0] = random.pick(&[0xC1, 0xBF, 0x40, 0x5C]);
            }
            frame
        }
        _ => homiq_wrong_layout(random),
    }
}

fn nikobus_wrong_layout(random: &mut Random) -> Vec<u8> {
    let digits = frames::digits_of(&contents::link(random));
    let length = format!("{:02X}", digits.len() + 10);
    match random.below(8) {
        0 => {
            let count = random.pick(&[0, 5, 7]);
            frames::press(&random.bytes_of(HEX, count))
        }
        1 => frames::press(&random.bytes_of(b"0123456789ABCDEFGg:@/ ", 6)),
        2 => random
            .pick(&[
                b"#E0\r" as &[u8],
                b"#E2\r",
                b"#E11\r",
                b"#E\r",
                b"#e1\r",
                b"#E1\n",
                b"E1\r",
            ])
            .to_vec(),
        3 => random
            .pick(&[
                b"#n123456\r" as &[u8],
                b"#M123456\r",
                b"N123456\r",
                b"#N123456",
                b"#N123456\n",
            ])
            .to_vec(),
        4 => frames::link_claiming(
            format!("{:02X}", digits.len() + random.pick(&[8, 9, 11, 12])).as_bytes(),
            &digits,
        ),
        5 => {
            let mut wrong = digits;
            let at = random.below(wrong.len());
            wrong[at] = random.pick(b"G@/:` g");
            frames::link_claiming(length.as_bytes(), &wrong)
        }
        6 => {
            let mut frame = frames::link_claiming(length.as_bytes(), &digits);
            let last = frame.len() - 1;
            frame[last] = random.pick(b"\n\x0C\x0E\x00\x8D");
            frame
        }
        _ => {
            let mut frame = frames::link_claiming(length.as_bytes(), &digits);
            frame[0] = random.pick(b"#%S\xA4");
            frame
        }
    }
}

fn homiq_wrong_layout(random: &mut Random) -> Vec<u8> {
    let content = contents::homiq(random);
    let good = frames::homiq(&content);
    match random.below(7) {
        0 => {
            let mut wrong = content;
            let at = random.below(wrong.len());
            wrong[at] = random.pick(b" \x7F<>;\x00\x80\xFF\t");
            frames::homiq(&wrong)
        }
        1 => frames::homiq(&[&content as &[u8], b"s"].join(&b';')),
        2 => frames::homiq(&content[..content.len() - 2]),
        3 => frames::homiq(&[b";", &content as &[u8]].concat()),
        4 => replaced(&good, b";>", b">"),
        5 => replaced(&good, b"<;", b"<"),
        _ => replaced(
            &good,
            b"\r\n",
            random.pick(&[b"\n" as &[u8], b"\r", b"\n\r", b"", b"\r\r\n", b" \r\n"]),
        ),
    }
}

/// Bytes without any order, of all bytes or of those that frames are made of.
pub fn noise(kind: u8, random: &mut Random) -> Vec<u8> {
    let count = if random.one_in(20) {
        random.from_to(500, 3000)
    } else {
        random.from_to(1, 60)
    };
    let alphabet: &[u8] = match kind {
        1 => b"$#NE1\r0123456789ABCDEFabcdef\n",
        2 | 3 => b"\xD5\xAA\x96\x00\x01\x02",
        4 => b"\xC0\x69\x6A\x02\x00\x01\x68\x6B",
        _ => b"<;>01sa\r\nIO.UDHB",
    };
    if random.one_in(3) {
        random.bytes(count)
    } else {
        random.bytes_of(alphabet, count)
    }
}
