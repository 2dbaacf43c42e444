//! Good frames with each byte changed, cut off and inserted, and with each bit of each check value changed. Nothing here is left to chance.

use crate::frames;

/// What a byte is changed to, beside the values that are a bit away: marks, line ends, the neighbours of digits and of fields' characters.
const VALUES: &[u8] = b"$#NE1<;>\r\n/09:@AFG`afg s!~\x7F\xD5\xAA\x96\xC0\x60\x6D\x00\xFF";
/// What is inserted.
const INSERTED: &[u8] = b"$#0F;<\r\n\xD5\xC0\x00";

/// Good frames of the kind, one of every form; all but the fullest Homiq frame are short.
pub fn good(kind: u8) -> Vec<Vec<u8>> {
    match kind {
        1 => vec![
            frames::link(b"\xE1"),
            frames::link(b"\x11\x00\x00"),
            frames::press(b"12AB34"),
            frames::tail(),
        ],
        2 | 3 => vec![
            frames::nest(kind, 0xFF, b""),
            frames::nest(kind, 0x0102, b"\r\n\xD5"),
        ],
        4 => vec![frames::nibe(0x60, b""), frames::nibe(0x69, b"\x64\x00")],
        _ => vec![
            frames::homiq(b"I.3;1;0H;0;42;s"),
            frames::homiq(b"COMMANDS;0123456789ABCDEF;SRC0;DST0;511;a"),
        ],
    }
}

/// The good frames of the kind, and all that is made of them.
pub fn all(kind: u8) -> Vec<Vec<u8>> {
    let frames = good(kind);
    let near = frames.iter().flat_map(|frame| a_byte_away(frame));
    near.chain(a_check_bit_away(kind)).collect()
}

/// The frame, and what has one byte changed, lost or added, or lacks all bytes before a place or from it on.
fn a_byte_away(frame: &[u8]) -> Vec<Vec<u8>> {
    let mut all = vec![frame.to_vec()];
    for at in 0..frame.len() {
        let (before, from) = frame.split_at(at);
        let flipped = (0..8).map(|bit| frame[at] ^ 1 << bit);
        for value in flipped.chain(VALUES.iter().copied()) {
            all.push([before, &[value], &from[1..]].concat());
        }
        all.push(before.to_vec());
        all.push(from.to_vec());
        all.push([before, &from[1..]].concat());
    }
    for at in 0..=frame.len() {
        let (before, from) = frame.split_at(at);
        let with = |value: &u8| [before, &[*value], from].concat();
        all.extend(INSERTED.iter().map(with));
    }
    all
}

/// Frames that are laid out well. The bits of the check values that are bytes are among those of `a_byte_away`.
fn a_check_bit_away(kind: u8) -> Vec<Vec<u8>> {
    match kind {
        1 => (0..16).flat_map(link_a_bit_away).collect(),
        5 => {
            let content = b"I.3;1;0H;0;42;s";
            let crc = frames::homiq_crc(content);
            let with =
                |bit: u32| frames::homiq_with(content, (crc ^ 1 << bit).to_string().as_bytes());
            (0..8).map(with).collect()
        }
        _ => Vec::new(),
    }
}

/// A link whose CRC16 has this bit changed, with the CRC8 that it then has, with the old one, and with another; and one whose CRC8 has a bit
/// changed.
fn link_a_bit_away(bit: u32) -> Vec<Vec<u8>> {
    let digits = b"110000";
    let crc16 = format!("{:04X}", frames::link_crc16(digits) ^ 1 << bit);
    let first = frames::link_with(b"10", digits, crc16.as_bytes());
    let good = frames::link_claiming(b"10", digits);
    let crc8_at = good.len() - 3;
    let both = [&first[..crc8_at], &good[crc8_at..]].concat();
    vec![
        crc8_a_bit_away(&good, bit % 8),
        crc8_a_bit_away(&first, bit % 8),
        first,
        both,
    ]
}

fn crc8_a_bit_away(link: &[u8], bit: u32) -> Vec<u8> {
    let (before, behind) = link.split_at(link.len() - 3);
    let text = std::str::from_utf8(&behind[..2]).unwrap();
    let crc8 = u8::from_str_radix(text, 16).unwrap() ^ 1 << bit;
    [before, format!("{crc8:02X}\r").as_bytes()].concat()
}

#[cfg(test)]
mod tests {
    use super::*;

    #[test]
    fn the_papers_link_and_its_check_values() {
        let all = all(1);
        let has = |bytes: &[u8]| all.iter().any(|one| one == bytes);
        assert!(has(b"$10110000B8CF9D\r"));
        // CRC16 off by a bit, with the old CRC8; CRC8 off by a bit; a byte changed, cut off and inserted.
        assert!(has(b"$10110000B8CE9D\r"));
        assert!(has(b"$10110000B8CF9C\r"));
        assert!(has(b"$10110000B8CF9D\n"));
        assert!(has(b"$10110000B8CF9D"));
        assert!(has(b"$1011000B8CF9D\r"));
        assert!(has(b"$101100000B8CF9D\r"));
    }
}
