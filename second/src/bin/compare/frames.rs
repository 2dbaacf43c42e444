//! Frames laid out from their parts without any test, so that what is no frame can be made too. The check values are worked out here
//! and not asked of the decoder: what is compared is made by neither side.

pub const KINDS: [u8; 5] = [1, 2, 3, 4, 5];

/// Any polynomial check that takes the high bit first.
fn high_first(width: u32, polynomial: u32, start: u32, bytes: &[u8]) -> u32 {
    let mut value = start;
    for place in 0..8 * bytes.len() {
        let bit = u32::from(bytes[place / 8] >> (7 - place % 8) & 1);
        let out = value >> (width - 1) & 1;
        value = (value << 1) & ((1 << width) - 1);
        if bit != out {
            value ^= polynomial;
        }
    }
    value
}

fn low_first(polynomial: u8, bytes: &[u8]) -> u8 {
    let mut value = 0;
    for place in 0..8 * bytes.len() {
        let bit = bytes[place / 8] >> (place % 8) & 1;
        let out = value & 1;
        value >>= 1;
        if bit != out {
            value ^= polynomial;
        }
    }
    value
}

/// The value of a digit of either case; what is none counts as 0.
fn digit_value(character: u8) -> u8 {
    (character as char).to_digit(16).unwrap_or(0) as u8
}

fn bytes_of_digits(digits: &[u8]) -> Vec<u8> {
    digits
        .chunks(2)
        .map(|two| two.iter().fold(0, |value, c| value << 4 | digit_value(*c)))
        .collect()
}

pub fn digits_of(bytes: &[u8]) -> Vec<u8> {
    bytes
        .iter()
        .flat_map(|b| format!("{b:02X}").into_bytes())
        .collect()
}

pub fn link(payload: &[u8]) -> Vec<u8> {
    let digits = digits_of(payload);
    link_claiming(format!("{:02X}", digits.len() + 10).as_bytes(), &digits)
}

/// A link with any characters for its length and its digits, and the check values that they would have.
pub fn link_claiming(length: &[u8], digits: &[u8]) -> Vec<u8> {
    link_with(
        length,
        digits,
        format!("{:04X}", link_crc16(digits)).as_bytes(),
    )
}

pub fn link_crc16(digits: &[u8]) -> u32 {
    high_first(16, 0x1021, 0xFFFF, &bytes_of_digits(digits))
}

/// A link with any characters for its CRC16 too.
pub fn link_with(length: &[u8], digits: &[u8], crc16: &[u8]) -> Vec<u8> {
    let mut frame = [b"$", length, digits, crc16].concat();
    let crc8 = high_first(8, 0x99, 0, &frame);
    frame.extend(format!("{crc8:02X}\r").bytes());
    frame
}

pub fn press(digits: &[u8]) -> Vec<u8> {
    [b"#N", digits, b"\r"].concat()
}

pub fn tail() -> Vec<u8> {
    b"#E1\r".to_vec()
}

pub fn preamble(kind: u8) -> &'static [u8] {
    if kind == 2 {
        b"\xD5\xAA\x96"
    } else {
        b"\xD5\xD5\xAA\x96"
    }
}

pub fn nest(kind: u8, id: u16, payload: &[u8]) -> Vec<u8> {
    nest_claiming(preamble(kind), id, payload.len() as u16, payload)
}

pub fn nest_claiming(preamble: &[u8], id: u16, length: u16, payload: &[u8]) -> Vec<u8> {
    let checked = [&id.to_le_bytes(), &length.to_le_bytes(), payload].concat();
    let crc = high_first(16, 0x1021, 0, &checked) as u16;
    [preamble, &checked, &crc.to_le_bytes()].concat()
}

pub fn nibe(command: u8, data: &[u8]) -> Vec<u8> {
    nibe_claiming(command, data.len() as u8, data)
}

pub fn nibe_claiming(command: u8, length: u8, data: &[u8]) -> Vec<u8> {
    let check = data.iter().fold(length, |value, b| value ^ b);
    [&[0xC0, command, length], data, &[check]].concat()
}

/// Around CMD to TYPE with `;` between.
pub fn homiq(content: &[u8]) -> Vec<u8> {
    homiq_with(content, homiq_crc(content).to_string().as_bytes())
}

pub fn homiq_with(content: &[u8], crc: &[u8]) -> Vec<u8> {
    [b"<;", content, b";", crc, b";>\r\n"].concat()
}

pub fn homiq_crc(content: &[u8]) -> u8 {
    let checked: Vec<u8> = content.iter().copied().filter(|c| *c != b';').collect();
    low_first(0x8C, &checked)
}

#[cfg(test)]
mod tests {
    use super::*;

    /// The known points of document 01.
    #[test]
    fn frames_of_the_paper() {
        assert_eq!(link(b"\x11\x00\x00"), b"$10110000B8CF9D\r");
        assert_eq!(link(b"\x12\x07\x47"), b"$10120747402BFC\r");
        assert_eq!(nest(2, 0xFF, b""), b"\xD5\xAA\x96\xFF\x00\x00\x00\xA3\x4B");
        assert_eq!(nibe(0x69, b"\x44\x9C"), b"\xC0\x69\x02\x44\x9C\xDA");
        assert_eq!(homiq(b"I.3;1;0H;0;42;s"), b"<;I.3;1;0H;0;42;s;134;>\r\n");
    }
}
