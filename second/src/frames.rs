//! The frames of the five kinds: their layouts, the search, and how they are built.

use crate::checks;
use crate::digits;
use crate::refusal::Refusal;

pub const NIKOBUS: u8 = 1;
pub const NEST_COMMAND: u8 = 2;
pub const NEST_RESPONSE: u8 = 3;
pub const NIBE: u8 = 4;
pub const HOMIQ: u8 = 5;

/// Nest's preamble of a kind.
pub const COMMAND_PREAMBLE: &[u8] = &[0xD5, 0xAA, 0x96];
pub const RESPONSE_PREAMBLE: &[u8] = &[0xD5, 0xD5, 0xAA, 0x96];

pub const MOST_LINK_BYTES: usize = 122;
pub const MOST_NEST_PAYLOAD: usize = 1024;
pub const MOST_NIBE_DATA: usize = 255;
/// Document 02, K3: Homiq counts from 0 to this ID, and from there goes on with 0.
pub const LAST_HOMIQ_ID: u16 = 511;
pub const NIBE_COMMANDS: &[u8] = &[0x60, 0x62, 0x68, 0x69, 0x6A, 0x6B, 0x6C];

/// The kinds and the names that requests have for them.
const KIND_NAMES: [(u8, &str); 5] = [
    (NIKOBUS, "nikobus"),
    (NEST_COMMAND, "nest-command"),
    (NEST_RESPONSE, "nest-response"),
    (NIBE, "nibe"),
    (HOMIQ, "homiq"),
];

pub fn known(kind: u8) -> bool {
    (1..=5).contains(&kind)
}

/// The name of a kind: 2.
pub fn kind_name(kind: u8) -> Result<&'static str, Refusal> {
    let found = KIND_NAMES.iter().find(|(number, _)| *number == kind);
    found.map(|(_, name)| *name).ok_or(Refusal::Kind)
}

/// The kind of that name.
pub fn kind_named(name: &[u8]) -> Option<u8> {
    let found = KIND_NAMES.iter().find(|(_, own)| own.as_bytes() == name);
    found.map(|(number, _)| *number)
}

/// A frame at the head of bytes: its length, and where in it its payload begins and ends.
#[derive(Clone, Copy, Debug, PartialEq, Eq)]
pub struct Head {
    pub length: usize,
    pub begins: usize,
    pub ends: usize,
}

/// A frame found in a buffer; all places are places of the buffer.
#[derive(Clone, Copy, Debug, PartialEq, Eq)]
pub struct Found {
    pub start: usize,
    pub length: usize,
    pub begins: usize,
    pub ends: usize,
}

/// The values of a check: the one that stands in the frame, and the one that is worked out.
#[derive(Clone, Copy, Debug, PartialEq, Eq)]
pub struct Compared {
    pub found: u16,
    pub expected: u16,
}

/// The test that bytes fail first, in the order in which document 02 lists the tests (K1).
#[derive(Clone, Copy, Debug, PartialEq, Eq)]
pub enum Failed {
    /// The whole start mark is not there.
    Start,
    /// The length is not there or not allowed, or there are fewer bytes than it says.
    Length,
    /// A field is outside its limits, or what must stand around the fields does not.
    Fields,
    /// The only check, or Nikobus' CRC16.
    First(Compared),
    /// Nikobus' CRC8.
    Second(Compared),
}

impl Compared {
    fn of(found: impl Into<u16>, expected: u16) -> Compared {
        let found = found.into();
        Compared { found, expected }
    }

    /// A check passes if its two values are equal.
    fn agree(self, failed: fn(Compared) -> Failed) -> Result<(), Failed> {
        if self.found == self.expected {
            Ok(())
        } else {
            Err(failed(self))
        }
    }
}

/// The frame of that kind at the bytes' head, or the first test that they fail.
pub fn judge(kind: u8, bytes: &[u8]) -> Result<Head, Failed> {
    match kind {
        NIKOBUS => nikobus(bytes),
        NEST_COMMAND => nest(COMMAND_PREAMBLE, bytes),
        NEST_RESPONSE => nest(RESPONSE_PREAMBLE, bytes),
        NIBE => nibe(bytes),
        HOMIQ => homiq(bytes),
        _ => Err(Failed::Start),
    }
}

/// The frame of that kind at the bytes' head, where there is one.
pub fn head(kind: u8, bytes: &[u8]) -> Option<Head> {
    judge(kind, bytes).ok()
}

/// The first test that a frame of the kind fails at just this place; none if there is a frame: 2, 3.
pub fn why(kind: u8, bytes: &[u8], place: u64) -> Result<Option<Failed>, Refusal> {
    let behind = from_place(kind, bytes, place)?;
    Ok(judge(kind, behind).err())
}

/// The bytes of a known kind from the place on: 2, 3.
fn from_place(kind: u8, bytes: &[u8], place: u64) -> Result<&[u8], Refusal> {
    if !known(kind) {
        return Err(Refusal::Kind);
    }
    let place = usize::try_from(place).map_err(|_| Refusal::Place)?;
    if place > bytes.len() {
        return Err(Refusal::Place);
    }
    Ok(&bytes[place..])
}

/// The frame with the smallest start at or after the place: 2, 3, 1.
pub fn search(kind: u8, bytes: &[u8], place: u64) -> Result<Found, Refusal> {
    let place = bytes.len() - from_place(kind, bytes, place)?.len();
    for start in place..bytes.len() {
        if let Some(frame) = head(kind, &bytes[start..]) {
            return Ok(Found {
                start,
                length: frame.length,
                begins: start + frame.begins,
                ends: start + frame.ends,
            });
        }
    }
    Err(Refusal::NoFrame)
}

/// The bytes as one frame and no byte more: 2, 5.
pub fn one_frame(kind: u8, bytes: &[u8]) -> Result<Head, Refusal> {
    if !known(kind) {
        return Err(Refusal::Kind);
    }
    match head(kind, bytes) {
        Some(frame) if frame.length == bytes.len() => Ok(frame),
        _ => Err(Refusal::Limits),
    }
}

/// Whether a frame of a bus can begin with the first three bytes, as docs/CALLS.md says.
pub mod starts {
    pub fn nikobus(bytes: &[u8]) -> bool {
        matches!(bytes, [b'$' | b'#', 0x30..=0xFF, _, ..])
    }

    /// By the direction's preamble, of which the first three bytes are looked at.
    pub fn nest(preamble: &[u8], bytes: &[u8]) -> bool {
        bytes.starts_with(&preamble[..3])
    }

    pub fn nibe(bytes: &[u8]) -> bool {
        matches!(bytes, [0xC0, 0x60..=0x6F, _, ..])
    }

    pub fn homiq(bytes: &[u8]) -> bool {
        bytes.len() >= 3 && bytes.starts_with(b"<;")
    }
}

/// A Nikobus frame at the head: a link, a press or a tail, by the whole mark.
pub fn nikobus(bytes: &[u8]) -> Result<Head, Failed> {
    if bytes.starts_with(b"$") {
        nikobus_link(bytes)
    } else if bytes.starts_with(b"#N") {
        nikobus_press(bytes)
    } else if bytes.starts_with(b"#E1") {
        nikobus_tail(bytes)
    } else {
        Err(Failed::Start)
    }
}

/// `$`, LL, payload of LL - 10 digits, CRC16, CRC8, CR: LL bytes in all.
fn nikobus_link(bytes: &[u8]) -> Result<Head, Failed> {
    let length = link_length(bytes).ok_or(Failed::Length)?;
    let frame = bytes.get(..length).ok_or(Failed::Length)?;
    let (begins, ends) = (3, length - 7);
    let payload = hex_field(&frame[begins..ends])?;
    let crc16 = hex_field(&frame[ends..ends + 4])?;
    let crc8 = hex_field(&frame[ends + 4..ends + 6])?;
    if frame[ends + 6] != b'\r' {
        return Err(Failed::Fields);
    }
    let found = digits::word(crc16[1], crc16[0]);
    let crc16 = Compared::of(found, checks::NIKOBUS_CRC16.of(&payload));
    let crc8 = Compared::of(crc8[0], checks::NIKOBUS_CRC8.of(&frame[..ends + 4]));
    crc16.agree(Failed::First)?;
    crc8.agree(Failed::Second)?;
    Ok(Head {
        length,
        begins,
        ends,
    })
}

/// LL, if it is two digits and allowed.
fn link_length(bytes: &[u8]) -> Option<usize> {
    let length = usize::from(digits::bytes_of_hex(bytes.get(1..3)?)?[0]);
    if !length.is_multiple_of(2) || !(0x0C..=0xFE).contains(&length) {
        return None;
    }
    Some(length)
}

/// The bytes that a field's digits are.
fn hex_field(characters: &[u8]) -> Result<Vec<u8>, Failed> {
    digits::bytes_of_hex(characters).ok_or(Failed::Fields)
}

/// `#N`, six digits, CR.
fn nikobus_press(bytes: &[u8]) -> Result<Head, Failed> {
    let frame = bytes.get(..9).ok_or(Failed::Length)?;
    if !digits::all_hex(&frame[2..8]) || frame[8] != b'\r' {
        return Err(Failed::Fields);
    }
    Ok(Head {
        length: 9,
        begins: 2,
        ends: 8,
    })
}

/// `#E1`, CR.
fn nikobus_tail(bytes: &[u8]) -> Result<Head, Failed> {
    let frame = bytes.get(..4).ok_or(Failed::Length)?;
    if frame[3] != b'\r' {
        return Err(Failed::Fields);
    }
    Ok(Head {
        length: 4,
        begins: 4,
        ends: 4,
    })
}

/// Preamble, id, length, payload, CRC. Every id and every payload is allowed, so that no field fails.
pub fn nest(preamble: &[u8], bytes: &[u8]) -> Result<Head, Failed> {
    if !bytes.starts_with(preamble) {
        return Err(Failed::Start);
    }
    let checked = &bytes[preamble.len()..];
    let words = checked.get(..4).ok_or(Failed::Length)?;
    let payload = usize::from(digits::word(words[2], words[3]));
    if payload > MOST_NEST_PAYLOAD {
        return Err(Failed::Length);
    }
    let crc = checked.get(4 + payload..4 + payload + 2);
    let crc = crc.ok_or(Failed::Length)?;
    let expected = checks::NEST_CRC.of(&checked[..4 + payload]);
    Compared::of(digits::word(crc[0], crc[1]), expected).agree(Failed::First)?;
    let begins = preamble.len() + 4;
    Ok(Head {
        length: begins + payload + 2,
        begins,
        ends: begins + payload,
    })
}

/// C0, command, length, data, check.
pub fn nibe(bytes: &[u8]) -> Result<Head, Failed> {
    if bytes.first() != Some(&0xC0) {
        return Err(Failed::Start);
    }
    let data = *bytes.get(2).ok_or(Failed::Length)?;
    let ends = 3 + usize::from(data);
    let check = *bytes.get(ends).ok_or(Failed::Length)?;
    if !NIBE_COMMANDS.contains(&bytes[1]) {
        return Err(Failed::Fields);
    }
    // The length and the data are checked, the command is not.
    let expected = checks::NIBE_XOR.of(&bytes[2..ends]);
    Compared::of(check, expected).agree(Failed::First)?;
    Ok(Head {
        length: ends + 1,
        begins: 3,
        ends,
    })
}

/// `<;CMD;VAL;SRC;DST;ID;TYPE;CRC;>` CR LF. It has no test of the length: what is cut short fails at its fields.
pub fn homiq(bytes: &[u8]) -> Result<Head, Failed> {
    if !bytes.starts_with(b"<;") {
        return Err(Failed::Start);
    }
    let (head, found) = homiq_laid_out(bytes).ok_or(Failed::Fields)?;
    let expected = homiq_crc(&bytes[head.begins..head.ends]);
    Compared::of(found, u16::from(expected)).agree(Failed::First)?;
    Ok(head)
}

/// What is laid out behind `<;` as a frame is, its CRC right or not; and the number that stands there for the CRC.
fn homiq_laid_out(bytes: &[u8]) -> Option<(Head, u16)> {
    let begins = 2;
    let ends = begins + homiq_six_fields(&bytes[begins..])?;
    let crc_begins = ends + 1;
    let crc_ends = crc_begins + up_to_separator(bytes.get(crc_begins..)?, 3)?;
    let crc = digits::number_of_decimal(&bytes[crc_begins..crc_ends], 255)?;
    if !bytes[crc_ends..].starts_with(b";>\r\n") {
        return None;
    }
    let head = Head {
        length: crc_ends + 4,
        begins,
        ends,
    };
    Some((head, crc as u16))
}

/// How long CMD to TYPE at the head are, with `;` between and one behind.
fn homiq_six_fields(bytes: &[u8]) -> Option<usize> {
    let mut place = 0;
    for (number, most) in HOMIQ_FIELDS.iter().enumerate() {
        let length = up_to_separator(bytes.get(place..)?, *most)?;
        if !homiq_field(number, &bytes[place..place + length]) {
            return None;
        }
        place += length + 1;
    }
    Some(place - 1)
}

/// The most characters of CMD, VAL, SRC, DST, ID and TYPE.
const HOMIQ_FIELDS: [usize; 6] = [8, 16, 4, 4, 3, 1];

/// How many bytes stand before the first `;`, if they are not over the limit.
fn up_to_separator(bytes: &[u8], most: usize) -> Option<usize> {
    bytes.iter().take(most + 1).position(|c| *c == b';')
}

/// Whether a field is within its limits; 0 is CMD, 5 is TYPE.
fn homiq_field(number: usize, field: &[u8]) -> bool {
    match number {
        0..=3 => {
            (1..=HOMIQ_FIELDS[number]).contains(&field.len())
                && field.iter().all(|c| homiq_character(*c))
        }
        4 => homiq_id(field).is_some(),
        _ => field == b"s" || field == b"a",
    }
}

/// The ID that is written so.
pub fn homiq_id(field: &[u8]) -> Option<u64> {
    digits::number_of_decimal(field, LAST_HOMIQ_ID.into())
}

fn homiq_character(character: u8) -> bool {
    (0x21..=0x7E).contains(&character) && !b";<>".contains(&character)
}

/// The CRC of the fields, joined without the separators.
pub fn homiq_crc(fields: &[u8]) -> u8 {
    let joined: Vec<u8> = fields.iter().copied().filter(|c| *c != b';').collect();
    checks::HOMIQ_CRC.of(&joined) as u8
}

/// Frames from their parts. Each is refused with 5 if a part is outside its limits.
pub mod build {
    use super::*;

    /// The link whose payload are these bytes.
    pub fn link(payload: &[u8]) -> Result<Vec<u8>, Refusal> {
        if !(1..=MOST_LINK_BYTES).contains(&payload.len()) {
            return Err(Refusal::Limits);
        }
        let mut frame = b"$".to_vec();
        frame.extend(digits::hex(&[(2 * payload.len() + 10) as u8]));
        frame.extend(digits::hex(payload));
        let crc16 = checks::NIKOBUS_CRC16.of(payload);
        frame.extend(digits::hex(&crc16.to_be_bytes()));
        let crc8 = checks::NIKOBUS_CRC8.of(&frame);
        frame.extend(digits::hex(&[crc8 as u8]));
        frame.push(b'\r');
        Ok(frame)
    }

    /// The press of six hex digits.
    pub fn press(six: &[u8]) -> Result<Vec<u8>, Refusal> {
        if six.len() != 6 || digits::bytes_of_hex(six).is_none() {
            return Err(Refusal::Limits);
        }
        Ok([b"#N", six, b"\r"].concat())
    }

    pub fn tail() -> Vec<u8> {
        b"#E1\r".to_vec()
    }

    /// A Nest frame; the preamble says the direction.
    pub fn nest(preamble: &[u8], id: u16, payload: &[u8]) -> Result<Vec<u8>, Refusal> {
        if payload.len() > MOST_NEST_PAYLOAD {
            return Err(Refusal::Limits);
        }
        let length = payload.len() as u16;
        let checked = [&id.to_le_bytes(), &length.to_le_bytes(), payload].concat();
        let crc = checks::NEST_CRC.of(&checked).to_le_bytes();
        Ok([preamble, &checked, &crc].concat())
    }

    pub fn nibe(command: u8, data: &[u8]) -> Result<Vec<u8>, Refusal> {
        if !NIBE_COMMANDS.contains(&command) || data.len() > MOST_NIBE_DATA {
            return Err(Refusal::Limits);
        }
        let checked = [&[data.len() as u8], data].concat();
        let check = checks::NIBE_XOR.of(&checked) as u8;
        Ok([&[0xC0, command], &checked[..], &[check]].concat())
    }

    /// The Homiq frame around CMD to TYPE.
    pub fn homiq(fields: &[u8]) -> Result<Vec<u8>, Refusal> {
        if !homiq_content(fields) {
            return Err(Refusal::Limits);
        }
        let crc = digits::decimal(u64::from(homiq_crc(fields)));
        Ok([b"<;", fields, b";", &crc, b";>\r\n"].concat())
    }
}

/// Whether the bytes are six fields within their limits, with `;` between.
pub fn homiq_content(bytes: &[u8]) -> bool {
    let fields: Vec<&[u8]> = bytes.split(|c| *c == b';').collect();
    fields.len() == HOMIQ_FIELDS.len()
        && (0..fields.len()).all(|number| homiq_field(number, fields[number]))
}
