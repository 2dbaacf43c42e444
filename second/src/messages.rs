//! The message table: decoder and encoder.

use crate::digits;
use crate::frames::{self, build, Head};
use crate::numbers;
use crate::refusal::Refusal;

/// A message. Bytes of free length are no fields of it: they stand beside it as its content.
#[derive(Clone, Debug, PartialEq, Eq)]
pub enum Message {
    Read {
        group: u8,
        address: u16,
    },
    Set {
        group: u8,
        address: u16,
        values: [u8; 6],
    },
    Answer {
        address: u16,
        third: u8,
        values: [u8; 6],
    },
    Press {
        digits: [u8; 6],
    },
    Tail,
    Link,
    Command {
        id: u16,
    },
    Climate {
        temperature: i16,
        humidity: u16,
    },
    State,
    Break,
    End,
    Text {
        id: u16,
    },
    Response {
        id: u16,
    },
    Ask {
        register: u16,
    },
    Reply {
        register: u16,
        width: u8,
        value: u32,
    },
    Put {
        register: u16,
        width: u8,
        value: u32,
    },
    Done {
        ok: bool,
    },
    Nibe {
        command: u8,
    },
    Output,
    Input,
    Shutter,
    Beat,
    Homiq,
}

/// What a frame says beside its payload. The two together are its content, with the digits of a link or a press as the payload.
#[derive(Clone, Copy, Debug, PartialEq, Eq)]
pub enum Tag {
    Link,
    Press,
    Tail,
    Command { id: u16 },
    Response { id: u16 },
    Nibe { command: u8 },
    Homiq,
}

const CLIMATE_ID: u16 = 0x0002;
const STATE_ID: u16 = 0x000B;
const BREAK_ID: u16 = 0x0001;
const END_ID: u16 = 0x002F;
const TEXT_IDS: [u16; 3] = [0x0001, 0x0018, 0x0019];
const BREAK: &[u8] = b"BRK";
const LEAST_STATE: usize = 16;

impl Message {
    pub fn name(&self) -> &'static str {
        match self {
            Message::Read { .. } => "read",
            Message::Set { .. } => "set",
            Message::Answer { .. } => "answer",
            Message::Press { .. } => "press",
            Message::Tail => "tail",
            Message::Link => "link",
            Message::Command { .. } => "command",
            Message::Climate { .. } => "climate",
            Message::State => "state",
            Message::Break => "break",
            Message::End => "end",
            Message::Text { .. } => "text",
            Message::Response { .. } => "response",
            Message::Ask { .. } => "ask",
            Message::Reply { .. } => "reply",
            Message::Put { .. } => "put",
            Message::Done { .. } => "done",
            Message::Nibe { .. } => "nibe",
            Message::Output => "output",
            Message::Input => "input",
            Message::Shutter => "shutter",
            Message::Beat => "beat",
            Message::Homiq => "homiq",
        }
    }

    /// The kind whose message it is.
    pub fn kind(&self) -> u8 {
        match self {
            Message::Read { .. }
            | Message::Set { .. }
            | Message::Answer { .. }
            | Message::Press { .. }
            | Message::Tail
            | Message::Link => frames::NIKOBUS,
            Message::Command { .. } => frames::NEST_COMMAND,
            Message::Climate { .. }
            | Message::State
            | Message::Break
            | Message::End
            | Message::Text { .. }
            | Message::Response { .. } => frames::NEST_RESPONSE,
            Message::Ask { .. }
            | Message::Reply { .. }
            | Message::Put { .. }
            | Message::Done { .. }
            | Message::Nibe { .. } => frames::NIBE,
            Message::Output
            | Message::Input
            | Message::Shutter
            | Message::Beat
            | Message::Homiq => frames::HOMIQ,
        }
    }
}

/// The message of one frame, and the frame's head: 2, 5.
pub fn decode(kind: u8, frame: &[u8]) -> Result<(Message, Head), Refusal> {
    let head = frames::one_frame(kind, frame)?;
    let payload = &frame[head.begins..head.ends];
    let message = match kind {
        frames::NIKOBUS => nikobus_message(frame, payload)?,
        frames::NEST_COMMAND => Message::Command {
            id: nest_id(frame, frames::COMMAND_PREAMBLE),
        },
        frames::NEST_RESPONSE => {
            response_message(nest_id(frame, frames::RESPONSE_PREAMBLE), payload)
        }
        frames::NIBE => nibe_message(frame[1], payload),
        _ => homiq_message(payload),
    };
    Ok((message, head))
}

fn nest_id(frame: &[u8], preamble: &[u8]) -> u16 {
    digits::word(frame[preamble.len()], frame[preamble.len() + 1])
}

fn nikobus_message(frame: &[u8], payload: &[u8]) -> Result<Message, Refusal> {
    if frame.starts_with(b"#N") {
        return Ok(Message::Press {
            digits: six(payload),
        });
    }
    if frame.starts_with(b"#E") {
        return Ok(Message::Tail);
    }
    let bytes = digits::bytes_of_hex(payload).ok_or(Refusal::Limits)?;
    Ok(link_message(&bytes))
}

/// The message of a content: 5. A tail takes nothing from the payload.
pub fn of(tag: Tag, payload: &[u8]) -> Result<Message, Refusal> {
    let message = match tag {
        Tag::Link => of_link(payload),
        Tag::Press => of_press(payload),
        Tag::Tail => Some(Message::Tail),
        Tag::Command { id } => nest_within(payload).then(|| Message::Command { id }),
        Tag::Response { id } => nest_within(payload).then(|| response_message(id, payload)),
        Tag::Nibe { command } => {
            nibe_within(command, payload).then(|| nibe_message(command, payload))
        }
        Tag::Homiq => frames::homiq_content(payload).then(|| homiq_message(payload)),
    };
    message.ok_or(Refusal::Limits)
}

/// None if the digits are not those of as many bytes as a link may have.
fn of_link(digits: &[u8]) -> Option<Message> {
    let payload = digits::bytes_of_hex(digits)?;
    let within = (1..=frames::MOST_LINK_BYTES).contains(&payload.len());
    within.then(|| link_message(&payload))
}

/// None if they are not six digits.
fn of_press(digits: &[u8]) -> Option<Message> {
    let digits = <[u8; 6]>::try_from(digits).ok()?;
    digits::all_hex(&digits).then_some(Message::Press { digits })
}

fn nest_within(payload: &[u8]) -> bool {
    payload.len() <= frames::MOST_NEST_PAYLOAD
}

fn nibe_within(command: u8, data: &[u8]) -> bool {
    frames::NIBE_COMMANDS.contains(&command) && data.len() <= frames::MOST_NIBE_DATA
}

/// The message of a link's payload, as bytes.
pub fn link_message(payload: &[u8]) -> Message {
    match payload {
        [0x12, low, high] => Message::Read {
            group: 1,
            address: digits::word(*low, *high),
        },
        [0x17, low, high] => Message::Read {
            group: 2,
            address: digits::word(*low, *high),
        },
        [0x15, low, high, values @ .., 0xFF] if values.len() == 6 => Message::Set {
            group: 1,
            address: digits::word(*low, *high),
            values: six(values),
        },
        [0x16, low, high, values @ .., 0xFF] if values.len() == 6 => Message::Set {
            group: 2,
            address: digits::word(*low, *high),
            values: six(values),
        },
        [low, high, third, values @ ..] if values.len() == 6 => Message::Answer {
            address: digits::word(*low, *high),
            third: *third,
            values: six(values),
        },
        _ => Message::Link,
    }
}

/// The first six bytes; all callers have six.
fn six(bytes: &[u8]) -> [u8; 6] {
    let mut values = [0; 6];
    for (value, byte) in values.iter_mut().zip(bytes) {
        *value = *byte;
    }
    values
}

/// The message of a Nest response.
pub fn response_message(id: u16, payload: &[u8]) -> Message {
    match payload {
        [t0, t1, h0, h1] if id == CLIMATE_ID => Message::Climate {
            temperature: i16::from_le_bytes([*t0, *t1]),
            humidity: digits::word(*h0, *h1),
        },
        _ if id == STATE_ID && payload.len() >= LEAST_STATE => Message::State,
        _ if id == BREAK_ID && payload == BREAK => Message::Break,
        [] if id == END_ID => Message::End,
        _ if TEXT_IDS.contains(&id) => Message::Text { id },
        _ => Message::Response { id },
    }
}

/// The message of a Nibe frame.
pub fn nibe_message(command: u8, data: &[u8]) -> Message {
    match (command, data) {
        (0x69, [low, high]) => Message::Ask {
            register: digits::word(*low, *high),
        },
        (0x6A, [low, high, value @ ..]) if matches!(value.len(), 1 | 2 | 4) => Message::Reply {
            register: digits::word(*low, *high),
            width: value.len() as u8,
            value: digits::low_first(value).unwrap_or(0),
        },
        (0x6B, [low, high, value @ ..]) if matches!(value.len(), 1 | 2 | 4) => Message::Put {
            register: digits::word(*low, *high),
            width: value.len() as u8,
            value: digits::low_first(value).unwrap_or(0),
        },
        (0x6C, [0]) => Message::Done { ok: false },
        (0x6C, [1]) => Message::Done { ok: true },
        _ => Message::Nibe { command },
    }
}

/// The message of Homiq's CMD to TYPE.
pub fn homiq_message(content: &[u8]) -> Message {
    let command = homiq_field(content, 0).unwrap_or(b"");
    let value = homiq_field(content, 1).unwrap_or(b"");
    let zero_or_one = value == b"0" || value == b"1";
    if numbered(command, b"O.", 9) && zero_or_one {
        Message::Output
    } else if numbered(command, b"I.", 15) && zero_or_one {
        Message::Input
    } else if command == b"UD" && (value == b"u" || value == b"d" || value == b"s") {
        Message::Shutter
    } else if command == b"HB" && value == b"1" {
        Message::Beat
    } else {
        Message::Homiq
    }
}

fn numbered(command: &[u8], prefix: &[u8], most: u64) -> bool {
    match command.strip_prefix(prefix) {
        Some(number) => digits::number_of_decimal(number, most).is_some(),
        None => false,
    }
}

/// The part between two `;` of that number, counted from 0.
pub fn homiq_field(content: &[u8], number: u64) -> Option<&[u8]> {
    let number = usize::try_from(number).ok()?;
    content.split(|c| *c == b';').nth(number)
}

/// The ID of the frame after one with this ID, round and round: 5 if it is none.
pub fn homiq_id_after(id: u16) -> Result<u16, Refusal> {
    match id {
        frames::LAST_HOMIQ_ID => Ok(0),
        0..frames::LAST_HOMIQ_ID => Ok(id + 1),
        _ => Err(Refusal::Limits),
    }
}

/// Vin, Vop and Vbat of a state's payload: 5 if it is too short.
pub fn voltages(payload: &[u8]) -> Result<[u16; 3], Refusal> {
    if payload.len() < LEAST_STATE {
        return Err(Refusal::Limits);
    }
    Ok([8, 10, 12].map(|place| digits::word(payload[place], payload[place + 1])))
}

/// The frame of a message of that kind and its content: 2, 7, 5, 6.
pub fn encode(kind: u8, message: &Message, content: &[u8]) -> Result<Vec<u8>, Refusal> {
    if !frames::known(kind) {
        return Err(Refusal::Kind);
    }
    if let Message::Reply { width, .. } | Message::Put { width, .. } = message {
        if !matches!(width, 1 | 2 | 4) {
            return Err(Refusal::Form);
        }
    }
    if message.kind() != kind {
        return Err(Refusal::Limits);
    }
    match message {
        Message::Read { group, address } => {
            let function = of_group(*group, 0x12, 0x17)?;
            build::link(&[&[function], &address.to_le_bytes()[..]].concat())
        }
        Message::Set {
            group,
            address,
            values,
        } => {
            let function = of_group(*group, 0x15, 0x16)?;
            build::link(&[&[function], &address.to_le_bytes()[..], values, &[0xFF]].concat())
        }
        Message::Answer {
            address,
            third,
            values,
        } => build::link(&[&address.to_le_bytes()[..], &[*third], values].concat()),
        Message::Press { digits } => build::press(digits),
        Message::Tail => Ok(build::tail()),
        Message::Link => {
            let payload = digits::bytes_of_hex(content).ok_or(Refusal::Limits)?;
            let frame = build::link(&payload)?;
            unless_above(message, link_message(&payload), frame)
        }
        Message::Command { id } => build::nest(frames::COMMAND_PREAMBLE, *id, content),
        Message::Climate {
            temperature,
            humidity,
        } => response(
            CLIMATE_ID,
            &[temperature.to_le_bytes(), humidity.to_le_bytes()].concat(),
        ),
        Message::State => {
            if content.len() < LEAST_STATE {
                return Err(Refusal::Limits);
            }
            response(STATE_ID, content)
        }
        Message::Break => response(BREAK_ID, BREAK),
        Message::End => response(END_ID, &[]),
        Message::Text { id } => {
            if !TEXT_IDS.contains(id) {
                return Err(Refusal::Limits);
            }
            let frame = response(*id, content)?;
            unless_above(message, response_message(*id, content), frame)
        }
        Message::Response { id } => {
            let frame = response(*id, content)?;
            unless_above(message, response_message(*id, content), frame)
        }
        Message::Ask { register } => build::nibe(0x69, &register.to_le_bytes()),
        Message::Reply {
            register,
            width,
            value,
        } => register_and_value(0x6A, *register, *width, *value),
        Message::Put {
            register,
            width,
            value,
        } => register_and_value(0x6B, *register, *width, *value),
        Message::Done { ok } => build::nibe(0x6C, &[u8::from(*ok)]),
        Message::Nibe { command } => {
            let frame = build::nibe(*command, content)?;
            unless_above(message, nibe_message(*command, content), frame)
        }
        Message::Homiq => {
            let frame = build::homiq(content)?;
            unless_above(message, homiq_message(content), frame)
        }
        Message::Output | Message::Input | Message::Shutter | Message::Beat => {
            let frame = build::homiq(content)?;
            if homiq_message(content) != *message {
                return Err(Refusal::Limits);
            }
            Ok(frame)
        }
    }
}

/// Whether a message with this content is one of the table: 5, 6. It is what can be encoded, and a width that there is not is outside
/// its limits here.
pub fn allowed(message: &Message, content: &[u8]) -> Result<(), Refusal> {
    match encode(message.kind(), message, content) {
        Ok(_) => Ok(()),
        Err(Refusal::Form) => Err(Refusal::Limits),
        Err(refusal) => Err(refusal),
    }
}

fn of_group(group: u8, first: u8, second: u8) -> Result<u8, Refusal> {
    match group {
        1 => Ok(first),
        2 => Ok(second),
        _ => Err(Refusal::Limits),
    }
}

fn response(id: u16, payload: &[u8]) -> Result<Vec<u8>, Refusal> {
    build::nest(frames::RESPONSE_PREAMBLE, id, payload)
}

fn register_and_value(
    command: u8,
    register: u16,
    width: u8,
    value: u32,
) -> Result<Vec<u8>, Refusal> {
    let value = numbers::bytes(i64::from(value), u64::from(width), false)?;
    build::nibe(command, &[&register.to_le_bytes()[..], &value].concat())
}

/// The frame, unless its content is that of a message above in the table.
fn unless_above(asked: &Message, has: Message, frame: Vec<u8>) -> Result<Vec<u8>, Refusal> {
    if has == *asked {
        Ok(frame)
    } else {
        Err(Refusal::Above)
    }
}

#[cfg(test)]
mod tests {
    use super::*;

    const STATE: &[u8] = &[0, 0, 0, 0, 0, 0, 0, 0, 1, 2, 3, 4, 5, 6, 0, 0];

    /// Messages with a content that they have.
    fn samples() -> Vec<(Message, &'static [u8])> {
        let values = [0xFF, 0, 0x80, 1, 2, 3];
        let reply = |width, value| Message::Reply {
            register: 40004,
            width,
            value,
        };
        let put = |width, value| Message::Put {
            register: 47011,
            width,
            value,
        };
        let set = |group| Message::Set {
            group,
            address: 0x4707,
            values,
        };
        vec![
            (
                Message::Read {
                    group: 1,
                    address: 0x4707,
                },
                b"",
            ),
            (
                Message::Read {
                    group: 2,
                    address: 0xC9A5,
                },
                b"",
            ),
            (set(1), b""),
            (set(2), b""),
            (
                Message::Answer {
                    address: 0x1512,
                    third: 7,
                    values,
                },
                b"",
            ),
            (Message::Press { digits: *b"4ECB1A" }, b""),
            (Message::Tail, b""),
            (Message::Link, b"110000"),
            (Message::Link, b"1207"),
            (Message::Link, b"12074700"),
            (Message::Link, b"150747FF0000000000FE"),
            (Message::Command { id: 0xFF }, b""),
            (Message::Command { id: 0x82 }, &[0, 0]),
            (
                Message::Climate {
                    temperature: -5,
                    humidity: 1000,
                },
                b"",
            ),
            (Message::State, STATE),
            (Message::Break, b""),
            (Message::End, b""),
            (Message::Text { id: 0x01 }, b"BRK "),
            (Message::Text { id: 0x18 }, b"BRK"),
            (Message::Text { id: 0x19 }, b""),
            (Message::Response { id: 0x02 }, &[1, 2, 3]),
            (Message::Response { id: 0x0B }, &[0; 15]),
            (Message::Response { id: 0x2F }, &[0]),
            (Message::Response { id: 0x1A }, b"x"),
            (Message::Ask { register: 40004 }, b""),
            (reply(1, 255), b""),
            (reply(2, 65_535), b""),
            (put(4, u32::MAX), b""),
            (put(1, 0), b""),
            (Message::Done { ok: true }, b""),
            (Message::Done { ok: false }, b""),
            (Message::Nibe { command: 0x6C }, &[2]),
            (Message::Nibe { command: 0x6A }, &[1, 2, 3, 4, 5]),
            (Message::Nibe { command: 0x62 }, b""),
            (Message::Output, b"O.9;0;0;0H;7;s"),
            (Message::Input, b"I.15;1;0H;0;511;a"),
            (Message::Shutter, b"UD;d;0;05;8;s"),
            (Message::Beat, b"HB;1;0H;yy;1;s"),
            (Message::Homiq, b"O.10;0;0;0H;7;s"),
            (Message::Homiq, b"O.01;0;0;0H;7;s"),
            (Message::Homiq, b"O.1;2;0;0H;7;s"),
            (Message::Homiq, b"I.16;1;0H;0;42;s"),
            (Message::Homiq, b"I.;1;0H;0;42;s"),
            (Message::Homiq, b"UD;x;0;05;8;s"),
            (Message::Homiq, b"HB;0;0H;yy;1;s"),
        ]
    }

    #[test]
    fn what_is_encoded_is_decoded() {
        for (message, content) in samples() {
            let kind = message.kind();
            let frame = encode(kind, &message, content).expect("a frame");
            let (decoded, head) = decode(kind, &frame).expect("a message");
            assert_eq!(decoded, message);
            if !content.is_empty() {
                assert_eq!(&frame[head.begins..head.ends], content);
            }
        }
    }

    /// Among them the links whose LL begins with E, as a tail's second character.
    #[test]
    fn links_of_every_length() {
        for length in 1..=frames::MOST_LINK_BYTES {
            let content = digits::hex(&vec![0; length]);
            let frame = build::link(&vec![0; length]).expect("a frame");
            let (decoded, _) = decode(1, &frame).expect("a message");
            if length == 9 {
                assert_eq!(decoded.name(), "answer");
            } else {
                assert_eq!(decoded, Message::Link);
                assert_eq!(encode(1, &Message::Link, &content), Ok(frame));
            }
        }
    }

    #[test]
    fn other_kinds_are_refused() {
        for (message, content) in samples() {
            for kind in 0..=7 {
                let expected = match kind {
                    1..=5 if kind == message.kind() => continue,
                    1..=5 => Refusal::Limits,
                    _ => Refusal::Kind,
                };
                assert_eq!(encode(kind, &message, content), Err(expected));
            }
        }
    }

    #[test]
    fn contents_of_messages_above() {
        let cases: [(Message, &[u8]); 17] = [
            (Message::Link, b"120747"),
            (Message::Link, b"170747"),
            (Message::Link, b"150747FF0000000000FF"),
            (Message::Link, b"160747FF0000000000FF"),
            (Message::Link, b"074700FF0000000000"),
            (Message::Text { id: 1 }, b"BRK"),
            (Message::Response { id: 1 }, b"BRK"),
            (Message::Response { id: 1 }, b""),
            (Message::Response { id: 0x18 }, b""),
            (Message::Response { id: 2 }, &[1, 2, 3, 4]),
            (Message::Response { id: 0x0B }, STATE),
            (Message::Response { id: 0x2F }, b""),
            (Message::Nibe { command: 0x69 }, &[1, 2]),
            (Message::Nibe { command: 0x6B }, &[1, 2, 3]),
            (Message::Nibe { command: 0x6C }, &[1]),
            (Message::Homiq, b"O.3;1;0;0H;7;s"),
            (Message::Homiq, b"HB;1;0H;yy;1;a"),
        ];
        for (message, content) in cases {
            let refused = encode(message.kind(), &message, content);
            assert_eq!(refused, Err(Refusal::Above), "{message:?}");
        }
    }

    #[test]
    fn fields_outside_their_limits() {
        let press = |digits| Message::Press { digits };
        let read = |group| Message::Read { group, address: 1 };
        let reply = |width, value| Message::Reply {
            register: 1,
            width,
            value,
        };
        let long = &[b'A'; 1025];
        let cases: [(Message, &[u8]); 21] = [
            (read(0), b""),
            (read(3), b""),
            (press(*b"4ecb1a"), b""),
            (press(*b"4ECB1G"), b""),
            (Message::Link, b""),
            (Message::Link, b"1"),
            (Message::Link, b"1a"),
            (Message::Link, &long[..246]),
            (Message::Command { id: 1 }, long),
            (Message::State, &STATE[..15]),
            (Message::State, long),
            (Message::Text { id: 2 }, b"text"),
            (Message::Text { id: 1 }, long),
            (Message::Response { id: 1 }, long),
            (reply(1, 256), b""),
            (reply(2, 65_536), b""),
            (Message::Nibe { command: 0x61 }, b""),
            (Message::Nibe { command: 0x69 }, &long[..256]),
            (Message::Output, b"I.3;1;0;0H;7;s"),
            (Message::Input, b"O.3;1;0;0H;7;s"),
            (Message::Homiq, b"O.3;1;0;0H;512;s"),
        ];
        for (message, content) in cases {
            let refused = encode(message.kind(), &message, content);
            assert_eq!(refused, Err(Refusal::Limits), "{message:?}");
        }
        assert_eq!(encode(4, &reply(3, 0), b""), Err(Refusal::Form));
    }
}
