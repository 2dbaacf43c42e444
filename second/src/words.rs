//! The words of a request, and the room that a request lends.

use crate::digits;
use crate::frames;
use crate::messages::{Message, Tag};
use crate::refusal::Refusal;

pub const MOST_LINE: usize = 300_000;
pub const MOST_BYTES: usize = 131_072;
pub const MOST_ROOM: usize = 2_097_202;

/// Every byte of a room before the call.
const FRESH: u8 = 0xEE;

/// The words of a request that are still to be read. Each function answers none if the next
/// word is not as it must be.
pub struct Words<'a> {
    rest: std::vec::IntoIter<&'a [u8]>,
    bytes_left: usize,
}

impl<'a> Words<'a> {
    pub fn of(request: &'a [u8]) -> Option<Words<'a>> {
        if request.len() > MOST_LINE {
            return None;
        }
        let words: Vec<&[u8]> = request.split(|c| *c == b' ').collect();
        Some(Words {
            rest: words.into_iter(),
            bytes_left: MOST_BYTES,
        })
    }

    pub fn word(&mut self) -> Option<&'a [u8]> {
        self.rest.next()
    }

    /// There are no more words.
    pub fn end(&mut self) -> Option<()> {
        match self.rest.next() {
            None => Some(()),
            Some(_) => None,
        }
    }

    /// A number of the parameter's type.
    pub fn number<T: TryFrom<i128>>(&mut self) -> Option<T> {
        let word = self.word()?;
        let number = match word.strip_prefix(b"-") {
            None => i128::from(digits::number_of_decimal(word, u64::MAX)?),
            Some(b"0") => return None,
            Some(magnitude) => -i128::from(digits::number_of_decimal(magnitude, u64::MAX)?),
        };
        T::try_from(number).ok()
    }

    pub fn truth(&mut self) -> Option<bool> {
        match self.word()? {
            b"true" => Some(true),
            b"false" => Some(false),
            _ => None,
        }
    }

    /// Upper-case hex, `-` for none.
    pub fn bytes(&mut self) -> Option<Vec<u8>> {
        let bytes = match self.word()? {
            b"" => return None,
            b"-" => Vec::new(),
            word => digits::bytes_of_hex(word)?,
        };
        self.bytes_left = self.bytes_left.checked_sub(bytes.len())?;
        Some(bytes)
    }

    pub fn so_many_bytes<const N: usize>(&mut self) -> Option<[u8; N]> {
        self.bytes()?.try_into().ok()
    }

    pub fn room(&mut self) -> Option<Room> {
        let length: u64 = self.number()?;
        let length = usize::try_from(length).ok()?;
        (length <= MOST_ROOM).then(|| Room {
            bytes: vec![FRESH; length],
        })
    }

    /// A direction of Nest, as its preamble.
    pub fn direction(&mut self) -> Option<&'static [u8]> {
        match self.word()? {
            b"command" => Some(frames::COMMAND_PREAMBLE),
            b"response" => Some(frames::RESPONSE_PREAMBLE),
            _ => None,
        }
    }

    /// A kind, by its name.
    pub fn kind(&mut self) -> Option<u8> {
        frames::kind_named(self.word()?)
    }

    /// A number of decimals of a reading.
    pub fn decimals(&mut self) -> Option<u32> {
        match self.word()? {
            b"0" => Some(0),
            b"1" => Some(1),
            b"2" => Some(2),
            b"3" => Some(3),
            _ => None,
        }
    }

    /// A content's tag: its name, then its field.
    pub fn tag(&mut self) -> Option<Tag> {
        let tag = match self.word()? {
            b"link" => Tag::Link,
            b"press" => Tag::Press,
            b"tail" => Tag::Tail,
            b"command" => Tag::Command { id: self.number()? },
            b"response" => Tag::Response { id: self.number()? },
            b"nibe" => Tag::Nibe {
                command: self.number()?,
            },
            b"homiq" => Tag::Homiq,
            _ => return None,
        };
        Some(tag)
    }

    /// A message: its name, then its fields.
    pub fn message(&mut self) -> Option<Message> {
        let message = match self.word()? {
            b"read" => Message::Read {
                group: self.number()?,
                address: self.number()?,
            },
            b"set" => Message::Set {
                group: self.number()?,
                address: self.number()?,
                values: self.so_many_bytes()?,
            },
            b"answer" => Message::Answer {
                address: self.number()?,
                third: self.number()?,
                values: self.so_many_bytes()?,
            },
            b"press" => Message::Press {
                digits: self.so_many_bytes()?,
            },
            b"tail" => Message::Tail,
            b"link" => Message::Link,
            b"command" => Message::Command { id: self.number()? },
            b"climate" => Message::Climate {
                temperature: self.number()?,
                humidity: self.number()?,
            },
            b"state" => Message::State,
            b"break" => Message::Break,
            b"end" => Message::End,
            b"text" => Message::Text { id: self.number()? },
            b"response" => Message::Response { id: self.number()? },
            b"ask" => Message::Ask {
                register: self.number()?,
            },
            b"reply" => Message::Reply {
                register: self.number()?,
                width: self.number()?,
                value: self.number()?,
            },
            b"put" => Message::Put {
                register: self.number()?,
                width: self.number()?,
                value: self.number()?,
            },
            b"done" => Message::Done { ok: self.truth()? },
            b"nibe" => Message::Nibe {
                command: self.number()?,
            },
            b"output" => Message::Output,
            b"input" => Message::Input,
            b"shutter" => Message::Shutter,
            b"beat" => Message::Beat,
            b"homiq" => Message::Homiq,
            _ => return None,
        };
        Some(message)
    }
}

/// A lent room.
pub struct Room {
    bytes: Vec<u8>,
}

impl Room {
    /// From the front, all of it or nothing: how many bytes; 4.
    pub fn write(&mut self, bytes: &[u8]) -> Result<usize, Refusal> {
        self.write_at(0, bytes)
    }

    /// The same from a place on; none are left behind a place that is beyond the room.
    pub fn write_at(&mut self, to: u64, bytes: &[u8]) -> Result<usize, Refusal> {
        let start = usize::try_from(to).map_err(|_| Refusal::Room)?;
        let left = self.bytes.get_mut(start..).unwrap_or_default();
        match left.get_mut(..bytes.len()) {
            Some(place) => {
                place.copy_from_slice(bytes);
                Ok(bytes.len())
            }
            None => Err(Refusal::Room),
        }
    }

    /// At a place and on, as far as the room goes: the place behind all that was to be written.
    pub fn put(&mut self, at: u64, bytes: &[u8]) -> u64 {
        let start = usize::try_from(at).unwrap_or(usize::MAX);
        if let Some(room) = self.bytes.get_mut(start..) {
            for (place, byte) in room.iter_mut().zip(bytes) {
                *place = *byte;
            }
        }
        at.saturating_add(bytes.len() as u64)
    }

    /// The bytes up to the last that is not fresh, `+`, and how many fresh ones follow.
    pub fn text(&self) -> String {
        let used = match self.bytes.iter().rposition(|byte| *byte != FRESH) {
            Some(last) => last + 1,
            None => 0,
        };
        let hex = if used == 0 {
            b"-".to_vec()
        } else {
            digits::hex(&self.bytes[..used])
        };
        let hex: String = hex.into_iter().map(char::from).collect();
        format!("{hex}+{}", self.bytes.len() - used)
    }
}
