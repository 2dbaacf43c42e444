//! Messages as requests have them, with the bytes that stand beside them: at their limits, beyond, and with the content of others.

use crate::arguments::{hex, unsigned};
use crate::contents::{self, COMMANDS, HEX, TEXTS};
use crate::damages;
use crate::frames;
use crate::random::Random;
use crate::rows;

/// A message's name, its fields, and then the content beside it.
pub struct Message {
    pub words: Vec<String>,
    pub content: Vec<u8>,
}

pub fn message(name: &str, random: &mut Random) -> Message {
    let mut words = vec![name.to_string()];
    let content = match name {
        "read" => {
            words.extend([group(random), number(16, random)]);
            unread(random)
        }
        "set" => {
            words.extend([group(random), number(16, random), hex(&random.bytes(6))]);
            unread(random)
        }
        "answer" => {
            words.extend([number(16, random), number(8, random), hex(&random.bytes(6))]);
            unread(random)
        }
        "press" => {
            words.push(hex(&press_digits(random)));
            unread(random)
        }
        "climate" => {
            words.extend([
                (unsigned(16, random) as i16).to_string(),
                number(16, random),
            ]);
            unread(random)
        }
        "ask" => {
            words.push(number(16, random));
            unread(random)
        }
        "reply" | "put" => {
            words.extend([number(16, random), width(random), value(random)]);
            unread(random)
        }
        "done" => {
            words.push(random.one_in(2).to_string());
            unread(random)
        }
        "tail" | "break" | "end" => unread(random),
        "link" => link_digits(random),
        "command" | "response" => {
            let id = contents::nest_id(random);
            words.push(id.to_string());
            nest_payload(id, random)
        }
        "text" => {
            let id = if random.one_in(6) {
                contents::nest_id(random)
            } else {
                random.pick(&TEXTS)
            };
            words.push(id.to_string());
            nest_payload(id, random)
        }
        "state" => match random.below(8) {
            0 => contents::many(random, 0, 15),
            1 => random.bytes(1_025),
            2 => random.bytes(1_024),
            _ => contents::many(random, 16, 24),
        },
        "nibe" => {
            let command = nibe_command(random);
            words.push(command.to_string());
            nibe_data(command, random)
        }
        _ => homiq_content(name, random),
    };
    Message { words, content }
}

fn number(bits: u32, random: &mut Random) -> String {
    unsigned(bits, random).to_string()
}

/// Beside a message that takes nothing from there.
fn unread(random: &mut Random) -> Vec<u8> {
    contents::many(random, 0, 3)
}

fn group(random: &mut Random) -> String {
    let group = if random.one_in(6) {
        random.pick(&[0, 3, 255])
    } else {
        random.pick(&[1, 2])
    };
    group.to_string()
}

pub fn press_digits(random: &mut Random) -> Vec<u8> {
    let alphabet = if random.one_in(5) {
        b"0123456789ABCDEFabcdefG:@/"
    } else {
        HEX
    };
    random.bytes_of(alphabet, 6)
}

fn width(random: &mut Random) -> String {
    let width = if random.one_in(6) {
        random.pick(&[0, 3, 5, 8, 255])
    } else {
        random.pick(&[1, 2, 4])
    };
    width.to_string()
}

fn value(random: &mut Random) -> String {
    let values = [0_u32, 1, 255, 256, 65_535, 65_536, 16_777_217, u32::MAX];
    if random.one_in(2) {
        random.pick(&values).to_string()
    } else {
        number(32, random)
    }
}

pub fn link_digits(random: &mut Random) -> Vec<u8> {
    match random.below(12) {
        0 => Vec::new(),
        1 => random.bytes_of(HEX, 246),
        2 => random.bytes_of(HEX, 244),
        3 => {
            let count = random.pick(&[1, 3, 5, 243, 245]);
            random.bytes_of(HEX, count)
        }
        4 => frames::digits_of(&contents::link(random)).to_ascii_lowercase(),
        5 => random.bytes_of(b"0123456789ABCDEFG:@/ ", 6),
        _ => frames::digits_of(&contents::link(random)),
    }
}

pub fn nest_payload(id: u16, random: &mut Random) -> Vec<u8> {
    match random.below(20) {
        0 => random.bytes(1_025),
        1 => random.bytes(1_024),
        _ => contents::nest_payload(id, random),
    }
}

pub fn nibe_command(random: &mut Random) -> u8 {
    if random.one_in(6) {
        random.byte()
    } else {
        random.pick(&COMMANDS)
    }
}

pub fn nibe_data(command: u8, random: &mut Random) -> Vec<u8> {
    match random.below(20) {
        0 => random.bytes(256),
        1 => random.bytes(255),
        _ => contents::nibe_data(command, random),
    }
}

/// CMD to TYPE of the row, of another, or of none.
pub fn homiq_content(name: &str, random: &mut Random) -> Vec<u8> {
    match random.below(8) {
        0 => damages::homiq_limits(random),
        1 | 2 => contents::homiq(random),
        3 => contents::many(random, 0, 12),
        _ => rows::homiq(name, random),
    }
}
