//! The rows of the message table, and frames of each.

use crate::contents::{self, HEX, TEXTS};
use crate::frames;
use crate::random::Random;

pub struct Row {
    pub name: &'static str,
    pub kind: u8,
}

pub const ROWS: [Row; 23] = [
    row("read", 1),
    row("set", 1),
    row("answer", 1),
    row("press", 1),
    row("tail", 1),
    row("link", 1),
    row("command", 2),
    row("climate", 3),
    row("state", 3),
    row("break", 3),
    row("end", 3),
    row("text", 3),
    row("response", 3),
    row("ask", 4),
    row("reply", 4),
    row("put", 4),
    row("done", 4),
    row("nibe", 4),
    row("output", 5),
    row("input", 5),
    row("shutter", 5),
    row("beat", 5),
    row("homiq", 5),
];

const fn row(name: &'static str, kind: u8) -> Row {
    Row { name, kind }
}

impl Row {
    /// May not be encoded with the content of a message above it.
    pub fn is_last(&self) -> bool {
        ["link", "text", "response", "nibe", "homiq"].contains(&self.name)
    }

    /// Has no field and no content that could be outside its limits.
    pub fn is_always_allowed(&self) -> bool {
        ["answer", "tail", "climate", "break", "end", "ask", "done"].contains(&self.name)
    }

    pub fn has_width(&self) -> bool {
        ["reply", "put"].contains(&self.name)
    }
}

/// A frame of one of the kind's rows, each as likely as the others; of the rows that are the rest, any frame.
pub fn frame(kind: u8, random: &mut Random) -> Vec<u8> {
    let names: Vec<&str> = ROWS
        .iter()
        .filter(|row| row.kind == kind)
        .map(|row| row.name)
        .collect();
    match random.pick(&names) {
        "read" => frames::link(&contents::read(random)),
        "set" => frames::link(&contents::set(random)),
        "answer" => frames::link(&random.bytes(9)),
        "press" => frames::press(&random.bytes_of(HEX, 6)),
        "tail" => frames::tail(),
        "climate" => frames::nest(3, 0x0002, &random.bytes(4)),
        "state" => frames::nest(3, 0x000B, &contents::many(random, 16, 24)),
        "break" => frames::nest(3, 0x0001, b"BRK"),
        "end" => frames::nest(3, 0x002F, b""),
        "text" => frames::nest(3, random.pick(&TEXTS), &contents::text(random)),
        "ask" => frames::nibe(0x69, &random.bytes(2)),
        "reply" => frames::nibe(0x6A, &value(random)),
        "put" => frames::nibe(0x6B, &value(random)),
        "done" => frames::nibe(0x6C, &[random.pick(&[0, 1])]),
        "link" | "command" | "response" | "nibe" | "homiq" => contents::any_frame(kind, random),
        name => frames::homiq(&homiq(name, random)),
    }
}

/// A register and its value.
fn value(random: &mut Random) -> Vec<u8> {
    let width = random.pick(&[1, 2, 4]);
    [random.bytes(2), contents::value_bytes(width, random)].concat()
}

/// CMD to TYPE of a row.
pub fn homiq(name: &str, random: &mut Random) -> Vec<u8> {
    let (command, values): (String, &[&str]) = match name {
        "output" => (format!("O.{}", random.below(10)), &["0", "1"]),
        "input" => (format!("I.{}", random.below(16)), &["0", "1"]),
        "shutter" => ("UD".to_string(), &["u", "d", "s"]),
        "beat" => ("HB".to_string(), &["1"]),
        _ => return contents::homiq(random),
    };
    let value = random.pick(values);
    contents::homiq_with(command.as_bytes(), value.as_bytes(), random)
}
