//! Frames of every length, code, id and number that is not too many: so none is left to chance.

use crate::contents::{self, COMMANDS};
use crate::frames;
use crate::random::Random;

/// All of them that fall to one capture of `of`, the `nth`.
pub fn capture(kind: u8, nth: usize, of: usize, random: &mut Random) -> Vec<u8> {
    let falls_here = |number: &usize| number % of == nth % of;
    match kind {
        1 => {
            let lengths = (1..=122)
                .filter(falls_here)
                .map(|length| vec![0xE1; length]);
            let codes = (0..256)
                .filter(falls_here)
                .flat_map(|code| coded(code as u8, random));
            lengths
                .chain(codes)
                .flat_map(|payload| frames::link(&payload))
                .collect()
        }
        2 | 3 => {
            let lengths: Vec<usize> = (0..=1_024).filter(falls_here).collect();
            let mut capture: Vec<u8> = lengths
                .iter()
                .flat_map(|length| frames::nest(kind, 0xFF, &random.bytes(*length)))
                .collect();
            for id in (0..=0x130).filter(falls_here) {
                capture.extend(with_id(kind, id as u16, random));
            }
            capture
        }
        4 => (0..=255)
            .filter(falls_here)
            .flat_map(|length| commanded(length, random))
            .collect(),
        // from 512 on they are no frames
        _ => (0..=600)
            .filter(falls_here)
            .flat_map(|id| frames::homiq(&numbered(id, random)))
            .collect(),
    }
}

/// Payloads that begin with a code and are as long as a read, a set, or one byte less or more.
fn coded(code: u8, random: &mut Random) -> Vec<Vec<u8>> {
    let mut payloads: Vec<Vec<u8>> = [2, 3, 4, 9]
        .iter()
        .map(|length| [vec![code], random.bytes(length - 1)].concat())
        .collect();
    payloads.push([vec![code], random.bytes(8), vec![0xFF]].concat());
    payloads.push([vec![code], random.bytes(8), vec![0xFE]].concat());
    payloads
}

/// Frames with an id, as long as any message asks.
fn with_id(kind: u8, id: u16, random: &mut Random) -> Vec<u8> {
    let mut bytes = frames::nest(kind, id, b"BRK");
    for length in [0, 3, 4, 5, 15, 16, 17] {
        bytes.extend(frames::nest(kind, id, &random.bytes(length)));
    }
    bytes
}

/// Frames of every command with this much data; if it is a byte, also what it is for `done`.
fn commanded(length: usize, random: &mut Random) -> Vec<u8> {
    let mut bytes: Vec<u8> = COMMANDS
        .iter()
        .flat_map(|command| frames::nibe(*command, &random.bytes(length)))
        .collect();
    bytes.extend(frames::nibe(0x6C, &[length as u8]));
    bytes
}

/// CMD to TYPE with an id; by the id every length of every field, every number of an output and an input.
fn numbered(id: usize, random: &mut Random) -> Vec<u8> {
    let field = |length: usize, random: &mut Random| random.bytes_of(b"!+-0AZaz~", length);
    let (command, value) = match id % 3 {
        0 => (field(1 + id % 8, random), field(1 + id % 16, random)),
        1 => (
            format!("O.{}", id % 16).into_bytes(),
            vec![b'0' + random.below(3) as u8],
        ),
        _ => (
            format!("I.{}", id % 20).into_bytes(),
            vec![b'0' + random.below(3) as u8],
        ),
    };
    let (source, target) = (field(1 + id % 4, random), field(1 + id / 4 % 4, random));
    let sort = contents::acknowledged(random);
    [
        &command,
        &value,
        &source,
        &target,
        &id.to_string().into_bytes(),
        &sort,
    ]
    .map(Vec::as_slice)
    .join(&b';')
}
