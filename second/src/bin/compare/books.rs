//! Capture books laid out from their parts without any test, so that what is no book can be made too.

use crate::contents;
use crate::damages;
use crate::frames::{self, KINDS};
use crate::random::Random;

pub const MOST_ENTRIES: usize = 1_000;
pub const MOST_BYTES: usize = 65_536;

/// What an entry takes beside its frame: kind, length, offset.
pub const BESIDE: usize = 7;
/// What a book has beside its entries: count and distance back.
pub const ENDING: usize = 6;

pub struct Entry {
    pub kind: u8,
    pub frame: Vec<u8>,
}

/// The parts of a book, to be spoilt before they are laid out.
struct Parts {
    entries: Vec<Vec<u8>>,
    offsets: Vec<u32>,
    count: u16,
    back: u32,
}

impl Parts {
    fn of(entries: &[Entry]) -> Self {
        let laid_out: Vec<Vec<u8>> = entries.iter().map(entry_bytes).collect();
        let mut offset = 0;
        let mut offsets = Vec::new();
        for entry in &laid_out {
            offsets.push(offset);
            offset += entry.len() as u32;
        }
        let back = (4 * entries.len() + ENDING) as u32;
        Parts {
            entries: laid_out,
            offsets,
            count: entries.len() as u16,
            back,
        }
    }

    fn bytes(&self) -> Vec<u8> {
        let mut book = self.entries.concat();
        for offset in &self.offsets {
            book.extend(offset.to_le_bytes());
        }
        book.extend(self.count.to_le_bytes());
        book.extend(self.back.to_le_bytes());
        book
    }
}

fn entry_bytes(entry: &Entry) -> Vec<u8> {
    let length = (entry.frame.len() as u16).to_le_bytes();
    [&[entry.kind], &length as &[u8], &entry.frame].concat()
}

pub fn book(entries: &[Entry]) -> Vec<u8> {
    Parts::of(entries).bytes()
}

/// A few entries of any kinds.
pub fn entries(random: &mut Random) -> Vec<Entry> {
    let count = if random.one_in(8) {
        0
    } else {
        random.from_to(1, 5)
    };
    (0..count)
        .map(|_| {
            let kind = random.pick(&KINDS);
            Entry {
                kind,
                frame: contents::frame(kind, random),
            }
        })
        .collect()
}

/// So many of the shortest entries.
pub fn many(count: usize) -> Vec<Entry> {
    (0..count)
        .map(|_| Entry {
            kind: 1,
            frame: frames::tail(),
        })
        .collect()
}

/// Entries whose book has just this many bytes, which are at least 2,100.
pub fn of_size(bytes: usize, random: &mut Random) -> Vec<Entry> {
    let mut sizes = Vec::new();
    let mut rest = bytes - ENDING;
    while rest > 2_000 {
        sizes.push(1_000);
        rest -= 1_000;
    }
    sizes.extend([rest / 2, rest - rest / 2]);
    sizes.iter().map(|size| nest_entry(*size, random)).collect()
}

/// An entry that takes this many bytes of its book.
fn nest_entry(size: usize, random: &mut Random) -> Entry {
    let frame = frames::nest(
        2,
        contents::nest_id(random),
        &random.bytes(size - BESIDE - 9),
    );
    Entry { kind: 2, frame }
}

/// A long book: as many entries or bytes as may be, or one more or fewer.
pub fn long(random: &mut Random) -> Vec<u8> {
    match random.below(6) {
        0 => book(&many(MOST_ENTRIES)),
        1 => book(&many(MOST_ENTRIES + 1)),
        2 => book(&of_size(MOST_BYTES, random)),
        3 => book(&of_size(MOST_BYTES + 1, random)),
        4 => book(&many(MOST_ENTRIES - 1)),
        _ => book(&of_size(MOST_BYTES - 1, random)),
    }
}

/// Bytes that are nearly a book, or no book at all.
pub fn damaged(random: &mut Random) -> Vec<u8> {
    let mut entries = entries(random);
    if random.one_in(3) {
        spoil_entry(&mut entries, random);
        return book(&entries);
    }
    let mut parts = Parts::of(&entries);
    match random.below(9) {
        0 => parts.count = parts.count.wrapping_add(random.pick(&[1, 0xFFFF])),
        1 => {
            parts.back =
                parts
                    .back
                    .wrapping_add(random.pick(&[1, 4, u32::MAX, 0_u32.wrapping_sub(4)]))
        }
        2 => spoil_offset(&mut parts.offsets, random),
        3 => drop(parts.entries.pop()),
        4 => drop(parts.offsets.pop()),
        5 => parts.entries.push(vec![0; random.from_to(1, 4)]),
        _ => return spoilt_bytes(parts.bytes(), random),
    }
    parts.bytes()
}

/// An entry with another kind, or with what is not one frame.
fn spoil_entry(entries: &mut Vec<Entry>, random: &mut Random) {
    let kind = random.pick(&KINDS);
    let frame = match random.below(4) {
        0 => damages::flipped(kind, random),
        1 => damages::cut(kind, random),
        2 => [contents::frame(kind, random), random.bytes(1)].concat(),
        _ => contents::frame(kind, random),
    };
    let kind = if random.one_in(2) {
        kind
    } else {
        random.pick(&[0, 6, 255, kind % 5 + 1])
    };
    let at = random.below(entries.len() + 1);
    entries.insert(at, Entry { kind, frame });
}

fn spoil_offset(offsets: &mut [u32], random: &mut Random) {
    if offsets.is_empty() {
        return;
    }
    let at = random.below(offsets.len());
    match random.below(4) {
        0 => offsets[at] = offsets[at].wrapping_add(1),
        1 => offsets[at] = offsets[at].wrapping_sub(1),
        2 => offsets[at] ^= 1 << random.from_to(8, 31),
        _ => offsets.reverse(),
    }
}

fn spoilt_bytes(mut book: Vec<u8>, random: &mut Random) -> Vec<u8> {
    match random.below(6) {
        0 => {
            let bit = random.below(8 * book.len());
            book[bit / 8] ^= 1 << (bit % 8);
        }
        1 => book.truncate(random.below(book.len())),
        2 => book.push(random.byte()),
        3 => drop(book.remove(0)),
        4 => book.insert(0, random.byte()),
        _ => book = contents::many(random, 0, 30),
    }
    book
}
