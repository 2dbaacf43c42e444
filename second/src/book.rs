//! The capture book.

use crate::digits;
use crate::frames;
use crate::lines;
use crate::refusal::Refusal;
use crate::sheet::{self, Lookup};

pub const MOST_ENTRIES: usize = 1_000;
pub const MOST_BYTES: usize = 65_536;

/// Kind (1) and frame length (2).
const ENTRY_HEAD: usize = 3;
/// Count (2) and the distance back (4).
const TRAILER_END: usize = 6;

/// An entry of a book: its offset, and where in the book its frame begins and ends.
#[derive(Clone, Copy, Debug, PartialEq, Eq)]
pub struct Entry {
    pub kind: u8,
    pub offset: usize,
    pub begins: usize,
    pub ends: usize,
}

/// The book of these kinds and frames: the layout alone, nothing is tested here.
pub fn of(entries: &[(u8, Vec<u8>)]) -> Vec<u8> {
    let mut book = Vec::new();
    let mut offsets = Vec::new();
    for (kind, frame) in entries {
        offsets.push(book.len() as u32);
        book.push(*kind);
        book.extend((frame.len() as u16).to_le_bytes());
        book.extend(frame);
    }
    let trailer_starts = book.len();
    for offset in &offsets {
        book.extend(offset.to_le_bytes());
    }
    book.extend((entries.len() as u16).to_le_bytes());
    let back = (book.len() + 4 - trailer_starts) as u32;
    book.extend(back.to_le_bytes());
    book
}

/// The entries of a book: 8 if it is not valid. They are read from the front up to the
/// trailer's start, and the book is the one that they give.
pub fn open(book: &[u8]) -> Result<Vec<Entry>, Refusal> {
    let entries = read_entries(book).ok_or(Refusal::Book)?;
    if of(&kinds_and_frames(book, &entries)) == book {
        Ok(entries)
    } else {
        Err(Refusal::Book)
    }
}

fn kinds_and_frames(book: &[u8], entries: &[Entry]) -> Vec<(u8, Vec<u8>)> {
    entries
        .iter()
        .map(|entry| (entry.kind, book[entry.begins..entry.ends].to_vec()))
        .collect()
}

/// The entries before the trailer, each with one frame of its kind, not too many and not too
/// long in all.
fn read_entries(book: &[u8]) -> Option<Vec<Entry>> {
    if book.len() < TRAILER_END || book.len() > MOST_BYTES {
        return None;
    }
    let back = digits::low_first(&book[book.len() - 4..]).ok()?;
    let trailer_starts = book.len().checked_sub(usize::try_from(back).ok()?)?;
    let front = &book[..trailer_starts];
    let mut entries = Vec::new();
    let mut offset = 0;
    while offset < front.len() {
        let head = front.get(offset..offset + ENTRY_HEAD)?;
        let begins = offset + ENTRY_HEAD;
        let ends = begins + usize::from(digits::word(head[1], head[2]));
        frames::one_frame(head[0], front.get(begins..ends)?).ok()?;
        entries.push(Entry {
            kind: head[0],
            offset,
            begins,
            ends,
        });
        offset = ends;
    }
    (entries.len() <= MOST_ENTRIES).then_some(entries)
}

/// An entry of a book: 8, 3.
pub fn entry(book: &[u8], number: u64) -> Result<Entry, Refusal> {
    let entries = open(book)?;
    let number = usize::try_from(number).map_err(|_| Refusal::Place)?;
    entries.get(number).copied().ok_or(Refusal::Place)
}

/// The line of an entry: 8, 3.
pub fn line(book: &[u8], number: u64, by: Option<&dyn Lookup>) -> Result<Vec<u8>, Refusal> {
    line_of(book, &entry(book, number)?, by)
}

/// The same with a sheet: 8, 3, 10.
pub fn line_with(book: &[u8], number: u64, text: &[u8]) -> Result<Vec<u8>, Refusal> {
    let entry = entry(book, number)?;
    line_of(book, &entry, Some(&sheet::open(text)?))
}

/// The lines of all entries: 8.
pub fn list(book: &[u8], by: Option<&dyn Lookup>) -> Result<Vec<u8>, Refusal> {
    let mut lines = Vec::new();
    for entry in open(book)? {
        lines.extend(line_of(book, &entry, by)?);
    }
    Ok(lines)
}

/// The same with a sheet: 8, 10.
pub fn list_with(book: &[u8], text: &[u8]) -> Result<Vec<u8>, Refusal> {
    open(book)?;
    list(book, Some(&sheet::open(text)?))
}

/// `at` is the entry's offset.
fn line_of(book: &[u8], entry: &Entry, by: Option<&dyn Lookup>) -> Result<Vec<u8>, Refusal> {
    let frame = &book[entry.begins..entry.ends];
    lines::line(entry.kind, frame, entry.offset as u64, by)
}

/// The book with one entry more: 8, 2, 5.
pub fn add(book: &[u8], kind: u8, frame: &[u8]) -> Result<Vec<u8>, Refusal> {
    let mut entries = kinds_and_frames(book, &open(book)?);
    frames::one_frame(kind, frame)?;
    entries.push((kind, frame.to_vec()));
    let longer = of(&entries);
    if entries.len() > MOST_ENTRIES || longer.len() > MOST_BYTES {
        return Err(Refusal::Limits);
    }
    Ok(longer)
}
