//! An independent second decoder and encoder, written from documents 01 and 02, the bus documents and
//! docs/CALLS.md. It is meant to be read beside document 01; see README.md.

pub mod acknowledge;
pub mod asked;
pub mod book;
pub mod calls;
pub mod checks;
pub mod digits;
pub mod frames;
pub mod jsontext;
pub mod lines;
pub mod list;
pub mod messages;
pub mod numbers;
pub mod refusal;
pub mod sheet;
pub mod words;

#[cfg(test)]
mod known_commands;
#[cfg(test)]
mod known_points;
#[cfg(test)]
mod known_splits;
#[cfg(test)]
mod known_texts;
#[cfg(test)]
mod known_verdicts;

/// The answer line to one request line, both without LF (docs/CALLS.md).
pub fn answer(request: &[u8]) -> Vec<u8> {
    calls::answer(request)
}

/// The same for a request to a call for C, by its name and types there.
pub fn answer_from_c(request: &[u8]) -> Vec<u8> {
    calls::answer_from_c(request)
}

/// What the listing program prints for its whole standard input, if there is no sheet beside it.
pub fn listing(input: &[u8]) -> Vec<u8> {
    list::listing(input, None)
}

/// The same with the text of `sheet.txt`.
pub fn listing_with(input: &[u8], text: &[u8]) -> Vec<u8> {
    list::listing_with(input, text)
}
