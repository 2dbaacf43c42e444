//! Requests to the calls for C: the functions of docs/CALLS.md under their names in C, with C's types. A kind, a width, decimals, a sign and
//! an entry's number are `u32`, and one that is too large is unknown, not cut; a payload and a frame are given by start and length.

use super::{float_text, pair_text, says, test_of, tries, writes, Answer};
use crate::acknowledge;
use crate::asked;
use crate::book;
use crate::frames;
use crate::lines;
use crate::list;
use crate::numbers;
use crate::refusal::Refusal;
use crate::sheet::{self, Map};
use crate::words::{Room, Words};

/// None if this is no request.
pub fn called(request: &[u8]) -> Option<Answer> {
    let mut words = Words::of(request)?;
    let name = std::str::from_utf8(words.word()?).ok()?;
    let answer = match name.strip_prefix("bolsterweft_")? {
        "search" | "why" | "one_frame" => in_frames(name, &mut words),
        "line" | "line_next" | "list" | "acknowledge" => in_lines(name, &mut words),
        "encode" => encode(&mut words),
        function if function.ends_with("_with") => by_map(name, &mut words),
        function if function.starts_with("sheet_") => in_sheet(name, &mut words),
        function if function.starts_with("book_") => in_book(name, &mut words),
        _ => in_numbers(name, &mut words),
    }?;
    words.end()?;
    Some(answer)
}

/// A kind that a byte does not hold is unknown, as 0 is.
fn kind(words: &mut Words) -> Option<u8> {
    let kind: u32 = words.number()?;
    Some(u8::try_from(kind).unwrap_or(0))
}

/// 0 is unsigned, anything else signed.
fn sign(words: &mut Words) -> Option<bool> {
    Some(words.number::<u32>()? != 0)
}

fn width(words: &mut Words) -> Option<u64> {
    Some(u64::from(words.number::<u32>()?))
}

fn entry_number(words: &mut Words) -> Option<u64> {
    Some(u64::from(words.number::<u32>()?))
}

fn in_frames(name: &str, words: &mut Words) -> Option<Answer> {
    let (kind, bytes) = (kind(words)?, words.bytes()?);
    if name == "bolsterweft_one_frame" {
        let head = frames::one_frame(kind, &bytes);
        return tries(head.map(|head| format!("{} {}", head.begins, head.ends - head.begins)));
    }
    let place = words.number()?;
    if name == "bolsterweft_why" {
        return tries(frames::why(kind, &bytes, place).map(|failed| {
            let (_, test, values) = test_of(failed);
            format!("{test} {} {}", values.found, values.expected)
        }));
    }
    let found = frames::search(kind, &bytes, place);
    tries(found.map(|found| {
        let length = found.ends - found.begins;
        format!("{} {} {} {length}", found.start, found.length, found.begins)
    }))
}

fn in_lines(name: &str, words: &mut Words) -> Option<Answer> {
    match name {
        "bolsterweft_line" => {
            let line = lines::line(kind(words)?, &words.bytes()?, words.number()?, None);
            writes(words.room()?, line)
        }
        "bolsterweft_line_next" => {
            let found = lines::next(kind(words)?, &words.bytes()?, words.number()?, None);
            next(words.room()?, found)
        }
        "bolsterweft_list" => {
            let listing = list::listing(&words.bytes()?, None);
            writes(words.room()?, Ok(listing))
        }
        _ => {
            let answer = acknowledge::acknowledge(&words.bytes()?);
            writes(words.room()?, answer)
        }
    }
}

/// The frame of a command as JSON.
fn encode(words: &mut Words) -> Option<Answer> {
    let frame = asked::encode(&words.bytes()?);
    writes(words.room()?, frame)
}

/// Lines by a register map, which stands before the room; the empty map is no sheet.
fn by_map(name: &str, words: &mut Words) -> Option<Answer> {
    let kind = match name {
        "bolsterweft_line_with" | "bolsterweft_line_next_with" => kind(words)?,
        _ => 0,
    };
    let bytes = words.bytes()?;
    let number = match name {
        "bolsterweft_line_with" | "bolsterweft_line_next_with" => words.number()?,
        "bolsterweft_book_line_with" => entry_number(words)?,
        _ => 0,
    };
    let map = words.bytes()?;
    let (map, room) = (Map(&map), words.room()?);
    let by = sheet::unless_empty(&map);
    match name {
        "bolsterweft_line_with" => writes(room, lines::line(kind, &bytes, number, by)),
        "bolsterweft_line_next_with" => next(room, lines::next(kind, &bytes, number, by)),
        "bolsterweft_list_with" => writes(room, Ok(list::listing(&bytes, by))),
        "bolsterweft_book_line_with" => writes(room, book::line(&bytes, number, by)),
        "bolsterweft_book_list_with" => writes(room, book::list(&bytes, by)),
        _ => None,
    }
}

fn in_sheet(name: &str, words: &mut Words) -> Option<Answer> {
    let text = words.bytes()?;
    match name {
        "bolsterweft_sheet_map" => {
            let map = sheet::open(&text).map(|sheet| sheet::map(&sheet));
            writes(words.room()?, map)
        }
        "bolsterweft_sheet_fault" => says(match sheet::fault(&text) {
            Some(fault) => format!("{} {}", fault.test.number(), fault.line),
            None => "0 0".to_string(),
        }),
        _ => None,
    }
}

/// The next frame's start, its length and the length of its line, which is written.
fn next(mut room: Room, next: Result<(frames::Found, Vec<u8>), Refusal>) -> Option<Answer> {
    let result = next.and_then(|(found, line)| {
        let length = room.write(&line)?;
        Ok(format!("{} {} {length}", found.start, found.length))
    });
    Some(Answer {
        result,
        room: Some(room),
    })
}

fn in_numbers(name: &str, words: &mut Words) -> Option<Answer> {
    match name {
        "bolsterweft_text" => {
            let text = numbers::text(words.number()?, words.number()?);
            writes(words.room()?, text)
        }
        "bolsterweft_number" => {
            let read = numbers::read(&words.bytes()?);
            tries(read.map(|(raw, decimals)| format!("{decimals} {raw}")))
        }
        "bolsterweft_value" => {
            let bytes = numbers::bytes(words.number()?, width(words)?, sign(words)?);
            writes(words.room()?, bytes)
        }
        "bolsterweft_value_read" => {
            let bytes = words.bytes()?;
            tries(numbers::number(&bytes, width(words)?, sign(words)?))
        }
        "bolsterweft_fits" => tries(numbers::fits_single(words.number()?).map(u8::from)),
        "bolsterweft_panel" => tries(float_text(words.number()?)),
        "bolsterweft_climate" => climate(words.number()?, words.number()?),
        _ => None,
    }
}

fn climate(temperature: i32, humidity: u32) -> Option<Answer> {
    match (i16::try_from(temperature), u16::try_from(humidity)) {
        (Ok(temperature), Ok(humidity)) => says(pair_text(temperature, humidity)),
        _ => tries(Err::<String, Refusal>(Refusal::Limits)),
    }
}

fn in_book(name: &str, words: &mut Words) -> Option<Answer> {
    let bytes = words.bytes()?;
    match name {
        "bolsterweft_book_open" => tries(book::open(&bytes).map(|entries| entries.len())),
        "bolsterweft_book_entry" => {
            let entry = book::entry(&bytes, entry_number(words)?);
            tries(entry.map(|entry| {
                let length = entry.ends - entry.begins;
                format!("{} {} {} {length}", entry.kind, entry.offset, entry.begins)
            }))
        }
        "bolsterweft_book_line" => {
            let line = book::line(&bytes, entry_number(words)?, None);
            writes(words.room()?, line)
        }
        "bolsterweft_book_list" => writes(words.room()?, book::list(&bytes, None)),
        "bolsterweft_book_add" => {
            let longer = book::add(&bytes, kind(words)?, &words.bytes()?);
            writes(words.room()?, longer)
        }
        _ => None,
    }
}

#[cfg(test)]
mod tests {
    use crate::answer_from_c;

    fn answers(request: &str, answer: &str) {
        let given = String::from_utf8(answer_from_c(request.as_bytes())).unwrap();
        assert_eq!(given, answer, "{request}");
    }

    #[test]
    fn the_calls_for_c() {
        answers("bolsterweft_search 4 C069C06902640066 0", "ok 2 6 5 2");
        answers("bolsterweft_search 260 C069C06902640066 0", "refused 2");
        answers("bolsterweft_search 4294967300 - 0", "request?");
        answers("bolsterweft_why 4 C069C06902640066 0", "ok 2 0 0");
        answers("bolsterweft_why 4 C069C06902640066 2", "ok 0 0 0");
        answers("bolsterweft_why 4 C069C06902640067 2", "ok 4 103 102");
        answers("bolsterweft_why 4 C069C06902640066 8", "ok 1 0 0");
        answers("bolsterweft_why 4 C069C06902640066 9", "refused 3");
        answers("bolsterweft_why 260 C069C06902640066 2", "refused 2");
        answers("bolsterweft_one_frame 4 C06902640066", "ok 3 2");
        answers("bolsterweft_number 2D31322E35", "ok 1 -125");
        answers("bolsterweft_value -2 2 65536 2", "ok 2 room FEFF+0");
        answers("bolsterweft_value -2 258 1 2", "refused 7 room -+2");
        answers("bolsterweft_fits 16777217", "ok 0");
        answers("bolsterweft_panel 16777217", "ok double 16777217");
        answers(
            "bolsterweft_climate -32768 65535",
            "ok single -32768 single 65535",
        );
        answers("bolsterweft_climate 32768 0", "refused 5");
        answers("bolsterweft_climate 0 65536", "refused 5");
        // {"kind":1,"msg":"tail"}, with another kind, and cut
        answers(
            "bolsterweft_encode 7B226B696E64223A312C226D7367223A227461696C227D 5",
            "ok 4 room 2345310D+1",
        );
        answers(
            "bolsterweft_encode 7B226B696E64223A312C226D7367223A227461696C227D 3",
            "refused 4 room -+3",
        );
        answers(
            "bolsterweft_encode 7B226B696E64223A322C226D7367223A227461696C227D 4",
            "refused 12 room -+4",
        );
        answers(
            "bolsterweft_encode 7B226B696E64223A312C226D7367223A227461696C22 4",
            "refused 11 room -+4",
        );
        answers("bolsterweft_book_open 000006000000", "ok 0");
        answers("bolsterweft_book_entry 000006000000 65536", "refused 3");
        answers("bolsterweft_book_add 00 260 - 0", "refused 8 room -+0");
        answers(
            "bolsterweft_book_add 000006000000 260 - 0",
            "refused 2 room -+0",
        );
        answers("bolsterweft_book_sell -", "request?");
        answers("bolsterweft_sell_with - - 0", "request?");
        answers("bolsterweft_sheet_fault -", "ok 0 0");
        answers("bolsterweft_sheet_fault 302C75382C300A0A", "ok 1 2");
        answers("bolsterweft_sheet_fault 302C75382C30", "ok 7 1");
        answers("bolsterweft_sheet_map 0A 0", "refused 10 room -+0");
        answers("bolsterweft_sheet_map - 0", "refused 4 room -+0");
        answers("bolsterweft_line_with 4 - 0 - 0", "refused 5 room -+0");
        answers("bolsterweft_line_with 260 - 0 - 0", "refused 2 room -+0");
        answers(
            "bolsterweft_line_next_with 4 C0680000 0 00 61",
            "refused 4 room -+61",
        );
        answers(
            "bolsterweft_book_line_with 000006000000 65536 00 0",
            "refused 3 room -+0",
        );
        answers(
            "bolsterweft_book_list_with 000006000000 00 0",
            "ok 0 room -+0",
        );
        // {"frames":0,"skipped":0} and LF
        answers("bolsterweft_list_with 340A 00 24", "refused 4 room -+24");
        answers("frames::search 4 - 0", "request?");
    }
}
