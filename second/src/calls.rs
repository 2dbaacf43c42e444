//! Requests and answers, as docs/CALLS.md has them: one function of the table after the other.

use crate::acknowledge;
use crate::asked::{self, Lack, Sort};
use crate::book;
use crate::checks::{self, Check};
use crate::digits;
use crate::frames::{self, build, starts, Compared, Failed, Head};
use crate::jsontext;
use crate::lines::{self, Value};
use crate::list;
use crate::messages::{self, Message};
use crate::numbers;
use crate::refusal::Refusal;
use crate::sheet::{self, Map, Type};
use crate::words::{Room, Words};

#[path = "calls_in_c.rs"]
mod in_c;

/// The answer line to one request line, both without LF.
pub fn answer(request: &[u8]) -> Vec<u8> {
    answer_line(called(request))
}

/// The same for a call for C.
pub fn answer_from_c(request: &[u8]) -> Vec<u8> {
    answer_line(in_c::called(request))
}

fn answer_line(answer: Option<Answer>) -> Vec<u8> {
    match answer {
        Some(answer) => answer.line(),
        None => b"request?".to_vec(),
    }
}

/// The values of an answer, with a space between, or a refusal; and the room that was lent.
struct Answer {
    result: Result<String, Refusal>,
    room: Option<Room>,
}

impl Answer {
    fn line(&self) -> Vec<u8> {
        let mut line = match &self.result {
            Ok(values) if values.is_empty() => "ok".to_string(),
            Ok(values) => format!("ok {values}"),
            Err(refusal) => format!("refused {}", refusal.number()),
        };
        if let Some(room) = &self.room {
            line += &format!(" room {}", room.text());
        }
        line.into_bytes()
    }
}

/// None if this is no request.
fn called(request: &[u8]) -> Option<Answer> {
    let mut words = Words::of(request)?;
    let name = std::str::from_utf8(words.word()?).ok()?;
    let (group, function) = name.split_once("::")?;
    let answer = match group {
        "digits" => in_digits(function, &mut words),
        "checks" => in_checks(function, &mut words),
        "puts" => in_puts(function, &mut words),
        "numbers" => in_numbers(function, &mut words),
        "json" => in_json(function, &mut words),
        "layouts" => in_layouts(function, &mut words),
        "builds" => in_builds(function, &mut words),
        "frames" => in_frames(function, &mut words),
        "messages" => in_messages(function, &mut words),
        "commands" => in_commands(function, &mut words),
        "lines" => in_lines(function, &mut words),
        "book" => in_book(function, &mut words),
        "list" => in_list(function, &mut words),
        "sheet" => in_sheet(function, &mut words),
        "jsontext" => in_jsontext(function, &mut words),
        "asked" => in_asked(function, &mut words),
        "shapes" => in_shapes(function, &mut words),
        _ => None,
    }?;
    words.end()?;
    Some(answer)
}

// The forms of an answer.

fn says(value: impl ToString) -> Option<Answer> {
    tries(Ok(value))
}

fn tries(result: Result<impl ToString, Refusal>) -> Option<Answer> {
    Some(Answer {
        result: result.map(|value| value.to_string()),
        room: None,
    })
}

/// Nothing, if it is not refused.
fn passes(result: Result<(), Refusal>) -> Option<Answer> {
    tries(result.map(|()| ""))
}

/// A message.
fn means(result: Result<Message, Refusal>) -> Option<Answer> {
    tries(result.map(|message| message_text(&message)))
}

/// Writes from the front of the room, all of it or nothing.
fn writes(room: Room, result: Result<Vec<u8>, Refusal>) -> Option<Answer> {
    writes_at(room, 0, result)
}

/// The same from a place of the room on.
fn writes_at(mut room: Room, to: u64, result: Result<Vec<u8>, Refusal>) -> Option<Answer> {
    let count = result.and_then(|bytes| room.write_at(to, &bytes));
    Some(Answer {
        result: count.map(|count| count.to_string()),
        room: Some(room),
    })
}

/// Puts at a place of the room and on, as far as it goes.
fn puts(mut room: Room, at: u64, bytes: &[u8]) -> Option<Answer> {
    let behind = room.put(at, bytes);
    Some(Answer {
        result: Ok(behind.to_string()),
        room: Some(room),
    })
}

// The values of an answer.

/// Bytes in hex, `-` for none.
fn shown(bytes: &[u8]) -> String {
    if bytes.is_empty() {
        "-".to_string()
    } else {
        digits::hex(bytes).into_iter().map(char::from).collect()
    }
}

/// A part of the caller's bytes; a refused part is empty.
fn part(bytes: Result<&[u8], Refusal>) -> Option<Answer> {
    says(shown(bytes.unwrap_or_default()))
}

/// A frame's length and its payload's places, zeros if there is none; then the test that failed.
fn head_text(judged: Result<Head, Failed>) -> String {
    let test = test_text(judged.err());
    match judged {
        Ok(head) => format!("{} {} {} {test}", head.length, head.begins, head.ends),
        Err(_) => format!("0 0 0 {test}"),
    }
}

/// The test that failed first, the check value found and the one expected; both are 0 without a failed check.
fn test_text(failed: Option<Failed>) -> String {
    let (name, _, Compared { found, expected }) = test_of(failed);
    format!("{name} {found} {expected}")
}

/// The test's name, its number for C, and the values.
fn test_of(failed: Option<Failed>) -> (&'static str, u32, Compared) {
    let no_values = Compared {
        found: 0,
        expected: 0,
    };
    match failed {
        None => ("none", 0, no_values),
        Some(Failed::Start) => ("start", 1, no_values),
        Some(Failed::Length) => ("length", 2, no_values),
        Some(Failed::Fields) => ("fields", 3, no_values),
        Some(Failed::First(values)) => ("first", 4, values),
        Some(Failed::Second(values)) => ("second", 5, values),
    }
}

fn places(head: Head) -> String {
    format!("{} {}", head.begins, head.ends)
}

/// A message: its name and its fields.
fn message_text(message: &Message) -> String {
    let name = message.name();
    match message {
        Message::Read { group, address } => format!("{name} {group} {address}"),
        Message::Set {
            group,
            address,
            values,
        } => format!("{name} {group} {address} {}", shown(values)),
        Message::Answer {
            address,
            third,
            values,
        } => format!("{name} {address} {third} {}", shown(values)),
        Message::Press { digits } => format!("{name} {}", shown(digits)),
        Message::Command { id } | Message::Text { id } | Message::Response { id } => {
            format!("{name} {id}")
        }
        Message::Climate {
            temperature,
            humidity,
        } => format!("{name} {temperature} {humidity}"),
        Message::Ask { register } => format!("{name} {register}"),
        Message::Reply {
            register,
            width,
            value,
        }
        | Message::Put {
            register,
            width,
            value,
        } => format!("{name} {register} {width} {value}"),
        Message::Done { ok } => format!("{name} {ok}"),
        Message::Nibe { command } => format!("{name} {command}"),
        Message::Tail
        | Message::Link
        | Message::State
        | Message::Break
        | Message::End
        | Message::Output
        | Message::Input
        | Message::Shutter
        | Message::Beat
        | Message::Homiq => name.to_string(),
    }
}

/// A float: a single if the number fits, else a double.
fn float_text(raw: i64) -> Result<String, Refusal> {
    let name = if numbers::fits_single(raw)? {
        "single"
    } else {
        "double"
    };
    Ok(format!("{name} {raw}"))
}

fn pair_text(temperature: i16, humidity: u16) -> String {
    format!("single {temperature} single {humidity}")
}

// The functions.

fn in_digits(function: &str, words: &mut Words) -> Option<Answer> {
    match function {
        "hex::digit" => says(digits::hex_digit(words.number()?)),
        "hex::value" => tries(digits::hex_value(words.number()?).ok_or(Refusal::Limits)),
        "hex::two_digits" => says(shown(&digits::hex(&[words.number()?]))),
        "hex::byte_of" => {
            let characters = [words.number()?, words.number()?];
            let byte = digits::bytes_of_hex(&characters).ok_or(Refusal::Limits);
            tries(byte.map(|byte| byte[0]))
        }
        "hex::four_digits" => {
            let number: u16 = words.number()?;
            says(shown(&digits::hex(&number.to_be_bytes())))
        }
        "hex::word_of" => {
            let characters: [u8; 4] = words.so_many_bytes()?;
            let bytes = digits::bytes_of_hex(&characters).ok_or(Refusal::Limits);
            tries(bytes.map(|bytes| digits::word(bytes[1], bytes[0])))
        }
        "decimal::digits" => says(shown(&digits::decimal(words.number()?))),
        "decimal::number_of" => {
            let number = digits::number_of_decimal(&words.bytes()?, u64::from(u32::MAX));
            tries(number.ok_or(Refusal::Form))
        }
        "low_first::one" => says(shown(&words.number::<u8>()?.to_le_bytes())),
        "low_first::two" => says(shown(&words.number::<u16>()?.to_le_bytes())),
        "low_first::four" => says(shown(&words.number::<u32>()?.to_le_bytes())),
        "low_first::eight" => says(shown(&words.number::<u64>()?.to_le_bytes())),
        "low_first::number_of" => tries(digits::low_first(&words.bytes()?)),
        "slices::same" => says(words.bytes()? == words.bytes()?),
        "refusal::number" => says(Refusal::named(words.word()?)?.number()),
        _ => None,
    }
}

fn in_checks(function: &str, words: &mut Words) -> Option<Answer> {
    let (name, method) = function.rsplit_once("::")?;
    let check = match name {
        "nikobus::Crc16" => checks::NIKOBUS_CRC16,
        "nikobus::Crc8" => checks::NIKOBUS_CRC8,
        "nest::Crc" => checks::NEST_CRC,
        "nibe::Xor" => checks::NIBE_XOR,
        "homiq::Crc" => checks::HOMIQ_CRC,
        _ => return None,
    };
    match method {
        "rule" => says(rule_text(&check)),
        "of" => says(check.of(&words.bytes()?)),
        "fed" => {
            let state = check.fed(check.start, &words.bytes()?);
            let state = check.byte(state, words.number()?);
            says(check.fed(state, &words.bytes()?))
        }
        _ => None,
    }
}

fn rule_text(check: &Check) -> String {
    let first = if check.low_first { "low" } else { "high" };
    let Check {
        width,
        polynomial,
        start,
        ..
    } = check;
    format!("{width} {polynomial} {start} {first}")
}

fn in_puts(function: &str, words: &mut Words) -> Option<Answer> {
    match function {
        "front" => {
            let bytes = words.bytes()?;
            writes(words.room()?, Ok(bytes))
        }
        "byte" => {
            let byte = words.number()?;
            puts(words.room()?, words.number()?, &[byte])
        }
        "bytes" => {
            let bytes = words.bytes()?;
            puts(words.room()?, words.number()?, &bytes)
        }
        "whole" => {
            let number = words.number()?;
            puts(words.room()?, words.number()?, &digits::decimal(number))
        }
        "hex" => {
            let bytes = words.bytes()?;
            puts(words.room()?, words.number()?, &digits::hex(&bytes))
        }
        _ => None,
    }
}

fn in_numbers(function: &str, words: &mut Words) -> Option<Answer> {
    match function {
        "text::write" => {
            let text = numbers::text(words.number()?, words.number()?);
            writes(words.room()?, text)
        }
        "text::read" => {
            let read = numbers::read(&words.bytes()?);
            tries(read.map(|(raw, decimals)| format!("{raw} {decimals}")))
        }
        "byte_values::write" => {
            let bytes = numbers::bytes(words.number()?, words.number()?, words.truth()?);
            writes(words.room()?, bytes)
        }
        "byte_values::read" => {
            let bytes = words.bytes()?;
            tries(numbers::number(&bytes, words.number()?, words.truth()?))
        }
        "single::fits" => tries(numbers::fits_single(words.number()?)),
        "panel::of" => tries(float_text(words.number()?)),
        "panel::pair" => says(pair_text(words.number()?, words.number()?)),
        _ => None,
    }
}

fn in_json(function: &str, words: &mut Words) -> Option<Answer> {
    let value = match function {
        "hex" => Value::Hex(words.bytes()?),
        "chars" => Value::Chars(words.bytes()?),
        "truth" => Value::Truth(words.truth()?),
        "signed" => Value::Reading(i64::from(words.number::<i32>()?), words.decimals()?),
        "unsigned" => Value::Reading(i64::from(words.number::<u32>()?), words.decimals()?),
        _ => return None,
    };
    puts(words.room()?, words.number()?, &lines::json(&value))
}

fn in_layouts(function: &str, words: &mut Words) -> Option<Answer> {
    match function {
        "nikobus::frame" => says(head_text(frames::nikobus(&words.bytes()?))),
        "nest::frame" => {
            let preamble = words.direction()?;
            says(head_text(frames::nest(preamble, &words.bytes()?)))
        }
        "nibe::frame" => says(head_text(frames::nibe(&words.bytes()?))),
        "homiq::frame" => says(head_text(frames::homiq(&words.bytes()?))),
        "homiq::crc" => says(frames::homiq_crc(&words.bytes()?)),
        "nikobus::may_start" => says(starts::nikobus(&words.bytes()?)),
        "nest::may_start" => says(starts::nest(words.direction()?, &words.bytes()?)),
        "nibe::may_start" => says(starts::nibe(&words.bytes()?)),
        "homiq::may_start" => says(starts::homiq(&words.bytes()?)),
        "nikobus::all_digits" => says(digits::all_hex(&words.bytes()?)),
        "nibe::is_command" => says(frames::NIBE_COMMANDS.contains(&words.number()?)),
        "homiq::is_payload" => says(frames::homiq_content(&words.bytes()?)),
        _ => None,
    }
}

fn in_builds(function: &str, words: &mut Words) -> Option<Answer> {
    let frame = match function {
        "nikobus::link" => build::link(&words.bytes()?),
        "nikobus::press" => build::press(&words.bytes()?),
        "nikobus::tail" => Ok(build::tail()),
        "nest::frame" => build::nest(words.direction()?, words.number()?, &words.bytes()?),
        "nibe::frame" => build::nibe(words.number()?, &words.bytes()?),
        "homiq::frame" => build::homiq(&words.bytes()?),
        _ => return None,
    };
    writes(words.room()?, frame)
}

fn in_frames(function: &str, words: &mut Words) -> Option<Answer> {
    match function {
        "kinds::known" => says(frames::known(words.number()?)),
        "kinds::of" => tries(frames::kind_name(words.number()?)),
        "kinds::number" => says(words.kind()?),
        _ => in_bytes(function, words),
    }
}

/// The frames of a kind in bytes.
fn in_bytes(function: &str, words: &mut Words) -> Option<Answer> {
    let kind = words.number()?;
    let bytes = words.bytes()?;
    if function == "one_frame" {
        return tries(frames::one_frame(kind, &bytes).map(places));
    }
    let place = words.number()?;
    let found = frames::search(kind, &bytes, place);
    match function {
        "why" => tries(frames::why(kind, &bytes, place).map(test_text)),
        "search" => tries(found.map(|found| {
            let frames::Found {
                start,
                length,
                begins,
                ends,
            } = found;
            format!("{start} {length} {begins} {ends}")
        })),
        "frame" => part(found.map(|found| &bytes[found.start..found.start + found.length])),
        "payload" => part(found.map(|found| &bytes[found.begins..found.ends])),
        _ => None,
    }
}

fn in_messages(function: &str, words: &mut Words) -> Option<Answer> {
    match function {
        "decode" => {
            let decoded = messages::decode(words.number()?, &words.bytes()?);
            tries(
                decoded
                    .map(|(message, head)| format!("{} {}", message_text(&message), places(head))),
            )
        }
        "find" => {
            let (kind, bytes) = (words.number()?, words.bytes()?);
            tries(find(kind, &bytes, words.number()?))
        }
        "content" => {
            let (kind, bytes) = (words.number()?, words.bytes()?);
            let head = frames::one_frame(kind, &bytes);
            part(head.map(|head| &bytes[head.begins..head.ends]))
        }
        "of" => means(messages::of(words.tag()?, &words.bytes()?)),
        "allowed" => passes(messages::allowed(&words.message()?, &words.bytes()?)),
        "nest::for_panel" => for_panel(&words.message()?),
        "nest::voltages" => {
            let voltages = messages::voltages(&words.bytes()?);
            tries(voltages.map(|[vin, vop, vbat]| format!("{vin} {vop} {vbat}")))
        }
        "homiq::field" => {
            let bytes = words.bytes()?;
            let field = messages::homiq_field(&bytes, words.number()?);
            says(shown(field.unwrap_or_default()))
        }
        "homiq::next_id" => tries(messages::homiq_id_after(words.number()?)),
        _ => None,
    }
}

fn find(kind: u8, bytes: &[u8], place: u64) -> Result<String, Refusal> {
    let frames::Found {
        start,
        length,
        begins,
        ends,
    } = frames::search(kind, bytes, place)?;
    let (message, _) = messages::decode(kind, &bytes[start..start + length])?;
    let message = message_text(&message);
    Ok(format!("{start} {length} {begins} {ends} {message}"))
}

fn for_panel(message: &Message) -> Option<Answer> {
    match message {
        Message::Climate {
            temperature,
            humidity,
        } => says(pair_text(*temperature, *humidity)),
        _ if message.kind() == frames::NEST_RESPONSE => {
            tries(Err::<String, Refusal>(Refusal::Limits))
        }
        _ => None,
    }
}

fn in_commands(function: &str, words: &mut Words) -> Option<Answer> {
    let frame = match function {
        "encode" => {
            let (kind, message) = (words.number()?, words.message()?);
            messages::encode(kind, &message, &words.bytes()?)
        }
        "acknowledge" => acknowledge::acknowledge(&words.bytes()?),
        _ => return None,
    };
    writes(words.room()?, frame)
}

fn in_lines(function: &str, words: &mut Words) -> Option<Answer> {
    match function {
        "write" => {
            let line = lines::line(words.number()?, &words.bytes()?, words.number()?, None);
            writes(words.room()?, line)
        }
        "write_with" => {
            let (kind, frame, at) = (words.number()?, words.bytes()?, words.number()?);
            let line = lines::line_with(kind, &frame, at, &words.bytes()?);
            writes(words.room()?, line)
        }
        "write_mapped" => {
            let (kind, frame, at) = (words.number()?, words.bytes()?, words.number()?);
            let map = words.bytes()?;
            let line = lines::line(kind, &frame, at, sheet::unless_empty(&Map(&map)));
            writes(words.room()?, line)
        }
        "next" => {
            let (kind, capture, place) = (words.number()?, words.bytes()?, words.number()?);
            let map = words.bytes()?;
            let next = lines::next(kind, &capture, place, sheet::unless_empty(&Map(&map)));
            let mut room = words.room()?;
            let to = words.number()?;
            let result = next.and_then(|(found, line)| {
                let behind = to + room.write_at(to, &line)? as u64;
                Ok(format!("{} {} {behind}", found.start, found.length))
            });
            Some(Answer {
                result,
                room: Some(room),
            })
        }
        "measure" => {
            let (kind, capture, place) = (words.number()?, words.bytes()?, words.number()?);
            let map = words.bytes()?;
            let next = lines::next(kind, &capture, place, sheet::unless_empty(&Map(&map)));
            tries(next.map(|(found, line)| {
                let size = line.len();
                format!("{} {} {size}", found.start, found.length)
            }))
        }
        "of" => {
            let (message, content) = (words.message()?, words.bytes()?);
            let line = lines::of(&message, &content, words.number()?, words.number()?);
            writes_at(words.room()?, words.number()?, line)
        }
        "put_content" => {
            let (tag, payload) = (words.tag()?, words.bytes()?);
            let (at, len, map) = (words.number()?, words.number()?, words.bytes()?);
            let line = lines::of_content(tag, &payload, at, len, sheet::unless_empty(&Map(&map)));
            let (room, to) = (words.room()?, words.number()?);
            match line {
                Ok(line) => puts(room, to, &line),
                Err(refusal) => writes_at(room, to, Err(refusal)),
            }
        }
        _ => None,
    }
}

fn in_book(function: &str, words: &mut Words) -> Option<Answer> {
    let bytes = words.bytes()?;
    match function {
        "open" => tries(book::open(&bytes).map(|entries| entries.len())),
        "entry" => {
            let entry = book::entry(&bytes, words.number()?);
            tries(entry.map(|entry| {
                let book::Entry {
                    kind,
                    offset,
                    begins,
                    ends,
                } = entry;
                format!("{kind} {offset} {begins} {ends}")
            }))
        }
        "frame" => {
            let entry = book::entry(&bytes, words.number()?);
            part(entry.map(|entry| &bytes[entry.begins..entry.ends]))
        }
        "line" => {
            let line = book::line(&bytes, words.number()?, None);
            writes(words.room()?, line)
        }
        "line_with" => {
            let line = book::line_with(&bytes, words.number()?, &words.bytes()?);
            writes(words.room()?, line)
        }
        "line_mapped" => {
            let (number, map) = (words.number()?, words.bytes()?);
            let line = book::line(&bytes, number, sheet::unless_empty(&Map(&map)));
            writes(words.room()?, line)
        }
        "list" => writes(words.room()?, book::list(&bytes, None)),
        "list_with" => {
            let list = book::list_with(&bytes, &words.bytes()?);
            writes(words.room()?, list)
        }
        "list_mapped" => {
            let map = words.bytes()?;
            writes(
                words.room()?,
                book::list(&bytes, sheet::unless_empty(&Map(&map))),
            )
        }
        "add" => {
            let longer = book::add(&bytes, words.number()?, &words.bytes()?);
            writes(words.room()?, longer)
        }
        _ => None,
    }
}

fn in_list(function: &str, words: &mut Words) -> Option<Answer> {
    let input = words.bytes()?;
    let listing = match function {
        "write" => list::listing(&input, None),
        "write_with" => list::listing_with(&input, &words.bytes()?),
        "write_mapped" => {
            let map = words.bytes()?;
            list::listing(&input, sheet::unless_empty(&Map(&map)))
        }
        _ => return None,
    };
    writes(words.room()?, Ok(listing))
}

fn in_sheet(function: &str, words: &mut Words) -> Option<Answer> {
    match function {
        "open" => tries(sheet::open(&words.bytes()?).map(|sheet| sheet.rows.len())),
        "fault" => {
            let fault = sheet::fault(&words.bytes()?);
            says(fault_text(
                fault.map(|fault| (fault.line, fault.test.name())),
            ))
        }
        "type_of" => {
            let (sheet, register) = (sheet::open(&words.bytes()?), words.number()?);
            typed(sheet.and_then(|sheet| sheet::type_of(&sheet, register)))
        }
        "type_in" => {
            let (map, register) = (words.bytes()?, words.number()?);
            typed(sheet::type_of(&Map(&map), register))
        }
        "split" => {
            let pairs = sheet::split(words.number()?, &words.bytes()?, &words.bytes()?);
            writes(words.room()?, pairs)
        }
        "join" => {
            let data = sheet::join(words.number()?, &words.bytes()?, &words.bytes()?);
            writes(words.room()?, data)
        }
        "map" => {
            let map = sheet::open(&words.bytes()?).map(|sheet| sheet::map(&sheet));
            writes(words.room()?, map)
        }
        "splits" => {
            let (map, data) = (words.bytes()?, words.bytes()?);
            says(sheet::pairs(&data, &Map(&map)).is_ok())
        }
        "unsolicited" => says(sheet::is_split(words.number()?)),
        _ => None,
    }
}

fn in_jsontext(function: &str, words: &mut Words) -> Option<Answer> {
    match function {
        "accepts" => says(jsontext::accepts(&words.bytes()?)),
        "fault" => {
            let fault = jsontext::fault(&words.bytes()?);
            says(fault_text(
                fault.map(|fault| (fault.place, fault.lack.name())),
            ))
        }
        "members::count" => tries(jsontext::count(&words.bytes()?)),
        "members::value_of" => {
            let ends = jsontext::value_of(&words.bytes()?, &words.bytes()?);
            tries(ends.map(|(from, to)| format!("{from} {to}")))
        }
        "members::characters" => {
            let bytes = jsontext::bytes_of_string(&words.bytes()?);
            writes(words.room()?, bytes)
        }
        _ => None,
    }
}

fn in_asked(function: &str, words: &mut Words) -> Option<Answer> {
    match function {
        "lacks::first" => says(lack_text(asked::lacks(&words.bytes()?))),
        "encode" => {
            let frame = asked::encode(&words.bytes()?);
            writes(words.room()?, frame)
        }
        "read" => {
            let (read, mut room) = (asked::read(&words.bytes()?), words.room()?);
            let result = read.and_then(|(message, content)| {
                let length = room.write(&content)?;
                let (kind, message) = (message.kind(), message_text(&message));
                Ok(format!("{kind} {message} {length}"))
            });
            Some(Answer {
                result,
                room: Some(room),
            })
        }
        _ => None,
    }
}

fn in_shapes(function: &str, words: &mut Words) -> Option<Answer> {
    match function {
        "name_of" => {
            let name = asked::name_of(words.number()?, words.number()?);
            writes(words.room()?, name.map(|name| name.as_bytes().to_vec()))
        }
        "sort_of" => says(sort_text(asked::sort_of(words.number()?, words.number()?))),
        _ => None,
    }
}

/// What a command lacks.
fn lack_text(lack: Option<Lack>) -> String {
    match lack {
        None => "nothing".to_string(),
        Some(Lack::Text) => "text".to_string(),
        Some(Lack::Object) => "object".to_string(),
        Some(Lack::Kind(there)) => format!("kind {there}"),
        Some(Lack::Msg(there)) => format!("msg {there}"),
        Some(Lack::Member(row, number, there)) => format!("member {row} {number} {there}"),
        Some(Lack::Extra) => "extra".to_string(),
        Some(Lack::Volts) => "volts".to_string(),
    }
}

/// What the value of a member must be.
fn sort_text(sort: Option<Sort>) -> String {
    match sort {
        None => "nothing".to_string(),
        Some(Sort::Whole) => "number".to_string(),
        Some(Sort::Hex(count)) => format!("bytes {count}"),
        Some(Sort::Digits(count)) => format!("digits {count}"),
        Some(Sort::Content) => "content".to_string(),
        Some(Sort::Characters) => "text".to_string(),
        Some(Sort::Truth) => "truth".to_string(),
        Some(Sort::Reading(decimals)) => format!("reading {decimals}"),
    }
}

/// A type: width, whether it has a sign, decimals.
fn typed(result: Result<Type, Refusal>) -> Option<Answer> {
    tries(result.map(|listed| {
        let Type {
            width,
            signed,
            decimals,
        } = listed;
        format!("{width} {signed} {decimals}")
    }))
}

/// The line of a sheet that is wrong and the test that it fails, or the place of a text and what must stand there; `0 none` without a fault.
fn fault_text(fault: Option<(usize, &str)>) -> String {
    let (place, word) = fault.unwrap_or((0, "none"));
    format!("{place} {word}")
}

#[cfg(test)]
mod tests {
    use super::*;

    /// Whatever the request, there is an answer: words of all sorts in all orders.
    #[test]
    fn every_request_is_answered() {
        let names = [
            "numbers::text::write",
            "numbers::byte_values::write",
            "numbers::byte_values::read",
            "numbers::panel::of",
            "puts::bytes",
            "puts::whole",
            "json::chars",
            "json::signed",
            "jsontext::accepts",
            "jsontext::fault",
            "jsontext::members::count",
            "jsontext::members::value_of",
            "jsontext::members::characters",
            "asked::encode",
            "asked::read",
            "asked::lacks::first",
            "shapes::name_of",
            "shapes::sort_of",
            "frames::search",
            "frames::why",
            "frames::payload",
            "messages::decode",
            "messages::find",
            "messages::homiq::field",
            "messages::homiq::next_id",
            "messages::nest::voltages",
            "commands::encode",
            "lines::write",
            "lines::next",
            "lines::measure",
            "lines::of",
            "lines::put_content",
            "messages::allowed",
            "messages::of",
            "frames::kinds::of",
            "book::open",
            "book::line",
            "book::add",
            "list::write",
        ];
        let arguments = [
            "0",
            "1",
            "2",
            "3",
            "4",
            "5",
            "-1",
            "18446744073709551615",
            "-9223372036854775808",
            "9223372036854775807",
            "4294967295",
            "true",
            "-",
            "2345310D",
            "C06902449CDA",
            "D5AA96FF000000A34B",
            "3C3B492E333B313B30483B303B34323B733B3133343B3E0D0A",
            "000006000000",
            "0104002345310D0000000001000A000000",
            "010400FFFFFFFF",
            "340AC06902449CDA",
            "7B226B696E64223A312C226D7367223A227461696C227D",
            "reply 1 2 3",
            "text 1",
            "response 1",
            "state",
            "homiq",
        ];
        let mut state: u32 = 1;
        let mut below = |limit: usize| {
            state = state.wrapping_mul(1_664_525).wrapping_add(1_013_904_223);
            (state >> 8) as usize % limit
        };
        let mut answered = 0;
        for _ in 0..200_000 {
            let mut request = names[below(names.len())].to_string();
            for _ in 0..below(6) {
                request += " ";
                request += arguments[below(arguments.len())];
            }
            if answer(request.as_bytes()) != b"request?" {
                answered += 1;
            }
        }
        assert!(answered > 1_000, "{answered}");
    }
}
