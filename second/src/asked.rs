//! Commands as JSON (02, K4): an object with the members of a line of 01, `kind` in place of `at` and `len`, and the message that it is.
//!
//! It goes in two steps. The first reads every member by its sort: what it does not take is refused with 12, and it says what the text lacks. The
//! second makes the message of the values: what is outside its limits is refused with 5, and a content that a message above has with 6.

use crate::digits;
use crate::frames;
use crate::jsontext;
use crate::messages::{self, Message};
use crate::numbers;
use crate::refusal::Refusal;

/// What the value of a member is.
#[derive(Clone, Copy, Debug, PartialEq, Eq)]
pub enum Sort {
    /// A whole number.
    Whole,
    /// A reading with so many decimals.
    Reading(usize),
    /// So many hex digits, as they stand.
    Digits(usize),
    /// So many bytes in hex, two digits each.
    Hex(usize),
    /// Any number of bytes in hex.
    Content,
    /// Characters, a byte each.
    Characters,
    /// `true` or `false`.
    Truth,
}

use Sort::{Characters, Content, Digits, Hex, Reading, Truth, Whole};

/// What a text lacks to be a command. The truth is whether a member of that name stands there, with a value that is not as it must be.
#[derive(Clone, Copy, Debug, PartialEq, Eq)]
pub enum Lack {
    /// It is not in the grammar, or over a limit.
    Text,
    Object,
    Kind(bool),
    Msg(bool),
    /// The number of a row, counted from 1, and that of its member, counted from 0.
    Member(usize, usize, bool),
    /// It has more members than these.
    Extra,
    /// It is a state, and its voltages are not those of its data.
    Volts,
}

impl Lack {
    fn refusal(self) -> Refusal {
        match self {
            Lack::Text => Refusal::NotInGrammar,
            _ => Refusal::BadMembers,
        }
    }
}

/// A message's name, its kind, and its members behind `msg`.
type Row = (&'static str, u8, &'static [(&'static str, Sort)]);

const REGISTER_AND_VALUE: &[(&str, Sort)] =
    &[("reg", Whole), ("width", Whole), ("value", Reading(0))];
const HOMIQ_FIELDS: &[(&str, Sort)] = &[
    ("cmd", Characters),
    ("val", Characters),
    ("src", Characters),
    ("dst", Characters),
    ("id", Whole),
    ("type", Characters),
];

const ROWS: [Row; 23] = [
    (
        "read",
        frames::NIKOBUS,
        &[("group", Whole), ("addr", Hex(2))],
    ),
    (
        "set",
        frames::NIKOBUS,
        &[("group", Whole), ("addr", Hex(2)), ("out", Hex(6))],
    ),
    (
        "answer",
        frames::NIKOBUS,
        &[("addr", Hex(2)), ("third", Whole), ("out", Hex(6))],
    ),
    ("press", frames::NIKOBUS, &[("addr", Digits(6))]),
    ("tail", frames::NIKOBUS, &[]),
    ("link", frames::NIKOBUS, &[("data", Content)]),
    (
        "command",
        frames::NEST_COMMAND,
        &[("id", Whole), ("data", Content)],
    ),
    (
        "climate",
        frames::NEST_RESPONSE,
        &[("temp", Reading(2)), ("hum", Reading(1))],
    ),
    (
        "state",
        frames::NEST_RESPONSE,
        &[
            ("vin", Reading(2)),
            ("vop", Reading(3)),
            ("vbat", Reading(3)),
            ("data", Content),
        ],
    ),
    ("break", frames::NEST_RESPONSE, &[]),
    ("end", frames::NEST_RESPONSE, &[]),
    (
        "text",
        frames::NEST_RESPONSE,
        &[("id", Whole), ("text", Characters)],
    ),
    (
        "response",
        frames::NEST_RESPONSE,
        &[("id", Whole), ("data", Content)],
    ),
    ("ask", frames::NIBE, &[("reg", Whole)]),
    ("reply", frames::NIBE, REGISTER_AND_VALUE),
    ("put", frames::NIBE, REGISTER_AND_VALUE),
    ("done", frames::NIBE, &[("ok", Truth)]),
    ("nibe", frames::NIBE, &[("cmd", Whole), ("data", Content)]),
    ("output", frames::HOMIQ, HOMIQ_FIELDS),
    ("input", frames::HOMIQ, HOMIQ_FIELDS),
    ("shutter", frames::HOMIQ, HOMIQ_FIELDS),
    ("beat", frames::HOMIQ, HOMIQ_FIELDS),
    ("homiq", frames::HOMIQ, HOMIQ_FIELDS),
];

/// A value that is of its sort. Its limits have not been looked at.
enum Spelt {
    /// A whole number, or the raw number of a reading.
    Number(i128),
    /// Digits or characters, a byte each.
    Bytes(Vec<u8>),
    Truth(bool),
}

use Spelt::{Bytes, Number};

/// The message that a text is, and what stands beside it: 11, 12, 5, 6.
pub fn read(text: &[u8]) -> Result<(Message, Vec<u8>), Refusal> {
    let (name, values) = spelt(text).map_err(Lack::refusal)?;
    let (message, content) = message(name, &values)?;
    messages::allowed(&message, &content)?;
    Ok((message, content))
}

/// Its frame: 11, 12, 5, 6.
pub fn encode(text: &[u8]) -> Result<Vec<u8>, Refusal> {
    let (message, content) = read(text)?;
    messages::encode(message.kind(), &message, &content)
}

/// The first thing that a text lacks to be a command.
pub fn lacks(text: &[u8]) -> Option<Lack> {
    spelt(text).err()
}

/// The name of a row's member: 5.
pub fn name_of(row: u8, number: u8) -> Result<&'static str, Refusal> {
    let (name, _) = member_of(row, number).ok_or(Refusal::Limits)?;
    Ok(name)
}

pub fn sort_of(row: u8, number: u8) -> Option<Sort> {
    let (_, sort) = member_of(row, number)?;
    Some(*sort)
}

fn member_of(row: u8, number: u8) -> Option<&'static (&'static str, Sort)> {
    let (_, _, members) = ROWS.get(usize::from(row).checked_sub(1)?)?;
    members.get(usize::from(number))
}

/// The name of the message, and its members' values in the order of 01, if the text has just these members, each of its sort.
fn spelt(text: &[u8]) -> Result<(&'static str, Vec<Spelt>), Lack> {
    if !jsontext::accepts(text) {
        return Err(Lack::Text);
    }
    let count = jsontext::count(text).map_err(|_| Lack::Object)?;
    let kind = of_member(text, "kind", kind_of).map_err(Lack::Kind)?;
    let row = of_member(text, "msg", |msg| row_of(kind, msg)).map_err(Lack::Msg)?;
    let (name, _, members) = ROWS[row];
    let mut values = Vec::new();
    for (number, (name, sort)) in members.iter().enumerate() {
        let read = of_member(text, name, |text| value(*sort, text));
        values.push(read.map_err(|there| Lack::Member(row + 1, number, there))?);
    }
    if count != 2 + members.len() {
        return Err(Lack::Extra);
    }
    if !agree(name, &values) {
        return Err(Lack::Volts);
    }
    Ok((name, values))
}

/// What the value of a member is read as; if it is not, whether the member stands there.
fn of_member<T>(text: &[u8], name: &str, read: impl Fn(&[u8]) -> Option<T>) -> Result<T, bool> {
    read(member(text, name).ok_or(false)?).ok_or(true)
}

/// The kind of the table that a value is.
fn kind_of(text: &[u8]) -> Option<u8> {
    let number = whole(text)?;
    let mut kinds = ROWS.iter().map(|(_, kind, _)| *kind);
    kinds.find(|kind| number == kind.to_string())
}

/// The row of this kind whose message a value names.
fn row_of(kind: u8, text: &[u8]) -> Option<usize> {
    let msg = jsontext::bytes_of_string(text).ok()?;
    ROWS.iter()
        .position(|row| row.0.as_bytes() == msg && row.1 == kind)
}

/// Whether the voltages of a state are those of its data. Other messages have nothing that could disagree here.
fn agree(name: &str, values: &[Spelt]) -> bool {
    match (name, values) {
        ("state", [Number(vin), Number(vop), Number(vbat), Bytes(data)]) => {
            voltages(data) == Some([*vin, *vop, *vbat])
        }
        _ => true,
    }
}

/// The text of a member's value.
fn member<'a>(text: &'a [u8], name: &str) -> Option<&'a [u8]> {
    let (from, to) = jsontext::value_of(text, name.as_bytes()).ok()?;
    Some(&text[from..to])
}

fn value(sort: Sort, text: &[u8]) -> Option<Spelt> {
    let bytes = || jsontext::bytes_of_string(text).ok();
    match sort {
        Whole => whole(text).map(|digits| Number(number(digits))),
        Reading(decimals) => reading(text, decimals).map(Number),
        Digits(count) => bytes()
            .filter(|digits| digits::all_hex(digits) && digits.len() == count)
            .map(Bytes),
        Hex(count) => digits::bytes_of_hex(&bytes()?)
            .filter(|bytes| bytes.len() == count)
            .map(Bytes),
        Content => digits::bytes_of_hex(&bytes()?).map(Bytes),
        Characters => bytes().map(Bytes),
        Truth => truth(text).map(Spelt::Truth),
    }
}

fn truth(text: &[u8]) -> Option<bool> {
    match text {
        b"true" => Some(true),
        b"false" => Some(false),
        _ => None,
    }
}

/// The text itself if it is a whole number as 01 writes one: no point, no exponent, no `-0`. The grammar has no leading zeros.
fn whole(text: &[u8]) -> Option<&str> {
    let digits = text.strip_prefix(b"-").unwrap_or(text);
    let is_whole = digits.iter().all(u8::is_ascii_digit) && text != b"-0";
    std::str::from_utf8(text).ok().filter(|_| is_whole)
}

/// The number, or one that is as far out of all limits.
fn number(whole: &str) -> i128 {
    let far = if whole.starts_with('-') {
        i128::MIN
    } else {
        i128::MAX
    };
    whole.parse().unwrap_or(far)
}

/// The raw number of a reading with these decimals, whose four members must agree. Whether a number out of the range fits a single is not
/// asked.
fn reading(text: &[u8], decimals: usize) -> Option<i128> {
    let raw = whole(member(text, "raw")?)?;
    let dec = whole(member(text, "dec")?)?;
    let shown = jsontext::bytes_of_string(member(text, "text")?).ok()?;
    let single = truth(member(text, "f32")?)?;
    let agree = jsontext::count(text).ok()? == 4
        && dec == decimals.to_string()
        && shown == with_decimals(raw, decimals).as_bytes()
        && fits_single(number(raw)).is_none_or(|fits| fits == single);
    agree.then(|| number(raw))
}

/// None if the number is out of the range.
fn fits_single(raw: i128) -> Option<bool> {
    numbers::fits_single(i64::try_from(raw).ok()?).ok()
}

/// The text of a raw number of any size.
fn with_decimals(raw: &str, decimals: usize) -> String {
    let (sign, digits) = match raw.strip_prefix('-') {
        Some(digits) => ("-", digits),
        None => ("", raw),
    };
    let digits = format!("{digits:0>least$}", least = decimals + 1);
    let (whole, behind) = digits.split_at(digits.len() - decimals);
    let point = if decimals == 0 { "" } else { "." };
    format!("{sign}{whole}{point}{behind}")
}

/// The voltages of a state's data, if they are long enough to have them.
fn voltages(data: &[u8]) -> Option<[i128; 3]> {
    let volts = data.get(8..14)?;
    Some([0, 2, 4].map(|place| digits::word(volts[place], volts[place + 1]).into()))
}

/// The message of that name with these values, and what stands beside it: 5 for a number that its field does not hold. The other limits are the
/// encoder's.
fn message(name: &str, values: &[Spelt]) -> Result<(Message, Vec<u8>), Refusal> {
    let alone = |message| Ok((message, Vec::new()));
    match (name, values) {
        ("read", [Number(group), Bytes(address)]) => alone(Message::Read {
            group: held(*group)?,
            address: word(address),
        }),
        ("set", [Number(group), Bytes(address), Bytes(out)]) => alone(Message::Set {
            group: held(*group)?,
            address: word(address),
            values: fixed(out),
        }),
        ("answer", [Bytes(address), Number(third), Bytes(out)]) => alone(Message::Answer {
            address: word(address),
            third: held(*third)?,
            values: fixed(out),
        }),
        ("press", [Bytes(address)]) => alone(Message::Press {
            digits: fixed(address),
        }),
        ("tail", []) => alone(Message::Tail),
        ("link", [Bytes(data)]) => Ok((Message::Link, digits::hex(data))),
        ("command", [Number(id), Bytes(data)]) => {
            Ok((Message::Command { id: held(*id)? }, data.clone()))
        }
        ("climate", [Number(temperature), Number(humidity)]) => alone(Message::Climate {
            temperature: held(*temperature)?,
            humidity: held(*humidity)?,
        }),
        ("state", [_, _, _, Bytes(data)]) => Ok((Message::State, data.clone())),
        ("break", []) => alone(Message::Break),
        ("end", []) => alone(Message::End),
        ("text", [Number(id), Bytes(text)]) => Ok((Message::Text { id: held(*id)? }, text.clone())),
        ("response", [Number(id), Bytes(data)]) => {
            Ok((Message::Response { id: held(*id)? }, data.clone()))
        }
        ("ask", [Number(register)]) => alone(Message::Ask {
            register: held(*register)?,
        }),
        ("reply", [Number(register), Number(width), Number(value)]) => alone(Message::Reply {
            register: held(*register)?,
            width: held(*width)?,
            value: held(*value)?,
        }),
        ("put", [Number(register), Number(width), Number(value)]) => alone(Message::Put {
            register: held(*register)?,
            width: held(*width)?,
            value: held(*value)?,
        }),
        ("done", [Spelt::Truth(ok)]) => alone(Message::Done { ok: *ok }),
        ("nibe", [Number(command), Bytes(data)]) => {
            let command = held(*command)?;
            Ok((Message::Nibe { command }, data.clone()))
        }
        ("output", fields) => Ok((Message::Output, joined(fields))),
        ("input", fields) => Ok((Message::Input, joined(fields))),
        ("shutter", fields) => Ok((Message::Shutter, joined(fields))),
        ("beat", fields) => Ok((Message::Beat, joined(fields))),
        ("homiq", fields) => Ok((Message::Homiq, joined(fields))),
        _ => Err(Refusal::BadMembers),
    }
}

fn held<T: TryFrom<i128>>(number: i128) -> Result<T, Refusal> {
    T::try_from(number).map_err(|_| Refusal::Limits)
}

/// The number of two bytes: a module address is shown high byte first.
fn word(address: &[u8]) -> u16 {
    let [high, low] = fixed(address);
    digits::word(low, high)
}

/// Bytes of which there are so many: their sort has seen to it.
fn fixed<const N: usize>(bytes: &[u8]) -> [u8; N] {
    bytes.try_into().unwrap_or([0; N])
}

/// CMD to TYPE. A field with `;` makes too many of them, and the encoder refuses it.
fn joined(fields: &[Spelt]) -> Vec<u8> {
    let texts: Vec<Vec<u8>> = fields
        .iter()
        .map(|field| match field {
            Number(id) => id.to_string().into_bytes(),
            Bytes(text) => text.clone(),
            Spelt::Truth(_) => Vec::new(),
        })
        .collect();
    texts.join(&b';')
}

#[cfg(test)]
mod tests {
    use super::*;

    #[test]
    fn the_text_of_a_number_is_that_of_numbers() {
        for raw in [
            0,
            1,
            -1,
            5,
            -5,
            99,
            -125,
            1000,
            numbers::LEAST,
            numbers::MOST,
        ] {
            for decimals in 0..=3 {
                let text = with_decimals(&raw.to_string(), decimals);
                assert_eq!(Ok(text.into_bytes()), numbers::text(raw, decimals as u32));
            }
        }
        assert_eq!(
            with_decimals("-99999999999999999999999", 2),
            "-999999999999999999999.99"
        );
    }

    #[test]
    fn numbers_far_out_of_all_limits() {
        assert_eq!(number("-7"), -7);
        assert_eq!(number(&"9".repeat(4000)), i128::MAX);
        assert_eq!(number(&format!("-{}", "9".repeat(4000))), i128::MIN);
    }
}
