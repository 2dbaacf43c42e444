//! Commands as JSON (02, K4), made at random: the messages of a row with their members in any order and under any spelling, at their limits
//! and beyond, changed, and damaged. Readings are worked out here and not asked of the decoder.

use crate::contents::HEX;
use crate::messages::{self, Message};
use crate::random::Random;
use crate::rows::{Row, ROWS};
use crate::texts::{self, DEEPEST, MOST_BYTES};

/// 23 digits.
const LONG: &str = "99999999999999999999999";

/// A value before it is spelt.
#[derive(Clone)]
enum Json {
    /// As it stands: a number, or a literal.
    Plain(String),
    Text(Vec<u16>),
    Object(Members),
    List(Vec<Json>),
}

type Members = Vec<(String, Json)>;

fn plain(value: impl ToString) -> Json {
    Json::Plain(value.to_string())
}

fn text(characters: &str) -> Json {
    Json::Text(characters.encode_utf16().collect())
}

/// A character a byte.
fn bytes(bytes: &[u8]) -> Json {
    Json::Text(bytes.iter().map(|byte| u16::from(*byte)).collect())
}

fn hex(bytes: &[u8]) -> Json {
    let digits: String = bytes.iter().map(|byte| format!("{byte:02X}")).collect();
    text(&digits)
}

/// The reading of a raw number, all of it right; of one out of the range any f32 is.
fn reading(raw: i128, decimals: usize) -> Json {
    object_of(raw, decimals, &shown(raw, decimals), fits_single(raw))
}

fn object_of(raw: i128, decimals: usize, shown: &str, single: bool) -> Json {
    Json::Object(vec![
        ("raw".to_string(), plain(raw)),
        ("dec".to_string(), plain(decimals)),
        ("text".to_string(), text(shown)),
        ("f32".to_string(), plain(single)),
    ])
}

fn shown(raw: i128, decimals: usize) -> String {
    let scale = 10_u128.pow(decimals as u32);
    let (size, sign) = (raw.unsigned_abs(), if raw < 0 { "-" } else { "" });
    match decimals {
        0 => format!("{sign}{size}"),
        _ => format!("{sign}{}.{:0decimals$}", size / scale, size % scale),
    }
}

/// By the machine's own floats.
fn fits_single(raw: i128) -> bool {
    raw as f64 as f32 as f64 == raw as f64
}

/// A command of this row as a text: right, at its limits or beyond, mostly with a change or two, now and then damaged.
pub fn of_row(row: &Row, random: &mut Random) -> Vec<u8> {
    let mut members = of(row, random);
    if random.one_in(2) {
        for _ in 0..random.from_to(1, 2) {
            change(row, &mut members, random);
        }
    }
    let mut text = spelt(&Json::Object(members), random);
    match random.below(16) {
        0 => texts::damage(&mut text, random),
        1 => text = [texts::blanks(random), text, texts::blanks(random)].concat(),
        2 if random.one_in(3) => {
            let length = random.from_to(MOST_BYTES - 1, MOST_BYTES + 1);
            texts::lengthen(&mut text, length, random);
        }
        3 if random.one_in(3) => text = texts::array(&[text], random),
        _ => {}
    }
    text
}

/// A text of the value, one of many.
fn spelt(value: &Json, random: &mut Random) -> Vec<u8> {
    match value {
        Json::Plain(value) => value.clone().into_bytes(),
        Json::Text(units) => string(units, random),
        Json::List(values) => {
            let values: Vec<Vec<u8>> = values.iter().map(|value| spelt(value, random)).collect();
            texts::array(&values, random)
        }
        Json::Object(members) => {
            let mut parts: Vec<Vec<u8>> = Vec::new();
            for (name, value) in members {
                let name = string(&name.encode_utf16().collect::<Vec<_>>(), random);
                let part = texts::member(&name, &spelt(value, random), random);
                parts.insert(random.below(parts.len() + 1), part);
            }
            texts::object(&parts, random)
        }
    }
}

/// As it stands, half the time, if it can.
fn string(units: &[u16], random: &mut Random) -> Vec<u8> {
    let stands = |unit: &u16| (0x20..0x7F).contains(unit) && ![0x22, 0x5C].contains(unit);
    if units.iter().all(stands) && random.one_in(2) {
        let inner: Vec<u8> = units.iter().map(|unit| *unit as u8).collect();
        return [b"\"", &inner[..], b"\""].concat();
    }
    texts::spelt(units, random)
}

/// The members of a message of the row, some of them outside their limits, and some now and then wrongly spelt.
fn of(row: &Row, random: &mut Random) -> Members {
    let Message { words, content } = messages::message(row.name, random);
    let whole = |nth: usize| plain(&words[nth]);
    let raw = |nth: usize| words[nth].parse().unwrap_or(0);
    let address = |nth: usize| text(&format!("{:04X}", raw(nth) as u16));
    let digits = |nth: usize| text(&words[nth]);
    let mut members = vec![("kind", plain(row.kind)), ("msg", text(row.name))];
    members.extend(match row.name {
        "read" => vec![("group", whole(1)), ("addr", address(2))],
        "set" => vec![
            ("group", whole(1)),
            ("addr", address(2)),
            ("out", digits(3)),
        ],
        "answer" => vec![
            ("addr", address(1)),
            ("third", beyond(255, whole(2), random)),
            ("out", digits(3)),
        ],
        "press" => vec![("addr", bytes(&messages::press_digits(random)))],
        "link" => vec![("data", bytes(&content))],
        "command" | "response" => vec![
            ("id", beyond(65_535, whole(1), random)),
            ("data", hex(&content)),
        ],
        "climate" => vec![
            ("temp", reading(near(raw(1), random), 2)),
            ("hum", reading(near(raw(2), random), 1)),
        ],
        "state" => {
            let volts = |at: usize| {
                let low_first = content.get(at..at + 2).unwrap_or(b"\0\0");
                i128::from(u16::from_le_bytes([low_first[0], low_first[1]]))
            };
            let off = |random: &mut Random| i128::from(random.one_in(16));
            vec![
                ("vin", reading(volts(8) + off(random), 2)),
                ("vop", reading(volts(10) + off(random), 3)),
                ("vbat", reading(volts(12) + off(random), 3)),
                ("data", hex(&content)),
            ]
        }
        "text" => vec![
            ("id", beyond(65_535, whole(1), random)),
            ("text", bytes(&content)),
        ],
        "ask" => vec![("reg", beyond(65_535, whole(1), random))],
        "reply" | "put" => vec![
            ("reg", beyond(65_535, whole(1), random)),
            ("width", whole(2)),
            ("value", reading(near(raw(3), random), 0)),
        ],
        "done" => vec![("ok", whole(1))],
        "nibe" => vec![
            ("cmd", beyond(255, whole(1), random)),
            ("data", hex(&content)),
        ],
        "tail" | "break" | "end" => vec![],
        _ => homiq(&content, random),
    });
    members
        .into_iter()
        .map(|(name, value)| (name.to_string(), value))
        .collect()
}

/// Now and then a number that is no longer held.
fn beyond(most: u32, value: Json, random: &mut Random) -> Json {
    match random.below(12) {
        0 => plain(most + 1),
        1 => plain("-1"),
        2 => plain(LONG),
        3 => plain(most),
        _ => value,
    }
}

/// A raw number, or one near a limit of some field.
fn near(raw: i128, random: &mut Random) -> i128 {
    const LIMITS: [i128; 14] = [
        -32_769,
        -32_768,
        32_767,
        32_768,
        65_535,
        65_536,
        -2_147_483_649,
        -2_147_483_648,
        4_294_967_295,
        4_294_967_296,
        16_777_217,
        -1,
        i64::MAX as i128 + 1,
        99_999_999_999_999_999_999_999,
    ];
    if random.one_in(5) {
        random.pick(&LIMITS)
    } else {
        raw
    }
}

/// CMD to TYPE as members; the ID is a number, whatever it was.
fn homiq(content: &[u8], random: &mut Random) -> Vec<(&'static str, Json)> {
    let fields: Vec<&[u8]> = content.splitn(6, |c| *c == b';').collect();
    let field = |nth: usize| fields.get(nth).copied().unwrap_or(b"");
    let id = std::str::from_utf8(field(4)).ok().filter(|id| {
        id.parse::<u32>()
            .is_ok_and(|number| number.to_string() == *id)
    });
    let id = id.map_or_else(|| plain(random.pick(&["511", "512", "-1", LONG])), plain);
    vec![
        ("cmd", bytes(field(0))),
        ("val", bytes(field(1))),
        ("src", bytes(field(2))),
        ("dst", bytes(field(3))),
        ("id", id),
        ("type", bytes(field(5))),
    ]
}

/// One change. None of them makes a command of this row to one of a row that has other refusals: a name is changed to one that no row has,
/// and a message to one of its kind.
fn change(row: &Row, members: &mut Members, random: &mut Random) {
    match random.below(11) {
        0 => {
            let (members, at) = a_place(members, random);
            members.remove(at);
        }
        1 => {
            let name = random.pick(&["at", "len", "time", "values", "", "Kind", "kind ", "more"]);
            let (members, _) = a_place(members, random);
            members.push((name.to_string(), other(random)));
        }
        2 => {
            let (members, at) = a_place(members, random);
            let again = members[at].clone();
            members.push(again);
        }
        3 => {
            let (members, at) = a_place(members, random);
            let name = &mut members[at].0;
            match random.below(3) {
                0 => *name = name.to_uppercase(),
                1 => name.push(random.pick(&['s', ' ', '\0', '\u{e9}', '\u{1f600}'])),
                _ => drop(name.pop()),
            }
        }
        4 => {
            let (members, at) = a_place(members, random);
            members[at].1 = other(random);
        }
        5 | 6 => {
            let same_kind = ROWS.iter().filter(|other| other.kind == row.kind);
            let names: Vec<&str> = same_kind.map(|row| row.name).collect();
            put(members, "msg", text(random.pick(&names)));
        }
        7 => {
            let kind = random.pick(&["0", "1", "2", "3", "4", "5", "6", "9", "-1", "1.0", "01"]);
            put(members, "kind", plain(kind));
        }
        _ => {
            let (members, at) = a_place(members, random);
            members[at].1 = nearly(&members[at].1, random);
        }
    }
}

fn put(members: &mut Members, name: &str, value: Json) {
    for member in members.iter_mut().filter(|member| member.0 == name) {
        member.1 = value.clone();
    }
}

/// One of the members, or one of a reading's. There are always some: at most two are taken away, and a reading has four.
fn a_place<'a>(members: &'a mut Members, random: &mut Random) -> (&'a mut Members, usize) {
    let at = random.below(members.len());
    if matches!(&members[at].1, Json::Object(inner) if !inner.is_empty()) && random.one_in(2) {
        let Json::Object(inner) = &mut members[at].1 else {
            unreachable!()
        };
        return a_place(inner, random);
    }
    (members, at)
}

/// A value of any sort.
fn other(random: &mut Random) -> Json {
    match random.below(10) {
        0 => plain("null"),
        1 => plain(random.one_in(2)),
        2 => Json::List(Vec::new()),
        3 => Json::Object(Vec::new()),
        4 => text("1"),
        5 => text(""),
        6 => reading(random.below(300) as i128, random.below(4)),
        7 => {
            let levels = random.from_to(DEEPEST - 3, DEEPEST - 1);
            (0..levels).fold(plain(1), |inner, _| Json::List(vec![inner]))
        }
        _ => plain(random.below(300)),
    }
}

/// A value of the same sort.
fn nearly(value: &Json, random: &mut Random) -> Json {
    match value {
        Json::Plain(number) => plain(match random.below(8) {
            0 => format!("{number}.0"),
            1 => format!("{number}e0"),
            2 => format!("-{number}"),
            3 => format!("0{number}"),
            4 => format!("{number}0"),
            5 => "-0".to_string(),
            6 => random.pick(&["true", "false"]).to_string(),
            _ => random
                .pick(&["0", "1", "2", "3", "255", "256", "65536", LONG])
                .to_string(),
        }),
        Json::Text(units) => {
            let mut units = units.clone();
            let at = random.below(units.len() + 1);
            match random.below(6) {
                0 => units.insert(at, u16::from(random.pick(HEX))),
                1 => units.insert(at, random.pick(&[0x3B, 0x20, 0x67, 0xE9, 0x100, 0xD800])),
                2 => units.truncate(at),
                3 => units.truncate(at & !1),
                4 => units.extend(units.clone()),
                _ => {
                    for unit in units.iter_mut().filter(|unit| (65..71).contains(*unit)) {
                        *unit += 32;
                    }
                }
            }
            Json::Text(units)
        }
        Json::Object(members) => nearly_reading(members, random),
        Json::List(_) => Json::List(vec![other(random)]),
    }
}

/// A reading with the decimals of this one: of another number, of other decimals, or with one thing that disagrees.
fn nearly_reading(old: &Members, random: &mut Random) -> Json {
    let number = |name: &str| {
        old.iter().find_map(|(own, value)| match value {
            Json::Plain(digits) if own == name => digits.parse::<i128>().ok(),
            _ => None,
        })
    };
    let raw = number("raw").unwrap_or(0);
    let decimals = number("dec").map_or(0, |dec| dec.clamp(0, 3) as usize);
    let (right, single) = (shown(raw, decimals), fits_single(raw));
    match random.below(6) {
        0 => object_of(raw, decimals, &right, !single),
        1 => object_of(raw, decimals, &shown(raw + 1, decimals), single),
        2 => object_of(raw, decimals, &shown(raw, decimals + 1), single),
        3 => object_of(raw, decimals + 1, &right, single),
        4 => reading(raw, decimals + 1),
        _ => reading(near(random.below(70_000) as i128, random), decimals),
    }
}
