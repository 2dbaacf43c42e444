//! Commands as JSON (02, K4): drawn for each row of the message table, and listed where there are few enough.

use super::table::of_row;
use super::{function, number, of_each, room, with, words, Fixed, Function};
use crate::arguments::hex;
use crate::commands;
use crate::random::Random;
use crate::rows::{Row, ROWS};

const ENCODE: &str = "asked::encode";
const READ: &str = "asked::read";
const FIRST: &str = "asked::lacks::first";
const NAME_OF: &str = "shapes::name_of";
const SORT_OF: &str = "shapes::sort_of";
const REFUSED: [&str; 5] = [
    "refused 11",
    "refused 12",
    "refused 5",
    "refused 6",
    "refused 4",
];

/// By the length of the name.
const NAMED: [&str; 6] = ["ok 2", "ok 3", "ok 4", "ok 5", "refused 5", "refused 4"];
const SORTS: [&str; 12] = [
    "ok nothing",
    "ok number",
    "ok bytes 2",
    "ok bytes 6",
    "ok digits 6",
    "ok content",
    "ok text",
    "ok truth",
    "ok reading 0",
    "ok reading 1",
    "ok reading 2",
    "ok reading 3",
];

/// Encoded by the function of this name, row by row.
fn encoded(name: &'static str) -> impl Iterator<Item = Function> {
    ROWS.iter().map(move |row| {
        let answers: Vec<&str> = ["ok"]
            .into_iter()
            .chain(REFUSED.into_iter().filter(|told| can_have(row, told)))
            .collect();
        of_row(
            row,
            function(name, 1, &answers, |r| {
                words([hex(&commands::of_row(row, r)), room()])
            }),
        )
    })
}

/// The call for C.
pub fn from_c() -> Vec<Function> {
    encoded("bolsterweft_encode").collect()
}

pub fn commands() -> Vec<Function> {
    let messages: Vec<String> = ROWS
        .iter()
        .map(|row| format!("ok {} {}", row.kind, row.name))
        .collect();
    let answers: Vec<&str> = messages.iter().map(String::as_str).chain(REFUSED).collect();
    let read = function(READ, ROWS.len(), &answers, |r| {
        words([hex(&of_any_row(r)), room()])
    });
    let lacks = all_lacks();
    let lacks: Vec<&str> = lacks.iter().map(String::as_str).collect();
    let first = function(FIRST, ROWS.len(), &lacks, |r| words([hex(&of_any_row(r))]));
    let name_of = function(NAME_OF, 2, &NAMED, |r| {
        let [row, number] = any_member(r);
        words([row, number, room()])
    });
    let sort_of = function(SORT_OF, 2, &SORTS, |r| words(any_member(r)));
    encoded(ENCODE)
        .chain([read, first, name_of, sort_of])
        .collect()
}

fn of_any_row(random: &mut Random) -> Vec<u8> {
    let row = &ROWS[random.below(ROWS.len())];
    commands::of_row(row, random)
}

/// The numbers of a row and of a member, mostly of one that there is.
fn any_member(random: &mut Random) -> [String; 2] {
    if random.one_in(8) {
        return [number(8, random), number(8, random)];
    }
    [
        random.below(ROWS.len() + 2).to_string(),
        random.below(8).to_string(),
    ]
}

/// All that a command can lack: each member of each row, that is not there or is not as it must be, and the rest.
fn all_lacks() -> Vec<String> {
    let mut lacks: Vec<String> = ["nothing", "text", "object", "extra", "volts"]
        .map(|lack| format!("ok {lack}"))
        .into();
    for there in [false, true] {
        lacks.push(format!("ok kind {there}"));
        lacks.push(format!("ok msg {there}"));
        for (at, sample) in SAMPLES.iter().enumerate() {
            let row = at + 1;
            let numbers = 0..sample.len() - 2;
            lacks.extend(numbers.map(|number| format!("ok member {row} {number} {there}")));
        }
    }
    lacks
}

/// Whether a command of the row, changed or not, can be refused so. A message above has the content of `homiq` if that name stands for
/// another of its kind.
fn can_have(row: &Row, told: &str) -> bool {
    match told {
        "refused 5" => !["press", "tail", "break", "end", "done"].contains(&row.name),
        "refused 6" => row.is_last() || row.kind == 5,
        _ => true,
    }
}

/// Members as a text has them: names, and the texts of their values.
type Members<'a> = Vec<(&'a str, &'a str)>;

const SAMPLES: [&[(&str, &str)]; 23] = [
    &[
        ("kind", "1"),
        ("msg", r#""read""#),
        ("group", "1"),
        ("addr", r#""4707""#),
    ],
    &[
        ("kind", "1"),
        ("msg", r#""set""#),
        ("group", "2"),
        ("addr", r#""C9A5""#),
        ("out", r#""FF0080000000""#),
    ],
    &[
        ("kind", "1"),
        ("msg", r#""answer""#),
        ("addr", r#""4707""#),
        ("third", "0"),
        ("out", r#""FF0080000000""#),
    ],
    &[
        ("kind", "1"),
        ("msg", r#""press""#),
        ("addr", r#""4ECB1A""#),
    ],
    &[("kind", "1"), ("msg", r#""tail""#)],
    &[("kind", "1"), ("msg", r#""link""#), ("data", r#""110000""#)],
    &[
        ("kind", "2"),
        ("msg", r#""command""#),
        ("id", "255"),
        ("data", r#""""#),
    ],
    &[
        ("kind", "3"),
        ("msg", r#""climate""#),
        ("temp", r#"{"raw":-5,"dec":2,"text":"-0.05","f32":true}"#),
        ("hum", r#"{"raw":452,"dec":1,"text":"45.2","f32":true}"#),
    ],
    &[
        ("kind", "3"),
        ("msg", r#""state""#),
        ("vin", r#"{"raw":1,"dec":2,"text":"0.01","f32":true}"#),
        ("vop", r#"{"raw":2,"dec":3,"text":"0.002","f32":true}"#),
        ("vbat", r#"{"raw":0,"dec":3,"text":"0.000","f32":true}"#),
        ("data", r#""00000000000000000100020000000000""#),
    ],
    &[("kind", "3"), ("msg", r#""break""#)],
    &[("kind", "3"), ("msg", r#""end""#)],
    &[
        ("kind", "3"),
        ("msg", r#""text""#),
        ("id", "1"),
        ("text", r#""BRk""#),
    ],
    &[
        ("kind", "3"),
        ("msg", r#""response""#),
        ("id", "34"),
        ("data", r#""AB""#),
    ],
    &[("kind", "4"), ("msg", r#""ask""#), ("reg", "40004")],
    &[
        ("kind", "4"),
        ("msg", r#""reply""#),
        ("reg", "40004"),
        ("width", "2"),
        ("value", r#"{"raw":255,"dec":0,"text":"255","f32":true}"#),
    ],
    &[
        ("kind", "4"),
        ("msg", r#""put""#),
        ("reg", "47011"),
        ("width", "4"),
        (
            "value",
            r#"{"raw":16777217,"dec":0,"text":"16777217","f32":false}"#,
        ),
    ],
    &[("kind", "4"), ("msg", r#""done""#), ("ok", "true")],
    &[
        ("kind", "4"),
        ("msg", r#""nibe""#),
        ("cmd", "108"),
        ("data", r#""02""#),
    ],
    &homiq(r#""output""#, r#""O.9""#, r#""0""#),
    &homiq(r#""input""#, r#""I.15""#, r#""1""#),
    &homiq(r#""shutter""#, r#""UD""#, r#""u""#),
    &homiq(r#""beat""#, r#""HB""#, r#""1""#),
    &homiq(r#""homiq""#, r#""GI""#, r#""x""#),
];

const fn homiq<'a>(msg: &'a str, command: &'a str, value: &'a str) -> [(&'a str, &'a str); 8] {
    [
        ("kind", "5"),
        ("msg", msg),
        ("cmd", command),
        ("val", value),
        ("src", r#""0H""#),
        ("dst", r#""0""#),
        ("id", "42"),
        ("type", r#""s""#),
    ]
}

fn text(members: &[(&str, &str)]) -> Vec<u8> {
    let members: Vec<String> = members
        .iter()
        .map(|(name, value)| format!("\"{name}\":{value}"))
        .collect();
    format!("{{{}}}", members.join(",")).into_bytes()
}

pub fn each() -> Vec<Fixed> {
    // no frame of a sample is longer
    const LONG_ENOUGH: [&str; 1] = ["300"];
    const ROOMS: [&str; 2] = ["300", "0"];
    const LONGEST: [&str; 2] = ["2000", "0"];
    let of_function = |name: &str| {
        [
            (
                "each value of each member",
                &["ok", "refused 11", "refused 12", "refused 5", "refused 6"][..],
                with(values(), &LONG_ENOUGH),
            ),
            (
                "each message and kind",
                &["ok", "refused 12", "refused 5", "refused 6", "refused 4"],
                with(names(), &ROOMS),
            ),
            (
                "each byte of a command",
                &["ok", "refused 11", "refused 12", "refused 5"],
                with(bytes(), &LONG_ENOUGH),
            ),
            (
                "each ID",
                &["ok", "refused 5", "refused 4"],
                with(ids(), &ROOMS),
            ),
            (
                "each length of data",
                &[
                    "ok",
                    "refused 11",
                    "refused 12",
                    "refused 5",
                    "refused 6",
                    "refused 4",
                ],
                with(lengths(), &LONGEST),
            ),
        ]
        .map(|(what, told, arguments)| of_each(name, what, told, arguments))
    };
    [ENCODE, READ]
        .into_iter()
        .flat_map(of_function)
        .chain(lacking())
        .collect()
}

/// What commands lack, and the names and sorts of all members.
fn lacking() -> [Fixed; 8] {
    const MEMBERS: [&str; 2] = ["ok member N N false", "ok member N N true"];
    let all = all_lacks();
    let all: Vec<&str> = all.iter().map(String::as_str).collect();
    let but = |left_out: &[&str]| -> Vec<&str> {
        let is_kept = |lack: &&str| !left_out.contains(lack);
        all.iter().copied().filter(is_kept).collect()
    };
    let of_texts = |what: &str, told: &[&str], texts| of_each(FIRST, what, told, with(texts, &[]));
    let members: Vec<[String; 2]> = (0..=30)
        .chain([255])
        .flat_map(|row: u8| {
            (0..=8)
                .chain([255])
                .map(move |number: u8| [row.to_string(), number.to_string()])
        })
        .collect();
    let with_rooms = members
        .iter()
        .flat_map(|member| (0..=9).map(|room| format!("{} {room}", member.join(" "))));
    [
        of_texts(
            "each value of each member",
            &but(&["ok object", "ok extra"]),
            values(),
        ),
        of_texts(
            "each message and kind",
            &[
                &["ok nothing", "ok kind true", "ok msg true", "ok extra"][..],
                &MEMBERS,
            ]
            .concat(),
            names(),
        ),
        of_texts(
            "each byte of a command",
            &[
                &[
                    "ok nothing",
                    "ok text",
                    "ok kind false",
                    "ok kind true",
                    "ok msg false",
                    "ok msg true",
                ][..],
                &MEMBERS,
            ]
            .concat(),
            bytes(),
        ),
        of_texts(
            "each length of data",
            &["ok nothing", "ok text", "ok volts"],
            lengths(),
        ),
        of_texts(
            "each two lacks",
            &but(&["ok nothing", "ok text", "ok object", "ok volts"]),
            two_lacks(),
        ),
        of_texts(
            "no object",
            &["ok text", "ok object", "ok kind false"],
            no_objects(),
        ),
        of_each(NAME_OF, "each member", &NAMED, with_rooms.collect()),
        of_each(
            SORT_OF,
            "each member",
            &SORTS,
            members.iter().map(|member| member.join(" ")).collect(),
        ),
    ]
}

/// Each member of each row is taken away, stands twice, and has each of these values.
fn values() -> Vec<Vec<u8>> {
    const VALUES: [&str; 66] = [
        "0",
        "1",
        "2",
        "3",
        "4",
        "5",
        "6",
        "9",
        "-0",
        "-1",
        "01",
        "+1",
        "1.0",
        "1e0",
        "107",
        "108",
        "109",
        "255",
        "256",
        "511",
        "512",
        "65535",
        "65536",
        "4294967295",
        "4294967296",
        "99999999999999999999999",
        "-99999999999999999999999",
        "true",
        "false",
        "null",
        "[]",
        "[1]",
        "{}",
        r#""""#,
        r#""0""#,
        r#""1""#,
        r#""s""#,
        r#""a""#,
        r#""x""#,
        r#""ss""#,
        r#""O.9""#,
        r#""O.10""#,
        r#""I.16""#,
        r#""a;b""#,
        r#""12345""#,
        r#""4707""#,
        r#""\u0034707""#,
        r#""c9a5""#,
        r#""120747""#,
        r#""123456789""#,
        r#""FF008000000""#,
        r#""BRK""#,
        "\"\u{e9}\"",
        r#""\u00e9""#,
        "\"\u{100}\"",
        r#""\ud800""#,
        "\"\u{1f600}\"",
        r#"{"raw":-5,"dec":2,"text":"-0.05","f32":true}"#,
        r#"{"f32":true,"text":"\u0030.7","dec":1,"raw":7}"#,
        r#"{"raw":7,"dec":0,"text":"7","f32":true,"more":1}"#,
        r#"{"raw":7,"dec":0,"text":"7"}"#,
        r#"{"raw":7,"dec":0,"text":"7","f32":false}"#,
        r#"{"raw":65536,"dec":1,"text":"6553.6","f32":true}"#,
        r#"{"raw":4294967296,"dec":0,"text":"4294967296","f32":false}"#,
        r#"{"raw":4294967296,"dec":2,"text":"42949672.96","f32":true}"#,
        r#"{"raw":32768,"dec":2,"text":"327.68","f32":true}"#,
    ];
    let mut texts = Vec::new();
    for sample in SAMPLES {
        for at in 0..sample.len() {
            let (name, value) = sample[at];
            let mut members: Members = sample.to_vec();
            members.remove(at);
            texts.push(text(&members));
            members.extend([(name, value), (name, value)]);
            texts.push(text(&members));
            members.pop();
            for value in VALUES {
                *members.last_mut().unwrap() = (name, value);
                texts.push(text(&members));
            }
        }
    }
    texts
}

/// Each row's command with two things that it lacks: a member that is not there or is of no sort that a member has, one too many, or other
/// voltages.
fn two_lacks() -> Vec<Vec<u8>> {
    const OTHER_VOLTS: &str = r#""00000000000000000100020001000000""#;
    let mut texts = Vec::new();
    for sample in SAMPLES {
        let mut lacks: Vec<(&str, Option<&str>)> = vec![("more", Some("1"))];
        for (name, _) in sample {
            lacks.extend([(*name, None), (*name, Some("null"))]);
        }
        if sample[1].1 == r#""state""# {
            lacks.push(("data", Some(OTHER_VOLTS)));
        }
        for first in &lacks {
            for second in lacks.iter().filter(|second| second.0 != first.0) {
                let mut members: Members = sample.to_vec();
                for (name, value) in [first, second] {
                    members.retain(|member| member.0 != *name);
                    members.extend(value.map(|value| (*name, value)));
                }
                texts.push(text(&members));
            }
        }
    }
    texts
}

fn no_objects() -> Vec<Vec<u8>> {
    let [read, tail] = [0, 4].map(|sample| text(SAMPLES[sample]));
    let mut texts = vec![
        [b"[", &read[..], b"]"].concat(),
        [&read[..], &tail[..]].concat(),
    ];
    texts.extend(
        [
            "",
            " ",
            "[]",
            "{}",
            " { } ",
            "1",
            "null",
            "true",
            r#""""#,
            r#""kind""#,
            "kind",
        ]
        .map(|text| text.as_bytes().to_vec()),
    );
    texts
}

/// The members of each row as each message, and as each kind.
fn names() -> Vec<Vec<u8>> {
    let mut texts = Vec::new();
    for sample in SAMPLES {
        for other in SAMPLES {
            let mut members: Members = sample.to_vec();
            members[1] = other[1];
            texts.push(text(&members));
            members[0] = other[0];
            texts.push(text(&members));
        }
        for kind in ["-1", "0", "1", "2", "3", "4", "5", "6", "7", "9"] {
            let mut members: Members = sample.to_vec();
            members[0].1 = kind;
            texts.push(text(&members));
        }
        for extra in ["at", "len", "time", "values", "", "Kind", "raw", "crc16"] {
            texts.push(text(&[sample, &[(extra, "1")]].concat()));
        }
    }
    texts
}

/// Some commands with each byte changed, lost, and one put before it; and with a byte order mark.
fn bytes() -> Vec<Vec<u8>> {
    let mut texts = Vec::new();
    for sample in [0, 7, 12, 14, 19] {
        let right = text(SAMPLES[sample]);
        texts.push([b"\xEF\xBB\xBF", &right[..]].concat());
        for at in 0..right.len() {
            let (before, behind) = right.split_at(at);
            texts.push([before, &behind[1..]].concat());
            for byte in b" 1aA\"\\,-" {
                texts.push([before, &[*byte], &behind[1..]].concat());
                texts.push([before, &[*byte], behind].concat());
            }
        }
    }
    texts
}

/// Each ID of Homiq, and numbers that are none.
fn ids() -> Vec<Vec<u8>> {
    (0..=600)
        .map(|id| {
            let (mut members, id) = (SAMPLES[19].to_vec(), id.to_string());
            members[6].1 = &id;
            text(&members)
        })
        .collect()
}

/// Data of each length near a limit: a link's, a command's, a state's, a text's, a response's and the pump's. The last make texts of about
/// 8,192 bytes.
fn lengths() -> Vec<Vec<u8>> {
    let mut texts = Vec::new();
    for count in (0..=18)
        .chain(120..=124)
        .chain(254..=257)
        .chain(1022..=1026)
        .chain(4070..=4082)
    {
        // the voltages of the sample
        let mut data = "0000000000000000010002000000".to_string() + &"00".repeat(count);
        data.truncate(2 * count);
        let data = format!("\"{data}\"");
        for sample in [5, 6, 8, 11, 12, 17] {
            let mut members = SAMPLES[sample].to_vec();
            members.last_mut().unwrap().1 = &data;
            texts.push(text(&members));
        }
    }
    texts
}
