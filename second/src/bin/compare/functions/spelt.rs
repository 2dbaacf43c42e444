//! Texts of JSON (02, K4): drawn, and listed where there are few enough.

use super::{function, of_each, with, words, Fixed, Function, ROOM};
use crate::arguments::hex;
use crate::random::Random;
use crate::texts::{self, DEEPEST, MOST_BYTES};

const ACCEPTS: &str = "jsontext::accepts";
const FAULT: &str = "jsontext::fault";
const COUNT: &str = "jsontext::members::count";
const VALUE_OF: &str = "jsontext::members::value_of";
const CHARACTERS: &str = "jsontext::members::characters";

/// Each word for a fault, at any place.
const FAULTS: [&str; 9] = [
    "ok 0 none",
    "ok 0 long",
    "ok N value",
    "ok N depth",
    "ok N name",
    "ok N other-name",
    "ok N colon",
    "ok N comma",
    "ok N end",
];

/// The blanks that may stand before a value or behind it.
const BLANKS: [&str; 6] = ["", " ", "\t", "\n", "\r", "\r\n\t  "];

pub fn texts() -> Vec<Function> {
    vec![
        function(ACCEPTS, 2, &["ok true", "ok false"], |r| {
            words([hex(&texts::any(r))])
        }),
        function(FAULT, 2, &FAULTS, |r| words([hex(&texts::any(r))])),
        function(COUNT, 1, &["ok 0", "ok", "refused 12"], |r| {
            let text = match r.below(4) {
                0 => texts::any(r),
                1 => texts::named_twice(r),
                _ => texts::with_names(r).0,
            };
            words([hex(&text)])
        }),
        function(VALUE_OF, 2, &["ok", "refused 12"], |r| {
            let (text, names) = texts::with_names(r);
            words([hex(&text), hex(&texts::asked(&names, r))])
        }),
        function(CHARACTERS, 1, &["ok", "refused 12", "refused 4"], |r| {
            let text = match r.below(8) {
                0 => texts::any(r),
                _ => texts::string_alone(r),
            };
            words([hex(&text), ROOM.to_string()])
        }),
    ]
}

pub fn each() -> Vec<Fixed> {
    const ACCEPTED: [&str; 2] = ["ok true", "ok false"];
    const COUNTED: [&str; 2] = ["ok", "refused 12"];
    const FOUND: [&str; 2] = ["ok", "refused 12"];
    const WRITTEN: [&str; 3] = ["ok", "refused 12", "refused 4"];
    vec![
        of_each(
            ACCEPTS,
            "each first byte of a character",
            &ACCEPTED,
            with(characters(), &[]),
        ),
        of_each(ACCEPTS, "each byte", &ACCEPTED, with(bytes(), &[])),
        of_each(ACCEPTS, "each depth", &ACCEPTED, with(depths(), &[])),
        of_each(ACCEPTS, "each length", &ACCEPTED, with(lengths(), &[])),
        of_each(
            ACCEPTS,
            "each pair of spellings",
            &ACCEPTED,
            with(pairs(), &[]),
        ),
        of_each(
            FAULT,
            "each first byte of a character",
            &["ok 0 none", "ok N value", "ok N name", "ok N end"],
            with(characters(), &[]),
        ),
        of_each(
            FAULT,
            "each byte",
            &[
                "ok 0 none",
                "ok N value",
                "ok N name",
                "ok N colon",
                "ok N comma",
                "ok N end",
            ],
            with(bytes(), &[]),
        ),
        of_each(
            FAULT,
            "each depth",
            &[
                "ok 0 none",
                "ok N value",
                "ok N depth",
                "ok N other-name",
                "ok N comma",
            ],
            with(depths(), &[]),
        ),
        of_each(
            FAULT,
            "each length",
            &["ok 0 none", "ok 0 long", "ok N value"],
            with(lengths(), &[]),
        ),
        of_each(
            FAULT,
            "each pair of spellings",
            &["ok 0 none", "ok N other-name"],
            with(pairs(), &[]),
        ),
        of_each(
            FAULT,
            "each byte of a text",
            &[
                "ok 0 none",
                "ok N value",
                "ok N depth",
                "ok N name",
                "ok N other-name",
                "ok N colon",
                "ok N comma",
                "ok N end",
            ],
            with(damages(), &[]),
        ),
        of_each(COUNT, "each byte", &COUNTED, with(bytes(), &[])),
        of_each(COUNT, "each depth", &COUNTED, with(depths(), &[])),
        of_each(COUNT, "each length", &COUNTED, with(lengths(), &[])),
        of_each(
            COUNT,
            "each pair of spellings",
            &COUNTED,
            with(pairs(), &[]),
        ),
        of_each(VALUE_OF, "each byte", &FOUND, with(bytes(), &["61"])),
        of_each(VALUE_OF, "each depth", &FOUND, with(depths(), &["61"])),
        of_each(
            VALUE_OF,
            "each length",
            &FOUND,
            with(lengths(), &["30303030"]),
        ),
        of_each(VALUE_OF, "each name", &FOUND, names()),
        of_each(VALUE_OF, "each sort of value", &FOUND, values()),
        of_each(
            CHARACTERS,
            "each first byte of a character",
            &WRITTEN,
            with(characters(), &["2", "0"]),
        ),
        of_each(
            CHARACTERS,
            "each byte",
            &WRITTEN,
            with(bytes(), &["3", "0"]),
        ),
        of_each(CHARACTERS, "each unit", &WRITTEN, units()),
        of_each(CHARACTERS, "each length", &WRITTEN, long_strings()),
    ]
}

/// Each byte with bytes behind it, in a string and as a value.
fn characters() -> Vec<Vec<u8>> {
    const TAILS: [&[u8]; 19] = [
        b"",
        b"\x80",
        b"\xBF",
        b"\x7F",
        b"\xC0",
        b"\x80\x80",
        b"\x8F\xBF",
        b"\x90\x80",
        b"\x9F\xBF",
        b"\xA0\x80",
        b"\xBF\xBF",
        b"\x80\x7F",
        b"\x80\xC0",
        b"\x80\x80\x80",
        b"\x8F\xBF\xBF",
        b"\x90\x80\x80",
        b"\xBF\xBF\xBF",
        b"\xA0\x80\x41",
        b"\x90\x80\x80\x80",
    ];
    (0..=255)
        .flat_map(|lead| {
            TAILS.iter().flat_map(move |tail| {
                [
                    [b"\"", &[lead][..], tail, b"\""].concat(),
                    [b"", &[lead][..], tail].concat(),
                ]
            })
        })
        .collect()
}

/// Each byte where a blank, a value, a digit, a character or a part of an escape may stand.
fn bytes() -> Vec<Vec<u8>> {
    const AROUND: [(&str, &str); 18] = [
        ("", ""),
        ("", "1"),
        ("1", ""),
        ("[", "]"),
        ("[1", "]"),
        ("[1", "2]"),
        ("[1,", "]"),
        ("{", "}"),
        ("{\"a\"", ":1}"),
        ("{\"a\":1", "}"),
        ("{\"a\":1", "\"b\":2}"),
        ("\"", "\""),
        ("\"\\", "\""),
        ("\"\\", "0041\""),
        ("\"\\u", "041\""),
        ("\"\\u004", "\""),
        ("0", "0"),
        ("1e", "1"),
    ];
    AROUND
        .iter()
        .flat_map(|(before, behind)| {
            (0..=255).map(move |byte| [before.as_bytes(), &[byte], behind.as_bytes()].concat())
        })
        .collect()
}

/// Some texts with each byte changed, lost and doubled, with one put before it, and cut off there.
fn damages() -> Vec<Vec<u8>> {
    const TEXTS: [&str; 5] = [
        r#" {"a" : [1, {"b":null}] , "\u0062":-1.5e+3 , "":{ } } "#,
        "[[], [ ] ,\"\\n\\ud83d\u{1f600}\u{e9}\" ,true, {\"a\":{\"a\":0},\"b\":[0,{\"a\":\"\"}]}]",
        r#"{"a":1,"b":[{"a":1,"b":{"c":false},"\u0061":3 }],"a":4}"#,
        r#"{"a":[[[[[{"a":[[[[[{"a":[[1,2,{ }]]}]]]]]}]]]]],"b":0}"#,
        r#"[[[[[[[[[[[[[[[[[]]]]]]]]]]]]]]]]]"#,
    ];
    const BYTES: &[u8] = b"{}[]\",:\\019.eE+-un \t\x0C\x80\xC3\xFF";
    let mut texts = Vec::new();
    for text in TEXTS.map(str::as_bytes) {
        for at in 0..text.len() {
            let (before, behind) = text.split_at(at);
            texts.push(before.to_vec());
            texts.push([before, &behind[1..]].concat());
            texts.push([before, &behind[..1], behind].concat());
            for byte in BYTES {
                texts.push([before, &[*byte], &behind[1..]].concat());
                texts.push([before, &[*byte], behind].concat());
            }
        }
    }
    texts
}

fn depths() -> Vec<Vec<u8>> {
    let mut texts = Vec::new();
    for levels in 0..=DEEPEST + 2 {
        for (open, close) in [("[", "]"), ("{\"a\":", "}"), ("[ ", " ]"), ("[0,", ",0]")] {
            for inner in ["1", "\"\"", "null", "[]", "{}", "[1]", "{\"a\":1}", ""] {
                let text = format!("{}{inner}{}", open.repeat(levels), close.repeat(levels));
                texts.push(text.into_bytes());
            }
        }
        let mut random = Random::new(levels as u64);
        texts.extend((0..20).map(|_| texts::nested(levels.max(1), &mut random)));
    }
    texts
}

fn lengths() -> Vec<Vec<u8>> {
    let mut random = Random::new(0);
    (0..5)
        .flat_map(|sort| (MOST_BYTES - 2..=MOST_BYTES + 2).map(move |length| (sort, length)))
        .map(|(sort, length)| texts::long(sort, length, &mut random))
        .chain([Vec::new(), vec![b' '; MOST_BYTES]])
        .collect()
}

const SPELLINGS: [&str; 27] = [
    "",
    "a",
    "\\u0061",
    "aa",
    "a\\u0061",
    "A",
    "\\u0041",
    "/",
    "\\/",
    "\\u002f",
    "\\u002F",
    "\\n",
    "\\u000a",
    "\\\\n",
    "\\\\",
    "\\u005C",
    "\\\"",
    "\u{e9}",
    "\\u00e9",
    "\u{c3}\u{a9}",
    "\u{1f600}",
    "\\ud83d\\ude00",
    "\\uD83D\\uDE00",
    "\\ud83d",
    "\\ude00",
    "\\ude00\\ud83d",
    "\u{e000}",
];

/// Two names of one object, each of these spellings beside each; alone, with one between them, and with the second in an object of its own.
fn pairs() -> Vec<Vec<u8>> {
    let mut texts = Vec::new();
    for one in SPELLINGS {
        for other in SPELLINGS {
            texts.push(format!("{{\"{one}\":1,\"{other}\":2}}").into_bytes());
            texts.push(format!("{{\"{one}\":1,\"between\":0,\"{other}\":2}}").into_bytes());
            texts.push(format!("{{\"{one}\":{{\"{other}\":2}}}}").into_bytes());
            texts.push(format!("[{{\"x\":[{{\"{one}\":1,\"{other}\":2}}]}}]").into_bytes());
        }
    }
    texts
}

/// Each pair of spellings as two names, and each name asked for that has a byte for each character; also one that is only in an object within.
fn names() -> Vec<String> {
    const ASKED: [&[u8]; 15] = [
        b"",
        b"a",
        b"aa",
        b"A",
        b"/",
        b"\n",
        b"\\n",
        b"\\",
        b"\"",
        b"\xE9",
        b"\xC3\xA9",
        b"\x3D\x00",
        b"\\u0061",
        b"\xF0\x9F\x98\x80",
        b"\x00",
    ];
    let mut arguments = Vec::new();
    for one in SPELLINGS {
        for other in SPELLINGS {
            for text in [
                format!("{{\"{one}\":1,\"{other}\":22}}"),
                format!("{{\"-\":{{\"{one}\":1}} , \"{other}\" : 22 }}"),
            ] {
                let text = hex(text.as_bytes());
                arguments.extend(ASKED.map(|name| format!("{text} {}", hex(name))));
            }
        }
    }
    arguments
}

/// A value of each sort, with each sort of blanks before it and behind it, as the first, the last and the only member.
fn values() -> Vec<String> {
    const VALUES: [&str; 22] = [
        "true",
        "false",
        "null",
        "0",
        "-1.5e+10",
        "\"\"",
        "\" \"",
        "\"}\\\",\"",
        "\"\u{20ac}\u{1f600}\"",
        "[]",
        "[ ]",
        "[ 1 , \"]\" ]",
        "{}",
        "{ }",
        "{\"a\":1}",
        "{ \"a\" : { \"a\" : 2 } }",
        "[{},[{\"a\":0}]]",
        "",
        "1 2",
        "tru",
        "01",
        "{\"a\":1,\"a\":2}",
    ];
    let mut arguments = Vec::new();
    for value in VALUES {
        for before in BLANKS {
            for behind in BLANKS {
                for text in [
                    format!("{before}{{\"a\":{before}{value}{behind}}}{behind}"),
                    format!("{{\"\u{e9}\":0,\"a\"{behind}:{before}{value}{behind},\"b\":[]}}"),
                    format!("{{\"a\":{before}{value}{behind},\"\\u0061\":7}}"),
                ] {
                    arguments.push(format!("{} 61", hex(text.as_bytes())));
                }
            }
        }
    }
    arguments
}

/// Each unit up to U+0280 and some above, as itself and escaped in two ways, alone and behind another, with rooms that are long enough or not.
fn units() -> Vec<String> {
    let some = [
        0x7FF, 0x800, 0xD800, 0xDBFF, 0xDC00, 0xDFFF, 0xE000, 0xFF00, 0xFFFF, 0x1_0000, 0x1_0061,
        0x10_FFFF,
    ];
    let mut arguments = Vec::new();
    for unit in (0..=0x280).chain(some) {
        let mut spellings = vec![format!("\\u{unit:04x}"), format!("\\u{unit:04X}")];
        spellings.extend(char::from_u32(unit).map(String::from));
        for spelling in spellings {
            for (text, room) in [
                (format!("\"{spelling}\""), 1),
                (format!("\"{spelling}\""), 0),
                (format!("\"a{spelling}\""), 3),
                (format!("\"{spelling}\u{ff}\""), 2),
                (format!("\"{spelling}\u{ff}\""), 1),
                (format!(" \"{spelling}\""), 9),
                (format!("\"{spelling}\"\n"), 9),
            ] {
                arguments.push(format!("{} {room}", hex(text.as_bytes())));
            }
        }
    }
    arguments
}

/// Strings at the limit of the length, of characters of one byte, of two and of escapes; the room just long enough, a byte too short, and none.
fn long_strings() -> Vec<String> {
    let mut arguments = Vec::new();
    for spelling in ["a", "\u{e9}", "\\u00ff", "\\n", "\u{100}"] {
        for length in MOST_BYTES - 2..=MOST_BYTES + 2 {
            let count = (length - 2) / spelling.len();
            let fill = "b".repeat(length - 2 - count * spelling.len());
            let text = format!("\"{}{fill}\"", spelling.repeat(count));
            let written = count + fill.len();
            for room in [0, written - 1, written, written + 1] {
                arguments.push(format!("{} {room}", hex(text.as_bytes())));
            }
        }
    }
    arguments
}
