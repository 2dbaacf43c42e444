//! Commands as JSON: the examples of 02, K4, as it is read in README.md, and a case for each line of that reading.

use crate::answer;
use crate::asked::{encode, read};
use crate::digits;
use crate::lines;
use crate::messages::Message;

const READ: &str = r#"{"kind":1,"msg":"read","group":1,"addr":"4707"}"#;
const CLIMATE: &str = concat!(
    r#"{"kind":3,"msg":"climate","temp":{"raw":-5,"dec":2,"text":"-0.05","f32":true},"#,
    r#""hum":{"raw":452,"dec":1,"text":"45.2","f32":true}}"#
);
const STATE: &str = concat!(
    r#"{"kind":3,"msg":"state","vin":{"raw":1,"dec":2,"text":"0.01","f32":true},"#,
    r#""vop":{"raw":2,"dec":3,"text":"0.002","f32":true},"#,
    r#""vbat":{"raw":256,"dec":3,"text":"0.256","f32":true},"#,
    r#""data":"00000000000000000100020000010000"}"#
);
const REPLY: &str = concat!(
    r#"{"kind":4,"msg":"reply","reg":40004,"width":4,"#,
    r#""value":{"raw":16777217,"dec":0,"text":"16777217","f32":false}}"#
);
const INPUT: &str =
    r#"{"kind":5,"msg":"input","cmd":"I.3","val":"1","src":"0H","dst":"0","id":42,"type":"s"}"#;

/// The frame, or the refusal's number.
fn made(text: &str) -> Result<Vec<u8>, u8> {
    encode(text.as_bytes()).map_err(|refusal| refusal.number())
}

/// One piece of a text exchanged for another.
fn with(text: &str, old: &str, new: &str) -> String {
    assert_eq!(text.matches(old).count(), 1, "{old} in {text}");
    text.replace(old, new)
}

/// Each piece of the text, exchanged, is refused with the number.
fn refused(text: &str, old: &str, news: &[&str], number: u8) {
    for new in news {
        let text = with(text, old, new);
        assert_eq!(made(&text), Err(number), "{text}");
    }
}

/// The same for the value of a member.
fn values_refused(text: &str, member: &str, old: &str, news: &[&str], number: u8) {
    for new in news {
        let (old, new) = (format!("\"{member}\":{old}"), format!("\"{member}\":{new}"));
        refused(text, &old, &[&new], number);
    }
}

#[test]
fn the_examples_become_their_frames() {
    let frame = b"$10120747402BFC\r".to_vec();
    assert_eq!(made(READ), Ok(frame.clone()));
    let respelt = concat!(
        r#" {"addr":"\u0034707","group":1,"m\u0073g":"read","\u006Bind":1}"#,
        "\n"
    );
    assert_eq!(made(respelt), Ok(frame));
    let climate = b"\xD5\xD5\xAA\x96\x02\x00\x04\x00\xFB\xFF\xC4\x01\x87\x0D";
    assert_eq!(made(CLIMATE), Ok(climate.to_vec()));
    let text = b"\xD5\xD5\xAA\x96\x01\x00\x03\x00\xE9\x00\x2F\x9E\xBD";
    assert_eq!(
        made("{\"kind\":3,\"msg\":\"text\",\"id\":1,\"text\":\"\u{e9}\\u0000\\/\"}"),
        Ok(text.to_vec())
    );
    assert_eq!(made(INPUT), Ok(b"<;I.3;1;0H;0;42;s;134;>\r\n".to_vec()));
}

#[test]
fn the_examples_are_refused() {
    for (text, number) in [
        (r#"{"kind":1,"\u006bind":1,"msg":"tail"}"#, 11),
        (r#"{"kind":1,"msg":"read","group":3,"addr":"4707"}"#, 5),
        (r#"{"kind":1,"msg":"read","group":3,"addr":"c9a5"}"#, 12),
        (r#"{"kind":1,"msg":"read","group":1.0,"addr":"4707"}"#, 12),
        (r#"{"kind":2,"msg":"tail"}"#, 12),
        (r#"{"kind":4,"msg":"done","ok":1}"#, 12),
    ] {
        assert_eq!(made(text), Err(number), "{text}");
    }
    let old = r#""raw":-5,"dec":2,"text":"-0.05","f32":true"#;
    let not_single = r#""raw":-5,"dec":2,"text":"-0.05","f32":false"#;
    refused(CLIMATE, old, &[not_single], 12);
    let too_warm = r#""raw":32768,"dec":2,"text":"327.68","f32":true"#;
    refused(CLIMATE, old, &[too_warm], 5);
}

/// "Reading a line of 01, with those members exchanged, gives its message."
#[test]
fn lines_give_their_messages() {
    let state = [0, 0, 0, 0, 0, 0, 0, 0, 1, 2, 3, 4, 5, 6, 0, 0];
    let values = [0xFF, 0, 0x80, 1, 2, 3];
    let cases: [(Message, &[u8]); 14] = [
        (
            Message::Set {
                group: 2,
                address: 0xC9A5,
                values,
            },
            b"",
        ),
        (
            Message::Answer {
                address: 0x1512,
                third: 255,
                values,
            },
            b"",
        ),
        (Message::Press { digits: *b"4ECB1A" }, b""),
        (Message::Tail, b""),
        (Message::Link, b"110000"),
        (Message::Command { id: 0x82 }, &[0, 0]),
        (Message::State, &state),
        (Message::Break, b""),
        (Message::End, b""),
        (Message::Text { id: 0x19 }, b"\"\\\x00\x7F\xFF/"),
        (Message::Response { id: 0x1A }, b"x"),
        (Message::Ask { register: 65_535 }, b""),
        (Message::Done { ok: false }, b""),
        (Message::Nibe { command: 0x6C }, &[2]),
    ];
    for (message, content) in cases {
        let line = lines::of(&message, content, 0, 0).expect("a line");
        let line = String::from_utf8(line).expect("a line is text");
        let kind = format!("{{\"kind\":{},", message.kind());
        let text = with(&line, "{\"at\":0,\"len\":0,", &kind);
        assert_eq!(
            read(text.as_bytes()),
            Ok((message, content.to_vec())),
            "{text}"
        );
    }
}

#[test]
fn kinds_and_names() {
    let kinds = ["0", "2", "3", "6", "9", "-1", "1.0", "-0", r#""1""#, "null"];
    values_refused(READ, "kind", "1", &kinds, 12);
    values_refused(READ, "kind", "1", &["01", "+1"], 11);
    let names = ["Read", "rea", "", r"\uD800", "link"];
    refused(READ, "read", &names, 12);
    values_refused(READ, "msg", r#""read""#, &["1", "null"], 12);
    refused(READ, r#","addr":"4707""#, &[""], 12);
    refused(READ, r#""kind":1,"#, &[""], 12);
    refused(READ, r#""msg":"read","#, &[""], 12);
    for extra in ["at", "len", "time", "values", "", "Kind", "data"] {
        refused(READ, "}", &[&format!(",\"{extra}\":1}}")], 12);
    }
    let twice = [r#","addr":"4707"}"#, r#","\u0061ddr":"4707"}"#];
    refused(READ, "}", &twice, 11);
    for text in ["[]", "1", r#""read""#, "null", "{}"] {
        assert_eq!(made(text), Err(12), "{text}");
    }
    assert_eq!(made(&format!("\u{feff}{READ}")), Err(11));
    assert_eq!(made(""), Err(11));
}

#[test]
fn whole_numbers() {
    let other_sorts = ["1.0", "1e0", "-0", "1E0", r#""1""#, "true", "[1]"];
    values_refused(READ, "group", "1", &other_sorts, 12);
    let long = "99999999999999999999999";
    let outside = ["0", "3", "-1", "255", "256", "257", long];
    values_refused(READ, "group", "1", &outside, 5);
    values_refused(REPLY, "reg", "40004", &["65536", "-1", long], 5);
    values_refused(REPLY, "width", "4", &["3", "0", "2", "260", "-4"], 5);
    values_refused(INPUT, "id", "42", &["512", "-1", long], 5);
    assert!(made(&with(INPUT, r#""id":42"#, r#""id":0"#)).is_ok());
}

#[test]
fn hex() {
    let addresses = [
        "c9a5",
        "470",
        "47070",
        "",
        "47 7",
        "4G07",
        "470\u{e9}",
        r"\uD800707",
    ];
    refused(READ, "4707", &addresses, 12);
    let press = r#"{"kind":1,"msg":"press","addr":"4ECB1A"}"#;
    let addresses = ["4ECB1", "4ECB1A0", "4ecb1a", "4ECB1G", ""];
    refused(press, "4ECB1A", &addresses, 12);
    let link = r#"{"kind":1,"msg":"link","data":"110000"}"#;
    let data = ["11000", "11000g", "1100ab", "1100\u{100}0"];
    refused(link, "110000", &data, 12);
    refused(link, "110000", &["", &"00".repeat(123)], 5);
    refused(link, "110000", &["120747", "074700FF0000000000"], 6);
    let command = r#"{"kind":2,"msg":"command","id":1,"data":"0A"}"#;
    assert!(made(&with(command, "0A", "")).is_ok());
    assert!(made(&with(command, "0A", &"00".repeat(1_024))).is_ok());
    refused(command, "0A", &[&"00".repeat(1_025)], 5);
    refused(command, "0A", &[&format!("{}g0", "00".repeat(1_025))], 12);
}

#[test]
fn readings() {
    refused(CLIMATE, r#""text":"-0.05","#, &[""], 12);
    let texts = [r#""-0.5""#, r#""-.05""#, "-0.05", r#""-0.05","more":1"#];
    values_refused(CLIMATE, "text", r#""-0.05""#, &texts, 12);
    values_refused(CLIMATE, "dec", "2", &["1", "3", "2.0", r#""2""#], 12);
    values_refused(CLIMATE, "raw", "-5", &["5", "-5.0", r#""-5""#, "-6"], 12);
    let old = r#""dec":2,"text":"-0.05""#;
    refused(CLIMATE, old, &[r#""dec":1,"text":"-0.5""#], 12);
    let moved = with(
        CLIMATE,
        r#""raw":-5,"dec":2,"text":"-0.05","f32":true"#,
        r#""f32":true,"t\u0065xt":"\u002D0.05","dec":2,"raw":-5"#,
    );
    assert_eq!(made(&moved), made(CLIMATE));
    // the raw number is out of the range: its text must be right, and whether it fits a single is not asked
    let value = r#""raw":16777217,"dec":0,"text":"16777217","f32":false"#;
    let long = "99999999999999999999999";
    for (raw, text, single, number) in [
        ("4294967296", "4294967296", "true", 5),
        ("4294967296", "4294967296", "false", 5),
        ("4294967296", "4294967295", "true", 12),
        ("4294967296", "4294967296", "1", 12),
        ("-2147483649", "-2147483649", "false", 5),
        (long, long, "false", 5),
        (long, &long[1..], "false", 12),
        // in the range, and not held
        ("-1", "-1", "true", 5),
        ("-1", "-1", "false", 12),
    ] {
        let new = format!(r#""raw":{raw},"dec":0,"text":"{text}","f32":{single}"#);
        refused(REPLY, value, &[&new], number);
    }
}

#[test]
fn voltages() {
    let data = "00000000000000000100020000010000";
    assert!(made(STATE).is_ok());
    refused(STATE, data, &[&data[..30], &data[..28]], 5);
    refused(STATE, data, &[&data[..26], "", &data[..31]], 12);
    let disagreeing = "00000000000000000100020000020000";
    refused(STATE, data, &[disagreeing, &disagreeing[..28]], 12);
    let vin = r#""raw":1,"dec":2,"text":"0.01""#;
    let others = [
        r#""raw":2,"dec":2,"text":"0.02""#,
        r#""raw":65537,"dec":2,"text":"655.37""#,
    ];
    refused(STATE, vin, &others, 12);
    let long = format!("{data}{}", "00".repeat(1_009));
    refused(STATE, data, &[&long], 5);
    assert!(made(&with(STATE, data, &long[..2_048])).is_ok());
}

#[test]
fn strings() {
    let types = [r#""x""#, r#""""#, r#""ss""#];
    values_refused(INPUT, "type", r#""s""#, &types, 5);
    values_refused(INPUT, "type", r#""s""#, &[r#""\u0100""#, "1"], 12);
    let fields = ["", "0HHHH", "0;H", "0 H", r"\u00e9"];
    refused(INPUT, "0H", &fields, 5);
    refused(INPUT, "0H", &["0HHHH\u{20ac}"], 12);
    refused(INPUT, "input", &["homiq"], 6);
    refused(INPUT, "input", &["output", "beat"], 5);
    let output = r#""output","cmd":"O.10""#;
    refused(INPUT, r#""input","cmd":"I.3""#, &[output], 5);
    let text = r#"{"kind":3,"msg":"text","id":1,"text":"BRk"}"#;
    assert!(made(text).is_ok());
    refused(text, "BRk", &["BRK"], 6);
    values_refused(text, "id", "1", &["2", "65536"], 5);
    let long = "a".repeat(1_025);
    refused(text, "BRk", &[&long], 5);
    let above = [&format!("{long}\u{20ac}"), r"\ud83d\ude00"];
    refused(text, "BRk", &above, 12);
    let response = r#"{"kind":3,"msg":"response","id":47,"data":"00"}"#;
    values_refused(response, "data", r#""00""#, &[r#""""#], 6);
    let nibe = r#"{"kind":4,"msg":"nibe","cmd":108,"data":"02"}"#;
    values_refused(nibe, "data", r#""02""#, &[r#""01""#], 6);
    values_refused(nibe, "cmd", "108", &["97", "256", "-1"], 5);
}

/// What a text lacks, as it is answered.
fn told_lack(text: &str) -> String {
    let text = String::from_utf8(digits::hex(text.as_bytes())).unwrap();
    let text = if text.is_empty() { "-" } else { &text };
    let told = answer(format!("asked::lacks::first {text}").as_bytes());
    String::from_utf8(told).unwrap()
}

/// Each piece of the text, exchanged, makes it lack this.
fn lacking(text: &str, old: &str, news: &[&str], lack: &str) {
    for new in news {
        let text = with(text, old, new);
        assert_eq!(told_lack(&text), format!("ok {lack}"), "{text}");
    }
}

#[test]
fn what_is_not_there_or_is_not_as_it_must_be() {
    for text in [READ, CLIMATE, STATE, REPLY, INPUT] {
        assert_eq!(told_lack(text), "ok nothing", "{text}");
    }
    // a command may still be refused with 5 or 6
    lacking(READ, r#""group":1"#, &[r#""group":3"#], "nothing");
    lacking(INPUT, "input", &["homiq", "beat"], "nothing");
    lacking(READ, "{", &["", "{{", "[{"], "text");
    lacking(READ, "}", &[r#","\u0061ddr":"4707"}"#], "text");
    for text in ["[]", "1", r#""kind""#, "null", &format!("[{READ}]")] {
        assert_eq!(told_lack(text), "ok object", "{text}");
    }
    assert_eq!(told_lack(""), "ok text");
    assert_eq!(told_lack("{}"), "ok kind false");
    lacking(READ, r#""kind":1,"#, &[""], "kind false");
    lacking(
        READ,
        r#""kind""#,
        &[r#""Kind""#, r#""kind ""#],
        "kind false",
    );
    let kinds = ["0", "6", "-1", "1.0", r#""1""#, "null"];
    for kind in kinds.map(|kind| format!("\"kind\":{kind}")) {
        lacking(READ, r#""kind":1"#, &[&kind], "kind true");
    }
    lacking(READ, r#""kind":1"#, &[r#""kind":2"#], "msg true");
    lacking(READ, "read", &["Read", "ask", "", r"\uD800"], "msg true");
    lacking(READ, r#""msg":"read","#, &[""], "msg false");
}

#[test]
fn which_member() {
    lacking(READ, r#""group":1,"#, &[""], "member 1 0 false");
    lacking(READ, r#""group":1"#, &[r#""group":"1""#], "member 1 0 true");
    lacking(READ, r#","addr":"4707""#, &[""], "member 1 1 false");
    lacking(READ, "4707", &["470", "470a", "47070"], "member 1 1 true");
    lacking(READ, "4707", &[r"470\u0130"], "member 1 1 true");
    // the first in the order of the line, wherever it stands
    let both = r#"{"addr":1,"msg":"read","kind":1}"#;
    assert_eq!(told_lack(both), "ok member 1 0 false");
    lacking(CLIMATE, r#""dec":1"#, &[r#""dec":2"#], "member 8 1 true");
    lacking(CLIMATE, r#""text":"-0.05","#, &[""], "member 8 0 true");
    lacking(STATE, r#""dec":2"#, &[r#""dec":3"#], "member 9 0 true");
    lacking(REPLY, "false", &["true"], "member 15 2 true");
    lacking(INPUT, r#""s""#, &[r#""\u0100""#, "1"], "member 20 5 true");
    lacking(INPUT, r#","id":42"#, &[""], "member 20 4 false");
    // another message of the kind: its own members
    lacking(READ, "read", &["set"], "member 2 2 false");
    lacking(READ, "read", &["press"], "member 4 0 true");
    lacking(READ, "read", &["tail"], "extra");
    lacking(READ, "}", &[r#","at":0}"#, r#","":{}}"#], "extra");
    lacking(READ, "4707\"", &[r#"47","more":1"#], "member 1 1 true");
    let data = "00000000000000000100020000010000";
    let others = [&data[..26], "", "00000000000000000100020000020000"];
    lacking(STATE, data, &others, "volts");
    lacking(STATE, data, &[&data[..28]], "nothing");
    lacking(STATE, data, &[&data[..31]], "member 9 3 true");
    lacking(STATE, data, &[r#"","more":""#], "extra");
}

#[test]
fn requests_are_answered() {
    for (request, text, room, answered) in [
        (
            "encode",
            READ,
            18,
            "ok 16 room 2431303132303734373430324246430D+2",
        ),
        (
            "encode",
            READ,
            16,
            "ok 16 room 2431303132303734373430324246430D+0",
        ),
        ("encode", READ, 15, "refused 4 room -+15"),
        ("encode", "{}", 0, "refused 12 room -+0"),
        ("encode", "{", 9, "refused 11 room -+9"),
        ("read", READ, 0, "ok 1 read 1 18183 0 room -+0"),
        ("read", CLIMATE, 2, "ok 3 climate -5 452 0 room -+2"),
        (
            "read",
            INPUT,
            15,
            "ok 5 input 15 room 492E333B313B30483B303B34323B73+0",
        ),
        ("read", INPUT, 14, "refused 4 room -+14"),
        (
            "read",
            r#"{"kind":1,"msg":"link","data":"AB"}"#,
            3,
            "ok 1 link 2 room 4142+1",
        ),
        (
            "read",
            r#"{"kind":4,"msg":"nibe","cmd":98,"data":"0102"}"#,
            2,
            "ok 4 nibe 98 2 room 0102+0",
        ),
    ] {
        let text = String::from_utf8(digits::hex(text.as_bytes())).unwrap();
        let line = format!("asked::{request} {text} {room}");
        let told = String::from_utf8(answer(line.as_bytes())).unwrap();
        assert_eq!(told, answered, "{line}");
    }
    for (request, answered) in [
        ("name_of 1 0 7", "ok 5 room 67726F7570+2"),
        ("name_of 23 5 4", "ok 4 room 74797065+0"),
        ("name_of 23 5 3", "refused 4 room -+3"),
        ("name_of 23 6 3", "refused 5 room -+3"),
        ("name_of 0 0 9", "refused 5 room -+9"),
        ("name_of 24 0 0", "refused 5 room -+0"),
        ("name_of 255 255 0", "refused 5 room -+0"),
        ("sort_of 1 0", "ok number"),
        ("sort_of 1 1", "ok bytes 2"),
        ("sort_of 2 2", "ok bytes 6"),
        ("sort_of 4 0", "ok digits 6"),
        ("sort_of 5 0", "ok nothing"),
        ("sort_of 6 0", "ok content"),
        ("sort_of 8 0", "ok reading 2"),
        ("sort_of 8 1", "ok reading 1"),
        ("sort_of 9 1", "ok reading 3"),
        ("sort_of 12 1", "ok text"),
        ("sort_of 15 2", "ok reading 0"),
        ("sort_of 17 0", "ok truth"),
        ("sort_of 23 4", "ok number"),
        ("sort_of 0 0", "ok nothing"),
        ("sort_of 256 0", "request?"),
        ("sort_of 1", "request?"),
        ("name_of 1 0", "request?"),
    ] {
        let line = format!("shapes::{request}");
        let told = String::from_utf8(answer(line.as_bytes())).unwrap();
        assert_eq!(told, answered, "{line}");
    }
    for request in ["asked::encode 7B7D", "asked::read 0", "asked::frame 7B7D 1", "asked::lacks::first 7B7D 1"] {
        assert_eq!(answer(request.as_bytes()), b"request?", "{request}");
    }
}
