//! Texts that are of the grammar and texts that are not, each looked up in RFC 8259, RFC 3629 or document 02 by hand.

use crate::answer;
use crate::digits;
use crate::jsontext::{accepts, bytes_of_string, count, fault, value_of};
use crate::refusal::Refusal;

fn all_taken(texts: &[&str]) {
    for text in texts {
        assert!(accepts(text.as_bytes()), "{text}");
    }
}

fn none_taken(texts: &[&str]) {
    for text in texts {
        assert!(!accepts(text.as_bytes()), "{text}");
    }
}

/// The same bytes in a string.
fn quoted(bytes: &[u8]) -> Vec<u8> {
    [b"\"", bytes, b"\""].concat()
}

#[test]
fn any_value_is_a_text() {
    all_taken(&[
        "false",
        "null",
        "true",
        "{}",
        "[]",
        "0",
        "\"\"",
        "{\"a\":1}",
        "[1,2]",
        "[[],{}]",
        "{\"a\":{},\"b\":[]}",
    ]);
    none_taken(&[
        "",
        " ",
        "False",
        "TRUE",
        "nul",
        "nulll",
        "truefalse",
        "1 2",
        "[] []",
        "{}}",
        "a",
        "'a'",
        "NaN",
        "Infinity",
        "-Infinity",
        "undefined",
    ]);
}

#[test]
fn separators_stand_between() {
    none_taken(&[
        "[",
        "]",
        "[1",
        "[1,",
        "[1,]",
        "[,]",
        "[,1]",
        "[1,,2]",
        "[1 2]",
        "[1:2]",
        "[1}",
        "{",
        "}",
        "{\"a\"",
        "{\"a\":",
        "{\"a\":1",
        "{\"a\":1,",
        "{\"a\":1,}",
        "{,}",
        "{\"a\"}",
        "{\"a\",1}",
        "{\"a\":1 \"b\":2}",
        "{a:1}",
        "{1:2}",
        "{\"a\"::1}",
        "{\"a\":1]",
        "{null:1}",
    ]);
}

#[test]
fn blanks_stand_around_values() {
    all_taken(&[
        " 1",
        "1 ",
        "\t\r\n 1\n\r\t ",
        "[ ]",
        "{ }",
        " [ 1 , 2 ] ",
        "{ \"a\" : 1 , \"b\" : 2 }",
        "[\n]",
        "{\t}",
    ]);
    none_taken(&[
        "\u{c}1",
        "\u{b}1",
        "1\0",
        "\u{a0}1",
        "\u{feff}1",
        "\u{2028}1",
        "1\u{85}",
        "/**/1",
        "#\n1",
    ]);
}

#[test]
fn numbers_have_no_leading_zeros() {
    all_taken(&[
        "0",
        "-0",
        "1",
        "10",
        "-1",
        "1.0",
        "0.0",
        "-0.10",
        "1e0",
        "1E0",
        "1e+0",
        "1e-0",
        "1e007",
        "1.5E+10",
        "0e0",
        "12345678901234567890123",
    ]);
    none_taken(&[
        "-", "+1", "01", "-01", "00", "1.", ".1", "-.1", "1.e1", "1e", "1e+", "1e1.0", "1e 1",
        "0x1", "1_0", "--1", "1a", "\u{661}",
    ]);
    let long = "1".repeat(8_192);
    all_taken(&[&long]);
}

#[test]
fn strings_have_escapes() {
    all_taken(&[
        r#""\"""#,
        r#""\\""#,
        r#""\/""#,
        r#""\b\f\n\r\t""#,
        r#""\u0000\uFFFF\uabcd\uAbCd""#,
        r#""\uD800""#,
        r#""\uDC00\uD800""#,
        "\"\u{7f}\u{80}\u{7ff}\u{800}\u{ffff}\u{10000}\u{10ffff}\"",
        "\"/'\"",
    ]);
    none_taken(&[
        "\"",
        "\"a",
        r#""\""#,
        r#""\a""#,
        r#""\U0000""#,
        r#""\u000""#,
        r#""\u000g""#,
        r#""\x41""#,
        r#""\'""#,
        "\"\n\"",
        "\"\t\"",
        "\"\0\"",
        "\"\u{1f}\"",
        "\"\\\n\"",
        "\"\\\u{e9}\"",
    ]);
}

#[test]
fn octets_are_utf_8() {
    for good in [
        &[0xC2, 0x80][..],
        &[0xDF, 0xBF],
        &[0xE0, 0xA0, 0x80],
        &[0xED, 0x9F, 0xBF],
        &[0xEE, 0x80, 0x80],
        &[0xEF, 0xBB, 0xBF],
        &[0xF0, 0x90, 0x80, 0x80],
        &[0xF4, 0x8F, 0xBF, 0xBF],
    ] {
        assert!(accepts(&quoted(good)), "{good:X?}");
        assert!(!accepts(good), "{good:X?}");
        assert!(!accepts(&quoted(&good[..good.len() - 1])), "{good:X?}");
        assert!(!accepts(&quoted(&[good, b"\x80"].concat())), "{good:X?}");
    }
    for bad in [
        &[0x80][..],
        &[0xBF],
        &[0xC0, 0x80],
        &[0xC1, 0xBF],
        &[0xE0, 0x9F, 0xBF],
        &[0xED, 0xA0, 0x80],
        &[0xED, 0xBF, 0xBF],
        &[0xF0, 0x8F, 0xBF, 0xBF],
        &[0xF4, 0x90, 0x80, 0x80],
        &[0xF5, 0x80, 0x80, 0x80],
        &[0xF8, 0x88, 0x80, 0x80, 0x80],
        &[0xFE],
        &[0xFF],
        &[0xE2, 0x82, 0x41],
        &[0xC3, 0xC3, 0xA9],
    ] {
        assert!(!accepts(&quoted(bad)), "{bad:X?}");
    }
}

#[test]
fn each_value_counts_for_the_depth() {
    for (open, close) in [("[", "]"), ("{\"a\":", "}")] {
        let nested = |levels: usize, inner: &str| {
            format!("{}{inner}{}", open.repeat(levels), close.repeat(levels))
        };
        for inner in ["1", "\"\"", "null", "[]", "{}"] {
            assert!(accepts(nested(14, inner).as_bytes()), "{inner}");
            assert!(accepts(nested(15, inner).as_bytes()), "{inner}");
            assert!(!accepts(nested(16, inner).as_bytes()), "{inner}");
        }
    }
    let brackets = |levels: usize| format!("{}{}", "[".repeat(levels), "]".repeat(levels));
    assert!(accepts(brackets(16).as_bytes()));
    assert!(!accepts(brackets(17).as_bytes()));
    // one beside the other are not one in the other
    assert!(accepts(format!("[{}]", ["[]"; 100].join(",")).as_bytes()));
}

#[test]
fn a_text_has_at_most_8192_bytes() {
    for (blanks, taken) in [(8_190, true), (8_191, true), (8_192, false)] {
        assert_eq!(
            accepts(format!("{}1", " ".repeat(blanks)).as_bytes()),
            taken
        );
        assert_eq!(
            accepts(format!("1{}", " ".repeat(blanks)).as_bytes()),
            taken
        );
    }
}

#[test]
fn no_name_stands_twice_in_an_object() {
    all_taken(&[
        r#"{"a":1,"A":2}"#,
        r#"{"a":1,"b":{"a":2},"c":[{"a":3},{"a":4}]}"#,
        r#"{"":1," ":2}"#,
        r#"{"a":"a"}"#,
        r#"{"ab":1,"a":2,"b":3}"#,
        r#"{"\ud800":1,"\udc00":2}"#,
        // the first character of the private use area, and the first unit of a pair
        "{\"\u{e000}\":1,\"\\ud800\":2}",
        r#"{"\\u0061":1,"a":2}"#,
    ]);
    none_taken(&[
        r#"{"a":1,"a":1}"#,
        r#"{"a":1,"\u0061":2}"#,
        r#"{"a":1,"b":2,"a":3}"#,
        r#"{"a":1,"b":{"a":{}},"a":3}"#,
        r#"{"b":2,"c":{"d":1,"d":2}}"#,
        r#"[0,{"a":1,"b":2,"\u0061":3}]"#,
        r#"{"":1,"":2}"#,
        r#"{"/":1,"\/":2}"#,
        r#"{"\n":1,"\u000a":2}"#,
        r#"{"\u00E9":1,"\u00e9":2}"#,
        "{\"\u{e9}\":1,\"\\u00e9\":2}",
        "{\"\u{1f600}\":1,\"\\ud83d\\ude00\":2}",
        r#"{"\"":1,"\u0022":2}"#,
    ]);
}

/// The text of the value, or none if the text is no object with that name.
fn value_in<'a>(text: &'a str, name: &[u8]) -> Option<&'a str> {
    let (from, to) = value_of(text.as_bytes(), name).ok()?;
    Some(&text[from..to])
}

#[test]
fn members_are_counted() {
    for (text, members) in [
        ("{}", 0),
        (" { } ", 0),
        (r#"{"a":1}"#, 1),
        (
            "\n{ \"a\" : { \"b\" : 1 , \"c\" : 2 } , \"d\" : [ 1 , 2 ] }\t",
            2,
        ),
        // names are not compared
        (r#"{"a":1,"a":1,"\u0061":2}"#, 3),
        (r#"{"a":{"b":1,"b":2}}"#, 1),
    ] {
        assert_eq!(count(text.as_bytes()), Ok(members), "{text}");
    }
    for text in [
        "",
        " ",
        "1",
        "[]",
        "\"{}\"",
        "[{}]",
        "{",
        "{,}",
        "{\"a\":1,}",
        "{\"a\":01}",
        "{} {}",
        "\u{feff}{}",
    ] {
        assert_eq!(count(text.as_bytes()), Err(Refusal::BadMembers), "{text}");
    }
}

#[test]
fn an_object_is_nested_16_deep_and_has_8192_bytes() {
    let nested = |levels: usize| format!("{}1{}", "{\"a\":".repeat(levels), "}".repeat(levels));
    assert_eq!(count(nested(15).as_bytes()), Ok(1));
    assert_eq!(count(nested(16).as_bytes()), Err(Refusal::BadMembers));
    let long = |blanks: usize| format!("{}{{\"a\":1}}", " ".repeat(blanks));
    assert_eq!(count(long(8_185).as_bytes()), Ok(1));
    assert_eq!(value_of(long(8_185).as_bytes(), b"a"), Ok((8_190, 8_191)));
    assert_eq!(count(long(8_186).as_bytes()), Err(Refusal::BadMembers));
    let string = |characters: usize| format!("\"{}\"", "a".repeat(characters));
    assert_eq!(
        bytes_of_string(string(8_190).as_bytes()),
        Ok(vec![b'a'; 8_190])
    );
    assert_eq!(
        bytes_of_string(string(8_191).as_bytes()),
        Err(Refusal::BadMembers)
    );
}

#[test]
fn a_value_has_no_blanks_around_it() {
    for value in [
        "true",
        "false",
        "null",
        "-1.5e+3",
        "\" a \"",
        "[ ]",
        "{ \"a\" : 1 }",
        "\"\u{20ac}\"",
    ] {
        for text in [
            format!("{{\"a\":{value}}}"),
            format!(" {{ \"a\" :\t{value} \r\n}} "),
            format!("{{\"b\":0,\"a\": {value} ,\"c\":1}}"),
            format!("{{\"\u{e9}\":\"\u{1f600}\",\"a\": {value} }}"),
        ] {
            assert_eq!(value_in(&text, b"a"), Some(value), "{text}");
        }
    }
}

#[test]
fn the_first_member_of_a_name_is_found() {
    for (text, name, value) in [
        (r#"{"a":1,"a":2}"#, &b"a"[..], Some("1")),
        (r#"{"\u0061":1,"a":2}"#, b"a", Some("1")),
        (r#"{"b":{"a":1},"a":2}"#, b"a", Some("2")),
        (r#"{"b":{"a":1}}"#, b"a", None),
        (r#"{"ab":1,"":2}"#, b"", Some("2")),
        (r#"{"ab":1}"#, b"a", None),
        (r#"{"a":1}"#, b"ab", None),
        // each byte of the name is a character
        ("{\"\u{e9}\":1}", b"\xE9", Some("1")),
        ("{\"\u{e9}\":1}", b"\xC3\xA9", None),
        ("{\"\\u00e9\":1}", b"\xE9", Some("1")),
        ("{\"\u{c3}\u{a9}\":1}", b"\xC3\xA9", Some("1")),
        ("{\"\u{161}\":1,\"a\":2}", b"a", Some("2")),
        (r#"{"\n\"\/":1}"#, b"\n\"/", Some("1")),
        ("{}", b"", None),
        ("[]", b"", None),
        (r#"{"a":1} x"#, b"a", None),
    ] {
        assert_eq!(value_in(text, name), value, "{text}");
    }
}

#[test]
fn characters_are_bytes_up_to_ff() {
    for (text, characters) in [
        (r#""""#, &b""[..]),
        ("\"a\u{7f}\u{80}\u{ff}\"", b"a\x7F\x80\xFF"),
        (r#""\u0000\u00ff\u00FF""#, b"\0\xFF\xFF"),
        (r#""\"\\\/\b\f\n\r\t""#, b"\"\\/\x08\x0C\n\r\t"),
    ] {
        let read = bytes_of_string(text.as_bytes());
        assert_eq!(read.as_deref(), Ok(characters), "{text}");
    }
    for text in [
        "",
        "\"",
        "a",
        "1",
        "[\"a\"]",
        " \"a\"",
        "\"a\" ",
        "\"a\"\"b\"",
        "\"\u{100}\"",
        "\"\u{1f600}\"",
        r#""\u0100""#,
        r#""\ud800""#,
        r#""\ud83d\ude00""#,
        r#""\u00g0""#,
        "\"\n\"",
    ] {
        assert_eq!(
            bytes_of_string(text.as_bytes()),
            Err(Refusal::BadMembers),
            "{text}"
        );
    }
    // no UTF-8
    assert_eq!(bytes_of_string(b"\"\xE9\""), Err(Refusal::BadMembers));
}

/// The fault of a text, as it is answered.
fn goes_wrong(text: &[u8], place: usize, word: &str) {
    let shown = String::from_utf8_lossy(text);
    let found = fault(text).map(|fault| (fault.place, fault.lack.name()));
    assert_eq!(found, Some((place, word)), "{shown}");
    assert!(!accepts(text), "{shown}");
}

#[test]
fn a_value_that_is_not_good_is_a_fault_at_its_first_byte() {
    for (text, place) in [
        ("", 0),
        (" \t\r\n", 4),
        ("x", 0),
        (" x", 1),
        ("\"a", 0),
        (r#""\x""#, 0),
        (r#""\u00g0""#, 0),
        ("\"\n\"", 0),
        ("1.", 0),
        ("-", 0),
        ("-1.", 0),
        ("1.x", 0),
        ("1e", 0),
        ("1e+", 0),
        ("1.e1", 0),
        ("+1", 0),
        (".1", 0),
        ("nul", 0),
        ("nuLl", 0),
        ("]", 0),
        ("}", 0),
        ("[", 1),
        ("[ ", 2),
        ("[,", 1),
        ("[}", 1),
        ("[1,]", 3),
        ("[1, ,2]", 4),
        ("[1,", 3),
        ("[[],[[1,x]]]", 8),
        ("{\"a\":}", 5),
        ("{\"a\": ", 6),
        ("{\"a\"::1}", 5),
        ("{\"a\":1,\"b\":[nul]}", 12),
    ] {
        goes_wrong(text.as_bytes(), place, "value");
    }
}

#[test]
fn a_number_is_passed_over_as_far_as_it_goes() {
    for (text, place) in [
        ("01", 1),
        ("-01", 2),
        ("1a", 1),
        ("1.5.5", 3),
        ("1e5.5", 3),
        ("1e5e5", 3),
        ("0x1", 1),
        ("1-", 1),
    ] {
        goes_wrong(text.as_bytes(), place, "end");
        goes_wrong(format!("[{text}]").as_bytes(), place + 1, "comma");
    }
}

#[test]
fn behind_a_value_only_blanks_may_follow() {
    for (text, place) in [
        ("nulll", 4),
        ("truefalse", 4),
        ("1 2", 2),
        ("{}}", 2),
        ("[] []", 3),
        ("\"a\"\"b\"", 3),
        (" 1 ,", 3),
    ] {
        goes_wrong(text.as_bytes(), place, "end");
    }
}

#[test]
fn marks_that_do_not_stand_there() {
    for (text, place, word) in [
        ("[1", 2, "comma"),
        ("[1 ", 3, "comma"),
        ("[1 2]", 3, "comma"),
        ("[1}", 2, "comma"),
        ("[1:2]", 2, "comma"),
        ("[[1}]", 3, "comma"),
        ("[[]", 3, "comma"),
        ("{\"a\":1", 6, "comma"),
        ("{\"a\":1]", 6, "comma"),
        ("{\"a\":1 \"b\":2}", 7, "comma"),
        ("{\"a\":1:2}", 6, "comma"),
        ("{\"a\"", 4, "colon"),
        ("{\"a\" }", 5, "colon"),
        ("{\"a\",1}", 4, "colon"),
        ("{\"a\" 1}", 5, "colon"),
        ("{", 1, "name"),
        ("{ ", 2, "name"),
        ("{]", 1, "name"),
        ("{,}", 1, "name"),
        ("{1:2}", 1, "name"),
        ("{a:1}", 1, "name"),
        ("{\"a", 1, "name"),
        ("{\"\\x\":1}", 1, "name"),
        ("{\"a\":1,}", 7, "name"),
        ("{\"a\":1, ", 8, "name"),
        ("{\"a\":1,,", 7, "name"),
    ] {
        goes_wrong(text.as_bytes(), place, word);
    }
}

#[test]
fn names_are_compared_behind_the_member() {
    for (text, place, word) in [
        (r#"{"a":1,"a":x}"#, 11, "value"),
        (r#"{"a":1,"a"}"#, 10, "colon"),
        (r#"{"a":1,"a":2}"#, 7, "other-name"),
        (r#"{"a":1, "\u0061":2}"#, 8, "other-name"),
        (r#"{"a":1,"b":2,"a":3,"b":4}"#, 13, "other-name"),
        // before what stands behind the member
        (r#"{"a":1,"a":2 x"#, 7, "other-name"),
        (r#"{"a":1,"a":2"#, 7, "other-name"),
        (r#"{"a":1,"a":[2]]"#, 7, "other-name"),
        // behind what stands in it
        (r#"{"a":1,"a":{"b":1,"b":2}}"#, 18, "other-name"),
        (r#"{"a":1,"a":{"b":1,"b":[}}"#, 23, "value"),
        (r#"[{"":1},{"":1,"":2}]"#, 14, "other-name"),
    ] {
        goes_wrong(text.as_bytes(), place, word);
    }
    // a place is counted in bytes
    goes_wrong(
        "{\"\u{1f600}\":1,\"\\ud83d\\ude00\":2}".as_bytes(),
        10,
        "other-name",
    );
}

#[test]
fn something_must_stand_where_it_is_too_deep() {
    for (open, close) in [("[", "]"), ("{\"a\":", "}"), ("[ ", " ]")] {
        let (opened, closed) = (open.repeat(16), close.repeat(16));
        for inner in ["1", "[]", "{}", "\"\"", "x", ",", "\u{e9}"] {
            let text = format!("{opened}{inner}{closed}");
            goes_wrong(text.as_bytes(), opened.len(), "depth");
        }
        goes_wrong(opened.as_bytes(), opened.len(), "value");
        goes_wrong(format!("{opened} ").as_bytes(), opened.len() + 1, "value");
    }
    assert_eq!(
        fault(format!("{}{}", "[".repeat(16), "]".repeat(16)).as_bytes()),
        None
    );
    // the member of a colon must be a value, and none is there
    let opened = "{\"a\":".repeat(16);
    goes_wrong(format!("{opened}}}").as_bytes(), opened.len(), "depth");
}

#[test]
fn octets_that_are_no_utf_8_have_places() {
    for (text, place, word) in [
        (&b"\xFF"[..], 0, "value"),
        (b"[1,\xC3", 3, "value"),
        (b"1\xFF", 1, "end"),
        (b"[1\x80]", 2, "comma"),
        (b"{\xC3\xA9:1}", 1, "name"),
        (b"{\"a\"\xFF:1}", 4, "colon"),
        (b"\"\xFF\"", 0, "value"),
        (b"[\"\xC3\xA9\",\"\xC3\"]", 6, "value"),
        (b"[\"\xED\xA0\x80\"]", 1, "value"),
        (b"{\"\xC3\":1}", 1, "name"),
        (
            b"{\"\xC3\xA9\":1,\"\\u00e9\":2,\"\xFF\":3}",
            8,
            "other-name",
        ),
        // what is no UTF-8 stands behind the fault
        (b"[x,\"\xFF\"]", 1, "value"),
    ] {
        goes_wrong(text, place, word);
    }
}

#[test]
fn a_long_text_is_not_read() {
    goes_wrong(format!("{}1", " ".repeat(8_192)).as_bytes(), 0, "long");
    goes_wrong("x".repeat(8_193).as_bytes(), 0, "long");
    goes_wrong("x".repeat(8_192).as_bytes(), 0, "value");
    goes_wrong(" ".repeat(8_192).as_bytes(), 8_192, "value");
    assert_eq!(fault("1".repeat(8_192).as_bytes()), None);
}

#[test]
fn a_request_is_answered() {
    let asked = |bytes: &[u8]| {
        let request = [b"jsontext::accepts ", &digits::hex(bytes)[..]].concat();
        String::from_utf8(answer(&request)).unwrap()
    };
    assert_eq!(asked(b"{}"), "ok true");
    assert_eq!(asked(b"{,}"), "ok false");
    assert_eq!(answer(b"jsontext::accepts -"), b"ok false");
    assert_eq!(answer(b"jsontext::accepts"), b"request?");
    assert_eq!(answer(b"jsontext::accepts 31 31"), b"request?");
    assert_eq!(answer(b"jsontext::accept 31"), b"request?");
    assert_eq!(answer(b"jsontext::fault 31"), b"ok 0 none");
    assert_eq!(answer(b"jsontext::fault -"), b"ok 0 value");
    assert_eq!(answer(b"jsontext::fault 5B31"), b"ok 2 comma");
    assert_eq!(answer(b"jsontext::fault"), b"request?");
    assert_eq!(answer(b"jsontext::fault 31 31"), b"request?");
    for (request, answered) in [
        ("count 7B7D", "ok 0"),
        ("count 5B5D", "refused 12"),
        ("value_of 7B2261223A317D 61", "ok 5 6"),
        ("value_of 7B2261223A317D 62", "refused 12"),
        ("value_of 7B2261223A317D -", "refused 12"),
        ("characters 22615C6E22 3", "ok 2 room 610A+1"),
        ("characters 22615C6E22 2", "ok 2 room 610A+0"),
        ("characters 22615C6E22 1", "refused 4 room -+1"),
        ("characters 2222 0", "ok 0 room -+0"),
        ("characters 22C48022 0", "refused 12 room -+0"),
        ("characters 2222", "request?"),
        ("value_of 7B7D", "request?"),
    ] {
        let line = format!("jsontext::members::{request}");
        assert_eq!(answer(line.as_bytes()), answered.as_bytes(), "{request}");
    }
}
