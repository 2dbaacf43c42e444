//! The known points (a) to (l) of document 01, its listing example, and its other run cases.

use crate::acknowledge::acknowledge;
use crate::book;
use crate::checks;
use crate::frames::{self, build, Found};
use crate::messages::{self, Message};
use crate::numbers;
use crate::refusal::Refusal;
use crate::{answer, listing};

const RESET: &[u8] = &[0xD5, 0xAA, 0x96, 0xFF, 0, 0, 0, 0xA3, 0x4B];

fn message(kind: u8, frame: &[u8]) -> Result<Message, Refusal> {
    messages::decode(kind, frame).map(|(message, _)| message)
}

fn asked(request: &str) -> String {
    String::from_utf8(answer(request.as_bytes())).expect("an answer is text")
}

fn hex(bytes: &[u8]) -> String {
    bytes.iter().map(|byte| format!("{byte:02X}")).collect()
}

#[test]
fn a_link() {
    assert_eq!(message(1, b"$10110000B8CF9D\r"), Ok(Message::Link));
}

#[test]
fn b_read() {
    let read = Message::Read {
        group: 1,
        address: 0x4707,
    };
    assert_eq!(message(1, b"$10120747402BFC\r"), Ok(read));
}

#[test]
fn c_reset() {
    assert_eq!(message(2, RESET), Ok(Message::Command { id: 255 }));
}

#[test]
fn d_check() {
    assert_eq!(checks::NEST_CRC.of(&[0x82, 0, 2, 0, 0, 0]), 0xB208);
}

#[test]
fn e_asks() {
    let frame = [0xC0, 0x69, 0x02, 0x44, 0x9C, 0xDA];
    assert_eq!(message(4, &frame), Ok(Message::Ask { register: 40004 }));
}

#[test]
fn f_frame_at_two() {
    let capture = [0xC0, 0x69, 0xC0, 0x69, 0x02, 0x64, 0x00, 0x66];
    let found = Found {
        start: 2,
        length: 6,
        begins: 5,
        ends: 7,
    };
    assert_eq!(frames::search(4, &capture, 0), Ok(found));
}

#[test]
fn g_homiq_passes_and_does_not() {
    assert_eq!(
        message(5, b"<;I.3;1;0H;0;42;s;134;>\r\n"),
        Ok(Message::Input)
    );
    assert_eq!(
        message(5, b"<;I.3;1;0H;0;42;s;143;>\r\n"),
        Err(Refusal::Limits)
    );
}

#[test]
fn h_acknowledgement() {
    let sent = b"<;I.3;1;0H;0;42;s;134;>\r\n";
    let returned = b"<;I.3;1;0;0H;42;a;64;>\r\n".to_vec();
    assert_eq!(acknowledge(&returned), Err(Refusal::Limits));
    assert_eq!(acknowledge(sent), Ok(returned));
}

#[test]
fn i_text() {
    assert_eq!(numbers::text(-5, 2), Ok(b"-0.05".to_vec()));
}

#[test]
fn j_singles() {
    for fits in [16_777_216, 4_294_967_040] {
        assert_eq!(numbers::fits_single(fits), Ok(true));
    }
    for fits_not in [16_777_217, 33_554_434] {
        assert_eq!(numbers::fits_single(fits_not), Ok(false));
    }
}

#[test]
fn k_empty_book() {
    let empty = [0, 0, 6, 0, 0, 0];
    assert_eq!(book::of(&[]), empty);
    assert_eq!(book::open(&empty), Ok(vec![]));
}

#[test]
fn l_one_crc() {
    let crc = |payload: &[u8]| {
        let frame = build::nest(frames::COMMAND_PREAMBLE, 7, payload).expect("short");
        frame[frame.len() - 2..].to_vec()
    };
    assert_eq!(crc(&[0, 0, 0]), crc(&[0x01, 0x10, 0x21]));
}

#[test]
fn listing_example() {
    let input = [b"2\n", RESET, &[0xFF]].concat();
    let expected: &[u8] = b"{\"at\":0,\"len\":9,\"msg\":\"command\",\"id\":255,\"data\":\"\"}\n\
        {\"frames\":1,\"skipped\":1}\n";
    assert_eq!(listing(&input), expected);
}

#[test]
fn listing_refusals() {
    let kind = b"{\"refused\":2}\n".to_vec();
    let wrong: [&[u8]; 8] = [b"", b"2", b"0\n", b"6\n", b"\n2", b"2\r\n", b"22\n", b"/\n"];
    for input in wrong {
        assert_eq!(listing(input), kind);
    }
    let mut input = b"4\n".to_vec();
    input.resize(65_536, 0);
    assert_eq!(listing(&input), b"{\"frames\":0,\"skipped\":65534}\n");
    input.push(0);
    assert_eq!(listing(&input), b"{\"refused\":5}\n");
    input[0] = b'9';
    assert_eq!(listing(&input), kind);
}

/// A link of LL as it would be, LL within its limits or not.
fn link_of_length(length: usize) -> Vec<u8> {
    let digits = "A5".repeat(128);
    let payload = &digits[..length - 10];
    let bytes = vec![0xA5; payload.len() / 2];
    let crc16 = checks::NIKOBUS_CRC16.of(&bytes);
    let checked = format!("${length:02X}{payload}{crc16:04X}");
    let crc8 = checks::NIKOBUS_CRC8.of(checked.as_bytes());
    format!("{checked}{crc8:02X}\r").into_bytes()
}

#[test]
fn lengths_of_a_link() {
    for (length, is_frame) in [(0x0A, false), (0x0C, true), (0x0D, false), (0xFE, true)] {
        let frame = link_of_length(length);
        assert_eq!(frame.len(), length);
        assert_eq!(frames::head(1, &frame).is_some(), is_frame, "{length:02X}");
    }
    assert_eq!(build::link(&[0xA5]), Ok(link_of_length(0x0C)));
    assert_eq!(build::link(&[0xA5; 122]), Ok(link_of_length(0xFE)));
    assert_eq!(build::link(&[]), Err(Refusal::Limits));
    assert_eq!(build::link(&[0xA5; 123]), Err(Refusal::Limits));
}

#[test]
fn lengths_of_a_nest_payload() {
    for preamble in [frames::COMMAND_PREAMBLE, frames::RESPONSE_PREAMBLE] {
        let kind = preamble.len() as u8 - 1;
        let frame = build::nest(preamble, 0x18, &[b' '; 1024]).expect("within the limit");
        let length = frames::one_frame(kind, &frame).map(|head| head.length);
        assert_eq!(length, Ok(preamble.len() + 1030));
        let over = build::nest(preamble, 0x18, &[b' '; 1025]);
        assert_eq!(over, Err(Refusal::Limits));
        let checked = [&[0x18, 0, 0x01, 0x04], &[b' '; 1025][..]].concat();
        let crc = checks::NEST_CRC.of(&checked).to_le_bytes();
        let frame = [preamble, &checked, &crc].concat();
        assert_eq!(frames::one_frame(kind, &frame), Err(Refusal::Limits));
    }
}

/// Document 02, K3: a beat with ID 0, and the IDs beside the limit.
#[test]
fn homiq_counts_from_0() {
    let sent = b"<;HB;1;0H;0;0;s;149;>\r\n";
    assert_eq!(message(5, sent), Ok(Message::Beat));
    let returned = b"<;HB;1;0;0H;0;a;202;>\r\n".to_vec();
    assert_eq!(acknowledge(sent), Ok(returned));
    let last = b"<;HB;1;0H;0;511;s;48;>\r\n".to_vec();
    assert_eq!(build::homiq(b"HB;1;0H;0;511;s"), Ok(last));
    assert_eq!(build::homiq(b"HB;1;0H;0;512;s"), Err(Refusal::Limits));
    for none in [
        b"<;HB;1;0H;0;512;s;101;>\r\n" as &[u8],
        b"<;HB;1;0H;0;00;s;250;>\r\n",
    ] {
        assert_eq!(frames::search(5, none, 0), Err(Refusal::NoFrame));
    }
}

#[test]
fn homiq_ids() {
    let cases = [
        ("0", true),
        ("00", false),
        ("000", false),
        ("01", false),
        ("", false),
        ("1", true),
        ("511", true),
        ("512", false),
    ];
    for (id, is_frame) in cases {
        let content = format!("O.3;1;0;0H;{id};s");
        let crc = frames::homiq_crc(content.as_bytes());
        let frame = format!("<;{content};{crc};>\r\n").into_bytes();
        assert_eq!(frames::head(5, &frame).is_some(), is_frame, "{id}");
        assert_eq!(build::homiq(content.as_bytes()).is_ok(), is_frame, "{id}");
    }
}

#[test]
fn homiq_fields() {
    let cases = [
        ("O.3;1;0;0H;7;s", true),
        ("12345678;1;0;0H;7;s", true),
        ("123456789;1;0;0H;7;s", false),
        ("O.3;1234567890123456;0;0H;7;s", true),
        ("O.3;12345678901234567;0;0H;7;s", false),
        ("O.3;1;1234;5678;7;a", true),
        ("O.3;1;12345;0H;7;s", false),
        ("O.3;1;0;12345;7;s", false),
        (";1;0;0H;7;s", false),
        ("O.3;;0;0H;7;s", false),
        ("O.3;1;;0H;7;s", false),
        ("O.3;1;0;;7;s", false),
        ("O.3;1;0;0H;;s", false),
        ("O.3;1;0;0H;07;s", false),
        ("O.3;1;0;0H;7;", false),
        ("O.3;1;0;0H;7;S", false),
        ("O.3;1;0;0H;7;sa", false),
        ("O.3;1;0;0H;7", false),
        ("O.3;1;0;0H;7;s;", false),
        ("O.3;1;0;0H;7;s;s", false),
        ("!~;1;0;0H;7;s", true),
        ("O 3;1;0;0H;7;s", false),
        ("O<3;1;0;0H;7;s", false),
        ("O>3;1;0;0H;7;s", false),
        ("O\x7F3;1;0;0H;7;s", false),
    ];
    for (content, is_frame) in cases {
        let crc = frames::homiq_crc(content.as_bytes());
        let frame = format!("<;{content};{crc};>\r\n").into_bytes();
        assert_eq!(frames::head(5, &frame).is_some(), is_frame, "{content}");
        assert_eq!(frames::homiq_content(content.as_bytes()), is_frame);
    }
}

#[test]
fn homiq_crc_is_decimal_without_leading_zeros() {
    let right = b"<;I.3;1;0;0H;42;a;64;>\r\n";
    assert!(frames::head(5, right).is_some());
    let wrong: [&[u8]; 5] = [
        b"<;I.3;1;0;0H;42;a;064;>\r\n",
        b"<;I.3;1;0;0H;42;a;320;>\r\n",
        b"<;I.3;1;0;0H;42;a;;>\r\n",
        b"<;I.3;1;0;0H;42;a;64;>\n",
        b"<;I.3;1;0;0H;42;a;64;>\r",
    ];
    for frame in wrong {
        assert!(frames::head(5, frame).is_none());
    }
}

#[test]
fn book_of_the_reset_frame() {
    let book = book::of(&[(2, RESET.to_vec())]);
    assert_eq!(book.len(), 22);
    assert_eq!(&book[18..], [10, 0, 0, 0]);
    assert_eq!(book::add(&book::of(&[]), 2, RESET), Ok(book.clone()));
    let entry = book::Entry {
        kind: 2,
        offset: 0,
        begins: 3,
        ends: 12,
    };
    assert_eq!(book::open(&book), Ok(vec![entry]));
    assert_eq!(book::entry(&book, 0), Ok(entry));
    assert_eq!(book::entry(&book, 1), Err(Refusal::Place));
    let line = b"{\"at\":0,\"len\":9,\"msg\":\"command\",\"id\":255,\"data\":\"\"}\n";
    assert_eq!(book::list(&book, None), Ok(line.to_vec()));
    assert_eq!(book::line(&book, 0, None), Ok(line.to_vec()));
}

/// Every other value of every single byte.
#[test]
fn a_changed_book_is_none() {
    let tail = b"#E1\r".to_vec();
    let book = book::of(&[(2, RESET.to_vec()), (1, tail)]);
    assert_eq!(book::open(&book).map(|entries| entries.len()), Ok(2));
    for place in 0..book.len() {
        for value in 0..=255 {
            let mut changed = book.clone();
            changed[place] = value;
            assert_eq!(
                book::open(&changed).is_ok(),
                changed == book,
                "{place} {value}"
            );
        }
    }
    for length in 0..book.len() {
        assert_eq!(book::open(&book[..length]), Err(Refusal::Book));
    }
    assert_eq!(book::open(&[&book[..], &[0]].concat()), Err(Refusal::Book));
    assert_eq!(book::open(&[&[0], &book[..]].concat()), Err(Refusal::Book));
}

#[test]
fn limits_of_a_book() {
    let tail = b"#E1\r".to_vec();
    let mut entries = vec![(1, tail.clone()); 1_000];
    let most = book::of(&entries);
    assert_eq!(book::open(&most).map(|entries| entries.len()), Ok(1_000));
    assert_eq!(book::add(&most, 1, &tail), Err(Refusal::Limits));
    assert_eq!(book::add(&most, 6, &tail), Err(Refusal::Kind));
    entries.push((1, tail.clone()));
    assert_eq!(book::open(&book::of(&entries)), Err(Refusal::Book));

    // The longest frame takes 1,033 + 3 + 4 bytes; the 10 bytes that 63 of them leave do not
    // hold a tail's 4 + 3 + 4.
    let nest = |payload: usize| {
        build::nest(frames::COMMAND_PREAMBLE, 1, &vec![0; payload]).expect("a frame")
    };
    let longest = book::of(&vec![(2, nest(1024)); 63]);
    assert_eq!(longest.len(), 65_526);
    assert_eq!(book::open(&longest).map(|entries| entries.len()), Ok(63));
    assert_eq!(book::add(&longest, 1, &tail), Err(Refusal::Limits));

    // 65,536 bytes are a book, one more is none.
    let mut entries = vec![(2, nest(1024)); 62];
    entries.push((2, nest(509)));
    let shorter = book::of(&entries);
    let whole = book::add(&shorter, 2, &nest(509)).expect("a book");
    assert_eq!(whole.len(), 65_536);
    assert_eq!(book::open(&whole).map(|entries| entries.len()), Ok(64));
    assert_eq!(book::add(&shorter, 2, &nest(510)), Err(Refusal::Limits));
    entries.push((2, nest(510)));
    assert_eq!(book::open(&book::of(&entries)), Err(Refusal::Book));
}

#[test]
fn refusals_in_order() {
    let cases = [
        // 2 before 3, 3 before 1, the length itself gives 1.
        ("frames::search 0 - 1", "refused 2"),
        ("frames::search 6 - 0", "refused 2"),
        ("frames::search 4 00 2", "refused 3"),
        ("frames::search 4 00 18446744073709551615", "refused 3"),
        ("frames::search 4 00 1", "refused 1"),
        ("frames::search 4 - 0", "refused 1"),
        ("frames::frame 4 00 2", "ok -"),
        ("frames::one_frame 9 00", "refused 2"),
        ("frames::one_frame 4 C06200000", "request?"),
        ("frames::one_frame 4 C062000000", "refused 5"),
        ("frames::one_frame 4 C0620000", "ok 3 3"),
        // 7 before 5 before 4.
        ("numbers::text::write 4294967296 4 0", "refused 7 room -+0"),
        ("numbers::text::write 4294967296 3 0", "refused 5 room -+0"),
        (
            "numbers::text::write 4294967295 3 10",
            "refused 4 room -+10",
        ),
        (
            "numbers::byte_values::write -1 3 false 0",
            "refused 7 room -+0",
        ),
        (
            "numbers::byte_values::write -1 2 false 0",
            "refused 5 room -+0",
        ),
        (
            "numbers::byte_values::write -1 2 true 1",
            "refused 4 room -+1",
        ),
        (
            "numbers::byte_values::write -1 2 true 3",
            "ok 2 room FFFF+1",
        ),
        // 2, 7, 5, 6, 4.
        ("commands::encode 0 reply 1 3 0 - 0", "refused 2 room -+0"),
        ("commands::encode 1 reply 1 3 0 - 0", "refused 7 room -+0"),
        ("commands::encode 1 reply 1 2 0 - 0", "refused 5 room -+0"),
        ("commands::encode 4 reply 1 1 256 - 0", "refused 5 room -+0"),
        ("commands::encode 4 nibe 105 4400 0", "refused 6 room -+0"),
        ("commands::encode 4 nibe 106 4400 0", "refused 4 room -+0"),
        ("commands::encode 4 nibe 97 4400 0", "refused 5 room -+0"),
        // 8 before 3 and before 2; 2 before 5; 5 before 4.
        ("book::entry - 0", "refused 8"),
        ("book::entry 000006000000 0", "refused 3"),
        ("book::frame 000006000000 0", "ok -"),
        ("book::line 000006000000 0 0", "refused 3 room -+0"),
        ("book::list 000006000000 0", "ok 0 room -+0"),
        ("book::add 00 0 - 0", "refused 8 room -+0"),
        ("book::add 000006000000 0 - 0", "refused 2 room -+0"),
        ("book::add 000006000000 1 - 0", "refused 5 room -+0"),
        (
            "book::add 000006000000 1 2345310D 16",
            "refused 4 room -+16",
        ),
        (
            "book::add 000006000000 1 2345310D 18",
            "ok 17 room 0104002345310D0000000001000A000000+1",
        ),
        ("commands::acknowledge - 0", "refused 5 room -+0"),
        ("lines::write 0 - 0 0", "refused 2 room -+0"),
        ("lines::write 1 - 0 0", "refused 5 room -+0"),
        ("lines::write 1 2345310D 0 0", "refused 4 room -+0"),
        ("lines::next 0 - 1 - 0 0", "refused 2 room -+0"),
        ("lines::next 1 - 1 - 0 0", "refused 3 room -+0"),
        ("lines::next 1 - 0 - 0 0", "refused 1 room -+0"),
        ("lines::next 1 2345310D 0 - 29 0", "refused 4 room -+29"),
        ("lines::measure 0 - 1 -", "refused 2"),
        ("lines::measure 1 - 1 -", "refused 3"),
        ("lines::measure 1 - 0 -", "refused 1"),
        ("list::write - 13", "refused 4 room -+13"),
        (
            "list::write - 14",
            "ok 14 room 7B2272656675736564223A327D0A+0",
        ),
    ];
    for (request, expected) in cases {
        assert_eq!(asked(request), expected, "{request}");
    }
}

#[test]
fn what_is_no_request() {
    let cases = [
        "",
        " ",
        "frames::search",
        "frames::search 4 00",
        "frames::search 4 00 0 0",
        "frames::search 4 00 0 ",
        " frames::search 4 00 0",
        "frames::search  4 00 0",
        "frames::search 04 00 0",
        "frames::search -0 00 0",
        "frames::search -1 00 0",
        "frames::search 256 00 0",
        "frames::search 4 0 0",
        "frames::search 4 0a 0",
        "frames::search 4  0",
        "frames::search 4 00 18446744073709551616",
        "frames::Search 4 00 0",
        "frames::find 4 00 0",
        "search 4 00 0",
        "json::signed 1 4 9 0",
        "json::signed 2147483648 0 9 0",
        "json::truth True 9 0",
        "digits::hex::word_of 303030",
        "digits::refusal::number Limit",
        "commands::encode 1 press 3030303030 - 9",
        "commands::encode 1 set 1 2 30303030303030 - 9",
        "commands::encode 1 nothing - 9",
        "messages::nest::for_panel command 2",
        "list::write - 2097203",
        "frames::search 4 00 0\r",
    ];
    for request in cases {
        assert_eq!(asked(request), "request?", "{request}");
    }
    assert_eq!(answer(b"\xFF\xFE 1"), b"request?");
    let most = "00".repeat(131_072);
    assert_eq!(asked(&format!("frames::search 4 {most} 0")), "refused 1");
    assert_eq!(asked(&format!("frames::search 4 {most}00 0")), "request?");
    assert_eq!(asked(&format!("digits::slices::same {most} -")), "ok false");
    assert_eq!(
        asked(&format!("digits::slices::same {most} 00")),
        "request?"
    );
}

#[test]
fn each_function_answers() {
    let homiq = hex(b"<;I.3;1;0H;0;42;s;134;>\r\n");
    let read = hex(b"$10120747402BFC\r");
    let cases = [
        ("digits::hex::digit 250", "ok 65"),
        ("digits::hex::value 65", "ok 10"),
        ("digits::hex::value 97", "refused 5"),
        ("digits::hex::two_digits 10", "ok 3041"),
        ("digits::hex::byte_of 70 48", "ok 240"),
        ("digits::hex::byte_of 70 71", "refused 5"),
        ("digits::hex::four_digits 45576", "ok 42323038"),
        ("digits::hex::word_of 42323038", "ok 45576"),
        ("digits::hex::word_of 62323038", "refused 5"),
        ("digits::decimal::digits 0", "ok 30"),
        (
            "digits::decimal::number_of 34323934393637323935",
            "ok 4294967295",
        ),
        (
            "digits::decimal::number_of 34323934393637323936",
            "refused 7",
        ),
        ("digits::decimal::number_of -", "refused 7"),
        ("digits::low_first::one 255", "ok FF"),
        ("digits::low_first::two 40004", "ok 449C"),
        ("digits::low_first::four 1", "ok 01000000"),
        ("digits::low_first::number_of 449C", "ok 40004"),
        ("digits::low_first::number_of 449C00", "refused 7"),
        ("digits::slices::same 00 00", "ok true"),
        ("digits::refusal::number Book", "ok 8"),
        ("digits::refusal::number NoRegister", "ok 9"),
        ("digits::refusal::number BadSheet", "ok 10"),
        ("digits::refusal::number NotInGrammar", "ok 11"),
        ("digits::refusal::number BadMembers", "ok 12"),
        ("checks::nikobus::Crc16::rule", "ok 16 4129 65535 high"),
        ("checks::nikobus::Crc8::rule", "ok 8 153 0 high"),
        ("checks::nest::Crc::rule", "ok 16 4129 0 high"),
        ("checks::nibe::Xor::rule", "ok 8 1 0 high"),
        ("checks::homiq::Crc::rule", "ok 8 140 0 low"),
        ("checks::nest::Crc::of 820002000000", "ok 45576"),
        ("checks::nest::Crc::fed 8200 2 000000", "ok 45576"),
        ("puts::front 0102 3", "ok 2 room 0102+1"),
        ("puts::front 0102 1", "refused 4 room -+1"),
        ("puts::whole 1234 4 2", "ok 6 room EEEE3132+0"),
        ("puts::byte 238 2 0", "ok 1 room -+2"),
        ("puts::hex 0AFF 4 1", "ok 5 room EE304146+0"),
        ("numbers::text::read 2D302E3035", "ok -5 2"),
        ("numbers::text::read 2D30", "refused 7"),
        ("numbers::byte_values::read 83FF 2 true", "ok -125"),
        ("numbers::byte_values::read 83FF 4 true", "refused 5"),
        ("numbers::byte_values::read 83FF 3 true", "refused 7"),
        ("numbers::single::fits 16777217", "ok false"),
        ("numbers::single::fits 4294967296", "refused 5"),
        ("numbers::panel::of -16777217", "ok double -16777217"),
        ("numbers::panel::of 4294967040", "ok single 4294967040"),
        ("numbers::panel::pair -5 1000", "ok single -5 single 1000"),
        ("json::hex 0AFF 6 0", "ok 6 room 223041464622+0"),
        (
            "json::chars 5C22417F 12 0",
            "ok 13 room 225C5C5C22415C7530303746+0",
        ),
        (
            "json::truth true 4 18446744073709551612",
            "ok 18446744073709551615 room -+4",
        ),
        (
            "layouts::nest::frame command D5AA96FF000000A34B00",
            "ok 9 7 7 none 0 0",
        ),
        (
            "layouts::nest::frame response D5AA96FF000000A34B",
            "ok 0 0 0 start 0 0",
        ),
        ("layouts::nikobus::frame 2345310D", "ok 4 4 4 none 0 0"),
        ("layouts::nibe::frame C0690264006600", "ok 6 3 5 none 0 0"),
        (
            "layouts::homiq::crc 492E333B313B30483B303B34323B73",
            "ok 134",
        ),
        (
            "builds::nikobus::press 344543423141 9",
            "ok 9 room 234E3445434231410D+0",
        ),
        (
            "builds::nikobus::press 344543423161 9",
            "refused 5 room -+9",
        ),
        ("builds::nikobus::tail 4", "ok 4 room 2345310D+0"),
        (
            "builds::nest::frame command 255 - 9",
            "ok 9 room D5AA96FF000000A34B+0",
        ),
        ("builds::nibe::frame 105 449C 6", "ok 6 room C06902449CDA+0"),
        ("builds::nibe::frame 6 449C 6", "refused 5 room -+6"),
        ("frames::kinds::known 5", "ok true"),
        ("frames::kinds::known 0", "ok false"),
        ("frames::kinds::of 3", "ok nest-response"),
        ("frames::kinds::of 6", "refused 2"),
        ("frames::kinds::number nest-command", "ok 2"),
        ("frames::kinds::number 2", "request?"),
        ("layouts::nikobus::may_start 233000", "ok true"),
        ("layouts::nikobus::may_start 242F30", "ok false"),
        ("layouts::nikobus::may_start 2345", "ok false"),
        ("layouts::nest::may_start command D5AA9600", "ok true"),
        ("layouts::nest::may_start command D5D5AA96", "ok false"),
        ("layouts::nest::may_start response D5D5AA", "ok true"),
        ("layouts::nibe::may_start C06F00", "ok true"),
        ("layouts::nibe::may_start C07000", "ok false"),
        ("layouts::homiq::may_start 3C3B00", "ok true"),
        ("layouts::homiq::may_start 3C3B", "ok false"),
        ("layouts::nikobus::all_digits 413039", "ok true"),
        ("layouts::nikobus::all_digits 613039", "ok false"),
        ("layouts::nikobus::all_digits -", "ok true"),
        ("layouts::nibe::is_command 108", "ok true"),
        ("layouts::nibe::is_command 109", "ok false"),
        (
            "layouts::homiq::is_payload 492E333B313B30483B303B34323B73",
            "ok true",
        ),
        (
            "layouts::homiq::is_payload 492E333B313B30483B303B34323B733B",
            "ok false",
        ),
        ("frames::payload 4 00C06902449CDA 0", "ok 449C"),
        ("messages::find 4 00C06902449CDA 0", "ok 1 6 4 6 ask 40004"),
        ("messages::content 4 C06902449CDA", "ok 449C"),
        ("messages::of link 313230373437", "ok read 1 18183"),
        ("messages::of link 313130303030", "ok link"),
        ("messages::of link 31313030306", "request?"),
        ("messages::of link 3131303030", "refused 5"),
        ("messages::of link 6130", "refused 5"),
        ("messages::of link -", "refused 5"),
        ("messages::of press 344543423141", "ok press 344543423141"),
        ("messages::of press 344543423161", "refused 5"),
        ("messages::of press 3445434231", "refused 5"),
        ("messages::of tail -", "ok tail"),
        ("messages::of tail 3131", "ok tail"),
        ("messages::of tail", "request?"),
        ("messages::of command 1 42524B", "ok command 1"),
        ("messages::of command 65536 42524B", "request?"),
        ("messages::of response 1 42524B", "ok break"),
        ("messages::of response 2 FBFFE803", "ok climate -5 1000"),
        ("messages::of response 42524B", "request?"),
        ("messages::of nibe 105 449C", "ok ask 40004"),
        ("messages::of nibe 97 449C", "refused 5"),
        ("messages::of nibe 256 449C", "request?"),
        (
            "messages::of homiq 492E333B313B30483B303B34323B73",
            "ok input",
        ),
        (
            "messages::of homiq 492E333B313B30483B303B34323B",
            "refused 5",
        ),
        ("messages::of read 1 18183 -", "request?"),
        ("messages::of input -", "request?"),
        ("messages::allowed read 2 1 00", "ok"),
        ("messages::allowed read 3 1 -", "refused 5"),
        ("messages::allowed reply 1 3 0 -", "refused 5"),
        ("messages::allowed reply 1 1 256 -", "refused 5"),
        ("messages::allowed link 313230373437", "refused 6"),
        ("messages::allowed link 313130303030", "ok"),
        (
            "messages::allowed output 492E333B313B30483B303B34323B73",
            "refused 5",
        ),
        (
            "messages::allowed homiq 492E333B313B30483B303B34323B73",
            "refused 6",
        ),
        (
            "messages::nest::for_panel climate -5 1000",
            "ok single -5 single 1000",
        ),
        ("messages::nest::for_panel state", "refused 5"),
        (
            "messages::nest::voltages 00000000000000000102030405060000",
            "ok 513 1027 1541",
        ),
        ("messages::nest::voltages 0000", "refused 5"),
        ("messages::homiq::field 413B423B 1", "ok 42"),
        ("messages::homiq::field 413B423B 2", "ok -"),
        ("messages::homiq::field 413B423B 3", "ok -"),
        ("messages::homiq::next_id 0", "ok 1"),
        ("messages::homiq::next_id 510", "ok 511"),
        ("messages::homiq::next_id 511", "ok 0"),
        ("messages::homiq::next_id 512", "refused 5"),
        ("messages::homiq::next_id 65535", "refused 5"),
        (
            "lines::of tail 00 7 4 31 1",
            "ok 30 room EE7B226174223A372C226C656E223A342C226D7367223A227461696C227D0A+0",
        ),
        ("lines::of tail - 7 4 30 1", "refused 4 room -+30"),
        ("lines::of tail - 7 4 30 31", "refused 4 room -+30"),
        ("lines::of link 313230373437 7 16 9 0", "refused 5 room -+9"),
        (
            "lines::of press 344543423161 - 7 9 0 0",
            "refused 5 room -+0",
        ),
        (
            "lines::put_content tail 00 7 4 - 31 1",
            "ok 31 room EE7B226174223A372C226C656E223A342C226D7367223A227461696C227D0A+0",
        ),
        (
            "lines::put_content tail - 7 4 - 4 1",
            "ok 31 room EE7B2261+0",
        ),
        ("lines::put_content tail - 7 4 - 30 31", "ok 61 room -+30"),
        (
            "lines::put_content tail - 7 4 - 1 18446744073709551615",
            "ok 18446744073709551615 room -+1",
        ),
        (
            "lines::put_content link 313230373437 7 16 - 9 0",
            "ok 55 room 7B226174223A372C22+0",
        ),
        (
            "lines::put_content press 344543423161 7 9 - 4 0",
            "refused 5 room -+4",
        ),
        ("lines::put_content tail - 7 4 30 1", "request?"),
        (
            "lines::next 1 002345310D 0 - 31 1",
            "ok 1 4 31 room EE7B226174223A312C226C656E223A342C226D7367223A227461696C227D0A+0",
        ),
        ("lines::next 1 002345310D 0 - 30 1", "refused 4 room -+30"),
        ("lines::next 1 002345310D 0 - 30 31", "refused 4 room -+30"),
        ("lines::measure 1 002345310D 0 -", "ok 1 4 30"),
        ("lines::measure 1 002345310D 2 -", "refused 1"),
        ("lines::measure 1 002345310D 0 - 31", "request?"),
    ];
    for (request, expected) in cases {
        assert_eq!(asked(request), expected, "{request}");
    }
    assert_eq!(
        asked(&format!("messages::decode 1 {read}")),
        "ok read 1 18183 3 9"
    );
    let link = hex(b"$10110000B8CF9D\r");
    assert_eq!(
        asked("builds::nikobus::link 110000 17"),
        format!("ok 16 room {link}+1")
    );
    assert_eq!(
        asked(&format!("layouts::homiq::frame {homiq}")),
        "ok 25 2 17 none 0 0"
    );
}
