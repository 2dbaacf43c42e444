//! Tests: the pump's data by a sheet (02, K2), each worked out by hand.

use crate::{answer, listing, listing_with};

/// `40004,s16,1` LF `47011,u8,0` LF
const SHEET: &str = "34303030342C7331362C310A34373031312C75382C300A";
const OUTDOOR: &str = r#"{"reg":40004,"value":{"raw":-125,"dec":1,"text":"-12.5","f32":true}}"#;
const CURVE: &str = r#"{"reg":47011,"value":{"raw":10,"dec":0,"text":"10","f32":true}}"#;

fn answers(request: &str, expected: &str) {
    let given = String::from_utf8(answer(request.as_bytes())).unwrap();
    assert_eq!(given, expected, "{request}");
}

/// The line that a request writes into a room of 400 bytes, from its front.
fn writes(request: &str, expected: &str) {
    let given = String::from_utf8(answer(request.as_bytes())).unwrap();
    let (_, room) = given
        .split_once(" room ")
        .unwrap_or_else(|| panic!("{request}: {given}"));
    let hex = room.split_once('+').unwrap().0.as_bytes();
    let line = crate::digits::bytes_of_hex(hex).unwrap_or_default();
    assert_eq!(String::from_utf8(line).unwrap(), expected, "{request}");
}

#[test]
fn requests_to_the_sheet() {
    answers(&format!("sheet::open {SHEET}"), "ok 2");
    answers("sheet::open -", "ok 0");
    answers("sheet::open 0A", "refused 10");
    answers(&format!("sheet::fault {SHEET}"), "ok 0 none");
    answers(
        "sheet::fault 302C75382C300A30312C75382C300A",
        "ok 2 register",
    );
    answers(&format!("sheet::type_of {SHEET} 40004"), "ok 2 true 1");
    answers(&format!("sheet::type_of {SHEET} 47011"), "ok 1 false 0");
    answers(&format!("sheet::type_of {SHEET} 0"), "refused 9");
    answers(&format!("sheet::type_of {SHEET} 65536"), "request?");
    answers("sheet::type_of 0A 0", "refused 10");
    answers("sheet::type_in - 0", "refused 9");
    answers("sheet::type_in 0F 0", "ok 2 true 2");
    answers("sheet::type_in 1819 0", "ok 4 true 3");
    answers("sheet::type_in 1819 1", "refused 9");
    answers("sheet::splits - -", "ok true");
    answers("sheet::splits - 000000", "ok false");
    answers("sheet::splits 01 000007", "ok true");
    answers("sheet::splits 01 0000", "ok false");
    answers("sheet::splits 01 0000070000", "ok false");
    answers("sheet::splits 0001 010007010008", "ok true");
    answers(
        "digits::low_first::eight 18446744073709551614",
        "ok FEFFFFFFFFFFFFFF",
    );
    answers("digits::low_first::eight -1", "request?");
}

#[test]
fn requests_to_split_and_join() {
    let pairs = "449CEB00000000000000A3B70A00000000000000";
    answers(
        &format!("sheet::split 104 449CEB00A3B70A {SHEET} 21"),
        &format!("ok 20 room {pairs}+1"),
    );
    answers(
        &format!("sheet::split 104 449CEB00A3B70A {SHEET} 19"),
        "refused 4 room -+19",
    );
    answers(
        &format!("sheet::split 104 449CEB00A3B7 {SHEET} 0"),
        "refused 9 room -+0",
    );
    answers("sheet::split 106 01 78 0", "refused 5 room -+0");
    answers("sheet::split 104 01 78 0", "refused 10 room -+0");
    answers(
        &format!("sheet::join 98 {pairs} {SHEET} 7"),
        "ok 7 room 449CEB00A3B70A+0",
    );
    answers(
        &format!("sheet::join 98 {pairs} {SHEET} 6"),
        "refused 4 room -+6",
    );
    answers(
        &format!("sheet::join 98 {pairs}00 78 6"),
        "refused 5 room -+6",
    );
    answers(
        &format!("sheet::join 98 {pairs} 78 6"),
        "refused 10 room -+6",
    );
    answers(&format!("sheet::join 98 {pairs} - 6"), "refused 9 room -+6");
    answers("sheet::join 98 - - 0", "ok 0 room -+0");
}

#[test]
fn a_map_has_a_byte_for_each_register() {
    // register 1, s16 with one decimal: 1 + 4 * 3 + 1
    let zeros = "00".repeat(65_534);
    answers(
        "sheet::map 312C7331362C310A 65537",
        &format!("ok 65536 room 000E{zeros}+1"),
    );
    answers(
        "sheet::map 312C7331362C310A 65535",
        "refused 4 room -+65535",
    );
    answers("sheet::map 31 0", "refused 10 room -+0");
}

#[test]
fn lines_with_a_sheet() {
    let split = r#"{"at":0,"len":11,"msg":"nibe","cmd":104,"data":"449C83FFA3B70A""#;
    let frame = "C06807449C83FFA3B70ABD";
    writes(
        &format!("lines::write_with 4 {frame} 0 {SHEET} 400"),
        &format!("{split},\"values\":[{OUTDOOR},{CURVE}]}}\n"),
    );
    // 47011 is not in the sheet `40004,s16,1`: nothing of the data is split
    let shorter = "34303030342C7331362C310A";
    writes(
        &format!("lines::write_with 4 {frame} 0 {shorter} 400"),
        &format!("{split}}}\n"),
    );
    writes(
        &format!("lines::write 4 {frame} 0 400"),
        &format!("{split}}}\n"),
    );
    // a reply whose width agrees, and one whose width does not
    writes(
        &format!("lines::write_with 4 C06A04449C83FFA0 0 {SHEET} 400"),
        concat!(
            r#"{"at":0,"len":8,"msg":"reply","reg":40004,"width":2,"#,
            r#""value":{"raw":-125,"dec":1,"text":"-12.5","f32":true}}"#,
            "\n"
        ),
    );
    writes(
        &format!("lines::write_with 4 C06A06449C83FF0000A2 0 {SHEET} 400"),
        concat!(
            r#"{"at":0,"len":10,"msg":"reply","reg":40004,"width":4,"#,
            r#""value":{"raw":65411,"dec":0,"text":"65411","f32":true}}"#,
            "\n"
        ),
    );
    // a put of the type s8
    writes(
        "lines::write_mapped 4 C06B030000FFFC 0 07 400",
        concat!(
            r#"{"at":0,"len":7,"msg":"put","reg":0,"width":1,"#,
            r#""value":{"raw":-1,"dec":2,"text":"-0.01","f32":true}}"#,
            "\n"
        ),
    );
}

#[test]
fn empty_data_sheets_and_maps() {
    for (command, number, frame) in [("62", 98, "C0620000"), ("68", 104, "C0680000")] {
        let plain = format!(r#"{{"at":0,"len":4,"msg":"nibe","cmd":{number},"data":"""#);
        let split = format!("{plain},\"values\":[]}}\n");
        let plain = format!("{plain}}}\n");
        assert_eq!(&frame[2..4], command);
        writes(&format!("lines::write_with 4 {frame} 0 - 400"), &split);
        writes(&format!("lines::write_mapped 4 {frame} 0 00 400"), &split);
        // the empty map is no sheet
        writes(&format!("lines::write_mapped 4 {frame} 0 - 400"), &plain);
    }
    // 60 is not split
    writes(
        "lines::write_with 4 C0600000 0 - 400",
        "{\"at\":0,\"len\":4,\"msg\":\"nibe\",\"cmd\":96,\"data\":\"\"}\n",
    );
}

#[test]
fn refusals_of_lines_in_their_order() {
    answers("lines::write_with 6 C0 0 0A 0", "refused 2 room -+0");
    answers("lines::write_with 4 C0 0 0A 0", "refused 5 room -+0");
    answers("lines::write_with 4 C0680000 0 0A 0", "refused 10 room -+0");
    answers("lines::write_with 4 C0680000 0 - 0", "refused 4 room -+0");
    answers(
        "lines::write_with 1 2345310D 0 0A 99",
        "refused 10 room -+99",
    );
    answers("lines::measure 4 C0680000 0 -", "ok 0 4 50");
    answers("lines::measure 4 C0680000 0 00", "ok 0 4 62");
    answers("lines::measure 4 C0680000 0 00 0", "request?");
    answers("lines::next 4 C0680000 0 - 62 12", &next(62));
    answers("lines::next 4 C0680000 0 00 62 12", "refused 4 room -+62");
    answers("lines::put_content tail - 0 0 00 0 0", "ok 30 room -+0");
}

/// The answer of the request above with the empty map.
fn next(behind: usize) -> String {
    let line = b"{\"at\":0,\"len\":4,\"msg\":\"nibe\",\"cmd\":104,\"data\":\"\"}\n";
    assert_eq!(line.len(), behind - 12);
    let hex = String::from_utf8(crate::digits::hex(line)).unwrap();
    format!("ok 0 4 {behind} room {}{hex}+0", "EE".repeat(12))
}

/// The entry of 68 with empty data: offset 0, then the trailer.
const BOOK: &str = "040400C06800000000000001000A000000";

#[test]
fn books_with_a_sheet() {
    let plain = r#"{"at":0,"len":4,"msg":"nibe","cmd":104,"data":"""#;
    let split = format!("{plain},\"values\":[]}}\n");
    for by in ["line_with", "line_mapped"] {
        let sheet = if by == "line_with" { "-" } else { "00" };
        writes(&format!("book::{by} {BOOK} 0 {sheet} 400"), &split);
        answers(
            &format!("book::{by} {BOOK} 1 {sheet} 400"),
            "refused 3 room -+400",
        );
        answers(
            &format!("book::{by} 00 1 {sheet} 400"),
            "refused 8 room -+400",
        );
        answers(
            &format!("book::{by} {BOOK} 0 {sheet} 61"),
            "refused 4 room -+61",
        );
    }
    for by in ["list_with", "list_mapped"] {
        let sheet = if by == "list_with" { "-" } else { "00" };
        writes(&format!("book::{by} {BOOK} {sheet} 400"), &split);
        answers(
            &format!("book::{by} 00 {sheet} 400"),
            "refused 8 room -+400",
        );
        answers(
            &format!("book::{by} {BOOK} {sheet} 61"),
            "refused 4 room -+61",
        );
    }
    writes(
        &format!("book::line_mapped {BOOK} 0 - 400"),
        &format!("{plain}}}\n"),
    );
    writes(
        &format!("book::list_mapped {BOOK} - 400"),
        &format!("{plain}}}\n"),
    );
    answers(
        &format!("book::line_with {BOOK} 1 0A 0"),
        "refused 3 room -+0",
    );
    answers(
        &format!("book::line_with {BOOK} 0 0A 0"),
        "refused 10 room -+0",
    );
    answers("book::list_with 00 0A 0", "refused 8 room -+0");
    answers(
        &format!("book::list_with {BOOK} 0A 0"),
        "refused 10 room -+0",
    );
    answers("book::list_with 000006000000 0A 0", "refused 10 room -+0");
}

#[test]
fn listings_with_a_sheet() {
    let input = b"4\n\xC0\x68\x00\x00";
    let plain = r#"{"at":0,"len":4,"msg":"nibe","cmd":104,"data":"""#;
    let last = "{\"frames\":1,\"skipped\":0}\n";
    assert_eq!(listing(input), format!("{plain}}}\n{last}").into_bytes());
    let split = format!("{plain},\"values\":[]}}\n{last}");
    assert_eq!(listing_with(input, b""), split.as_bytes());
    assert_eq!(listing_with(input, b"\n"), b"{\"refused\":10}\n");
    assert_eq!(listing_with(b"5\n", b"1,u8,0"), b"{\"refused\":10}\n");
    // document 01's two go first
    assert_eq!(listing_with(b"6\n", b"\n"), b"{\"refused\":2}\n");
    let long = [b"4\n".to_vec(), vec![0; 65_535]].concat();
    assert_eq!(listing_with(&long, b"\n"), b"{\"refused\":5}\n");
    assert_eq!(
        listing_with(&long[..65_536], b""),
        b"{\"frames\":0,\"skipped\":65534}\n"
    );
    writes("list::write_with 340AC0680000 - 400", &split);
    writes("list::write_mapped 340AC0680000 00 400", &split);
    writes(
        "list::write_mapped 340AC0680000 - 400",
        &format!("{plain}}}\n{last}"),
    );
    writes("list::write_with 340AC0680000 0A 15", "{\"refused\":10}\n");
    answers("list::write_with 340AC0680000 0A 14", "refused 4 room -+14");
}
