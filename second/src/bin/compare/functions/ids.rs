//! Homiq's IDs, each that there is and many that there are not, wherever one is read: as a frame, as a message, in a book; and what follows
//! it.

use super::Fixed;
use crate::arguments::hex;
use crate::frames::homiq;

/// How an ID may be written: 0 to 600 in decimal, and texts that are no decimals.
fn written() -> Vec<String> {
    let others = [
        "", "00", "000", "0000", "01", "007", "0511", "-0", "+0", " 0", "0 ", "1000",
    ];
    (0..=600)
        .map(|id| id.to_string())
        .chain(others.map(String::from))
        .collect()
}

fn content(id: &str) -> Vec<u8> {
    format!("HB;1;0H;0;{id};s").into_bytes()
}

/// Requests with each content, and with its frame; both sorts of answer must come.
fn of_each(name: &str, answers: [&str; 2], request: impl Fn(&[u8], &[u8]) -> String) -> Fixed {
    Fixed {
        test: format!("{name}, each ID"),
        answers: answers.map(String::from).to_vec(),
        requests: written()
            .iter()
            .map(|id| {
                let content = content(id);
                format!("{name} {}", request(&content, &homiq(&content)))
            })
            .collect(),
    }
}

pub fn each() -> Vec<Fixed> {
    vec![
        of_each("frames::search", ["ok", "refused 1"], |_, f| {
            format!("5 {} 0", hex(f))
        }),
        of_each("frames::why", ["ok none 0 0", "ok fields 0 0"], |_, f| {
            format!("5 {} 0", hex(f))
        }),
        of_each("messages::decode", ["ok beat", "refused 5"], |_, f| {
            format!("5 {}", hex(f))
        }),
        of_each("messages::of", ["ok beat", "refused 5"], |c, _| {
            format!("homiq {}", hex(c))
        }),
        of_each("commands::encode", ["ok", "refused 5"], |c, _| {
            format!("5 beat {} 60", hex(c))
        }),
        of_each("commands::acknowledge", ["ok", "refused 5"], |_, f| {
            format!("{} 60", hex(f))
        }),
        of_each("lines::write", ["ok", "refused 5"], |_, f| {
            format!("5 {} 0 200", hex(f))
        }),
        of_each("book::add", ["ok", "refused 5"], |_, f| {
            format!("000006000000 5 {} 60", hex(f))
        }),
        Fixed {
            test: "messages::homiq::next_id, each ID".to_string(),
            answers: ["ok", "ok 0", "refused 5"].map(String::from).to_vec(),
            requests: (0..=65_535)
                .map(|id| format!("messages::homiq::next_id {id}"))
                .collect(),
        },
    ]
}
