//! The functions on the message table: the message of a content and its line, and each row's messages, whether they are allowed, their
//! lines and their frames.

use super::framed::{any_map, homiq_payload, nearly_press, one_frame};
use super::{at, function, number, room, words, Function};
use crate::arguments::{self, hex};
use crate::contents;
use crate::messages;
use crate::random::Random;
use crate::rows::{Row, ROWS};
use crate::sheets;

/// A content's tag, by its name; how many requests it gets beside the others, and the messages that it can mean.
struct Tag {
    name: &'static str,
    weight: usize,
    means: &'static [&'static str],
}

const TAGS: [Tag; 7] = [
    tag("link", 10, &["read", "set", "answer", "link"]),
    tag("press", 5, &["press"]),
    tag("tail", 2, &["tail"]),
    tag("command", 5, &["command"]),
    tag(
        "response",
        16,
        &["climate", "state", "break", "end", "text", "response"],
    ),
    tag("nibe", 14, &["ask", "reply", "put", "done", "nibe"]),
    tag("homiq", 14, &HOMIQ),
];

const HOMIQ: [&str; 5] = ["output", "input", "shutter", "beat", "homiq"];

const fn tag(name: &'static str, weight: usize, means: &'static [&'static str]) -> Tag {
    Tag {
        name,
        weight,
        means,
    }
}

impl Tag {
    /// A tail takes nothing from the payload, so no payload is refused.
    fn refused(&self) -> Option<&'static str> {
        (self.name != "tail").then_some("refused 5")
    }

    /// A test of its own for the tag.
    fn named(&self, mut function: Function) -> Function {
        function.test += &format!(", {}", self.name);
        function
    }
}

/// For each tag the messages of its contents, and their lines, without a frame around them.
pub fn meant() -> Vec<Function> {
    let message = |tag: &'static Tag| {
        let means: Vec<String> = tag.means.iter().map(|row| format!("ok {row}")).collect();
        let answers: Vec<&str> = means
            .iter()
            .map(String::as_str)
            .chain(tag.refused())
            .collect();
        tag.named(function("messages::of", tag.weight, &answers, |r| {
            content(tag.name, r)
        }))
    };
    let line = |tag: &'static Tag| {
        let answers: Vec<&str> = ["ok"].into_iter().chain(tag.refused()).collect();
        tag.named(function("lines::put_content", tag.weight, &answers, |r| {
            let (content, map) = by_map(tag.name, r);
            let behind = words([number(64, r), number(64, r), map, room(), at()]);
            [content, behind].concat()
        }))
    };
    TAGS.iter()
        .map(message)
        .chain(TAGS.iter().map(line))
        .collect()
}

/// A tag of this name, a payload, and a register map, which says something of it now and then.
fn by_map(tag: &str, random: &mut Random) -> (Vec<String>, String) {
    if tag != "nibe" || random.one_in(3) {
        return (content(tag, random), any_map(random));
    }
    let (map, rows) = sheets::any_map(random);
    let (command, data) = sheets::message(&rows, random);
    let words = words([tag.to_string(), command.to_string(), hex(&data)]);
    (words, hex(&map))
}

/// A tag of this name and a payload: good, nearly so, or not.
fn content(tag: &str, random: &mut Random) -> Vec<String> {
    let mut words = vec![tag.to_string()];
    let payload = match tag {
        "link" => messages::link_digits(random),
        "press" => nearly_press(random),
        "tail" => arguments::bytes(random),
        "nibe" => {
            let command = messages::nibe_command(random);
            words.push(command.to_string());
            messages::nibe_data(command, random)
        }
        "homiq" => match random.below(4) {
            0 => homiq_payload(random),
            1 => contents::homiq(random),
            _ => messages::homiq_content(random.pick(&HOMIQ), random),
        },
        _ => {
            let id = contents::nest_id(random);
            words.push(id.to_string());
            messages::nest_payload(id, random)
        }
    };
    words.push(hex(&payload));
    words
}

/// For each row of the table, whether it is allowed, and its line.
pub fn standing() -> Vec<Function> {
    let allowed = |row: &'static Row| {
        let mut answers = vec!["ok"];
        answers.extend((!row.is_always_allowed()).then_some("refused 5"));
        answers.extend(row.is_last().then_some("refused 6"));
        of_row(
            row,
            function("messages::allowed", 2, &answers, |r| with_content(row, r)),
        )
    };
    let line = |row: &'static Row| {
        let mut answers = vec!["ok", "refused 4"];
        answers.extend((!row.is_always_allowed()).then_some("refused 5"));
        of_row(
            row,
            function("lines::of", 3, &answers, |r| {
                let behind = words([number(64, r), number(64, r), room(), at()]);
                [with_content(row, r), behind].concat()
            }),
        )
    };
    ROWS.iter()
        .map(allowed)
        .chain(ROWS.iter().map(line))
        .collect()
}

/// A test of its own for the row.
pub fn of_row(row: &Row, mut function: Function) -> Function {
    function.test += &format!(", {}", row.name);
    function
}

/// A message of the row, and the content beside it.
fn with_content(row: &Row, random: &mut Random) -> Vec<String> {
    let message = messages::message(row.name, random);
    [message.words, vec![hex(&message.content)]].concat()
}

pub fn commands() -> Vec<Function> {
    let encode = |row: &'static Row| {
        let mut answers = vec!["ok", "refused 2", "refused 5", "refused 4"];
        answers.extend(row.has_width().then_some("refused 7"));
        answers.extend(row.is_last().then_some("refused 6"));
        of_row(
            row,
            function("commands::encode", 4, &answers, |r| encoded(row, r)),
        )
    };
    let acknowledge = function(
        "commands::acknowledge",
        14,
        &["ok", "refused 5", "refused 4"],
        |r| words([hex(&one_frame(5, r)), room()]),
    );
    ROWS.iter().map(encode).chain([acknowledge]).collect()
}

fn encoded(row: &Row, random: &mut Random) -> Vec<String> {
    let kind = arguments::kind(row.kind, random);
    [vec![kind], with_content(row, random), vec![room()]].concat()
}
