//! Every function of docs/CALLS.md: what its requests are made of, and which sorts of answer must come.

mod asked;
mod framed;
mod ids;
mod in_c;
mod judged;
mod kept;
mod layouts;
mod sheeted;
mod spelt;
mod table;
mod values;

use crate::arguments::{self, hex};
use crate::frames::{self, KINDS};
use crate::random::Random;

pub use kept::any_book;

/// Stands for a room, whose length is chosen when it is known how much will be written.
pub const ROOM: &str = "ROOM";
/// Stands for any number in a sort of answer.
pub const ANY: &str = "N";
/// Stands for the place in the room at which something is put.
pub const AT: &str = "AT";

type Make = Box<dyn Fn(&mut Random) -> Vec<String>>;

pub struct Function {
    /// The test's name: the function's, and a part of its arguments if there is a test for each.
    pub test: String,
    pub name: &'static str,
    /// How many requests it gets beside the others.
    pub weight: usize,
    /// The first words of each sort of answer, with ANY for any number. An answer counts under the longest that it begins with, and each must come.
    pub answers: Vec<String>,
    /// Its arguments.
    pub make: Make,
}

pub fn all() -> Vec<Function> {
    [
        values::digits(),
        values::checks(),
        values::puts(),
        values::numbers(),
        values::json(),
        layouts::layouts(),
        layouts::tests(),
        framed::builds(),
        framed::searches(),
        judged::why(),
        framed::decoded(),
        table::meant(),
        table::standing(),
        table::commands(),
        framed::lines(),
        kept::book(),
    ]
    .into_iter()
    .flatten()
    .collect()
}

/// The functions on register sheets, and what is written by them.
pub fn by_sheet() -> Vec<Function> {
    [sheeted::sheets(), sheeted::lines(), sheeted::books()]
        .into_iter()
        .flatten()
        .collect()
}

/// The functions on texts of JSON.
pub fn on_texts() -> Vec<Function> {
    spelt::texts()
}

/// The functions on commands as JSON.
pub fn on_commands() -> Vec<Function> {
    asked::commands()
}

/// Requests that are listed, not drawn, and the first words of each sort of answer, as in `Function`.
pub struct Fixed {
    pub test: String,
    pub answers: Vec<String>,
    pub requests: Vec<String>,
}

pub fn all_fixed() -> Vec<Fixed> {
    let why = judged::byte_by_byte("frames::why", true);
    why.into_iter()
        .chain(judged::heads_byte_by_byte())
        .chain(ids::each())
        .chain(values::each_pair())
        .chain(spelt::each())
        .chain(asked::each())
        .collect()
}

/// A test of these arguments. Each sort of answer must come.
fn of_each(name: &str, what: &str, answers: &[&str], arguments: Vec<String>) -> Fixed {
    Fixed {
        test: format!("{name}, {what}"),
        answers: answers.iter().map(ToString::to_string).collect(),
        requests: arguments
            .iter()
            .map(|arguments| format!("{name} {arguments}"))
            .collect(),
    }
}

/// Each text, and each of these words behind it.
fn with(texts: Vec<Vec<u8>>, behind: &[&str]) -> Vec<String> {
    let alone = texts.iter().map(|text| hex(text));
    if behind.is_empty() {
        return alone.collect();
    }
    alone
        .flat_map(|text| behind.iter().map(move |word| format!("{text} {word}")))
        .collect()
}

/// The calls for C.
pub fn from_c() -> Vec<Function> {
    in_c::calls()
}

/// The calls for C by a register map.
pub fn from_c_by_map() -> Vec<Function> {
    in_c::by_map()
}

/// The call for C on commands as JSON.
pub fn from_c_on_commands() -> Vec<Function> {
    asked::from_c()
}

pub fn fixed_from_c() -> Vec<Fixed> {
    judged::byte_by_byte("bolsterweft_why", false)
}

fn function(
    name: &'static str,
    weight: usize,
    answers: &[&str],
    make: impl Fn(&mut Random) -> Vec<String> + 'static,
) -> Function {
    Function {
        test: name.to_string(),
        name,
        weight,
        answers: answers.iter().map(ToString::to_string).collect(),
        make: Box::new(make),
    }
}

fn words<const N: usize>(words: [String; N]) -> Vec<String> {
    words.to_vec()
}

fn room() -> String {
    ROOM.to_string()
}

fn at() -> String {
    AT.to_string()
}

fn number(bits: u32, random: &mut Random) -> String {
    arguments::unsigned(bits, random).to_string()
}

fn bytes(random: &mut Random) -> String {
    hex(&arguments::bytes(random))
}

fn any_kind(random: &mut Random) -> u8 {
    random.pick(&KINDS)
}

fn of_length(lengths: &[usize], random: &mut Random) -> Vec<u8> {
    let count = random.pick(lengths);
    random.bytes(count)
}

/// Rooms and bytes as long as a request may have them, and a byte more.
pub fn longest(random: &mut Random) -> Vec<u8> {
    let request = match random.below(7) {
        0 => format!("puts::front AB {}", random.pick(&[2_097_202, 2_097_203])),
        1 => format!(
            "numbers::text::write 1 0 {}",
            random.pick(&[2_097_202, 2_097_203, 4_294_967_296_u64])
        ),
        2 => format!(
            "checks::nibe::Xor::of {}",
            hex(&of_length(&[131_071, 131_072, 131_073], random))
        ),
        3 => {
            let first = hex(&of_length(&[65_535, 65_536, 65_537], random));
            format!("digits::slices::same {first} {first}")
        }
        4 => format!(
            "frames::search 4 {} 0",
            hex(&of_length(&[131_072, 131_073, 140_000], random))
        ),
        5 => "A".repeat(random.pick(&[299_999, 300_000, 300_001, 400_000])),
        _ => {
            let frame = hex(&frames::tail());
            let book = hex(&of_length(&[131_068, 131_069], random));
            format!("book::add {book} 1 {frame} 0")
        }
    };
    request.into_bytes()
}
