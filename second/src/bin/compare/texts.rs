//! Texts of JSON (02, K4), made at random: of the grammar, with a name twice under two spellings, at the limits of depth and length, and
//! damaged; objects with the names that they have, and strings.

use crate::random::Random;

/// What a text may have, in bytes.
pub const MOST_BYTES: usize = 8_192;
/// How deep its values may be nested.
pub const DEEPEST: usize = 16;

const BLANKS: &[u8] = b" \t\n\r";
/// Characters at the edges of what UTF-8 and UTF-16 have, and some that have escapes of their own.
const CHARACTERS: [char; 24] = [
    'a',
    'b',
    'A',
    '0',
    ' ',
    '!',
    '/',
    '"',
    '\\',
    '\u{0}',
    '\u{8}',
    '\n',
    '\u{1f}',
    '\u{7f}',
    '\u{80}',
    '\u{e9}',
    '\u{7ff}',
    '\u{800}',
    '\u{d7ff}',
    '\u{e000}',
    '\u{ffff}',
    '\u{10000}',
    '\u{1f600}',
    '\u{10ffff}',
];

/// A text of any sort.
pub fn any(random: &mut Random) -> Vec<u8> {
    match random.below(20) {
        0..=4 => good(random),
        5..=9 => damaged(random),
        10..=12 => named_twice(random),
        13 | 14 => nested(random.from_to(DEEPEST - 1, DEEPEST + 1), random),
        15 => of_length(random),
        16 | 17 => string_of_bytes(random),
        18 => number(random),
        _ => {
            let count = random.below(10);
            random.bytes_of(b"{}[]\"\\:,0u-e. tn", count)
        }
    }
}

/// A text of the grammar, unless a name came twice by chance.
pub fn good(random: &mut Random) -> Vec<u8> {
    let size = random.from_to(1, 12);
    let mut text = blanks(random);
    text.extend(value(size, random.from_to(1, 6), random));
    text.extend(blanks(random));
    text
}

fn damaged(random: &mut Random) -> Vec<u8> {
    let mut text = match random.below(4) {
        0 => named_twice(random),
        1 => nested(random.from_to(2, DEEPEST), random),
        _ => good(random),
    };
    for _ in 0..random.from_to(1, 2) {
        damage(&mut text, random);
    }
    text
}

pub fn damage(text: &mut Vec<u8>, random: &mut Random) {
    if text.is_empty() {
        return;
    }
    let at = random.below(text.len());
    match random.below(9) {
        0 => drop(text.remove(at)),
        1 => text.insert(at, text[at]),
        2 => text.insert(at, random.pick(b"{}[]\",:\\0 \x0C\x0B\0")),
        3 => text[at] = random.byte(),
        4 => text[at] = random.pick(b"{}[]\",:\\019.eE+-u \t\x0C"),
        5 => text.truncate(at),
        6 => text[at] ^= 1 << random.below(8),
        7 => text.swap(at, random.below(at + 1)),
        _ => {
            let piece = text[at..(at + random.from_to(1, 6)).min(text.len())].to_vec();
            text.splice(at..at, piece);
        }
    }
}

pub fn blanks(random: &mut Random) -> Vec<u8> {
    let count = if random.one_in(3) {
        random.from_to(1, 3)
    } else {
        0
    };
    random.bytes_of(BLANKS, count)
}

fn between_blanks(mark: u8, random: &mut Random) -> Vec<u8> {
    [blanks(random), vec![mark], blanks(random)].concat()
}

/// A value of some members or elements in all, nested as deep at most.
fn value(size: usize, depth: usize, random: &mut Random) -> Vec<u8> {
    let sort = if depth <= 1 { 0 } else { random.below(3) };
    match sort {
        1 => {
            let count = random.from_to(0, size.min(5));
            array(
                &(0..count)
                    .map(|_| value(size / 2, depth - 1, random))
                    .collect::<Vec<_>>(),
                random,
            )
        }
        2 => {
            let count = random.from_to(0, size.min(5));
            let members: Vec<Vec<u8>> = (0..count)
                .map(|_| {
                    let name = string(random);
                    member(&name, &value(size / 2, depth - 1, random), random)
                })
                .collect();
            object(&members, random)
        }
        _ => plain(random),
    }
}

fn plain(random: &mut Random) -> Vec<u8> {
    match random.below(6) {
        0 => b"true".to_vec(),
        1 => b"false".to_vec(),
        2 => b"null".to_vec(),
        3 => string(random),
        _ => number(random),
    }
}

pub fn array(values: &[Vec<u8>], random: &mut Random) -> Vec<u8> {
    enclosed(b'[', values, b']', random)
}

pub fn object(members: &[Vec<u8>], random: &mut Random) -> Vec<u8> {
    enclosed(b'{', members, b'}', random)
}

fn enclosed(open: u8, parts: &[Vec<u8>], close: u8, random: &mut Random) -> Vec<u8> {
    let mut text = vec![open];
    text.extend(blanks(random));
    for (nth, part) in parts.iter().enumerate() {
        if nth > 0 {
            text.extend(between_blanks(b',', random));
        }
        text.extend(part);
    }
    text.extend(blanks(random));
    text.push(close);
    text
}

pub fn member(name: &[u8], value: &[u8], random: &mut Random) -> Vec<u8> {
    [name, &between_blanks(b':', random), value].concat()
}

/// A number, or what is nearly one.
fn number(random: &mut Random) -> Vec<u8> {
    let digits = |least: usize, random: &mut Random| {
        let count = random.from_to(least, 4);
        random.bytes_of(b"0123456789", count)
    };
    let mut text = Vec::new();
    if random.one_in(3) {
        text.push(b'-');
    }
    if random.one_in(3) {
        text.push(b'0');
    } else {
        text.push(random.pick(b"123456789"));
        text.extend(digits(0, random));
    }
    if random.one_in(3) {
        text.push(b'.');
        text.extend(digits(1, random));
    }
    if random.one_in(3) {
        text.push(random.pick(b"eE"));
        if random.one_in(2) {
            text.push(random.pick(b"+-"));
        }
        text.extend(digits(1, random));
    }
    if random.one_in(24) {
        damage(&mut text, random);
    }
    text
}

fn string(random: &mut Random) -> Vec<u8> {
    let count = random.from_to(0, 3);
    let units: Vec<u16> = (0..count).flat_map(|_| unit_or_pair(random)).collect();
    spelt(&units, random)
}

fn unit_or_pair(random: &mut Random) -> Vec<u16> {
    match random.below(8) {
        0 => vec![random.pick(&[0xD800, 0xDBFF, 0xDC00, 0xDFFF, 0xD83D, 0xDE00])],
        1 => vec![random.next() as u16],
        _ => units_of(random.pick(&CHARACTERS)),
    }
}

fn units_of(character: char) -> Vec<u16> {
    character.encode_utf16(&mut [0; 2]).to_vec()
}

/// A string with these code units, each written by one of the ways that there are.
pub fn spelt(units: &[u16], random: &mut Random) -> Vec<u8> {
    let mut text = vec![b'"'];
    let mut left = units;
    while let [first, behind @ ..] = left {
        if let [second, behind @ ..] = behind {
            if let (false, [Ok(paired)]) = (
                random.one_in(3),
                &char::decode_utf16([*first, *second]).collect::<Vec<_>>()[..],
            ) {
                text.extend(paired.to_string().bytes());
                left = behind;
                continue;
            }
        }
        text.extend(spelt_unit(*first, random));
        left = behind;
    }
    text.push(b'"');
    text
}

fn spelt_unit(unit: u16, random: &mut Random) -> Vec<u8> {
    let short = match unit {
        0x22 => Some(b'"'),
        0x5C => Some(b'\\'),
        0x2F => Some(b'/'),
        0x08 => Some(b'b'),
        0x0C => Some(b'f'),
        0x0A => Some(b'n'),
        0x0D => Some(b'r'),
        0x09 => Some(b't'),
        _ => None,
    };
    let itself = char::from_u32(u32::from(unit)).filter(|c| !"\"\\".contains(*c) && *c >= ' ');
    match (random.below(3), short, itself) {
        (0, Some(letter), _) => vec![b'\\', letter],
        (0 | 1, _, Some(character)) => character.to_string().into_bytes(),
        _ => escaped(unit, random),
    }
}

/// The four digits of a unit, each in lower or upper case.
fn escaped(unit: u16, random: &mut Random) -> Vec<u8> {
    let mut text = format!("\\u{unit:04x}").into_bytes();
    for digit in &mut text[2..] {
        if random.one_in(2) {
            digit.make_ascii_uppercase();
        }
    }
    text
}

/// An object with other names and, mostly, one that stands twice, spelt anew: one behind the other, far apart, or in objects that are not
/// the same.
pub fn named_twice(random: &mut Random) -> Vec<u8> {
    let name: Vec<u16> = (0..random.from_to(0, 3))
        .flat_map(|_| unit_or_pair(random))
        .collect();
    let mut again = name.clone();
    match random.below(5) {
        0 => again.extend(unit_or_pair(random)),
        1 => drop(again.pop()),
        _ => {}
    }
    let mut names = vec![name];
    for _ in 0..random.pick(&[0, 0, 1, 2, 6]) {
        names.push(units_of(random.pick(&CHARACTERS)).repeat(5));
        // the last of many may stand in one object with the first
        let nth = names.len() as u16;
        names.last_mut().unwrap().push(0x3000 + nth);
    }
    names.push(again);
    let inside = random.one_in(6);
    let mut members: Vec<Vec<u8>> = Vec::new();
    for (nth, name) in names.iter().enumerate() {
        let name = spelt(name, random);
        let value = if inside && nth == 0 {
            object(&members, random)
        } else {
            value(3, 3, random)
        };
        members.push(member(&name, &value, random));
    }
    if inside {
        let last = members.pop().unwrap();
        let within = object(&[last], random);
        members.push(member(b"\"within\"", &within, random));
    }
    let mut text = object(&members, random);
    for _ in 0..random.below(3) {
        text = if random.one_in(2) {
            array(&[plain(random), text], random)
        } else {
            object(&[member(b"\"a\"", &text, random)], random)
        };
    }
    text
}

/// An object with blanks around it, and the code units of its names. Some stand twice, and its values may be objects with the same names.
/// Sometimes it is damaged, too deep or too long, and sometimes it is no object.
pub fn with_names(random: &mut Random) -> (Vec<u8>, Vec<Vec<u16>>) {
    let pool: Vec<Vec<u16>> = (0..random.from_to(1, 4))
        .map(|_| match random.below(3) {
            0 => (0..random.from_to(0, 3))
                .flat_map(|_| unit_or_pair(random))
                .collect(),
            _ => narrow(3, random),
        })
        .collect();
    let mut named: Vec<Vec<u16>> = Vec::new();
    let mut members = Vec::new();
    for _ in 0..random.pick(&[0, 1, 2, 3, 3, 4, 8]) {
        let name = pool[random.below(pool.len())].clone();
        let value = match random.below(6) {
            0 => within(&pool, random),
            1 => nested(random.from_to(DEEPEST - 2, DEEPEST), random),
            _ => value(3, 3, random),
        };
        members.push(member(&spelt(&name, random), &value, random));
        named.push(name);
    }
    let mut text = [blanks(random), object(&members, random), blanks(random)].concat();
    match random.below(14) {
        0 | 1 => damage(&mut text, random),
        2 => text = array(&[text], random),
        3 => {
            let length = random.from_to(MOST_BYTES - 1, MOST_BYTES + 1);
            lengthen(&mut text, length, random);
        }
        _ => {}
    }
    (text, named)
}

/// An object with some of these names.
fn within(pool: &[Vec<u16>], random: &mut Random) -> Vec<u8> {
    let members: Vec<Vec<u8>> = (0..random.from_to(0, 3))
        .map(|_| {
            let name = spelt(&pool[random.below(pool.len())], random);
            member(&name, &plain(random), random)
        })
        .collect();
    object(&members, random)
}

/// A name to be asked for, a byte for each character: one of these, one that is nearly one of them, or any.
pub fn asked(names: &[Vec<u16>], random: &mut Random) -> Vec<u8> {
    if names.is_empty() || random.one_in(12) {
        let count = random.below(4);
        return random.bytes(count);
    }
    let units = &names[random.below(names.len())];
    let mut name: Vec<u8> = match random.below(12) {
        // the bytes of its UTF-8, and its spelling
        0 => String::from_utf16_lossy(units).into_bytes(),
        1 => {
            let spelt = spelt(units, random);
            spelt[1..spelt.len() - 1].to_vec()
        }
        _ => units.iter().map(|unit| *unit as u8).collect(),
    };
    match random.below(12) {
        0 => damage(&mut name, random),
        1 => name.push(random.byte()),
        2 => drop(name.pop()),
        _ => {}
    }
    name
}

/// The code units of at most so many characters up to U+00FF.
fn narrow(most: usize, random: &mut Random) -> Vec<u16> {
    const EDGES: [u16; 12] = [
        0x00, 0x08, 0x1F, 0x20, 0x22, 0x2F, 0x5C, 0x61, 0x7F, 0x80, 0xFE, 0xFF,
    ];
    (0..random.below(most + 1))
        .map(|_| match random.below(2) {
            0 => random.pick(&EDGES),
            _ => u16::from(random.byte()),
        })
        .collect()
}

/// A string, mostly with characters up to U+00FF; sometimes with one above, damaged, with blanks around it, or as long as may be.
pub fn string_alone(random: &mut Random) -> Vec<u8> {
    let mut units = narrow(12, random);
    if random.one_in(6) {
        let at = random.below(units.len() + 1);
        let above = match random.below(3) {
            0 => vec![random.pick(&[0x100, 0x101, 0x17F, 0x1FF, 0x200, 0xFF00, 0xFFFF])],
            _ => unit_or_pair(random),
        };
        units.splice(at..at, above);
    }
    let mut text = spelt(&units, random);
    match random.below(12) {
        0 => damage(&mut text, random),
        1 => text = [blanks(random), text, blanks(random)].concat(),
        2 => {
            let length = random.from_to(MOST_BYTES - 1, MOST_BYTES + 1);
            let fill = random.bytes_of(b"az09 ", length.saturating_sub(text.len()));
            text.splice(1..1, fill);
        }
        3 => text = array(&[text], random),
        _ => {}
    }
    text
}

/// So many values, each in the one before it.
pub fn nested(levels: usize, random: &mut Random) -> Vec<u8> {
    let mut text = match random.below(4) {
        0 => b"[]".to_vec(),
        1 => b"{}".to_vec(),
        _ => plain(random),
    };
    for _ in 1..levels {
        let mut parts = Vec::new();
        if random.one_in(4) {
            parts.push(value(2, 2, random));
        }
        parts.push(text);
        if random.one_in(4) {
            parts.push(value(2, 2, random));
        }
        text = if random.one_in(2) {
            array(&parts, random)
        } else {
            let members: Vec<Vec<u8>> = parts
                .iter()
                .enumerate()
                .map(|(nth, value)| member(format!("\"{nth}\"").as_bytes(), value, random))
                .collect();
            object(&members, random)
        };
    }
    text
}

/// A text as long as may be, a byte less, or a byte more: by blanks, a string, a number, an array or an object.
fn of_length(random: &mut Random) -> Vec<u8> {
    long(
        random.below(5),
        random.from_to(MOST_BYTES - 1, MOST_BYTES + 1),
        random,
    )
}

pub fn long(sort: usize, length: usize, random: &mut Random) -> Vec<u8> {
    let mut text = match sort {
        0 => b"1".to_vec(),
        1 => [b"\"", &vec![b'a'; length - 2][..], b"\""].concat(),
        2 => vec![b'1'; length],
        3 => {
            let values = vec![b"null".to_vec(); length / 5 - 4];
            [b"[", &values.join(&b","[..])[..], b"]"].concat()
        }
        _ => {
            let members: Vec<Vec<u8>> = (0..length / 10 - 1)
                .map(|nth| format!("\"{nth:04}\":0").into_bytes())
                .collect();
            [b"{", &members.join(&b","[..])[..], b"}"].concat()
        }
    };
    lengthen(&mut text, length, random);
    text
}

/// Blanks around a text, until it has this length.
pub fn lengthen(text: &mut Vec<u8>, length: usize, random: &mut Random) {
    while text.len() < length {
        let blank = random.pick(BLANKS);
        if random.one_in(2) && length - text.len() < 50 {
            text.insert(0, blank);
        } else {
            text.push(blank);
        }
    }
}

/// A string of UTF-8, or of what is nearly UTF-8.
fn string_of_bytes(random: &mut Random) -> Vec<u8> {
    let mut inner = Vec::new();
    for _ in 0..random.from_to(1, 4) {
        let any = random.next() as u32 % 0x11_0000;
        let character = char::from_u32(any >> random.from_to(0, 12)).unwrap_or('\u{fffd}');
        match random.below(3) {
            0 => inner.extend(lead_and_tails(random)),
            _ => inner.extend(
                character
                    .to_string()
                    .bytes()
                    .filter(|b| !b"\"\\".contains(b)),
            ),
        }
    }
    [b"\"", &inner[..], b"\""].concat()
}

fn lead_and_tails(random: &mut Random) -> Vec<u8> {
    let mut bytes = vec![random.pick(&[
        0x7F, 0x80, 0xBF, 0xC0, 0xC1, 0xC2, 0xDF, 0xE0, 0xE1, 0xEC, 0xED, 0xEE, 0xEF, 0xF0, 0xF1,
        0xF3, 0xF4, 0xF5, 0xF8, 0xFF,
    ])];
    let count = random.below(4);
    bytes.extend(random.bytes_of(&[0x7F, 0x80, 0x8F, 0x90, 0x9F, 0xA0, 0xBF, 0xC0], count));
    bytes
}
