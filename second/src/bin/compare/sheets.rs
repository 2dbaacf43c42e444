//! Register sheets (02, K2), good and damaged, their maps, and data, frames, captures and books that are read by them.

use crate::books::{self, Entry};
use crate::captures;
use crate::contents;
use crate::frames;
use crate::functions::any_book;
use crate::random::Random;

/// A line of a sheet. The type is its place in `TYPES`.
#[derive(Clone, Copy)]
pub struct Row {
    pub register: u16,
    pub sort: usize,
    pub decimals: u8,
}

pub const TYPES: [&str; 6] = ["u8", "s8", "u16", "s16", "u32", "s32"];
const WIDTHS: [usize; 6] = [1, 1, 2, 2, 4, 4];
const MOST_ROWS: usize = 500;
const MOST_DATA: usize = 255;

/// The numbers that the types hold, as least and most.
pub const LIMITS: [(i64, i64); 6] = [
    (0, 255),
    (-128, 127),
    (0, 65_535),
    (-32_768, 32_767),
    (0, 4_294_967_295),
    (-2_147_483_648, 2_147_483_647),
];

impl Row {
    pub fn width(&self) -> usize {
        WIDTHS[self.sort]
    }

    fn line(&self) -> String {
        format!("{},{},{}\n", self.register, TYPES[self.sort], self.decimals)
    }
}

fn row(register: u16, random: &mut Random) -> Row {
    Row {
        register,
        sort: random.below(6),
        decimals: random.below(4) as u8,
    }
}

/// A few rows, of which the registers rise.
pub fn rows(random: &mut Random) -> Vec<Row> {
    let count = if random.one_in(10) {
        0
    } else {
        random.from_to(1, 6)
    };
    let mut registers: Vec<u16> = (0..count).map(|_| register(random)).collect();
    registers.sort_unstable();
    registers.dedup();
    registers
        .into_iter()
        .map(|register| row(register, random))
        .collect()
}

/// One of the first registers, mostly: a map that lists it is short.
fn register(random: &mut Random) -> u16 {
    match random.below(12) {
        0 => random.pick(&[0, 1, 255, 256, 40_004, 47_011, 65_534, 65_535]),
        1 => random.next() as u16,
        _ => random.below(48) as u16,
    }
}

/// So many rows one behind the other, each line of twelve bytes if the registers have five digits.
pub fn many(first: u16, count: usize, random: &mut Random) -> Vec<Row> {
    (0..count)
        .map(|nth| {
            let mut row = row(first + nth as u16, random);
            if first >= 10_000 {
                row.sort = random.from_to(2, 5);
            }
            row
        })
        .collect()
}

pub fn text(rows: &[Row]) -> Vec<u8> {
    let lines: String = rows.iter().map(Row::line).collect();
    lines.into_bytes()
}

/// The shortest map that lists these rows.
pub fn map(rows: &[Row]) -> Vec<u8> {
    let length = rows.last().map_or(0, |row| usize::from(row.register) + 1);
    let mut map = vec![0; length];
    for row in rows {
        map[usize::from(row.register)] = 1 + 4 * row.sort as u8 + row.decimals;
    }
    map
}

/// A sheet, good or not, and rows that it has, or nearly so.
pub fn any_sheet(random: &mut Random) -> (Vec<u8>, Vec<Row>) {
    if random.one_in(40) {
        return long(random);
    }
    let rows = rows(random);
    let sheet = if random.one_in(5) {
        damaged(&rows, random)
    } else {
        text(&rows)
    };
    (sheet, rows)
}

/// As many lines or bytes as there may be, or one more.
pub fn long(random: &mut Random) -> (Vec<u8>, Vec<Row>) {
    let first = random.pick(&[0, 10_000, 65_000]);
    let count = random.pick(&[MOST_ROWS - 1, MOST_ROWS, MOST_ROWS, MOST_ROWS + 1]);
    let rows = many(first, count, random);
    let mut sheet = text(&rows);
    match random.below(6) {
        0 => sheet.push(random.pick(b"\n,07x")),
        1 => drop(sheet.pop()),
        2 => sheet.extend(b"7,u8,0\n"),
        _ => {}
    }
    (sheet, rows)
}

/// A sheet with a fault in it; now and then it still is one.
pub fn damaged(rows: &[Row], random: &mut Random) -> Vec<u8> {
    let mut lines: Vec<String> = rows.iter().map(Row::line).collect();
    let at = random.below(lines.len() + 1);
    match random.below(9) {
        0 => return damaged_bytes(text(rows), random),
        1 | 2 => lines.insert(at, wrong_line(random)),
        3 => lines.insert(at, row(register(random), random).line()),
        4 if at < lines.len() => lines.insert(at, lines[at].clone()),
        5 => lines.reverse(),
        6 => return lines.concat().replace('\n', "\r\n").into_bytes(),
        7 => {
            let sheet = lines.concat();
            return sheet.strip_suffix('\n').unwrap_or(&sheet).into();
        }
        _ if at < lines.len() => lines[at] = in_one_field(&rows[at], random),
        _ => lines.push(wrong_line(random)),
    }
    lines.concat().into_bytes()
}

fn wrong_line(random: &mut Random) -> String {
    let lines = [
        "\n",
        ",\n",
        ",,\n",
        ",,,\n",
        "1\n",
        "1,u8\n",
        "1,u8,\n",
        "1,,0\n",
        ",u8,0\n",
        "1,u8,0,\n",
        "1,u8,0,0\n",
        "1;u8;0\n",
        "register,type,decimals\n",
        "# 1,u8,0\n",
        "1,u8,0 \n",
        "1, u8,0\n",
        "1,u8,0",
        "x",
        "\0\n",
    ];
    random.pick(&lines).to_string()
}

/// The row's line with a wrong register, type or number of decimals, or with two of these.
fn in_one_field(row: &Row, random: &mut Random) -> String {
    let register = row.register.to_string();
    let registers = [
        format!("0{register}"),
        "65536".to_string(),
        "65600".to_string(),
        "99999".to_string(),
        "4294967296".to_string(),
        "18446744073709551616".to_string(),
        "00".to_string(),
        format!("-{register}"),
        format!("+{register}"),
        format!(" {register}"),
        format!("{register} "),
        format!("{register}x"),
        String::new(),
    ];
    let types = [
        "", "u", "s", "8", "u08", "U8", "S16", "u64", "s64", "u9", "i16", "u161", " u8", "u8 ",
    ];
    let decimals = ["", "4", "9", "00", "01", "10", "-1", " 0", "0 ", "0\r", "x"];
    let which = random.below(8);
    let register = match which {
        0..=2 | 6 => registers[random.below(registers.len())].clone(),
        _ => register,
    };
    let sort = match which {
        3 | 6 | 7 => random.pick(&types),
        _ => TYPES[row.sort],
    };
    let decimals = match which {
        4 | 5 | 7 => random.pick(&decimals).to_string(),
        _ => row.decimals.to_string(),
    };
    format!("{register},{sort},{decimals}\n")
}

fn damaged_bytes(mut sheet: Vec<u8>, random: &mut Random) -> Vec<u8> {
    if sheet.is_empty() {
        return contents::many(random, 1, 9);
    }
    let at = random.below(sheet.len());
    match random.below(4) {
        0 => drop(sheet.remove(at)),
        1 => sheet.insert(at, random.pick(b"0123456789,us\n\r -")),
        2 => sheet[at] = random.pick(b"0123456789,us\n\r -"),
        _ => sheet.truncate(at),
    }
    sheet
}

/// A map, and rows that it has, or nearly so: none at all, of rows, as long as may be, or any bytes.
pub fn any_map(random: &mut Random) -> (Vec<u8>, Vec<Row>) {
    let mut rows = rows(random);
    // a map of the highest registers has 64 KiB
    if !random.one_in(150) {
        rows.retain(|row| row.register < 300);
    }
    let mut map = map(&rows);
    match random.below(8) {
        0 => map.clear(),
        1 => map.extend(vec![0; random.from_to(1, 9)]),
        2 => drop(map.pop()),
        3 => {
            let wrong = random.pick(&[25, 26, 28, 127, 128, 238, 255]);
            let at = random.below(map.len() + 1);
            map.resize(map.len().max(at + 1), 0);
            map[at] = wrong;
        }
        4 => {
            map = (0..random.below(60))
                .map(|_| random.below(30) as u8)
                .collect()
        }
        5 if random.one_in(30) => map.resize(65_536, 0),
        _ => {}
    }
    if random.one_in(3) {
        // rows as the map has them, whatever it was made from
        rows = listed(&map);
    }
    (map, rows)
}

fn listed(map: &[u8]) -> Vec<Row> {
    let row = |(register, byte): (usize, &u8)| {
        (1..=24).contains(byte).then(|| Row {
            register: register as u16,
            sort: usize::from(byte - 1) / 4,
            decimals: (byte - 1) % 4,
        })
    };
    map.iter().enumerate().filter_map(row).collect()
}

/// A value of the row's type, mostly at its limits.
pub fn value(row: &Row, random: &mut Random) -> i64 {
    let (least, most) = LIMITS[row.sort];
    match random.below(8) {
        0 => least,
        1 => most,
        2 => least + 1,
        3 => most - 1,
        4 => 0,
        5 => (most / 2 + random.below(3) as i64).min(most),
        // what a single float just holds, or just does not
        6 => (random.pick(&[16_777_215, 16_777_216, 16_777_217, 33_554_434])).min(most),
        _ => least + (random.next() % (most - least + 1) as u64) as i64,
    }
}

/// Data that split by these rows.
pub fn good_data(rows: &[Row], random: &mut Random) -> Vec<u8> {
    let most = if random.one_in(12) { 127 } else { 5 };
    let mut data = Vec::new();
    for _ in 0..random.below(most + 1) {
        if rows.is_empty() {
            break;
        }
        let row = random.pick(rows);
        if data.len() + 2 + row.width() > MOST_DATA {
            break;
        }
        data.extend(row.register.to_le_bytes());
        data.extend(&value(&row, random).to_le_bytes()[..row.width()]);
    }
    data
}

/// Data that split, or are cut, or have a register that is not listed before, between or behind the pairs.
pub fn any_data(rows: &[Row], random: &mut Random) -> Vec<u8> {
    let mut data = good_data(rows, random);
    match random.below(14) {
        0 => drop(data.pop()),
        1 => data.truncate(random.below(data.len() + 1)),
        2 => data.push(random.byte()),
        3 => data.extend(register(random).to_le_bytes()),
        4 => {
            let unlisted = register(random).to_le_bytes();
            let value = contents::many(random, 0, 4);
            data.extend(unlisted.into_iter().chain(value));
        }
        5 => {
            let unlisted = register(random).to_le_bytes();
            data.splice(0..0, unlisted);
        }
        _ => {}
    }
    data.truncate(MOST_DATA);
    data
}

/// 62 and 68, mostly.
pub fn command(random: &mut Random) -> u8 {
    match random.below(12) {
        0 => random.pick(&[0x60, 0x69, 0x6A, 0x6B, 0x6C]),
        1 => random.pick(&[0, 61, 0x61, 0x63, 0x67, 0x28, 0xE8, 255]),
        _ => random.pick(&[0x62, 0x68]),
    }
}

/// The data of a message that a sheet says something of: pairs, or a register and a value whose width mostly agrees.
pub fn message(rows: &[Row], random: &mut Random) -> (u8, Vec<u8>) {
    if random.one_in(2) || rows.is_empty() {
        let command = random.pick(&[0x60, 0x62, 0x62, 0x68, 0x68, 0x68]);
        return (command, any_data(rows, random));
    }
    let row = random.pick(rows);
    let width = if random.one_in(4) {
        random.pick(&[1, 2, 4])
    } else {
        row.width()
    };
    let register = if random.one_in(8) {
        register(random)
    } else {
        row.register
    };
    let value = &value(&row, random).to_le_bytes()[..width];
    let command = random.pick(&[0x6A, 0x6B]);
    (command, [&register.to_le_bytes(), value].concat())
}

/// A frame of Nibe, mostly one that a sheet says something of.
pub fn frame(rows: &[Row], random: &mut Random) -> Vec<u8> {
    if random.one_in(10) {
        return contents::frame(4, random);
    }
    let (command, data) = message(rows, random);
    frames::nibe(command, &data)
}

/// A capture with such frames, and with what else stands in one.
pub fn capture(rows: &[Row], random: &mut Random) -> Vec<u8> {
    let mut capture = Vec::new();
    for _ in 0..random.from_to(1, 4) {
        if random.one_in(6) {
            capture.extend(captures::short(4, random));
        }
        capture.extend(frame(rows, random));
        if random.one_in(6) {
            capture.extend(contents::many(random, 1, 3));
        }
    }
    capture
}

/// A book with such frames, or another one, and about how many entries it has.
pub fn book(rows: &[Row], random: &mut Random) -> (Vec<u8>, usize) {
    if random.one_in(4) {
        return any_book(random);
    }
    let mut entries = books::entries(random);
    for _ in 0..random.from_to(1, 3) {
        let at = random.below(entries.len() + 1);
        let frame = frame(rows, random);
        entries.insert(at, Entry { kind: 4, frame });
    }
    (books::book(&entries), entries.len())
}

#[cfg(test)]
mod tests {
    use super::*;
    use crate::arguments::hex;

    fn answer(request: String) -> String {
        String::from_utf8(second::answer(request.as_bytes())).unwrap()
    }

    /// What is drawn is of every sort often enough: lines with values, with values that have a sign, and data that do not split.
    #[test]
    fn frames_are_split_and_not() {
        let mut random = Random::new(7);
        let (mut split, mut signed, mut plain, mut read) = (0, 0, 0, 0);
        for _ in 0..2_000 {
            let rows = rows(&mut random);
            let frame = frame(&rows, &mut random);
            let with = format!("4 {} 0 {} 9000", hex(&frame), hex(&text(&rows)));
            let with = answer(format!("lines::write_with {with}"));
            let without = answer(format!("lines::write 4 {} 0 9000", hex(&frame)));
            let contains = |what: &str| with.contains(&hex(what.as_bytes()));
            let has_values = contains("\"values\":[{");
            split += usize::from(has_values);
            signed += usize::from(has_values && contains("\"raw\":-"));
            plain += usize::from(matches!(frame[1], 0x62 | 0x68) && with == without);
            read += usize::from(matches!(frame[1], 0x6A | 0x6B) && with != without);
        }
        let counts = [split, signed, plain, read];
        assert!(counts.into_iter().all(|count| count > 100), "{counts:?}");
    }

    /// The limits of a sheet are drawn, on both sides.
    #[test]
    fn sheets_at_their_limits() {
        let mut random = Random::new(7);
        let mut sizes = std::collections::BTreeSet::new();
        for _ in 0..500 {
            let (sheet, _) = long(&mut random);
            let lines = sheet.iter().filter(|b| **b == b'\n').count();
            let answer = answer(format!("sheet::open {}", hex(&sheet)));
            sizes.insert((lines, sheet.len(), answer.starts_with("ok")));
        }
        for size in [(500, 6_000, true), (500, 6_001, false), (501, 6_012, false)] {
            assert!(sizes.contains(&size), "{size:?}");
        }
        assert!(sizes
            .iter()
            .any(|(lines, bytes, good)| *lines == 501 && *bytes < 6_000 && !good));
    }
}
