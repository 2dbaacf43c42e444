//! What is nearly a request.

use crate::random::Random;

/// The request with one or two faults. It may still be one; that is for the two sides to say.
pub fn spoilt(request: &[u8], random: &mut Random) -> Vec<u8> {
    let mut spoilt = fault(request, random);
    if random.one_in(6) {
        spoilt = fault(&spoilt, random);
    }
    spoilt.retain(|b| *b != b'\n');
    spoilt
}

fn fault(request: &[u8], random: &mut Random) -> Vec<u8> {
    let mut words: Vec<Vec<u8>> = request.split(|b| *b == b' ').map(<[u8]>::to_vec).collect();
    let at = random.below(words.len());
    let last = words.len() - 1;
    match random.below(14) {
        0 => drop(words.remove(at)),
        1 => words.insert(at + 1, another_word(random)),
        2 => words.insert(at, Vec::new()),
        3 => words.push(Vec::new()),
        4 => words[at].make_ascii_lowercase(),
        5 => {
            words[last] = [
                random.pick(&[b"0" as &[u8], b"+", b"-", b" "]),
                &words[last],
            ]
            .concat()
        }
        6 => words[at] = another_number(random),
        7 => words[at] = another_word(random),
        8 => drop(words[at].pop()),
        9 => words[at].push(random.pick(b"0A\r\t\0-:")),
        10 => words.swap(at, last),
        11 => return words.join(random.pick(&[b"\t" as &[u8], b"  ", b",", b"\r"])),
        12 => words[0] = changed_name(&words[0], random),
        _ => change_byte(&mut words[at], random),
    }
    words.join(&b' ')
}

fn another_number(random: &mut Random) -> Vec<u8> {
    let numbers = [
        "-0",
        "00",
        "-1",
        "256",
        "65536",
        "32768",
        "-32769",
        "4294967296",
        "-2147483649",
        "2147483648",
        "18446744073709551616",
        "9223372036854775808",
        "-9223372036854775809",
        "99999999999999999999999",
        "2097203",
        "1.0",
        "0x1",
        "+1",
        "1e1",
    ];
    random.pick(&numbers).into()
}

fn another_word(random: &mut Random) -> Vec<u8> {
    let words = [
        "-",
        "0",
        "true",
        "false",
        "TRUE",
        "command",
        "response",
        "read",
        "tail",
        "homiq",
        "AB",
        "ab",
        "ABC",
        "--",
        "",
        "room",
        "NoFrame",
        "single",
        "nibe",
        "nest-command",
        "nest",
        "Homiq",
    ];
    random.pick(&words).into()
}

fn changed_name(name: &[u8], random: &mut Random) -> Vec<u8> {
    match random.below(4) {
        0 => name.to_ascii_uppercase(),
        1 => name[..random.below(name.len().max(1))].to_vec(),
        2 => [name, b"s"].concat(),
        _ => name
            .split(|b| *b == b':')
            .next()
            .unwrap_or_default()
            .to_vec(),
    }
}

fn change_byte(word: &mut [u8], random: &mut Random) {
    if !word.is_empty() {
        let at = random.below(word.len());
        word[at] = random.byte();
    }
}

/// Requests to no function, and lines that are none.
pub fn unknown(random: &mut Random) -> Vec<u8> {
    let lines = [
        "",
        " ",
        "-",
        "0",
        "request?",
        "ok",
        "frames",
        "frames::",
        "::search",
        "frames::search",
        "frames:search 4 - 0",
        "frames::search::x 4 - 0",
        "Frames::search 4 - 0",
        "numbers::text 1 1 1",
        "book::close -",
        "lines::last 1 - 0 1 0",
        "checks::nest::Crc::new",
        "checks::nibe::Crc::of -",
        "layouts::nest::crc -",
        "\r",
        "\t",
        "\0",
        "host::search 4 - 0",
        "messages::Homiq::field - 0",
        "puts::front - 1 ",
        " puts::front - 1",
    ];
    random.pick(&lines).into()
}
