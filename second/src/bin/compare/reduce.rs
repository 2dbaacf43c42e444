//! A case on which the two sides differ, made smaller as long as they do: parts are dropped, large ones first.

use crate::sides::{Sides, What};

/// Smaller cases that are tried in all. An input of the listing costs a run of the program each.
const TRIES: usize = 4_000;
/// Smaller cases that are tried at a time.
const AT_A_TIME: usize = 16;

struct Reducer<'a> {
    sides: &'a Sides,
    tries: usize,
}

pub fn reduced(sides: &Sides, case: &[u8]) -> Vec<u8> {
    let mut reducer = Reducer {
        sides,
        tries: TRIES,
    };
    match sides.what {
        What::Listing => {
            // the kind stays
            let (head, capture) = case.split_at(case.len().min(2));
            let smaller = reducer.dropped(capture, 1, &|capture| [head, capture].concat());
            [head, &smaller].concat()
        }
        What::Calls | What::Host => {
            let by_words = reducer.words(case);
            reducer.dropped(&by_words, 1, &<[u8]>::to_vec)
        }
    }
}

impl Reducer<'_> {
    /// The first of the cases on which the sides differ.
    fn first_differing(&mut self, cases: &[Vec<u8>]) -> Option<usize> {
        if self.tries < cases.len() {
            return None;
        }
        self.tries -= cases.len();
        self.sides
            .ask(cases)
            .iter()
            .position(|answers| answers.differ())
    }

    /// Bytes with as many units (of `unit` bytes) dropped as can be, `whole` being the case that they are a part of.
    fn dropped(&mut self, bytes: &[u8], unit: usize, whole: &dyn Fn(&[u8]) -> Vec<u8>) -> Vec<u8> {
        let mut kept = bytes.to_vec();
        let mut size = unit * (kept.len() / unit).max(1).next_power_of_two();
        while size >= unit {
            let mut from = 0;
            while from < kept.len() {
                let places: Vec<usize> = (from..kept.len()).step_by(size).take(AT_A_TIME).collect();
                let smaller: Vec<Vec<u8>> =
                    places.iter().map(|at| without(&kept, *at, size)).collect();
                let cases: Vec<Vec<u8>> = smaller.iter().map(|bytes| whole(bytes)).collect();
                match self.first_differing(&cases) {
                    Some(nth) => {
                        kept = smaller[nth].clone();
                        from = places[nth];
                    }
                    None => from += size * AT_A_TIME,
                }
            }
            size /= 2;
        }
        kept
    }

    /// A request whose bytes and numbers are as small as they can be.
    fn words(&mut self, request: &[u8]) -> Vec<u8> {
        let mut words: Vec<Vec<u8>> = request.split(|b| *b == b' ').map(<[u8]>::to_vec).collect();
        for at in 1..words.len() {
            let given = words.clone();
            let with = |word: &[u8]| {
                let mut changed = given.clone();
                changed[at] = if word.is_empty() {
                    b"-".to_vec()
                } else {
                    word.to_vec()
                };
                changed.join(&b' ')
            };
            if is_hex(&words[at]) {
                words[at] = self.dropped(&given[at], 2, &with);
                if words[at].is_empty() {
                    words[at] = b"-".to_vec();
                }
            } else {
                words[at] = self.smaller_number(&given[at], &with);
            }
        }
        words.join(&b' ')
    }

    fn smaller_number(&mut self, word: &[u8], whole: &dyn Fn(&[u8]) -> Vec<u8>) -> Vec<u8> {
        let mut kept = word.to_vec();
        while let Some(number) = std::str::from_utf8(&kept)
            .ok()
            .and_then(|text| text.parse::<i128>().ok())
        {
            let smaller: Vec<Vec<u8>> = [0, number / 2, number - number.signum()]
                .iter()
                .filter(|n| n.abs() < number.abs())
                .map(|n| n.to_string().into_bytes())
                .collect();
            let cases: Vec<Vec<u8>> = smaller.iter().map(|word| whole(word)).collect();
            match self.first_differing(&cases) {
                Some(at) => kept = smaller[at].clone(),
                None => break,
            }
        }
        kept
    }
}

/// Whether a word is bytes rather than a number: a short one may be either, and then it is taken for a number.
fn is_hex(word: &[u8]) -> bool {
    let digits = word.iter().all(|c| c.is_ascii_digit());
    word.len() >= 2
        && word.len() % 2 == 0
        && word.iter().all(u8::is_ascii_hexdigit)
        && (!digits || word.len() > 20)
}

fn without(bytes: &[u8], at: usize, size: usize) -> Vec<u8> {
    let end = (at + size).min(bytes.len());
    [&bytes[..at], &bytes[end..]].concat()
}
