//! Texts of JSON (02, K4): which bytes are one, by RFC 8259's grammar and RFC 3629's encoding; where other bytes go wrong; the members of a text
//! that is an object, and the characters of one that is a string.
//!
//! The bytes are decoded to characters first, and the grammar is read over characters. A name is kept as its code units, with its escapes
//! read: RFC 8259, 8.3, compares strings "code unit by code unit".

use crate::refusal::Refusal;

/// "texts up to 8,192 bytes"
const MOST_BYTES: usize = 8_192;
/// "values nested at most 16 deep (the outermost is 1)"
const DEEPEST: usize = 16;
/// The least number of a character with so many octets, counted from 0: what is below it has fewer (RFC 3629, 3).
const LEAST: [u32; 4] = [0, 0x80, 0x800, 0x1_0000];
/// The last character there is.
const LAST: u32 = 0x10_FFFF;
/// Stands for an octet that begins no character. No rule takes it.
const NO_CHARACTER: u32 = LAST + 1;
/// ws = *( Space / Horizontal tab / Line feed or New line / Carriage return )
const BLANKS: [u32; 4] = [0x20, 0x09, 0x0A, 0x0D];

/// Whether the bytes are a text of the grammar within the limits, with no name twice in an object.
pub fn accepts(text: &[u8]) -> bool {
    read(text, Names::Once, |reader| reader.text()).is_some()
}

/// Where the bytes go wrong, and what must stand there; nothing, if they are such a text.
pub fn fault(text: &[u8]) -> Option<Fault> {
    if MOST_BYTES < text.len() {
        let lack = Lack::Length;
        return Some(Fault { place: 0, lack });
    }
    let mut reader = Reader {
        left: &characters_and_others(text),
        names: Names::Once,
    };
    reader.good_text().err().map(|stop| Fault {
        place: text.len() - stop.left,
        lack: stop.lack,
    })
}

/// A place, counted in bytes from 0, and what must stand there and does not.
#[derive(Clone, Copy, Debug, PartialEq, Eq)]
pub struct Fault {
    pub place: usize,
    pub lack: Lack,
}

/// What must stand at a place and does not. The words are those of docs/CALLS.md, "Faults of a text".
#[derive(Clone, Copy, Debug, PartialEq, Eq)]
pub enum Lack {
    /// the text is over the limit, whatever stands in it
    Length,
    /// "a value, at the outermost level, as an element, or behind a colon"
    Value,
    /// "the same, and something stands there; but a value there would be nested deeper than 16"
    Depth,
    /// "a string, behind `{`, or behind the comma of an object"
    Name,
    /// "another name: the member at the place is good, but a member before it in its object has that name, once escapes are read"
    OtherName,
    /// "`:`, behind a name"
    Colon,
    /// "a comma or the closing bracket, behind an element or a member"
    Comma,
    /// "nothing: a value has ended, and only blanks may follow it"
    End,
}

impl Lack {
    pub fn name(self) -> &'static str {
        match self {
            Lack::Length => "long",
            Lack::Value => "value",
            Lack::Depth => "depth",
            Lack::Name => "name",
            Lack::OtherName => "other-name",
            Lack::Colon => "colon",
            Lack::Comma => "comma",
            Lack::End => "end",
        }
    }
}

/// How many members the object has that the text is. Names may stand twice in it.
pub fn count(text: &[u8]) -> Result<usize, Refusal> {
    let members = read(text, Names::Any, |reader| reader.whole_object());
    members.map(|all| all.len()).ok_or(Refusal::BadMembers)
}

/// Where the value of the first member of that name begins and ends, in the object that the text is. Each byte of the name is a character.
pub fn value_of(text: &[u8], name: &[u8]) -> Result<(usize, usize), Refusal> {
    let name: Vec<u16> = name.iter().copied().map(u16::from).collect();
    let members =
        read(text, Names::Any, |reader| reader.whole_object()).ok_or(Refusal::BadMembers)?;
    let named = members.iter().find(|member| member.name == name);
    named
        .map(|member| (text.len() - member.before, text.len() - member.behind))
        .ok_or(Refusal::BadMembers)
}

/// The characters of the string that the text is, a byte each. One above U+00FF has none.
pub fn bytes_of_string(text: &[u8]) -> Result<Vec<u8>, Refusal> {
    let units =
        read(text, Names::Any, |reader| reader.whole_string()).ok_or(Refusal::BadMembers)?;
    units
        .into_iter()
        .map(|unit| u8::try_from(unit).map_err(|_| Refusal::BadMembers))
        .collect()
}

/// What a rule reads of a text that is not over the limit.
fn read<T>(text: &[u8], names: Names, rule: impl FnOnce(&mut Reader) -> Option<T>) -> Option<T> {
    if MOST_BYTES < text.len() {
        return None;
    }
    let left = &characters(text)?;
    rule(&mut Reader { left, names })
}

/// The characters of octets, as their numbers.
fn characters(octets: &[u8]) -> Option<Vec<u32>> {
    let all = characters_and_others(octets);
    (!all.contains(&NO_CHARACTER)).then_some(all)
}

/// The same, with NO_CHARACTER for each octet that begins none.
fn characters_and_others(mut octets: &[u8]) -> Vec<u32> {
    let mut characters = Vec::new();
    while let [_, others @ ..] = octets {
        let (character, behind) = first_character(octets).unwrap_or((NO_CHARACTER, others));
        characters.push(character);
        octets = behind;
    }
    characters
}

/// The first character, and the octets behind it.
fn first_character(octets: &[u8]) -> Option<(u32, &[u8])> {
    // the first octet says how many follow it, and has the highest bits
    let (more, high) = match octets[0] {
        b @ 0x00..=0x7F => (0, b),
        b @ 0xC0..=0xDF => (1, b & 0x1F),
        b @ 0xE0..=0xEF => (2, b & 0x0F),
        b @ 0xF0..=0xF7 => (3, b & 0x07),
        _ => return None,
    };
    let mut character = u32::from(high);
    for octet in octets.get(1..=more)? {
        if octet & 0xC0 != 0x80 {
            return None;
        }
        character = character << 6 | u32::from(octet & 0x3F);
    }
    if character < LEAST[more] || LAST < character || is_surrogate(character) {
        return None;
    }
    Some((character, &octets[more + 1..]))
}

/// "The definition of UTF-8 prohibits encoding character numbers between U+D800 and U+DFFF"
fn is_surrogate(character: u32) -> bool {
    (0xD800..=0xDFFF).contains(&character)
}

/// The code units of a character: RFC 8259's `\uD834\uDD1E` for one beyond U+FFFF.
fn units(character: u32) -> Vec<u16> {
    match character.checked_sub(0x1_0000) {
        None => vec![character as u16],
        Some(bits) => vec![0xD800 | (bits >> 10) as u16, 0xDC00 | (bits & 0x3FF) as u16],
    }
}

/// How many octets a character has.
fn octets(character: &u32) -> usize {
    match character {
        0..=0x7F | &NO_CHARACTER => 1,
        0x80..=0x7FF => 2,
        0x800..=0xFFFF => 3,
        _ => 4,
    }
}

/// Which names an object may have.
#[derive(PartialEq)]
enum Names {
    Any,
    Once,
}

/// A member: its name's code units, and how many octets are left before its value and behind it.
struct Member {
    name: Vec<u16>,
    before: usize,
    behind: usize,
}

/// Where the reader of faults stops: how many octets are left there, and what must stand there.
struct Stop {
    left: usize,
    lack: Lack,
}

/// What is left of a text. Each rule takes what it derives from the front, or there is none.
struct Reader<'a> {
    left: &'a [u32],
    names: Names,
}

impl Reader<'_> {
    /// The first character, if it is one of these.
    fn one_of(&mut self, is: impl Fn(u32) -> bool) -> Option<u32> {
        let (&first, behind) = self.left.split_first()?;
        if !is(first) {
            return None;
        }
        self.left = behind;
        Some(first)
    }

    fn mark(&mut self, mark: char) -> Option<u32> {
        self.one_of(|c| c == u32::from(mark))
    }

    fn blanks(&mut self) {
        while self.one_of(|c| BLANKS.contains(&c)).is_some() {}
    }

    /// A structural character: ws, the character, ws.
    fn between_blanks(&mut self, mark: char) -> Option<()> {
        self.blanks();
        self.mark(mark)?;
        self.blanks();
        Some(())
    }

    /// How many octets are left.
    fn octets(&self) -> usize {
        self.left.iter().map(octets).sum()
    }

    fn end(&self) -> Option<()> {
        self.left.is_empty().then_some(())
    }

    /// JSON-text = ws value ws
    fn text(&mut self) -> Option<()> {
        self.blanks();
        self.value(1)?;
        self.blanks();
        self.end()
    }

    /// A text whose value is an object; its members.
    fn whole_object(&mut self) -> Option<Vec<Member>> {
        let members = self.object(1)?;
        self.blanks();
        self.end()?;
        Some(members)
    }

    /// A string with nothing around it; its code units.
    fn whole_string(&mut self) -> Option<Vec<u16>> {
        let units = self.string()?;
        self.end()?;
        Some(units)
    }

    /// value = false / null / true / object / array / number / string
    fn value(&mut self, depth: usize) -> Option<()> {
        if DEEPEST < depth {
            return None;
        }
        match char::from_u32(*self.left.first()?)? {
            'f' => self.literal("false"),
            'n' => self.literal("null"),
            't' => self.literal("true"),
            '{' => self.object(depth).map(drop),
            '[' => self.array(depth),
            '"' => self.string().map(drop),
            _ => self.number(),
        }
    }

    fn literal(&mut self, name: &str) -> Option<()> {
        name.chars().try_for_each(|c| self.mark(c).map(drop))
    }

    /// object = begin-object [ member *( value-separator member ) ] end-object; its members
    fn object(&mut self, depth: usize) -> Option<Vec<Member>> {
        let mut members: Vec<Member> = Vec::new();
        self.between_blanks('{')?;
        if self.mark('}').is_some() {
            return Some(members);
        }
        loop {
            // member = string name-separator value
            let name = self.string()?;
            if self.names == Names::Once && members.iter().any(|member| member.name == name) {
                return None;
            }
            self.between_blanks(':')?;
            let before = self.octets();
            self.value(depth + 1)?;
            let behind = self.octets();
            members.push(Member {
                name,
                before,
                behind,
            });
            self.blanks();
            if self.mark('}').is_some() {
                return Some(members);
            }
            self.between_blanks(',')?;
        }
    }

    /// array = begin-array [ value *( value-separator value ) ] end-array
    fn array(&mut self, depth: usize) -> Option<()> {
        self.between_blanks('[')?;
        if self.mark(']').is_some() {
            return Some(());
        }
        loop {
            self.value(depth + 1)?;
            self.blanks();
            if self.mark(']').is_some() {
                return Some(());
            }
            self.between_blanks(',')?;
        }
    }

    /// number = [ minus ] int [ frac ] [ exp ]
    fn number(&mut self) -> Option<()> {
        self.mark('-');
        // int = zero / ( digit1-9 *DIGIT )
        if self.mark('0').is_none() {
            self.digits()?;
        }
        // frac = decimal-point 1*DIGIT
        if self.mark('.').is_some() {
            self.digits()?;
        }
        // exp = e [ minus / plus ] 1*DIGIT
        if self.one_of(|c| is(c, "eE")).is_some() {
            self.one_of(|c| is(c, "+-"));
            self.digits()?;
        }
        Some(())
    }

    /// 1*DIGIT
    fn digits(&mut self) -> Option<()> {
        self.one_of(|c| is(c, "0123456789"))?;
        while self.one_of(|c| is(c, "0123456789")).is_some() {}
        Some(())
    }

    /// string = quotation-mark *char quotation-mark; its code units
    fn string(&mut self) -> Option<Vec<u16>> {
        let mut read = Vec::new();
        self.mark('"')?;
        loop {
            // unescaped = %x20-21 / %x23-5B / %x5D-10FFFF
            match self.one_of(|c| (0x20..=LAST).contains(&c))? {
                0x22 => return Some(read),
                0x5C => read.push(self.escaped()?),
                character => read.extend(units(character)),
            }
        }
    }

    /// What stands behind `\`: always one code unit.
    fn escaped(&mut self) -> Option<u16> {
        let unit = match char::from_u32(self.one_of(|c| is(c, "\"\\/bfnrtu"))?)? {
            'b' => 0x08,
            'f' => 0x0C,
            'n' => 0x0A,
            'r' => 0x0D,
            't' => 0x09,
            'u' => return self.four_digits(),
            itself => itself as u16,
        };
        Some(unit)
    }

    /// 4HEXDIG; as everywhere in ABNF, `A` is also `a`
    fn four_digits(&mut self) -> Option<u16> {
        let mut unit = 0;
        for _ in 0..4 {
            let digit = self.one_of(|c| is(c, "0123456789abcdefABCDEF"))?;
            unit = unit << 4 | char::from_u32(digit)?.to_digit(16)? as u16;
        }
        Some(unit)
    }
}

/// A text read up to its fault: "reads a text from the front, as RFC 8259's grammar has it, and says where it has to stop. Blanks are passed
/// over first wherever they may stand."
impl Reader<'_> {
    /// What the rule derives behind blanks, or the fault where it would have to begin.
    fn must<T>(
        &mut self,
        lack: Lack,
        rule: impl FnOnce(&mut Self) -> Option<T>,
    ) -> Result<T, Stop> {
        self.blanks();
        let here = self.left;
        rule(self).ok_or_else(|| Stop {
            left: here.iter().map(octets).sum(),
            lack,
        })
    }

    fn good_text(&mut self) -> Result<(), Stop> {
        self.good_value(1)?;
        self.must(Lack::End, |reader| reader.end())
    }

    /// "A value that is not good and begins with `[` or `{` is gone into"; "Any other value that is not good is a fault at its own first byte".
    fn good_value(&mut self, depth: usize) -> Result<(), Stop> {
        self.blanks();
        let first = self.left.first().copied();
        if DEEPEST < depth && first.is_some() {
            return self.must(Lack::Depth, |_| None);
        }
        match first.and_then(char::from_u32) {
            Some('[') => self.good_array(depth),
            Some('{') => self.good_object(depth),
            _ => self.must(Lack::Value, |reader| reader.value(depth)),
        }
    }

    /// "the fault is that of its first element or member that is not good, or of what stands behind a good one"
    fn good_array(&mut self, depth: usize) -> Result<(), Stop> {
        if self.closes_at_once('[', ']') {
            return Ok(());
        }
        loop {
            self.good_value(depth + 1)?;
            if self.has_ended(']')? {
                return Ok(());
            }
        }
    }

    /// "Names are compared behind the member that has the name"
    fn good_object(&mut self, depth: usize) -> Result<(), Stop> {
        let mut names: Vec<Vec<u16>> = Vec::new();
        if self.closes_at_once('{', '}') {
            return Ok(());
        }
        loop {
            self.blanks();
            let left = self.octets();
            let name = self.must(Lack::Name, |reader| reader.string())?;
            self.must(Lack::Colon, |reader| reader.mark(':'))?;
            self.good_value(depth + 1)?;
            if names.contains(&name) {
                let lack = Lack::OtherName;
                return Err(Stop { left, lack });
            }
            names.push(name);
            if self.has_ended('}')? {
                return Ok(());
            }
        }
    }

    /// Takes the opening bracket; and the closing one if only blanks stand between them. Whether it did.
    fn closes_at_once(&mut self, open: char, close: char) -> bool {
        self.mark(open);
        self.blanks();
        self.mark(close).is_some()
    }

    /// Takes the comma or the closing bracket behind an element or a member; whether it is the bracket.
    fn has_ended(&mut self, close: char) -> Result<bool, Stop> {
        let either = |c| is(c, ",") || c == u32::from(close);
        let mark = self.must(Lack::Comma, |reader| reader.one_of(either))?;
        Ok(mark == u32::from(close))
    }
}

/// Whether a character is one of these.
fn is(character: u32, these: &str) -> bool {
    these.chars().any(|c| u32::from(c) == character)
}
