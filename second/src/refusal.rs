//! The refusal numbers of documents 01 and 02.

#[derive(Clone, Copy, Debug, PartialEq, Eq)]
pub enum Refusal {
    /// No frame from that place on.
    NoFrame,
    /// Kind not 1 to 5.
    Kind,
    /// Place beyond the buffer's length; entry number not below the count.
    Place,
    /// Lent room too short for the answer.
    Room,
    /// A field, frame or book outside its limits; a raw number out of range or not held.
    Limits,
    /// A message with the content of one above it in the table.
    Above,
    /// Width, decimals or number text not as they must be.
    Form,
    /// Not a valid book.
    Book,
    /// A register that is not in the sheet, or data that ends inside a pair (02, K2).
    NoRegister,
    /// A sheet that is not as described (02, K2).
    BadSheet,
    /// A text that is not in the grammar of JSON, or over a limit (02, K4).
    NotInGrammar,
    /// Members that are missing, extra, of another sort or spelling, or that disagree (02, K4).
    BadMembers,
}

impl Refusal {
    pub fn number(self) -> u8 {
        match self {
            Refusal::NoFrame => 1,
            Refusal::Kind => 2,
            Refusal::Place => 3,
            Refusal::Room => 4,
            Refusal::Limits => 5,
            Refusal::Above => 6,
            Refusal::Form => 7,
            Refusal::Book => 8,
            Refusal::NoRegister => 9,
            Refusal::BadSheet => 10,
            Refusal::NotInGrammar => 11,
            Refusal::BadMembers => 12,
        }
    }

    /// The cause of that name, as requests write it.
    pub fn named(name: &[u8]) -> Option<Refusal> {
        match name {
            b"NoFrame" => Some(Refusal::NoFrame),
            b"Kind" => Some(Refusal::Kind),
            b"Place" => Some(Refusal::Place),
            b"Room" => Some(Refusal::Room),
            b"Limits" => Some(Refusal::Limits),
            b"Above" => Some(Refusal::Above),
            b"Form" => Some(Refusal::Form),
            b"Book" => Some(Refusal::Book),
            b"NoRegister" => Some(Refusal::NoRegister),
            b"BadSheet" => Some(Refusal::BadSheet),
            b"NotInGrammar" => Some(Refusal::NotInGrammar),
            b"BadMembers" => Some(Refusal::BadMembers),
            _ => None,
        }
    }
}
