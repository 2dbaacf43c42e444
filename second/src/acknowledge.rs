//! The acknowledgement of a Homiq frame.

use crate::frames::{self, build};
use crate::messages;
use crate::refusal::Refusal;

/// SRC and DST exchanged, type `a`, and the CRC worked out; 5 if the bytes are not one Homiq
/// frame of type `s`.
pub fn acknowledge(frame: &[u8]) -> Result<Vec<u8>, Refusal> {
    let head = frames::one_frame(frames::HOMIQ, frame)?;
    let content = &frame[head.begins..head.ends];
    let field = |number| messages::homiq_field(content, number).unwrap_or(b"");
    if field(5) != b"s" {
        return Err(Refusal::Limits);
    }
    let fields: [&[u8]; 6] = [field(0), field(1), field(3), field(2), field(4), b"a"];
    build::homiq(&fields.join(&b';'))
}
