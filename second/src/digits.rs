//! Hex digits, decimal digits and numbers of bytes, low byte first.

use crate::refusal::Refusal;

/// Hex digits, upper case only.
const HEX: &[u8; 16] = b"0123456789ABCDEF";

/// The character of the low four bits.
pub fn hex_digit(value: u8) -> u8 {
    HEX[usize::from(value & 0x0F)]
}

/// The value of a hex character.
pub fn hex_value(character: u8) -> Option<u8> {
    match character {
        b'0'..=b'9' => Some(character - b'0'),
        b'A'..=b'F' => Some(character - b'A' + 10),
        _ => None,
    }
}

/// The two characters of each byte.
pub fn hex(bytes: &[u8]) -> Vec<u8> {
    let pair = |byte: &u8| [hex_digit(byte >> 4), hex_digit(*byte)];
    bytes.iter().flat_map(pair).collect()
}

/// Whether all are hex characters.
pub fn all_hex(characters: &[u8]) -> bool {
    characters.iter().all(|c| hex_value(*c).is_some())
}

/// The bytes whose characters these are, two a byte.
pub fn bytes_of_hex(characters: &[u8]) -> Option<Vec<u8>> {
    if !characters.len().is_multiple_of(2) {
        return None;
    }
    let byte = |pair: &[u8]| Some(hex_value(pair[0])? << 4 | hex_value(pair[1])?);
    characters.chunks_exact(2).map(byte).collect()
}

/// The digits of a number, without leading zeros.
pub fn decimal(number: u64) -> Vec<u8> {
    number.to_string().into_bytes()
}

/// The number whose digits, without leading zeros, these are; none if it is over the limit.
pub fn number_of_decimal(characters: &[u8], limit: u64) -> Option<u64> {
    if characters.is_empty() || (characters[0] == b'0' && characters.len() > 1) {
        return None;
    }
    let mut number: u64 = 0;
    for character in characters {
        if !character.is_ascii_digit() {
            return None;
        }
        let digit = u64::from(character - b'0');
        number = number.checked_mul(10)?.checked_add(digit)?;
    }
    if number <= limit {
        Some(number)
    } else {
        None
    }
}

/// The number that 1, 2 or 4 bytes are, low byte first.
pub fn low_first(bytes: &[u8]) -> Result<u32, Refusal> {
    match bytes.len() {
        1 | 2 | 4 => Ok(sum_low_first(bytes)),
        _ => Err(Refusal::Form),
    }
}

/// The number of two bytes, low byte first.
pub fn word(low: u8, high: u8) -> u16 {
    u16::from_le_bytes([low, high])
}

/// At most four bytes.
fn sum_low_first(bytes: &[u8]) -> u32 {
    bytes
        .iter()
        .rev()
        .fold(0, |number, byte| number << 8 | u32::from(*byte))
}

#[cfg(test)]
mod tests {
    use super::*;

    #[test]
    fn hex_is_upper_case_only() {
        for value in 0..16 {
            assert_eq!(hex_value(hex_digit(value)), Some(value));
        }
        for character in b"abcdefgG/:@` " {
            assert_eq!(hex_value(*character), None);
        }
        assert_eq!(hex_digit(0xFA), b'A');
        assert_eq!(hex(&[0x0F, 0xA0]), b"0FA0");
        assert_eq!(bytes_of_hex(b"0FA0"), Some(vec![0x0F, 0xA0]));
        assert_eq!(bytes_of_hex(b"0FA"), None);
        assert_eq!(bytes_of_hex(b"0fA0"), None);
    }

    #[test]
    fn decimal_numbers() {
        assert_eq!(decimal(0), b"0");
        assert_eq!(number_of_decimal(b"0", 511), Some(0));
        assert_eq!(number_of_decimal(b"511", 511), Some(511));
        assert_eq!(number_of_decimal(b"512", 511), None);
        assert_eq!(number_of_decimal(b"01", 511), None);
        assert_eq!(number_of_decimal(b"", 511), None);
        assert_eq!(number_of_decimal(b"-1", 511), None);
        let most = b"18446744073709551615";
        assert_eq!(number_of_decimal(most, u64::MAX), Some(u64::MAX));
        let over = b"18446744073709551616";
        assert_eq!(number_of_decimal(over, u64::MAX), None);
    }

    #[test]
    fn low_byte_first() {
        assert_eq!(low_first(&[0x44]), Ok(0x44));
        assert_eq!(low_first(&[0x44, 0x9C]), Ok(40004));
        assert_eq!(low_first(&[1, 2, 3, 0xFF]), Ok(0xFF03_0201));
        for length in [0, 3, 5] {
            assert_eq!(low_first(&vec![0; length]), Err(Refusal::Form));
        }
        assert_eq!(word(0xA3, 0xB7), 47011);
    }
}
