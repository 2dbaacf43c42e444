//! The five checks, bit by bit from their definitions.

/// A check: its width in bits, its polynomial without the highest term, its start value and its
/// bit order. Where the low bit comes first, the polynomial's bits stand in that order too.
#[derive(Clone, Copy, Debug, PartialEq, Eq)]
pub struct Check {
    pub width: u32,
    pub polynomial: u16,
    pub start: u16,
    pub low_first: bool,
}

pub const NIKOBUS_CRC16: Check = Check {
    width: 16,
    polynomial: 0x1021,
    start: 0xFFFF,
    low_first: false,
};

pub const NIKOBUS_CRC8: Check = Check {
    width: 8,
    polynomial: 0x99,
    start: 0,
    low_first: false,
};

pub const NEST_CRC: Check = Check {
    width: 16,
    polynomial: 0x1021,
    start: 0,
    low_first: false,
};

/// XOR is the check whose polynomial is x^8 + 1: eight steps turn the state round once.
pub const NIBE_XOR: Check = Check {
    width: 8,
    polynomial: 1,
    start: 0,
    low_first: false,
};

pub const HOMIQ_CRC: Check = Check {
    width: 8,
    polynomial: 0x8C,
    start: 0,
    low_first: true,
};

impl Check {
    /// The check value of the bytes.
    pub fn of(&self, bytes: &[u8]) -> u16 {
        self.fed(self.start, bytes)
    }

    /// The state after the bytes.
    pub fn fed(&self, state: u16, bytes: &[u8]) -> u16 {
        bytes
            .iter()
            .fold(state, |state, byte| self.byte(state, *byte))
    }

    /// The state after one byte: its eight bits in the check's order.
    pub fn byte(&self, state: u16, byte: u8) -> u16 {
        (0..8).fold(state, |state, turn| {
            let place = if self.low_first { turn } else { 7 - turn };
            self.bit(state, (byte >> place) & 1)
        })
    }

    /// The state after one bit: the bit that leaves the state, changed by the one that comes,
    /// says whether the polynomial is added.
    fn bit(&self, state: u16, bit: u8) -> u16 {
        let (leaves, shifted) = if self.low_first {
            (state & 1, state >> 1)
        } else {
            let highest = self.width - 1;
            (state >> highest & 1, (state << 1) & self.mask())
        };
        if leaves ^ u16::from(bit) == 1 {
            shifted ^ self.polynomial
        } else {
            shifted
        }
    }

    fn mask(&self) -> u16 {
        u16::MAX >> (16 - self.width)
    }
}

#[cfg(test)]
mod tests {
    use super::*;

    #[test]
    fn the_documents_values() {
        assert_eq!(NIKOBUS_CRC16.of(&[0x11, 0, 0]), 0xB8CF);
        assert_eq!(NIKOBUS_CRC8.of(b"$10110000B8CF"), 0x9D);
        assert_eq!(NEST_CRC.of(&[0xFF, 0, 0, 0]), 0x4BA3);
        assert_eq!(NIBE_XOR.of(&[0x02, 0x64, 0x00]), 0x66);
        assert_eq!(HOMIQ_CRC.of(b"I.310H042s"), 134);
        assert_eq!(HOMIQ_CRC.of(b"I.3100H42a"), 64);
    }

    #[test]
    fn known_check_values_of_123456789() {
        let digits = b"123456789";
        assert_eq!(NIKOBUS_CRC16.of(digits), 0x29B1);
        assert_eq!(NEST_CRC.of(digits), 0x31C3);
        assert_eq!(HOMIQ_CRC.of(digits), 0xA1);
    }

    #[test]
    fn nibe_is_exclusive_or() {
        for state in 0..=255u16 {
            for byte in 0..=255u8 {
                assert_eq!(NIBE_XOR.byte(state, byte), state ^ u16::from(byte));
            }
        }
    }

    #[test]
    fn homiq_as_document_004_writes_it() {
        fn crc81wire(bytes: &[u8]) -> u8 {
            let mut crc = 0;
            for byte in bytes {
                crc ^= byte;
                for _ in 0..8 {
                    crc = if crc & 1 == 1 {
                        crc >> 1 ^ 0x8C
                    } else {
                        crc >> 1
                    };
                }
            }
            crc
        }
        for high in 0..=255 {
            for low in 0..=255 {
                let bytes = [high, low];
                assert_eq!(HOMIQ_CRC.of(&bytes), u16::from(crc81wire(&bytes)));
            }
        }
    }

    #[test]
    fn pieces_give_the_same_value() {
        let state = NEST_CRC.fed(NEST_CRC.start, &[1, 2]);
        let state = NEST_CRC.fed(NEST_CRC.byte(state, 3), &[4]);
        assert_eq!(state, NEST_CRC.of(&[1, 2, 3, 4]));
    }
}
