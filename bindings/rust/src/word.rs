//! The 64-bit answer of every call.

use crate::Refusal;

/// The number in bits 0 to 7, field `a` in bits 8 to 31, `b` in bits 32 to 47, `c` in bits 48 to 63.
#[derive(Clone, Copy, Debug, PartialEq, Eq)]
pub struct Word {
    pub number: u8,
    pub a: usize,
    pub b: usize,
    pub c: usize,
}

impl Word {
    pub fn unpacked(word: u64) -> Word {
        Word {
            number: (word & 0xFF) as u8,
            a: (word >> 8 & 0xFF_FFFF) as usize,
            b: (word >> 32 & 0xFFFF) as usize,
            c: (word >> 48) as usize,
        }
    }

    /// What is left once the answers that a call gives are told.
    pub fn refusal(self) -> Refusal {
        Refusal::of(self.number, self.a)
    }
}

#[cfg(test)]
mod tests {
    use super::*;

    #[test]
    fn every_field_has_its_bits() {
        let word = Word::unpacked(0x0123_4567_89AB_CDEF);
        assert_eq!(
            word,
            Word {
                number: 0xEF,
                a: 0x89_ABCD,
                b: 0x4567,
                c: 0x0123
            }
        );
    }
}
