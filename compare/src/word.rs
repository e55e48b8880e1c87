//! The one 64-bit word that every call of the library answers with.

use std::fmt;

use crate::answer::{Answer, Made, Permitted, Refusal, Reply};

/// Number in bits 0 to 7, `a` in bits 8 to 31, `b` in bits 32 to 47, `c` in bits 48 to 63. A field
/// that an answer has no use for is 0.
#[derive(Clone, Copy, Debug, PartialEq, Eq)]
pub struct Word {
    pub number: u8,
    pub a: u32,
    pub b: u16,
    pub c: u16,
}

impl Word {
    /// What a reader answers to octets that break its rule.
    pub const FAULT: Word = Word::number(0);

    pub const fn number(number: u8) -> Word {
        Word::with(number, [0, 0, 0])
    }

    /// Fields too large for their bits are cut to them.
    pub const fn with(number: u8, [a, b, c]: [usize; 3]) -> Word {
        Word {
            number,
            a: a as u32 & 0x00FF_FFFF,
            b: b as u16,
            c: c as u16,
        }
    }

    pub const fn unpacked(word: u64) -> Word {
        Word {
            number: word as u8,
            a: (word >> 8) as u32 & 0x00FF_FFFF,
            b: (word >> 32) as u16,
            c: (word >> 48) as u16,
        }
    }

    /// What the word says as an answer of the judge; the word itself where it says none.
    pub fn judged(self) -> Result<Answer, Word> {
        match self.fields() {
            (0, 0, 0, 0) => Ok(Answer::Permitted),
            (20, name, record, up) => Ok(Answer::UnknownCritical { name, record, up }),
            (21, name, record, up) => Ok(Answer::NotGranted { name, record, up }),
            (22, name, record, up) => Ok(Answer::TooManyAliases { name, record, up }),
            _ => self.refused().map(Answer::Refused).ok_or(self),
        }
    }

    /// What the word says as an answer of a call on a session; the word itself where it says none.
    pub fn replied(self) -> Result<Reply, Word> {
        match self.fields() {
            (23, 0, 0, 0) => Ok(Reply::LookupFailed),
            (40, length, offset, 0) => Ok(Reply::Asks { length, offset }),
            (41, 0, 0, 0) => Ok(Reply::NoVerdict),
            _ => self.judged().map(Reply::Judged),
        }
    }

    /// What the word says as an answer of who may issue; the word itself where it says none.
    pub fn permitted(self) -> Result<Permitted, Word> {
        match self.fields() {
            (30, 0, 0, 0) => Ok(Permitted::Anyone),
            (31, octets, count, 0) => Ok(Permitted::List { count, octets }),
            _ => self.refused().map(Permitted::Refused).ok_or(self),
        }
    }

    /// What the word says as an answer of writing or reading a line; the word itself where it says
    /// none.
    pub fn made(self) -> Result<Made, Word> {
        match self.fields() {
            (0, octets, 0, 0) => Ok(Made::Octets(octets)),
            _ => self.refused().map(Made::Refused).ok_or(self),
        }
    }

    fn refused(self) -> Option<Refusal> {
        match self.fields() {
            (1, 0, 0, 0) => Some(Refusal::RequestTooLong),
            (2, name, 0, 0) => Some(Refusal::BadRequestedName { name }),
            (3, read, 0, 0) => Some(Refusal::TooManyNames { read }),
            (4, 0, 0, 0) => Some(Refusal::BadIssuer),
            (5, 0, 0, 0) => Some(Refusal::BookTooLong),
            (6, record, 0, 0) => Some(Refusal::BadRecord { record }),
            (7, read, 0, 0) => Some(Refusal::TooManyRecords { read }),
            (8, needed, 0, 0) => Some(Refusal::BufferTooShort { needed }),
            (9, 0, 0, 0) => Some(Refusal::BadLine),
            (10, 0, 0, 0) => Some(Refusal::LineOrDataTooLong),
            (11, 0, 0, 0) => Some(Refusal::BadData),
            (12, record, 0, 0) => Some(Refusal::AliasConflict { record }),
            (14, 0, 0, 0) => Some(Refusal::SessionEnded),
            (15, 0, 0, 0) => Some(Refusal::BadApplicant),
            _ => None,
        }
    }

    fn fields(self) -> (u8, usize, usize, usize) {
        (
            self.number,
            self.a as usize,
            usize::from(self.b),
            usize::from(self.c),
        )
    }
}

impl fmt::Display for Word {
    fn fmt(&self, f: &mut fmt::Formatter<'_>) -> fmt::Result {
        let Word { number, a, b, c } = self;
        write!(f, "number {number}, a {a}, b {b}, c {c}")
    }
}

#[cfg(test)]
mod tests {
    use super::*;

    #[test]
    fn every_bit_has_its_field() {
        assert_eq!(
            Word::unpacked(0x0123_4567_89AB_CDEF),
            Word::with(0xEF, [0x89_ABCD, 0x4567, 0x0123])
        );
        assert_eq!(Word::unpacked(u64::MAX), Word::with(255, [usize::MAX; 3]));
    }

    #[test]
    fn places_are_cut_to_their_bits() {
        assert_eq!(
            Word::with(1, [65_537, 65_537, 65_536]),
            Word::with(1, [65_537, 1, 0])
        );
    }

    #[test]
    fn answers_are_told() {
        let refusal = Refusal::BadRecord { record: 4 };
        assert_eq!(
            Word::with(6, [4, 0, 0]).judged(),
            Ok(Answer::Refused(refusal))
        );
        assert_eq!(
            Word::number(15).judged(),
            Ok(Answer::Refused(Refusal::BadApplicant))
        );
        let (name, record, up) = (1, 3, 2);
        let fields = [name, record, up];
        assert_eq!(
            Word::with(20, fields).judged(),
            Ok(Answer::UnknownCritical { name, record, up })
        );
        assert_eq!(
            Word::with(21, fields).judged(),
            Ok(Answer::NotGranted { name, record, up })
        );
        assert_eq!(
            Word::with(22, fields).judged(),
            Ok(Answer::TooManyAliases { name, record, up })
        );
        // As the library packs it: c is the highest 16 bits.
        assert_eq!(
            Word::unpacked(0x007E_03FF_0000_F915).judged(),
            Ok(Answer::NotGranted {
                name: 249,
                record: 1_023,
                up: 126
            })
        );
        let refusal = Refusal::AliasConflict { record: 4 };
        assert_eq!(
            Word::with(12, [4, 0, 0]).permitted(),
            Ok(Permitted::Refused(refusal))
        );
        assert_eq!(
            Word::with(31, [32, 2, 0]).permitted(),
            Ok(Permitted::List {
                count: 2,
                octets: 32
            })
        );
        assert_eq!(
            Word::with(40, [17, 2, 0]).replied(),
            Ok(Reply::Asks {
                length: 17,
                offset: 2
            })
        );
        assert_eq!(
            Word::with(21, [0, 3, 1]).replied(),
            Ok(Reply::Judged(Answer::NotGranted {
                name: 0,
                record: 3,
                up: 1
            }))
        );
        assert_eq!(Word::number(23).replied(), Ok(Reply::LookupFailed));
        assert_eq!(Word::number(41).replied(), Ok(Reply::NoVerdict));
        assert_eq!(
            Word::number(14).replied(),
            Ok(Reply::refused(Refusal::SessionEnded))
        );
        assert_eq!(Word::with(0, [23, 0, 0]).made(), Ok(Made::Octets(23)));
        assert_eq!(
            Word::with(8, [23, 0, 0]).made(),
            Ok(Made::Refused(Refusal::BufferTooShort { needed: 23 }))
        );
    }

    #[test]
    fn what_is_no_answer_stays_a_word() {
        for word in [
            Word::number(99),
            Word::number(30),
            Word::with(0, [1, 0, 0]),
            Word::with(4, [1, 0, 0]),
            Word::with(15, [1, 0, 0]),
            Word::with(2, [0, 1, 0]),
            Word::with(0, [0, 0, 1]),
            Word::with(2, [0, 0, 1]),
            Word::with(12, [1, 1, 0]),
            Word::with(12, [1, 0, 1]),
        ] {
            assert_eq!(word.judged(), Err(word));
        }
        for word in [
            Word::number(0),
            Word::number(20),
            Word::with(30, [1, 0, 0]),
            Word::with(31, [32, 2, 1]),
        ] {
            assert_eq!(word.permitted(), Err(word));
        }
        for word in [
            Word::number(42),
            Word::with(14, [1, 0, 0]),
            Word::with(23, [0, 1, 0]),
            Word::with(23, [0, 0, 1]),
            Word::with(40, [17, 2, 1]),
            Word::with(41, [0, 1, 0]),
        ] {
            assert_eq!(word.replied(), Err(word));
        }
        for word in [Word::number(99), Word::with(9, [1, 0, 0])] {
            assert_eq!(word.made(), Err(word));
        }
    }
}
