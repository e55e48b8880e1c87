//! The numbered refusals.

use std::error::Error;
use std::fmt;

/// An input breaks a rule. Nothing was decided, and neither the buffer nor the session was changed.
///
/// Displayed as the line of the desk program, such as `refused 6 at 4`. `{:#}` adds the reason.
#[derive(Clone, Copy, Debug, PartialEq, Eq, Hash)]
#[non_exhaustive]
pub enum Refusal {
    /// 1: the request is over 16,384 octets.
    RequestTooLong,
    /// 2: the request is empty, or one of its names breaks a rule. To open a session, a request is one name:
    /// octets after it are name 1.
    BadName {
        /// The number of that name, from 0; 0 if the request is empty.
        name: usize,
    },
    /// 3: octets are left after the most names allowed.
    TooManyNames {
        /// How many names that is: 250.
        read: usize,
    },
    /// 4: the issuer domain name breaks a rule.
    BadIssuer,
    /// 5: the book is over 49,152 octets.
    BookTooLong,
    /// 6: a record, or its CAA or CNAME data, is malformed, or the tag of its CAA data has other octets than
    /// letters and digits.
    BadRecord {
        /// The number of that record, from 0.
        record: usize,
    },
    /// 7: octets are left after the most records allowed.
    TooManyRecords {
        /// How many records that is: 1,024.
        read: usize,
    },
    /// 8: the buffer is shorter than the output.
    NoRoom {
        /// How many octets the output takes.
        needed: usize,
    },
    /// 9: the line breaks a rule.
    BadLine,
    /// 10: the line is over 16,384 octets, or the data (input or output) over 4,096.
    LineTooLong,
    /// 11: the CAA data is malformed, or its tag has other octets than letters and digits.
    BadData,
    /// 12: an alias (CNAME record) and a CAA record, or two aliases, have the same owner.
    AliasConflict {
        /// The number of the later of the two records, from 0; the lowest such number.
        record: usize,
    },
    /// 14: the session has ended, and takes no answer. It was not changed.
    SessionEnded,
    /// 15: the account or the method breaks a rule. Each has 1 to 255 octets from 33 to 126 without `;`,
    /// and the method has no `,`.
    BadAccountOrMethod,
    /// An answer that this crate doesn't know, from a newer library. Don't issue.
    Unknown {
        /// The number of the answer.
        number: u8,
        /// The number after `at`.
        place: usize,
    },
}

impl Refusal {
    pub(crate) fn of(number: u8, place: usize) -> Refusal {
        match number {
            1 => Refusal::RequestTooLong,
            2 => Refusal::BadName { name: place },
            3 => Refusal::TooManyNames { read: place },
            4 => Refusal::BadIssuer,
            5 => Refusal::BookTooLong,
            6 => Refusal::BadRecord { record: place },
            7 => Refusal::TooManyRecords { read: place },
            8 => Refusal::NoRoom { needed: place },
            9 => Refusal::BadLine,
            10 => Refusal::LineTooLong,
            11 => Refusal::BadData,
            12 => Refusal::AliasConflict { record: place },
            14 => Refusal::SessionEnded,
            15 => Refusal::BadAccountOrMethod,
            _ => Refusal::Unknown { number, place },
        }
    }

    /// The number of the refusal.
    pub fn number(self) -> u8 {
        match self {
            Refusal::RequestTooLong => 1,
            Refusal::BadName { .. } => 2,
            Refusal::TooManyNames { .. } => 3,
            Refusal::BadIssuer => 4,
            Refusal::BookTooLong => 5,
            Refusal::BadRecord { .. } => 6,
            Refusal::TooManyRecords { .. } => 7,
            Refusal::NoRoom { .. } => 8,
            Refusal::BadLine => 9,
            Refusal::LineTooLong => 10,
            Refusal::BadData => 11,
            Refusal::AliasConflict { .. } => 12,
            Refusal::SessionEnded => 14,
            Refusal::BadAccountOrMethod => 15,
            Refusal::Unknown { number, .. } => number,
        }
    }

    /// The number after `at`: of a name, of a record, of octets needed; 0 if the refusal has none.
    pub fn place(self) -> usize {
        match self {
            Refusal::BadName { name } => name,
            Refusal::BadRecord { record } | Refusal::AliasConflict { record } => record,
            Refusal::TooManyNames { read } | Refusal::TooManyRecords { read } => read,
            Refusal::NoRoom { needed } => needed,
            Refusal::Unknown { place, .. } => place,
            Refusal::RequestTooLong
            | Refusal::BadIssuer
            | Refusal::BookTooLong
            | Refusal::BadLine
            | Refusal::LineTooLong
            | Refusal::BadData
            | Refusal::SessionEnded
            | Refusal::BadAccountOrMethod => 0,
        }
    }

    /// What is wrong, in words.
    pub fn reason(self) -> &'static str {
        match self {
            Refusal::RequestTooLong => "the request is over 16,384 octets",
            Refusal::BadName { .. } => "the request is empty, or this name breaks a rule",
            Refusal::TooManyNames { .. } => "octets are left after the most names allowed",
            Refusal::BadIssuer => "the issuer domain name breaks a rule",
            Refusal::BookTooLong => "the book is over 49,152 octets",
            Refusal::BadRecord { .. } => {
                "this record or its CAA or CNAME data is malformed, \
                 or its tag isn't letters and digits only"
            }
            Refusal::TooManyRecords { .. } => "octets are left after the most records allowed",
            Refusal::NoRoom { .. } => "the buffer is shorter than the octets needed",
            Refusal::BadLine => "the line breaks a rule",
            Refusal::LineTooLong => "the line is over 16,384 octets, or its data over 4,096",
            Refusal::BadData => {
                "the CAA data is malformed, or its tag isn't letters and digits only"
            }
            Refusal::AliasConflict { .. } => {
                "this record and one before it have the same owner: an alias and a CAA record, \
                 or two aliases"
            }
            Refusal::SessionEnded => "the session has ended, and takes no answer",
            Refusal::BadAccountOrMethod => {
                "the account or the method is empty, too long, or has an octet that isn't allowed"
            }
            Refusal::Unknown { .. } => "an answer from a newer library; don't issue",
        }
    }
}

impl fmt::Display for Refusal {
    fn fmt(&self, f: &mut fmt::Formatter<'_>) -> fmt::Result {
        write!(f, "refused {} at {}", self.number(), self.place())?;
        if f.alternate() {
            write!(f, ": {}", self.reason())?;
        }
        Ok(())
    }
}

impl Error for Refusal {}

#[cfg(test)]
mod tests {
    use super::*;

    #[test]
    fn number_and_place_come_back() {
        for number in [2, 3, 6, 7, 8, 12, 0, 13, 16, 20, 255] {
            let refusal = Refusal::of(number, 5);
            assert_eq!((refusal.number(), refusal.place()), (number, 5));
        }
        assert_eq!(Refusal::of(12, 5), Refusal::AliasConflict { record: 5 });
        for number in [1, 4, 5, 9, 10, 11, 14, 15] {
            let refusal = Refusal::of(number, 0);
            assert_eq!((refusal.number(), refusal.place()), (number, 0));
        }
    }

    #[test]
    fn the_desk_s_line_and_the_reason() {
        let refusal = Refusal::BadRecord { record: 4 };
        assert_eq!(refusal.to_string(), "refused 6 at 4");
        assert_eq!(
            format!("{refusal:#}"),
            "refused 6 at 4: this record or its CAA or CNAME data is malformed, \
             or its tag isn't letters and digits only"
        );
        let refusal = Refusal::AliasConflict { record: 7 };
        assert_eq!(
            format!("{refusal:#}"),
            "refused 12 at 7: this record and one before it have the same owner: \
             an alias and a CAA record, or two aliases"
        );
        assert_eq!(
            format!("{:#}", Refusal::BadAccountOrMethod),
            "refused 15 at 0: the account or the method is empty, too long, \
             or has an octet that isn't allowed"
        );
    }
}
