//! What the calls answer, with the numbers and places of the requirements.

use std::fmt;

/// Why an input is turned away. A refusal changes no lent octet.
#[derive(Clone, Copy, Debug, PartialEq, Eq)]
pub enum Refusal {
    RequestTooLong,
    /// The request is empty (`name` is 0) or this name breaks a rule.
    BadRequestedName {
        name: usize,
    },
    /// Octets remain behind the last name allowed; that many names were read.
    TooManyNames {
        read: usize,
    },
    BadIssuer,
    BookTooLong,
    BadRecord {
        record: usize,
    },
    /// Octets remain behind the last record allowed; that many records were read.
    TooManyRecords {
        read: usize,
    },
    /// An owner has an alias and a CAA record, or two aliases; `record` is the later of the two.
    AliasConflict {
        record: usize,
    },
    BufferTooShort {
        needed: usize,
    },
    BadLine,
    /// The line or the data, whichever is given or made.
    LineOrDataTooLong,
    /// CAA data that can't be written as a line: laid out wrongly, or its tag holds something other
    /// than letters and digits.
    BadData,
    /// An answer came to a session that asks for nothing.
    SessionEnded,
    /// The account text or the method text breaks its rule.
    BadApplicant,
}

impl Refusal {
    pub fn number(self) -> u8 {
        match self {
            Refusal::RequestTooLong => 1,
            Refusal::BadRequestedName { .. } => 2,
            Refusal::TooManyNames { .. } => 3,
            Refusal::BadIssuer => 4,
            Refusal::BookTooLong => 5,
            Refusal::BadRecord { .. } => 6,
            Refusal::TooManyRecords { .. } => 7,
            Refusal::BufferTooShort { .. } => 8,
            Refusal::BadLine => 9,
            Refusal::LineOrDataTooLong => 10,
            Refusal::BadData => 11,
            Refusal::AliasConflict { .. } => 12,
            Refusal::SessionEnded => 14,
            Refusal::BadApplicant => 15,
        }
    }

    pub fn place(self) -> usize {
        match self {
            Refusal::RequestTooLong
            | Refusal::BadIssuer
            | Refusal::BookTooLong
            | Refusal::BadLine
            | Refusal::LineOrDataTooLong
            | Refusal::BadData
            | Refusal::SessionEnded
            | Refusal::BadApplicant => 0,
            Refusal::BadRequestedName { name } => name,
            Refusal::TooManyNames { read } | Refusal::TooManyRecords { read } => read,
            Refusal::BadRecord { record } | Refusal::AliasConflict { record } => record,
            Refusal::BufferTooShort { needed } => needed,
        }
    }
}

impl fmt::Display for Refusal {
    fn fmt(&self, f: &mut fmt::Formatter<'_>) -> fmt::Result {
        write!(f, "refused {} at {}", self.number(), self.place())
    }
}

/// The answer of [`judge`](crate::judge()): a verdict, or a refusal.
///
/// Where a name X or `*.X` is not permitted, `up` is the number of labels taken off X to reach the name
/// that was looked at last, 0 where that is X: the owner of the set, or the name that its aliases start
/// from.
#[derive(Clone, Copy, Debug, PartialEq, Eq)]
pub enum Answer {
    /// Verdict 0.
    Permitted,
    /// Verdict 20: the lowest name not permitted, and the first unknown critical record of its set.
    UnknownCritical {
        name: usize,
        record: usize,
        up: usize,
    },
    /// Verdict 21: the lowest name not permitted, and the first record that governs it.
    NotGranted {
        name: usize,
        record: usize,
        up: usize,
    },
    /// Verdict 22: the lowest name not permitted, and the first alias of the look that met too many.
    TooManyAliases {
        name: usize,
        record: usize,
        up: usize,
    },
    Refused(Refusal),
}

impl Answer {
    /// The same verdict with other numbers for name, record and labels taken off. What tells none stays.
    pub fn with(self, numbers: impl FnOnce([usize; 3]) -> [usize; 3]) -> Answer {
        match self {
            Answer::UnknownCritical { name, record, up } => {
                let [name, record, up] = numbers([name, record, up]);
                Answer::UnknownCritical { name, record, up }
            }
            Answer::NotGranted { name, record, up } => {
                let [name, record, up] = numbers([name, record, up]);
                Answer::NotGranted { name, record, up }
            }
            Answer::TooManyAliases { name, record, up } => {
                let [name, record, up] = numbers([name, record, up]);
                Answer::TooManyAliases { name, record, up }
            }
            Answer::Permitted | Answer::Refused(_) => self,
        }
    }
}

impl fmt::Display for Answer {
    fn fmt(&self, f: &mut fmt::Formatter<'_>) -> fmt::Result {
        match self {
            Answer::Permitted => write!(f, "verdict 0"),
            Answer::UnknownCritical { name, record, up } => {
                write!(f, "verdict 20 name {name} record {record} up {up}")
            }
            Answer::NotGranted { name, record, up } => {
                write!(f, "verdict 21 name {name} record {record} up {up}")
            }
            Answer::TooManyAliases { name, record, up } => {
                write!(f, "verdict 22 name {name} record {record} up {up}")
            }
            Answer::Refused(refusal) => refusal.fmt(f),
        }
    }
}

/// What the calls on a [`Session`](crate::Session) answer.
#[derive(Clone, Copy, Debug, PartialEq, Eq)]
pub enum Reply {
    /// Look this name up next: `length` octets of the kept name, from `offset` on, its closing zero
    /// included.
    Asks { length: usize, offset: usize },
    /// A verdict, with name number 0 and the record's number in the last answer; or a refusal.
    Judged(Answer),
    /// Verdict 23.
    LookupFailed,
    /// The session has ended and has no verdict.
    NoVerdict,
}

impl Reply {
    pub const fn refused(refusal: Refusal) -> Reply {
        Reply::Judged(Answer::Refused(refusal))
    }

    pub fn is_refusal(self) -> bool {
        matches!(self, Reply::Judged(Answer::Refused(_)))
    }
}

impl fmt::Display for Reply {
    fn fmt(&self, f: &mut fmt::Formatter<'_>) -> fmt::Result {
        match self {
            Reply::Asks { length, offset } => write!(f, "asks {length} octets at {offset}"),
            Reply::Judged(answer) => answer.fmt(f),
            Reply::LookupFailed => write!(f, "verdict 23"),
            Reply::NoVerdict => write!(f, "no verdict"),
        }
    }
}

/// The answer of [`permitted_issuers`](crate::permitted_issuers). The list itself is in the buffer.
#[derive(Clone, Copy, Debug, PartialEq, Eq)]
pub enum Permitted {
    Anyone,
    /// `count` names in `octets` octets at the front of the buffer.
    List {
        count: usize,
        octets: usize,
    },
    Refused(Refusal),
}

impl fmt::Display for Permitted {
    fn fmt(&self, f: &mut fmt::Formatter<'_>) -> fmt::Result {
        match self {
            Permitted::Anyone => write!(f, "anyone"),
            Permitted::List { count, octets } => write!(f, "list of {count} in {octets} octets"),
            Permitted::Refused(refusal) => refusal.fmt(f),
        }
    }
}

/// The answer of [`write_line`](crate::write_line) and [`read_line`](crate::read_line). What was
/// made is in the buffer.
#[derive(Clone, Copy, Debug, PartialEq, Eq)]
pub enum Made {
    /// So many octets at the front of the buffer.
    Octets(usize),
    Refused(Refusal),
}

impl fmt::Display for Made {
    fn fmt(&self, f: &mut fmt::Formatter<'_>) -> fmt::Result {
        match self {
            Made::Octets(octets) => write!(f, "made {octets} octets"),
            Made::Refused(refusal) => refusal.fmt(f),
        }
    }
}
