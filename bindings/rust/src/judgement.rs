//! May this issuer issue?

use std::fmt;

use crate::foreign;
use crate::word::Word;
use crate::Refusal;

/// The answer of [`judge`]: a verdict, or a refusal to decide. Issue only on [`Judgement::Permitted`].
///
/// Displayed as the line of the desk program, such as `verdict 21 name 1 record 3 up 0`. `{:#}` adds the
/// reason.
#[derive(Clone, Copy, Debug, PartialEq, Eq, Hash)]
#[must_use = "anything but `Permitted` means: don't issue"]
pub enum Judgement {
    /// Verdict 0: each name is unrestricted, or granted to this issuer for this account and method.
    Permitted,
    /// Verdict 20: a record with an unknown tag and the critical flag forbids issuance.
    UnknownCritical {
        /// The number of the first name that isn't permitted, from 0.
        name: usize,
        /// The number of the first unknown critical record in that name's relevant set, from 0 over the book.
        record: usize,
        /// How many labels were taken off the name to reach that set, 0 at the name itself. A star is not a
        /// label of the name. If aliases led to the set: to reach the name with the first of them.
        up: usize,
    },
    /// Verdict 21: a name is restricted, and not granted to this issuer for this account and method.
    NotGranted {
        /// The number of the first name that isn't permitted, from 0.
        name: usize,
        /// The number of the first record that governs it, from 0 over the book.
        record: usize,
        /// How many labels were taken off the name to reach its relevant set, counted as for verdict 20.
        up: usize,
    },
    /// Verdict 22: more than 8 aliases (CNAME records) follow one another, so nobody may issue for a name.
    TooManyAliases {
        /// The number of the first name that isn't permitted, from 0.
        name: usize,
        /// The number of the first of these aliases, from 0 over the book.
        record: usize,
        /// How many labels were taken off the name to reach the owner of that alias, counted as for verdict 20.
        up: usize,
    },
    /// Nothing was decided.
    Refused(Refusal),
}

impl Judgement {
    /// May this issuer issue?
    pub fn is_permitted(self) -> bool {
        self == Judgement::Permitted
    }

    /// The number of the verdict or of the refusal.
    pub fn number(self) -> u8 {
        match self {
            Judgement::Permitted => 0,
            Judgement::UnknownCritical { .. } => 20,
            Judgement::NotGranted { .. } => 21,
            Judgement::TooManyAliases { .. } => 22,
            Judgement::Refused(refusal) => refusal.number(),
        }
    }

    /// What the verdict or the refusal means, in words.
    pub fn reason(self) -> &'static str {
        match self {
            Judgement::Permitted => {
                "each name is unrestricted, or granted to this issuer, account and method"
            }
            Judgement::UnknownCritical { .. } => {
                "this record has an unknown tag and is critical for this name"
            }
            Judgement::NotGranted { .. } => {
                "this record governs this name, and nothing grants it to this issuer, \
                 for this account and by this method"
            }
            Judgement::TooManyAliases { .. } => {
                "this record is the first of more than 8 aliases that follow one another, \
                 so nobody may issue for this name"
            }
            Judgement::Refused(refusal) => refusal.reason(),
        }
    }

    fn of(word: Word) -> Judgement {
        match word {
            Word { number: 0, .. } => Judgement::Permitted,
            Word {
                number: 20,
                a: name,
                b: record,
                c: up,
            } => Judgement::UnknownCritical { name, record, up },
            Word {
                number: 21,
                a: name,
                b: record,
                c: up,
            } => Judgement::NotGranted { name, record, up },
            Word {
                number: 22,
                a: name,
                b: record,
                c: up,
            } => Judgement::TooManyAliases { name, record, up },
            _ => Judgement::Refused(word.refusal()),
        }
    }
}

impl fmt::Display for Judgement {
    fn fmt(&self, f: &mut fmt::Formatter<'_>) -> fmt::Result {
        match self {
            Judgement::Permitted => write!(f, "verdict 0")?,
            Judgement::UnknownCritical { name, record, up }
            | Judgement::NotGranted { name, record, up }
            | Judgement::TooManyAliases { name, record, up } => {
                let number = self.number();
                write!(f, "verdict {number} name {name} record {record} up {up}")?;
            }
            Judgement::Refused(refusal) => return refusal.fmt(f),
        }
        if f.alternate() {
            write!(f, ": {}", self.reason())?;
        }
        Ok(())
    }
}

/// May `issuer` issue for every name of `request`, for this account and by this validation method, by the
/// records of `book`?
///
/// - `request`: 1 to 250 DNS names in wire form, one after the other, at most 16,384 octets.
/// - `issuer`: one issuer domain name of the CA, as text: no trailing dot, no line end.
/// - `account`: the URI of the account that asks, as text (RFC 8657, section 3): 1 to 255 octets, each 33
///   to 126 but no `;`. So no white space and no line end.
/// - `method`: the validation method used, as text (RFC 8657, section 4), such as `dns-01`: the same rule,
///   and no `,`.
/// - `book`: 0 to 1,024 resource records in wire form without compression, one after the other, at
///   most 49,152 octets. A failed lookup is not an empty answer: don't judge without it.
///
/// Where a name, or a name above it, is an alias (has a CNAME record in the book), the CAA records of its
/// final target count for it. Up to 8 aliases are followed. A DNAME record is not read.
///
/// A record may limit its grant to one account (`accounturi`) and to some methods (`validationmethods`).
/// Both are compared octet for octet, so give both texts as your CA publishes them.
pub fn judge(
    request: &[u8],
    issuer: &[u8],
    account: &[u8],
    method: &[u8],
    book: &[u8],
) -> Judgement {
    let word = foreign::judge(request, issuer, account, method, book);
    Judgement::of(Word::unpacked(word))
}

#[cfg(test)]
mod tests {
    use super::*;

    #[test]
    fn a_number_of_a_newer_library_is_no_permission() {
        for number in [13, 23, 30, 255] {
            let judgement = Judgement::of(Word {
                number,
                a: 1,
                b: 2,
                c: 3,
            });
            let unknown = Refusal::Unknown { number, place: 1 };
            assert_eq!(judgement, Judgement::Refused(unknown));
            assert!(!judgement.is_permitted());
        }
    }

    #[test]
    fn each_field_of_a_verdict_is_told() {
        let of = |number| {
            Judgement::of(Word {
                number,
                a: 249,
                b: 1_023,
                c: 126,
            })
        };
        let (name, record, up) = (249, 1_023, 126);
        assert_eq!(of(20), Judgement::UnknownCritical { name, record, up });
        assert_eq!(of(21), Judgement::NotGranted { name, record, up });
        assert_eq!(of(22), Judgement::TooManyAliases { name, record, up });
        for number in 20..=22 {
            assert!(!of(number).is_permitted());
            assert_eq!(
                of(number).to_string(),
                format!("verdict {number} name 249 record 1023 up 126")
            );
        }
    }

    #[test]
    fn the_desk_s_line_and_the_reason() {
        let judgement = Judgement::NotGranted {
            name: 1,
            record: 3,
            up: 0,
        };
        assert_eq!(judgement.to_string(), "verdict 21 name 1 record 3 up 0");
        let judgement = Judgement::TooManyAliases {
            name: 1,
            record: 3,
            up: 2,
        };
        assert_eq!(
            format!("{judgement:#}"),
            "verdict 22 name 1 record 3 up 2: this record is the first of more than 8 aliases \
             that follow one another, so nobody may issue for this name"
        );
        assert_eq!(Judgement::Permitted.to_string(), "verdict 0");
        assert_eq!(
            format!("{:#}", Judgement::Permitted),
            "verdict 0: each name is unrestricted, or granted to this issuer, account and method"
        );
    }
}
