//! May this issuer issue for one name, asked for one lookup at a time?

use std::fmt;
use std::mem::size_of;

use crate::foreign::{self, Kept, Text, TEXT_ROOM};
use crate::word::Word;
use crate::Refusal;

/// How many octets a session keeps.
pub const SESSION_OCTETS: usize = size_of::<Kept>();

/// Judges one name by one lookup after the other.
///
/// Open it; as long as it asks for a name, look up that name's CAA records and hand them in with
/// [`answer`](Session::answer), or say that the lookup failed, with [`fail`](Session::fail).
///
/// Suppose that no lookup failed, and that each accepted answer holds, for the asked name, what one accepted book
/// holds: the aliases that follow one another from that name, as far as a ninth, and the CAA records of the final
/// target in the same order. Then the verdict is that of [`judge`](crate::judge()) on that book. Only the number of
/// the record is that in the last answer. A verdict stands after at most as many accepted answers as the name has
/// labels, its star not counted.
///
/// ```
/// use splinepearl::{Session, Verdict};
///
/// let (account, method) = (b"https://ca1.example.net/acct/230123", b"dns-01");
/// let name = b"\x03www\x07example\x03com\x00";
/// let mut session = Session::open(name, b"ca1.example.net", account, method)?;
/// assert_eq!(session.asked(), Some(&b"\x03www\x07example\x03com\x00"[..]));
///
/// // www.example.com has no CAA record, so example.com is asked for.
/// session.answer(b"")?;
/// assert_eq!(session.asked(), Some(&b"\x07example\x03com\x00"[..]));
///
/// // example.com IN CAA 0 issue "ca1.example.net", with a time to live of 0
/// session.answer(b"\x07example\x03com\x00\x01\x01\x00\x01\x00\x00\x00\x00\x00\x16\x00\x05issueca1.example.net")?;
/// assert_eq!(session.verdict(), Some(Verdict::Permitted));
/// # Ok::<(), splinepearl::Refusal>(())
/// ```
#[derive(Clone, PartialEq, Eq)]
pub struct Session {
    kept: Kept,
}

/// The verdict of a [`Session`]. Issue only on [`Verdict::Permitted`].
///
/// Displayed as the desk program would, such as `verdict 21 name 0 record 3 up 0`. `{:#}` adds the reason.
#[derive(Clone, Copy, Debug, PartialEq, Eq, Hash)]
#[must_use = "anything but `Permitted` means: don't issue"]
pub enum Verdict {
    /// Verdict 0: the name is unrestricted, or granted to this issuer for this account and method.
    Permitted,
    /// Verdict 20: a record with an unknown tag and the critical flag forbids issuance.
    UnknownCritical {
        /// The number of the first such record in the last answer, from 0.
        record: usize,
        /// How many labels were taken off the name to reach it, 0 at the name itself. A star is not a label of
        /// the name. If aliases led to the record: to reach the name with the first of them.
        up: usize,
    },
    /// Verdict 21: the name is restricted, and not granted to this issuer for this account and method.
    NotGranted {
        /// The number of the first record that governs it in the last answer, from 0.
        record: usize,
        /// How many labels were taken off, counted as for verdict 20.
        up: usize,
    },
    /// Verdict 22: more than 8 aliases (CNAME records) follow one another, so nobody may issue.
    TooManyAliases {
        /// The number of the first of these aliases in the last answer, from 0.
        record: usize,
        /// How many labels were taken off to reach its owner, counted as for verdict 20.
        up: usize,
    },
    /// Verdict 23: a lookup failed, so nothing is known.
    LookupFailed,
}

impl Verdict {
    /// May this issuer issue?
    pub fn is_permitted(self) -> bool {
        self == Verdict::Permitted
    }

    /// The number of the verdict.
    pub fn number(self) -> u8 {
        match self {
            Verdict::Permitted => 0,
            Verdict::UnknownCritical { .. } => 20,
            Verdict::NotGranted { .. } => 21,
            Verdict::TooManyAliases { .. } => 22,
            Verdict::LookupFailed => 23,
        }
    }

    /// What the verdict means, in words.
    pub fn reason(self) -> &'static str {
        match self {
            Verdict::Permitted => {
                "the name is unrestricted, or granted to this issuer, account and method"
            }
            Verdict::UnknownCritical { .. } => {
                "this record of the last answer has an unknown tag and is critical"
            }
            Verdict::NotGranted { .. } => {
                "this record of the last answer governs the name, and nothing grants it to this issuer, \
                 for this account and by this method"
            }
            Verdict::TooManyAliases { .. } => {
                "this record of the last answer is the first of more than 8 aliases that follow one \
                 another, so nobody may issue"
            }
            Verdict::LookupFailed => "a lookup failed, so nothing is known; don't issue",
        }
    }

    fn of(word: Word) -> Option<Verdict> {
        let (record, up) = (word.b, word.c);
        match word.number {
            0 => Some(Verdict::Permitted),
            20 => Some(Verdict::UnknownCritical { record, up }),
            21 => Some(Verdict::NotGranted { record, up }),
            22 => Some(Verdict::TooManyAliases { record, up }),
            23 => Some(Verdict::LookupFailed),
            _ => None,
        }
    }
}

impl fmt::Display for Verdict {
    fn fmt(&self, f: &mut fmt::Formatter<'_>) -> fmt::Result {
        let number = self.number();
        match self {
            Verdict::Permitted | Verdict::LookupFailed => write!(f, "verdict {number}")?,
            Verdict::UnknownCritical { record, up }
            | Verdict::NotGranted { record, up }
            | Verdict::TooManyAliases { record, up } => {
                write!(f, "verdict {number} name 0 record {record} up {up}")?;
            }
        }
        if f.alternate() {
            write!(f, ": {}", self.reason())?;
        }
        Ok(())
    }
}

const ASKS: u8 = 40;

impl Session {
    /// Opens a session for one name in wire form, X or `*.X`. [`judge`](crate::judge()) says what the other
    /// inputs hold.
    ///
    /// # Errors
    ///
    /// [`Refusal::RequestTooLong`], [`Refusal::BadName`], [`Refusal::BadIssuer`],
    /// [`Refusal::BadAccountOrMethod`].
    pub fn open(
        request: &[u8],
        issuer: &[u8],
        account: &[u8],
        method: &[u8],
    ) -> Result<Session, Refusal> {
        let mut session = Session::from_octets(&[0; SESSION_OCTETS]);
        let word = foreign::session_open(&mut session.kept, request, issuer, account, method);
        match Word::unpacked(word) {
            Word { number: ASKS, .. } => Ok(session),
            word => Err(word.refusal()),
        }
    }

    /// The name to look up next, in wire form with its closing zero octet, as it was given and without a
    /// star. `None` once the session has ended.
    pub fn asked(&self) -> Option<&[u8]> {
        let word = self.state();
        if word.number != ASKS {
            return None;
        }
        self.kept.name.octets.get(word.b..)?.get(..word.a)
    }

    /// Hands in what the lookup of the asked name found: 0 to 1,024 resource records in wire form without
    /// compression, one after the other, at most 49,152 octets. If the name is an alias, they are its CNAME
    /// records and the CAA records of the final target. No octets mean that there are none. Records of other
    /// names don't count.
    ///
    /// # Errors
    ///
    /// [`Refusal::SessionEnded`] if no name is asked for. [`Refusal::BookTooLong`], [`Refusal::BadRecord`],
    /// [`Refusal::TooManyRecords`], [`Refusal::AliasConflict`]: then the same name is still asked for. None
    /// of them changes the session.
    pub fn answer(&mut self, book: &[u8]) -> Result<(), Refusal> {
        taken(foreign::session_answer(&mut self.kept, book))
    }

    /// Says that the lookup of the asked name failed: a timeout, SERVFAIL and the like. NXDOMAIN, and
    /// NOERROR without records, are no failures. The session ends with [`Verdict::LookupFailed`].
    ///
    /// # Errors
    ///
    /// [`Refusal::SessionEnded`] if no name is asked for.
    pub fn fail(&mut self) -> Result<(), Refusal> {
        taken(foreign::session_fail(&mut self.kept))
    }

    /// The verdict; `None` as long as a name is asked for, and of a session that has ended without one.
    pub fn verdict(&self) -> Option<Verdict> {
        Verdict::of(self.state())
    }

    /// The session as octets, to be kept elsewhere.
    pub fn to_octets(&self) -> [u8; SESSION_OCTETS] {
        let mut octets = [0; SESSION_OCTETS];
        let mut rest = octets.as_mut_slice();
        let mut put = |part: &[u8]| {
            let (front, behind) = std::mem::take(&mut rest).split_at_mut(part.len());
            front.copy_from_slice(part);
            rest = behind;
        };
        let kept = &self.kept;
        for number in [kept.phase, kept.up, kept.verdict, kept.rr] {
            put(&number.to_ne_bytes());
        }
        for text in [&kept.name, &kept.issuer, &kept.account, &kept.method] {
            put(&text.length.to_ne_bytes());
            put(&text.octets);
        }
        octets
    }

    /// The session that [`to_octets`](Session::to_octets) gave. Other octets do no harm: mostly they are a
    /// session that has ended without a verdict, as zeros are. But take them only from where you trust the
    /// session, because they may just as well hold any verdict.
    pub fn from_octets(octets: &[u8; SESSION_OCTETS]) -> Session {
        const NUMBER: usize = size_of::<usize>();
        let number = |at: usize| {
            let mut number = [0; NUMBER];
            number.copy_from_slice(&octets[at..at + NUMBER]);
            usize::from_ne_bytes(number)
        };
        let text = |index: usize| {
            let at = 4 * NUMBER + index * (NUMBER + TEXT_ROOM);
            let mut text = Text {
                length: number(at),
                octets: [0; TEXT_ROOM],
            };
            let from = at + NUMBER;
            text.octets.copy_from_slice(&octets[from..from + TEXT_ROOM]);
            text
        };
        Session {
            kept: Kept {
                phase: number(0),
                up: number(NUMBER),
                verdict: number(2 * NUMBER),
                rr: number(3 * NUMBER),
                name: text(0),
                issuer: text(1),
                account: text(2),
                method: text(3),
            },
        }
    }

    fn state(&self) -> Word {
        Word::unpacked(foreign::session_state(&self.kept))
    }
}

impl fmt::Debug for Session {
    fn fmt(&self, f: &mut fmt::Formatter<'_>) -> fmt::Result {
        f.debug_struct("Session")
            .field(
                "asked",
                &self
                    .asked()
                    .map(<[u8]>::escape_ascii)
                    .map(|name| name.to_string()),
            )
            .field("verdict", &self.verdict())
            .finish()
    }
}

/// An answer was taken if the session asks for a name or has a verdict.
fn taken(word: u64) -> Result<(), Refusal> {
    let word = Word::unpacked(word);
    match word.number == ASKS || Verdict::of(word).is_some() {
        true => Ok(()),
        false => Err(word.refusal()),
    }
}

#[cfg(test)]
mod tests {
    use super::*;

    #[test]
    fn each_field_of_a_verdict_is_told() {
        let of = |number| {
            Verdict::of(Word {
                number,
                a: 0,
                b: 1_023,
                c: 126,
            })
        };
        let (record, up) = (1_023, 126);
        assert_eq!(of(20), Some(Verdict::UnknownCritical { record, up }));
        assert_eq!(of(21), Some(Verdict::NotGranted { record, up }));
        assert_eq!(of(22), Some(Verdict::TooManyAliases { record, up }));
        for number in [1, 14, 24, 30, 40, 41, 255] {
            assert_eq!(of(number), None);
        }
    }

    #[test]
    fn a_number_of_a_newer_library_takes_no_answer() {
        for number in [24, 30, 41, 255] {
            let unknown = Refusal::Unknown { number, place: 0 };
            assert_eq!(taken(u64::from(number)), Err(unknown));
        }
        assert_eq!(taken(14), Err(Refusal::SessionEnded));
        for number in [0, 20, 21, 22, 23, 40] {
            assert_eq!(taken(number), Ok(()));
        }
    }

    #[test]
    fn the_line_and_the_reason() {
        let verdict = Verdict::NotGranted { record: 3, up: 1 };
        assert_eq!(verdict.to_string(), "verdict 21 name 0 record 3 up 1");
        assert_eq!(
            format!("{:#}", Verdict::LookupFailed),
            "verdict 23: a lookup failed, so nothing is known; don't issue"
        );
        assert_eq!(Verdict::Permitted.to_string(), "verdict 0");
    }

    #[test]
    fn octets_stand_where_the_header_has_them() {
        let octets: [u8; SESSION_OCTETS] = std::array::from_fn(|place| (place % 251) as u8);
        let session = Session::from_octets(&octets);
        assert_eq!(session.to_octets(), octets);
        let number = |at: usize| usize::from_ne_bytes(std::array::from_fn(|n| octets[at + n]));
        let kept = &session.kept;
        assert_eq!([kept.phase, kept.up], [number(0), number(8)]);
        assert_eq!([kept.verdict, kept.rr], [number(16), number(24)]);
        for (text, at) in [
            (&kept.name, 32),
            (&kept.issuer, 296),
            (&kept.account, 560),
            (&kept.method, 824),
        ] {
            assert_eq!(text.length, number(at));
            assert_eq!(text.octets[..], octets[at + 8..at + 264]);
        }
    }
}
