//! A session: the rule of issue for one name, asked for one lookup at a time. Whoever looks the names up
//! keeps the session between the calls; all that a call knows of it is in there.

use crate::answer::{Answer, Refusal, Reply};
use crate::applicant::{read_applicant, Applicant};
use crate::book::read_book;
use crate::issuer::{read_issuer, IssuerName};
use crate::judge::verdict_on;
use crate::limits::{BOOK_RECORDS, REQUEST_OCTETS};
use crate::request::{read_requested_name, RequestedName};
use crate::rule::{standing_at, Records};

/// What a session keeps, in the layout that C programs see. Any octets are a session; most of them are
/// one that has ended without a verdict.
#[derive(Clone, Copy, Debug, PartialEq, Eq)]
#[repr(C)]
pub struct Session {
    /// [`ASKING`] or [`DECIDED`]; any other number is neither.
    pub phase: usize,
    /// Labels taken off X.
    pub up: usize,
    /// The number of the verdict, once there is one.
    pub verdict: usize,
    /// The number of the record that a verdict tells, in the book that decided.
    pub rr: usize,
    /// The name as it was given, X or `*.X`.
    pub name: Text,
    pub issuer: Text,
    pub account: Text,
    pub method: Text,
}

/// A kept text: `length` octets, which may not be within the room.
#[derive(Clone, Copy, Debug, PartialEq, Eq)]
#[repr(C)]
pub struct Text {
    pub length: usize,
    pub octets: [u8; TEXT_ROOM],
}

/// Octets that there is room for in each text. No text that follows its rule has so many.
pub const TEXT_ROOM: usize = 256;

pub const ASKING: usize = 1;
pub const DECIDED: usize = 2;

/// Octets of a session.
pub const SESSION_OCTETS: usize = size_of::<Session>();

// No compiler compares this declaration with the one of the C header.
const _: () = {
    assert!(SESSION_OCTETS == 1_088);
    let offsets = [
        std::mem::offset_of!(Session, phase),
        std::mem::offset_of!(Session, up),
        std::mem::offset_of!(Session, verdict),
        std::mem::offset_of!(Session, rr),
        std::mem::offset_of!(Session, name),
        std::mem::offset_of!(Session, issuer),
        std::mem::offset_of!(Session, account),
        std::mem::offset_of!(Session, method),
    ];
    let expected = [0, 8, 16, 24, 32, 296, 560, 824];
    let mut field = 0;
    while field < offsets.len() {
        assert!(offsets[field] == expected[field]);
        field += 1;
    }
};

impl Text {
    const EMPTY: Text = Text {
        length: 0,
        octets: [0; TEXT_ROOM],
    };

    /// `None` where there is no room.
    pub fn of(octets: &[u8]) -> Option<Text> {
        let mut text = Text::EMPTY;
        text.octets.get_mut(..octets.len())?.copy_from_slice(octets);
        text.length = octets.len();
        Some(text)
    }

    /// What is kept; `None` where the length is beyond the room.
    pub fn kept(&self) -> Option<&[u8]> {
        self.octets.get(..self.length)
    }
}

/// What a session keeps, where all of it follows its rules.
struct Kept<'a> {
    name: RequestedName<'a>,
    issuer: IssuerName,
    applicant: Applicant<'a>,
}

impl Session {
    /// The session that a refused opening leaves.
    pub const ENDED: Session = Session {
        phase: 0,
        up: 0,
        verdict: 0,
        rr: 0,
        name: Text::EMPTY,
        issuer: Text::EMPTY,
        account: Text::EMPTY,
        method: Text::EMPTY,
    };

    /// Writes the whole session, whatever it held.
    pub fn open(&mut self, request: &[u8], issuer: &[u8], account: &[u8], method: &[u8]) -> Reply {
        match opened(request, issuer, account, method) {
            Ok(session) => *self = session,
            Err(refusal) => {
                *self = Session::ENDED;
                return Reply::refused(refusal);
            }
        }
        self.state()
    }

    /// Takes the answer to the lookup of the name that is asked for. Records of other names don't
    /// count, but for those that its aliases lead to.
    pub fn answer(&mut self, book: &[u8]) -> Reply {
        let Some(kept) = self.asking() else {
            return Reply::refused(Refusal::SessionEnded);
        };
        let book = match read_book(book) {
            Ok(book) => book,
            Err(refusal) => return Reply::refused(refusal),
        };
        let records = Records::of(&book, kept.applicant);
        let verdict = standing_at(&records, &kept.name, self.up)
            .map(|standing| verdict_on(0, &standing, &kept.issuer));
        if verdict.is_none() && self.up + 1 < kept.labels() {
            self.up += 1;
            return self.state();
        }
        // Above the top label is the root, which is never looked at.
        let verdict = verdict.unwrap_or(Answer::Permitted);
        (self.verdict, self.rr) = match verdict {
            Answer::UnknownCritical { record, .. } => (20, record),
            Answer::NotGranted { record, .. } => (21, record),
            Answer::TooManyAliases { record, .. } => (22, record),
            Answer::Permitted | Answer::Refused(_) => (0, 0),
        };
        self.phase = DECIDED;
        Reply::Judged(verdict)
    }

    /// Takes the news that the lookup failed, which is no empty answer.
    pub fn fail(&mut self) -> Reply {
        if self.asking().is_none() {
            return Reply::refused(Refusal::SessionEnded);
        }
        (self.phase, self.verdict, self.rr) = (DECIDED, 23, 0);
        Reply::LookupFailed
    }

    /// What is asked for, or the verdict.
    pub fn state(&self) -> Reply {
        let Some(kept) = self.kept() else {
            return Reply::NoVerdict;
        };
        let (name, record, up) = (0, self.rr, self.up);
        match (self.phase, self.verdict) {
            (ASKING, _) => self.asks(&kept),
            (DECIDED, 0) => Reply::Judged(Answer::Permitted),
            (DECIDED, 23) => Reply::LookupFailed,
            // No accepted book has more records.
            (DECIDED, _) if record >= BOOK_RECORDS => Reply::NoVerdict,
            (DECIDED, 20) => Reply::Judged(Answer::UnknownCritical { name, record, up }),
            (DECIDED, 21) => Reply::Judged(Answer::NotGranted { name, record, up }),
            (DECIDED, 22) => Reply::Judged(Answer::TooManyAliases { name, record, up }),
            _ => Reply::NoVerdict,
        }
    }

    /// The name that a reply asks for, in wire form; `None` where that is not within the kept name.
    pub fn asked(&self, reply: Reply) -> Option<&[u8]> {
        match reply {
            Reply::Asks { length, offset } => self.name.kept()?.get(offset..)?.get(..length),
            _ => None,
        }
    }

    fn asks(&self, kept: &Kept) -> Reply {
        match kept.name.fqdn.ancestors().nth(self.up) {
            // It is an end of the kept name.
            Some(name) => Reply::Asks {
                length: name.wire().len(),
                offset: self.name.length - name.wire().len(),
            },
            None => Reply::NoVerdict,
        }
    }

    fn asking(&self) -> Option<Kept<'_>> {
        self.kept().filter(|_| self.phase == ASKING)
    }

    fn kept(&self) -> Option<Kept<'_>> {
        let (name, behind) = read_requested_name(self.name.kept()?)?;
        let kept = Kept {
            name,
            issuer: read_issuer(self.issuer.kept()?).ok()?,
            applicant: read_applicant(self.account.kept()?, self.method.kept()?).ok()?,
        };
        (behind.is_empty() && self.up < kept.labels()).then_some(kept)
    }

    /// The octets as they lie in memory.
    pub fn octets(&self) -> Vec<u8> {
        let mut octets = Vec::new();
        for number in [self.phase, self.up, self.verdict, self.rr] {
            octets.extend(number.to_ne_bytes());
        }
        for text in [&self.name, &self.issuer, &self.account, &self.method] {
            octets.extend(text.length.to_ne_bytes());
            octets.extend(text.octets);
        }
        octets
    }

    /// The session that these octets are; those that are missing are 0.
    pub fn from_octets(octets: &[u8]) -> Session {
        let mut octets = octets.iter().copied().chain(std::iter::repeat(0));
        let mut octet = || octets.next().unwrap_or_default();
        let [phase, up, verdict, rr] = [(); 4].map(|()| number(&mut octet));
        let [name, issuer, account, method] = [(); 4].map(|()| Text {
            length: number(&mut octet),
            octets: std::array::from_fn(|_| octet()),
        });
        Session {
            phase,
            up,
            verdict,
            rr,
            name,
            issuer,
            account,
            method,
        }
    }
}

impl Kept<'_> {
    /// Labels of X.
    fn labels(&self) -> usize {
        self.name.fqdn.labels().count()
    }
}

fn number(octet: &mut impl FnMut() -> u8) -> usize {
    usize::from_ne_bytes(std::array::from_fn(|_| octet()))
}

/// The session that an opening leaves. The inputs are checked in the order of the requirements.
fn opened(
    request: &[u8],
    issuer: &[u8],
    account: &[u8],
    method: &[u8],
) -> Result<Session, Refusal> {
    if request.len() > REQUEST_OCTETS {
        return Err(Refusal::RequestTooLong);
    }
    let (_, behind) = read_requested_name(request).ok_or(Refusal::BadRequestedName { name: 0 })?;
    if !behind.is_empty() {
        return Err(Refusal::BadRequestedName { name: 1 });
    }
    read_issuer(issuer)?;
    read_applicant(account, method)?;
    Ok(Session {
        phase: ASKING,
        // What follows its rule has room.
        name: Text::of(request).ok_or(Refusal::BadRequestedName { name: 0 })?,
        issuer: Text::of(issuer).ok_or(Refusal::BadIssuer)?,
        account: Text::of(account).ok_or(Refusal::BadApplicant)?,
        method: Text::of(method).ok_or(Refusal::BadApplicant)?,
        ..Session::ENDED
    })
}

#[cfg(test)]
mod tests {
    use super::*;

    const NAME: &[u8] = b"\x01*\x03Www\x02at\x00";

    fn open(request: &[u8]) -> (Session, Reply) {
        let mut session = Session::from_octets(&[0xFF; SESSION_OCTETS]);
        let reply = session.open(request, b"x", b"a", b"m");
        (session, reply)
    }

    fn opened_well() -> Session {
        open(NAME).0
    }

    /// By the layout of the header, octet for octet.
    #[test]
    fn an_opened_session_lies_in_memory_as_the_header_says() {
        let (session, reply) = open(NAME);
        assert_eq!(
            reply,
            Reply::Asks {
                length: 8,
                offset: 2
            }
        );
        let mut octets = vec![0; SESSION_OCTETS];
        octets[0] = 1;
        for (place, text) in [(32, NAME), (296, b"x"), (560, b"a"), (824, b"m")] {
            octets[place] = text.len() as u8;
            octets[place + 8..][..text.len()].copy_from_slice(text);
        }
        assert_eq!(session.octets(), octets);
        assert_eq!(Session::from_octets(&octets), session);
        assert_eq!(session.asked(reply), Some(&b"\x03Www\x02at\x00"[..]));
    }

    #[test]
    fn octets_are_read_as_they_are_written() {
        let octets: Vec<u8> = (0..SESSION_OCTETS).map(|place| place as u8).collect();
        assert_eq!(Session::from_octets(&octets).octets(), octets);
    }

    #[test]
    fn a_refused_opening_leaves_zeros() {
        for (request, name) in [
            (&b""[..], 0),
            (b"\x00", 0),
            (b"\x01*\x00", 0),
            (b"\x01-\x00", 0),
            (b"\x01a\x00\x00", 1),
            (b"\x01a\x00\x01b\x00", 1),
            (b"\x01a\x00\xFF", 1),
        ] {
            let (session, reply) = open(request);
            assert_eq!(reply, Reply::refused(Refusal::BadRequestedName { name }));
            assert_eq!(session.octets(), [0; SESSION_OCTETS]);
            assert_eq!(session.state(), Reply::NoVerdict);
        }
    }

    #[test]
    fn empty_answers_climb_to_the_top_label_and_no_farther() {
        let mut session = opened_well();
        assert_eq!(
            session.answer(b""),
            Reply::Asks {
                length: 4,
                offset: 6
            }
        );
        assert_eq!(session.up, 1);
        assert_eq!(session.answer(b""), Reply::Judged(Answer::Permitted));
        assert_eq!((session.phase, session.up), (2, 1));
        assert_eq!(session.state(), Reply::Judged(Answer::Permitted));
        let before = session;
        let ended = Reply::refused(Refusal::SessionEnded);
        assert_eq!(session.answer(b"\xFF"), ended);
        assert_eq!(session.fail(), ended);
        assert_eq!(session, before);
    }

    #[test]
    fn what_breaks_a_rule_counts_as_ended() {
        let breaks: [fn(&mut Session); 12] = [
            |session| session.phase = 0,
            |session| session.phase = 3,
            |session| session.up = 2,
            |session| session.up = usize::MAX,
            |session| session.name.length -= 1,
            |session| session.name.length += 1,
            |session| session.name.length = 257,
            |session| session.name.octets[3] = b'-',
            |session| session.issuer.length = 0,
            |session| session.issuer.octets[0] = b'-',
            |session| session.account.octets[0] = b';',
            |session| session.method.length = usize::MAX,
        ];
        for (number, break_it) in breaks.into_iter().enumerate() {
            for phase in [ASKING, DECIDED] {
                let mut session = opened_well();
                session.phase = phase;
                break_it(&mut session);
                let before = session;
                assert_eq!(session.state(), Reply::NoVerdict, "{number}");
                let ended = Reply::refused(Refusal::SessionEnded);
                assert_eq!(session.answer(b""), ended, "{number}");
                assert_eq!(session.fail(), ended, "{number}");
                assert_eq!(session, before, "{number}");
            }
        }
    }

    #[test]
    fn a_kept_verdict_is_told_by_its_number() {
        let told = |verdict, rr| {
            let mut session = opened_well();
            (session.phase, session.up) = (DECIDED, 1);
            (session.verdict, session.rr) = (verdict, rr);
            session.state().to_string()
        };
        assert_eq!(told(0, usize::MAX), "verdict 0");
        assert_eq!(told(20, 0), "verdict 20 name 0 record 0 up 1");
        assert_eq!(told(21, 1_023), "verdict 21 name 0 record 1023 up 1");
        assert_eq!(told(22, 1_023), "verdict 22 name 0 record 1023 up 1");
        assert_eq!(told(23, usize::MAX), "verdict 23");
        for (verdict, rr) in [(20, 1_024), (21, 1_024), (22, usize::MAX), (24, 0), (1, 0)] {
            assert_eq!(told(verdict, rr), "no verdict");
        }
        assert_eq!(told(256, 0), "no verdict");
    }
}
