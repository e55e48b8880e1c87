//! Sessions: one name, one lookup after the other.

mod common;

use common::{caa, cname, data, name, record, request, whole_case_book, ACCOUNT, METHOD};
use splinepearl::{Refusal, Session, Verdict, SESSION_OCTETS};

const CA1: &[u8] = b"ca1.example.net";

fn open(text: &str) -> Session {
    Session::open(&name(text), CA1, ACCOUNT, METHOD).unwrap()
}

fn refused(request: &[u8], issuer: &[u8], account: &[u8], method: &[u8]) -> Refusal {
    Session::open(request, issuer, account, method).unwrap_err()
}

/// The session asks for this name and has no verdict.
#[track_caller]
fn asks(session: &Session, text: &str) {
    assert_eq!(session.asked(), Some(&name(text)[..]));
    assert_eq!(session.verdict(), None);
}

/// The session has ended: it asks for nothing, and takes nothing, whatever that is.
#[track_caller]
fn ended(mut session: Session, verdict: Option<Verdict>) {
    let before = session.to_octets();
    for _ in 0..3 {
        assert_eq!(session.asked(), None);
        assert_eq!(session.verdict(), verdict);
        assert_eq!(session.answer(b""), Err(Refusal::SessionEnded));
        assert_eq!(session.answer(b"\xFF"), Err(Refusal::SessionEnded));
        assert_eq!(session.answer(&[0; 49_153]), Err(Refusal::SessionEnded));
        assert_eq!(session.fail(), Err(Refusal::SessionEnded));
        assert_eq!(session.to_octets(), before);
    }
}

#[test]
fn the_whole_case_name_by_name() {
    let book = whole_case_book();
    let mut session = open("www.example.com");
    asks(&session, "www.example.com");
    // The records of all names may come with each answer; those of the asked name alone count.
    session.answer(&book).unwrap();
    asks(&session, "example.com");
    session.answer(&book).unwrap();
    ended(session, Some(Verdict::Permitted));

    let mut session = open("pay.example.com");
    session.answer(&book).unwrap();
    ended(session, Some(Verdict::NotGranted { record: 3, up: 0 }));

    let mut session = open("pay.example.com");
    let alone = caa("pay.example.com", "issue", "ca2.example.org");
    session.answer(&alone).unwrap();
    ended(session, Some(Verdict::NotGranted { record: 0, up: 0 }));
}

#[test]
fn a_star_is_not_asked_for() {
    let mut session = open("*.Www.EXAMPLE.com");
    asks(&session, "Www.EXAMPLE.com");
    session.answer(&[]).unwrap();
    asks(&session, "EXAMPLE.com");
    let book = [
        caa("example.com", "issue", "ca1.example.net"),
        caa("example.com", "issuewild", "ca2.example.org"),
    ];
    session.answer(&book.concat()).unwrap();
    ended(session, Some(Verdict::NotGranted { record: 1, up: 1 }));
}

#[test]
fn as_many_empty_answers_as_labels() {
    let mut session = open("a.b.c.d");
    for asked in ["a.b.c.d", "b.c.d", "c.d", "d"] {
        asks(&session, asked);
        session.answer(&[]).unwrap();
    }
    ended(session, Some(Verdict::Permitted));
}

#[test]
fn an_unknown_critical_record() {
    let mut session = open("a.b");
    let book = record("a.b", 257, &data(128, "tbs", b"Unknown"));
    session.answer(&book).unwrap();
    ended(session, Some(Verdict::UnknownCritical { record: 0, up: 0 }));
}

#[test]
fn aliases_are_followed_within_an_answer() {
    let mut session = open("www.example.com");
    session
        .answer(&cname("www.example.com", "web.example.org"))
        .unwrap();
    asks(&session, "example.com");
    let book = [
        caa("web.example.org", "issue", "ca2.example.org"),
        cname("example.com", "web.example.org"),
    ];
    session.answer(&book.concat()).unwrap();
    ended(session, Some(Verdict::NotGranted { record: 0, up: 1 }));

    let mut session = open("a.b");
    session.answer(&[]).unwrap();
    session.answer(&cname("b", "b")).unwrap();
    ended(session, Some(Verdict::TooManyAliases { record: 0, up: 1 }));
}

#[test]
fn a_refused_book_leaves_the_session_alone() {
    let mut session = open("a.b");
    session.answer(&[]).unwrap();
    let before = session.to_octets();
    let two_aliases = [cname("c", "d"), cname("C", "d")].concat();
    let empty = record("c", 1, &[]);
    for (book, refusal) in [
        (vec![0; 49_153], Refusal::BookTooLong),
        (vec![0xFF], Refusal::BadRecord { record: 0 }),
        (empty.repeat(1_025), Refusal::TooManyRecords { read: 1_024 }),
        (two_aliases, Refusal::AliasConflict { record: 1 }),
    ] {
        assert_eq!(session.answer(&book), Err(refusal));
        assert_eq!(session.to_octets(), before);
        asks(&session, "b");
    }
    session
        .answer(&caa("b", "issue", "ca1.example.net"))
        .unwrap();
    ended(session, Some(Verdict::Permitted));
}

#[test]
fn a_failed_lookup_is_no_empty_answer() {
    let mut session = open("a");
    session.fail().unwrap();
    ended(session, Some(Verdict::LookupFailed));
    let mut session = open("a.b");
    session.answer(&[]).unwrap();
    session.fail().unwrap();
    ended(session, Some(Verdict::LookupFailed));
}

#[test]
fn openings_that_are_refused() {
    let good = name("a");
    let of = |request: &[u8]| refused(request, CA1, ACCOUNT, METHOD);
    assert_eq!(of(b""), Refusal::BadName { name: 0 });
    assert_eq!(of(&name("-a")), Refusal::BadName { name: 0 });
    assert_eq!(of(&request(&["a", "b"])), Refusal::BadName { name: 1 });
    assert_eq!(
        of(&[&good[..], &[0]].concat()),
        Refusal::BadName { name: 1 }
    );
    assert_eq!(of(&good.repeat(251)), Refusal::BadName { name: 1 });
    assert_eq!(of(&[0; 16_384]), Refusal::BadName { name: 0 });
    assert_eq!(of(&[0; 16_385]), Refusal::RequestTooLong);
    assert_eq!(refused(&good, b"", ACCOUNT, METHOD), Refusal::BadIssuer);
    assert_eq!(refused(&good, b"", b"", METHOD), Refusal::BadIssuer);
    for (account, method) in [(&b""[..], METHOD), (b"a;b", METHOD), (ACCOUNT, b"a,b")] {
        let refusal = refused(&good, CA1, account, method);
        assert_eq!(refusal, Refusal::BadAccountOrMethod);
    }
}

#[test]
fn account_and_method_are_those_of_the_opening() {
    let book = caa("a", "issue", "ca1.example.net; accounturi=x");
    for (account, verdict) in [
        (&b"x"[..], Verdict::Permitted),
        (b"X", Verdict::NotGranted { record: 0, up: 0 }),
    ] {
        let mut session = Session::open(&name("a"), CA1, account, METHOD).unwrap();
        session.answer(&book).unwrap();
        ended(session, Some(verdict));
    }
}

/// The session as C programs see it, octet by octet.
#[test]
fn what_an_opened_session_keeps() {
    let session = open("*.a");
    let mut octets = [0; SESSION_OCTETS];
    octets[0] = 1;
    for (at, text) in [
        (32, &name("*.a")[..]),
        (296, CA1),
        (560, ACCOUNT),
        (824, METHOD),
    ] {
        octets[at] = text.len() as u8;
        octets[at + 8..][..text.len()].copy_from_slice(text);
    }
    assert_eq!(session.to_octets(), octets);
    assert_eq!(SESSION_OCTETS, 1_088);
    assert_eq!(Session::from_octets(&octets), session);
}

#[test]
fn octets_that_break_a_rule_are_an_ended_session() {
    ended(Session::from_octets(&[0; SESSION_OCTETS]), None);
    ended(Session::from_octets(&[0xFF; SESSION_OCTETS]), None);
    let good = open("a.b").to_octets();
    let with = |place: usize, octet: u8| {
        let mut octets = good;
        octets[place] = octet;
        Session::from_octets(&octets)
    };
    asks(&with(8, 1), "b");
    for (place, octet) in [
        (0, 0),      // a phase that is none
        (0, 3),      //
        (1, 1),      //
        (8, 2),      // as many labels taken off as there are
        (15, 1),     //
        (32, 4),     // a length that cuts the name off
        (33, 1),     // one beyond the room
        (41, b'-'),  // a name that is none
        (296, 0),    // no issuer name
        (304, b'.'), // one that is none
        (568, b';'), // an account that is none
        (824, 0),    // no method
        (832, b','), // one that is none
    ] {
        ended(with(place, octet), None);
    }
    // A verdict is told, if all that is kept is good.
    let mut octets = good;
    (octets[0], octets[8], octets[16], octets[24]) = (2, 1, 21, 7);
    let verdict = Verdict::NotGranted { record: 7, up: 1 };
    ended(Session::from_octets(&octets), Some(verdict));
    octets[25] = 4; // record 1,031, which no book has
    ended(Session::from_octets(&octets), None);
    octets[16] = 24; // a verdict that is none
    octets[25] = 0;
    ended(Session::from_octets(&octets), None);
}
