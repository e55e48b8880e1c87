//! Sessions that are wrong in one thing.

use std::cell::Cell;

use compare::against::Other;
use compare::book::{read_raw_record, RecordData};
use compare::calls::{Desk, Sessions};
use compare::name::read_name;
use compare::request::read_requested_name;
use compare::session::{Session, Text, ASKING, DECIDED};
use compare::{judge, read_book, Answer, Refusal, Reply, Word};

use super::is_found_at_random;

const OWN: Sessions = Desk::OWN.sessions;
const ENDED: Reply = Reply::refused(Refusal::SessionEnded);

fn are_found_out(wrong_ones: &[(&str, Sessions)]) {
    for (what, sessions) in wrong_ones {
        let other = Other {
            sessions: Some(*sessions),
            ..Other::NOTHING
        };
        assert!(is_found_at_random(other), "{what}");
    }
}

/// The session asks for a name.
fn asks(session: &Session) -> bool {
    matches!(session.state(), Reply::Asks { .. })
}

/// Ends the session with a verdict on its one name.
fn end(session: &mut Session, verdict: Answer) -> Result<Reply, Word> {
    session.phase = DECIDED;
    (session.verdict, session.rr) = match verdict {
        Answer::UnknownCritical { record, .. } => (20, record),
        Answer::NotGranted { record, .. } => (21, record),
        Answer::TooManyAliases { record, .. } => (22, record),
        Answer::Permitted | Answer::Refused(_) => (0, 0),
    };
    Ok(Reply::Judged(verdict))
}

/// The session with its kept texts, by a change of one, for the time of a call.
fn as_if(
    session: &mut Session,
    change: impl FnOnce(&mut Session),
    call: impl FnOnce(&mut Session) -> Reply,
) -> Result<Reply, Word> {
    let mut other = *session;
    change(&mut other);
    let reply = call(&mut other);
    (session.phase, session.up) = (other.phase, other.up);
    (session.verdict, session.rr) = (other.verdict, other.rr);
    Ok(reply)
}

fn text(octets: &[u8]) -> Text {
    Text::of(octets).unwrap()
}

#[test]
fn without_a_mistake_nothing_differs() {
    let other = Other {
        sessions: Some(OWN),
        ..Other::NOTHING
    };
    assert!(!is_found_at_random(other));
}

#[test]
fn answers_taken_wrongly_are_found_out() {
    are_found_out(&[
        (
            "records of names above count",
            Sessions {
                answer: |session, book| {
                    let state = session.state();
                    let Some(asked) = session.asked(state).map(<[u8]>::to_vec) else {
                        return Ok(session.answer(book));
                    };
                    let star: &[u8] = match session.name.octets[1] {
                        b'*' => b"\x01*",
                        _ => b"",
                    };
                    let [issuer, account, method] =
                        [&session.issuer, &session.account, &session.method]
                            .map(|text| text.kept().unwrap().to_vec());
                    let request = [star, &asked].concat();
                    match judge(&request, &issuer, &account, &method, book) {
                        Answer::Permitted | Answer::Refused(_) => Ok(session.answer(book)),
                        verdict => end(session, verdict.with(|[n, r, up]| [n, r, up + session.up])),
                    }
                },
                ..OWN
            },
        ),
        (
            "records of all owners count",
            Sessions {
                answer: |session, book| {
                    let has_say = |session: &Session| {
                        let mut copy = *session;
                        let reply = copy.answer(book);
                        matches!(reply, Reply::Asks { .. } | Reply::Judged(Answer::Permitted))
                    };
                    let forbids = |record: &compare::book::Record| match record.data {
                        RecordData::Caa(property) => {
                            property.is_critical() && property.has_tag("tbs")
                        }
                        _ => false,
                    };
                    if asks(session) && has_say(session) {
                        let book = read_book(book).unwrap();
                        if let Some(record) = book.iter().position(forbids) {
                            let (name, up) = (0, session.up);
                            return end(session, Answer::UnknownCritical { name, record, up });
                        }
                    }
                    Ok(session.answer(book))
                },
                ..OWN
            },
        ),
        (
            "aliases are not followed",
            Sessions {
                answer: |session, book| {
                    if read_book(book).is_err() {
                        return Ok(session.answer(book));
                    }
                    let mut without = Vec::new();
                    let mut rest = book;
                    while let Some((record, behind)) = read_raw_record(rest) {
                        let owner = record.owner.wire().len();
                        let mut octets = rest[..rest.len() - behind.len()].to_vec();
                        if record.is_alias() {
                            octets[owner + 1] = 99;
                        }
                        without.extend(octets);
                        rest = behind;
                    }
                    Ok(session.answer(&without))
                },
                ..OWN
            },
        ),
        (
            "a refused book moves on",
            Sessions {
                answer: |session, book| {
                    let before = *session;
                    let reply = session.answer(book);
                    if reply.is_refusal() && reply != ENDED {
                        *session = before;
                        session.answer(b"");
                    }
                    Ok(reply)
                },
                ..OWN
            },
        ),
        (
            "a refused book is an empty one",
            Sessions {
                answer: |session, book| match session.answer(book) {
                    ENDED => Ok(ENDED),
                    reply if reply.is_refusal() => Ok(session.answer(b"")),
                    reply => Ok(reply),
                },
                ..OWN
            },
        ),
        (
            "a conflict alone moves on",
            Sessions {
                answer: |session, book| {
                    let reply = session.answer(book);
                    if let Reply::Judged(Answer::Refused(Refusal::AliasConflict { .. })) = reply {
                        session.answer(b"");
                    }
                    Ok(reply)
                },
                ..OWN
            },
        ),
        (
            "a refused book ends the session",
            Sessions {
                answer: |session, book| {
                    let reply = session.answer(book);
                    if reply.is_refusal() && reply != ENDED {
                        *session = Session::ENDED;
                    }
                    Ok(reply)
                },
                ..OWN
            },
        ),
        (
            "a refused book counts as failed",
            Sessions {
                answer: |session, book| {
                    let reply = session.answer(book);
                    if reply.is_refusal() && reply != ENDED {
                        session.fail();
                    }
                    Ok(reply)
                },
                ..OWN
            },
        ),
        (
            "the book is checked before 14",
            Sessions {
                answer: |session, book| match read_book(book) {
                    Err(refusal) => Ok(Reply::refused(refusal)),
                    Ok(_) => Ok(session.answer(book)),
                },
                ..OWN
            },
        ),
        (
            "the book's length is checked before 14",
            Sessions {
                answer: |session, book| match read_book(book) {
                    Err(Refusal::BookTooLong) => Ok(Reply::refused(Refusal::BookTooLong)),
                    _ => Ok(session.answer(book)),
                },
                ..OWN
            },
        ),
        (
            "a decided session asks no more, and tells its verdict again",
            Sessions {
                answer: |session, book| match session.answer(book) {
                    ENDED => Ok(session.state()),
                    reply => Ok(reply),
                },
                ..OWN
            },
        ),
        (
            "an answer to an ended session clears it",
            Sessions {
                answer: |session, book| {
                    let reply = session.answer(book);
                    if reply == ENDED {
                        *session = Session::ENDED;
                    }
                    Ok(reply)
                },
                ..OWN
            },
        ),
        (
            "14 has the place 1",
            Sessions {
                answer: |session, book| match session.answer(book) {
                    ENDED => Err(Word::with(14, [1, 0, 0])),
                    reply => Ok(reply),
                },
                ..OWN
            },
        ),
    ]);
}

/// The aliases from the asked name on, as far as a ninth: the number and the target of each.
fn chain(session: &Session, book: &[u8]) -> Vec<(usize, Vec<u8>)> {
    let (Some(asked), Ok(records)) = (session.asked(session.state()), read_book(book)) else {
        return Vec::new();
    };
    let mut chain: Vec<(usize, Vec<u8>)> = Vec::new();
    while chain.len() < 9 {
        let at = chain.last().map_or(asked, |(_, target)| target);
        let (at, _) = read_name(at).unwrap();
        let alias = records
            .iter()
            .position(|record| matches!(record.data, RecordData::Alias(_)) && record.owner.is(at));
        match alias.map(|number| (number, &records[number].data)) {
            Some((number, RecordData::Alias(target))) => {
                chain.push((number, target.wire().to_vec()));
            }
            _ => break,
        }
    }
    chain
}

/// The book with another target in one of its aliases.
fn with_target(book: &[u8], number: usize, target: &[u8]) -> Vec<u8> {
    let mut octets = Vec::new();
    let (mut rest, mut at) = (book, 0);
    while let Some((record, behind)) = read_raw_record(rest) {
        let whole = &rest[..rest.len() - behind.len()];
        if at == number {
            octets.extend(&whole[..record.owner.wire().len() + 8]);
            octets.extend([0, target.len() as u8]);
            octets.extend(target);
        } else {
            octets.extend(whole);
        }
        (rest, at) = (behind, at + 1);
    }
    octets
}

thread_local! {
    /// Aliases that were followed since the opening.
    static FOLLOWED: Cell<usize> = const { Cell::new(0) };
}

#[test]
fn aliases_taken_wrongly_are_found_out() {
    are_found_out(&[
        (
            "a ninth alias is followed",
            Sessions {
                answer: |session, book| match &chain(session, book)[..] {
                    chain @ [(first, _), (_, second), ..] if chain.len() == 9 => {
                        Ok(session.answer(&with_target(book, *first, second)))
                    }
                    _ => Ok(session.answer(book)),
                },
                ..OWN
            },
        ),
        (
            "an eighth alias is not followed",
            Sessions {
                answer: |session, book| match chain(session, book)[..] {
                    ref chain @ [(record, _), ..] if chain.len() == 8 => {
                        let (name, up) = (0, session.up);
                        end(session, Answer::TooManyAliases { name, record, up })
                    }
                    _ => Ok(session.answer(book)),
                },
                ..OWN
            },
        ),
        (
            "aliases are counted over all answers",
            Sessions {
                open: |session, request, issuer, account, method| {
                    FOLLOWED.set(0);
                    Ok(session.open(request, issuer, account, method))
                },
                answer: |session, book| {
                    let aliases = chain(session, book);
                    FOLLOWED.set(FOLLOWED.get() + aliases.len());
                    match aliases[..] {
                        [(record, _), ..] if FOLLOWED.get() > 8 => {
                            let (name, up) = (0, session.up);
                            end(session, Answer::TooManyAliases { name, record, up })
                        }
                        _ => Ok(session.answer(book)),
                    }
                },
                ..OWN
            },
        ),
        (
            "the climb goes on from the target",
            Sessions {
                answer: |session, book| {
                    let before = *session;
                    let reply = session.answer(book);
                    let (Reply::Asks { .. }, Some((_, target))) =
                        (reply, chain(&before, book).pop())
                    else {
                        return Ok(reply);
                    };
                    let [issuer, account, method] =
                        [&before.issuer, &before.account, &before.method]
                            .map(|text| text.kept().unwrap());
                    match judge(&target, issuer, account, method, book) {
                        Answer::Permitted | Answer::Refused(_) => Ok(reply),
                        verdict => end(session, verdict),
                    }
                },
                ..OWN
            },
        ),
        (
            "aliases that lead to no set are a failed lookup",
            Sessions {
                answer: |session, book| {
                    let before = *session;
                    match session.answer(book) {
                        Reply::Asks { .. } if !chain(&before, book).is_empty() => {
                            *session = before;
                            Ok(session.fail())
                        }
                        reply => Ok(reply),
                    }
                },
                ..OWN
            },
        ),
        (
            "too many aliases are an empty answer",
            Sessions {
                answer: |session, book| {
                    let before = *session;
                    match session.answer(book) {
                        Reply::Judged(Answer::TooManyAliases { .. }) => {
                            *session = before;
                            Ok(session.answer(b""))
                        }
                        reply => Ok(reply),
                    }
                },
                ..OWN
            },
        ),
        (
            "the first alias of the answer is told, not that of the name",
            Sessions {
                answer: |session, book| match session.answer(book) {
                    Reply::Judged(Answer::TooManyAliases { name, up, .. }) => {
                        let records = read_book(book).unwrap();
                        let is_alias = |record: &compare::book::Record| {
                            matches!(record.data, RecordData::Alias(_))
                        };
                        let record = records.iter().position(is_alias).unwrap();
                        end(session, Answer::TooManyAliases { name, record, up })
                    }
                    reply => Ok(reply),
                },
                ..OWN
            },
        ),
        (
            "the labels of the target are told",
            Sessions {
                answer: |session, book| {
                    let target = chain(session, book).pop();
                    match (session.answer(book), target) {
                        (reply @ Reply::Judged(verdict), Some((_, target)))
                            if !reply.is_refusal() =>
                        {
                            let (target, _) = read_name(&target).unwrap();
                            let labels = target.labels().count();
                            Ok(Reply::Judged(
                                verdict.with(|[name, record, _]| [name, record, labels]),
                            ))
                        }
                        (reply, _) => Ok(reply),
                    }
                },
                ..OWN
            },
        ),
    ]);
}

#[test]
fn failures_taken_wrongly_are_found_out() {
    are_found_out(&[
        (
            "failed is an empty book",
            Sessions {
                fail: |session| Ok(session.answer(b"")),
                ..OWN
            },
        ),
        (
            "failed permits",
            Sessions {
                fail: |session| match session.fail() {
                    Reply::LookupFailed => end(session, Answer::Permitted),
                    reply => Ok(reply),
                },
                ..OWN
            },
        ),
        (
            "failed asks again",
            Sessions {
                fail: |session| match session.fail() {
                    Reply::LookupFailed => {
                        session.phase = ASKING;
                        Ok(session.state())
                    }
                    reply => Ok(reply),
                },
                ..OWN
            },
        ),
        (
            "failed tells labels",
            Sessions {
                fail: |session| match session.fail() {
                    Reply::LookupFailed if session.up > 0 => {
                        Err(Word::with(23, [0, 0, session.up]))
                    }
                    reply => Ok(reply),
                },
                ..OWN
            },
        ),
        (
            "failed sets the place back",
            Sessions {
                fail: |session| {
                    let reply = session.fail();
                    if reply == Reply::LookupFailed {
                        session.up = 0;
                    }
                    Ok(reply)
                },
                ..OWN
            },
        ),
        (
            "an ended session fails",
            Sessions {
                fail: |session| match session.phase {
                    DECIDED => {
                        session.phase = ASKING;
                        let reply = session.fail();
                        session.phase = DECIDED;
                        Ok(reply)
                    }
                    _ => Ok(session.fail()),
                },
                ..OWN
            },
        ),
        (
            "failing twice is no refusal",
            Sessions {
                fail: |session| match session.state() {
                    Reply::LookupFailed => Ok(Reply::LookupFailed),
                    _ => Ok(session.fail()),
                },
                ..OWN
            },
        ),
    ]);
}

#[test]
fn wrong_questions_are_found_out() {
    are_found_out(&[
        (
            "the root is asked for",
            Sessions {
                answer: |session, book| {
                    let could_climb = asks(session) && read_book(book).is_ok();
                    let before = *session;
                    let reply = session.answer(book);
                    // At the top label, and nothing found.
                    let top = before.state()
                        == Reply::Asks {
                            length: 3,
                            offset: before.name.length.wrapping_sub(3),
                        };
                    let empty = book.is_empty();
                    if could_climb && top && empty {
                        *session = before;
                        session.up += 1;
                        return Ok(Reply::Asks {
                            length: 1,
                            offset: session.name.length - 1,
                        });
                    }
                    Ok(reply)
                },
                ..OWN
            },
        ),
        (
            "the climb ends below the top label",
            Sessions {
                answer: |session, book| match session.answer(book) {
                    Reply::Asks { length: 3, .. } => end(session, Answer::Permitted),
                    reply => Ok(reply),
                },
                ..OWN
            },
        ),
        (
            "the same name is asked for again",
            Sessions {
                answer: |session, book| {
                    let before = *session;
                    match session.answer(book) {
                        Reply::Asks { .. } => {
                            *session = before;
                            Ok(session.state())
                        }
                        reply => Ok(reply),
                    }
                },
                ..OWN
            },
        ),
        (
            "two labels are taken off at once",
            Sessions {
                answer: |session, book| match session.answer(book) {
                    Reply::Asks { .. } => {
                        let before = *session;
                        session.up += 1;
                        match session.state() {
                            asks @ Reply::Asks { .. } => Ok(asks),
                            _ => {
                                *session = before;
                                Ok(session.state())
                            }
                        }
                    }
                    reply => Ok(reply),
                },
                ..OWN
            },
        ),
        (
            "the star is kept in the name asked for",
            Sessions {
                open: |session, request, issuer, account, method| match session
                    .open(request, issuer, account, method)
                {
                    Reply::Asks { length, offset: 2 } if request.starts_with(b"\x01*") => {
                        Ok(Reply::Asks {
                            length: length + 2,
                            offset: 0,
                        })
                    }
                    reply => Ok(reply),
                },
                ..OWN
            },
        ),
        (
            "the offset is that in X",
            Sessions {
                state: |session| match session.state() {
                    Reply::Asks { length, offset } if session.name.octets[1] == b'*' => {
                        Ok(Reply::Asks {
                            length,
                            offset: offset - 2,
                        })
                    }
                    reply => Ok(reply),
                },
                ..OWN
            },
        ),
        (
            "the closing zero is not counted",
            Sessions {
                state: |session| match session.state() {
                    Reply::Asks { length, offset } => Ok(Reply::Asks {
                        length: length - 1,
                        offset,
                    }),
                    reply => Ok(reply),
                },
                ..OWN
            },
        ),
        (
            "the name is kept in lower case",
            Sessions {
                open: |session, request, issuer, account, method| {
                    let reply = session.open(request, issuer, account, method);
                    session.name.octets.make_ascii_lowercase();
                    Ok(reply)
                },
                ..OWN
            },
        ),
        (
            "the star is not kept",
            Sessions {
                open: |session, request, issuer, account, method| {
                    let reply = session.open(request, issuer, account, method);
                    match reply {
                        Reply::Asks { offset: 2, .. } if request.starts_with(b"\x01*") => {
                            session.name = text(&request[2..]);
                            Ok(session.state())
                        }
                        _ => Ok(reply),
                    }
                },
                ..OWN
            },
        ),
    ]);
}

thread_local! {
    /// Records of the answers before, since the opening.
    static BEFORE: Cell<usize> = const { Cell::new(0) };
}

#[test]
fn wrong_verdicts_are_found_out() {
    are_found_out(&[
        (
            "always 0",
            Sessions {
                answer: |session, book| match session.answer(book) {
                    Reply::Judged(Answer::Refused(refusal)) => Ok(Reply::refused(refusal)),
                    Reply::Judged(_) => end(session, Answer::Permitted),
                    reply => Ok(reply),
                },
                ..OWN
            },
        ),
        (
            "the star is forgotten",
            Sessions {
                answer: |session, book| {
                    let without = |session: &mut Session| {
                        let kept = session.name.kept().unwrap_or_default();
                        if kept.starts_with(b"\x01*") && asks(session) {
                            session.name = text(&kept[2..]);
                        }
                    };
                    let star = asks(session) && session.name.octets[1] == b'*';
                    let reply = as_if(session, without, |other| other.answer(book));
                    match reply {
                        Ok(Reply::Asks { length, offset }) if star => Ok(Reply::Asks {
                            length,
                            offset: offset + 2,
                        }),
                        reply => reply,
                    }
                },
                ..OWN
            },
        ),
        (
            "records are numbered over all answers",
            Sessions {
                open: |session, request, issuer, account, method| {
                    BEFORE.set(0);
                    Ok(session.open(request, issuer, account, method))
                },
                answer: |session, book| {
                    let before = BEFORE.get();
                    let reply = session.answer(book);
                    if let Ok(records) = read_book(book) {
                        BEFORE.set(before + records.len());
                    }
                    match reply {
                        Reply::Judged(verdict) if !reply.is_refusal() => end(
                            session,
                            verdict.with(|[name, record, up]| [name, record + before, up]),
                        ),
                        _ => Ok(reply),
                    }
                },
                ..OWN
            },
        ),
        (
            "the record's offset in the answer is told",
            Sessions {
                answer: |session, book| match session.answer(book) {
                    Reply::Judged(verdict) if !Reply::Judged(verdict).is_refusal() => {
                        let offset = |record| {
                            let mut rest = book;
                            for _ in 0..record {
                                rest = read_raw_record(rest).unwrap().1;
                            }
                            book.len() - rest.len()
                        };
                        end(
                            session,
                            verdict.with(|[name, record, up]| [name, offset(record), up]),
                        )
                    }
                    reply => Ok(reply),
                },
                ..OWN
            },
        ),
        (
            "labels taken off are not told",
            Sessions {
                answer: |session, book| match session.answer(book) {
                    Reply::Judged(verdict) => Ok(Reply::Judged(
                        verdict.with(|[name, record, _]| [name, record, 0]),
                    )),
                    reply => Ok(reply),
                },
                ..OWN
            },
        ),
        (
            "state tells other labels",
            Sessions {
                state: |session| match session.state() {
                    Reply::Judged(verdict) => Ok(Reply::Judged(
                        verdict.with(|[name, record, _]| [name, record, 0]),
                    )),
                    reply => Ok(reply),
                },
                ..OWN
            },
        ),
        (
            "a verdict sets the place back",
            Sessions {
                answer: |session, book| {
                    let reply = session.answer(book);
                    if session.phase == DECIDED && reply != ENDED {
                        session.up = 0;
                    }
                    Ok(reply)
                },
                ..OWN
            },
        ),
        (
            "verdict 0 keeps the record that was there",
            Sessions {
                answer: |session, book| {
                    let before = session.rr;
                    let reply = session.answer(book);
                    if reply == Reply::Judged(Answer::Permitted) {
                        session.rr = before;
                    }
                    Ok(reply)
                },
                ..OWN
            },
        ),
        (
            "the issuer of a later call decides",
            Sessions {
                answer: |session, book| {
                    if !asks(session) {
                        return Ok(session.answer(book));
                    }
                    as_if(
                        session,
                        |session| session.issuer = text(b"x"),
                        |other| other.answer(book),
                    )
                },
                ..OWN
            },
        ),
        (
            "one account for all",
            Sessions {
                answer: |session, book| {
                    if !asks(session) {
                        return Ok(session.answer(book));
                    }
                    as_if(
                        session,
                        |session| session.account = text(b"u"),
                        |other| other.answer(book),
                    )
                },
                ..OWN
            },
        ),
        (
            "one method for all",
            Sessions {
                answer: |session, book| {
                    if !asks(session) {
                        return Ok(session.answer(book));
                    }
                    as_if(
                        session,
                        |session| session.method = text(b"m"),
                        |other| other.answer(book),
                    )
                },
                ..OWN
            },
        ),
    ]);
}

#[test]
fn wrong_openings_are_found_out() {
    are_found_out(&[
        (
            "a second name is accepted",
            Sessions {
                open: |session, request, issuer, account, method| {
                    let first = match read_requested_name(request) {
                        Some((_, behind)) if read_requested_name(behind).is_some() => {
                            &request[..request.len() - behind.len()]
                        }
                        _ => request,
                    };
                    Ok(session.open(first, issuer, account, method))
                },
                ..OWN
            },
        ),
        (
            "octets behind a name are accepted",
            Sessions {
                open: |session, request, issuer, account, method| {
                    let first = match read_requested_name(request) {
                        Some((_, behind)) if read_requested_name(behind).is_none() => {
                            &request[..request.len() - behind.len()]
                        }
                        _ => request,
                    };
                    Ok(session.open(first, issuer, account, method))
                },
                ..OWN
            },
        ),
        (
            "octets behind a name are 2 at 0",
            Sessions {
                open: |session, request, issuer, account, method| match session
                    .open(request, issuer, account, method)
                {
                    Reply::Judged(Answer::Refused(Refusal::BadRequestedName { .. })) => {
                        Ok(Reply::refused(Refusal::BadRequestedName { name: 0 }))
                    }
                    reply => Ok(reply),
                },
                ..OWN
            },
        ),
        (
            "the whole request is read first",
            Sessions {
                open: |session, request, issuer, account, method| {
                    let reply = session.open(request, issuer, account, method);
                    match compare::read_request(request) {
                        Err(refusal) => Ok(Reply::refused(refusal)),
                        Ok(_) => Ok(reply),
                    }
                },
                ..OWN
            },
        ),
        (
            "long requests are read",
            Sessions {
                open: |session, request, issuer, account, method| match session
                    .open(request, issuer, account, method)
                {
                    Reply::Judged(Answer::Refused(Refusal::RequestTooLong)) => {
                        Ok(Reply::refused(Refusal::BadRequestedName { name: 1 }))
                    }
                    reply => Ok(reply),
                },
                ..OWN
            },
        ),
        (
            "a refused opening leaves the memory alone",
            Sessions {
                open: |session, request, issuer, account, method| {
                    let before = *session;
                    let reply = session.open(request, issuer, account, method);
                    if reply.is_refusal() {
                        *session = before;
                    }
                    Ok(reply)
                },
                ..OWN
            },
        ),
        (
            "a refused opening writes the phase alone",
            Sessions {
                open: |session, request, issuer, account, method| {
                    let before = *session;
                    let reply = session.open(request, issuer, account, method);
                    if reply.is_refusal() {
                        *session = Session { phase: 0, ..before };
                    }
                    Ok(reply)
                },
                ..OWN
            },
        ),
        (
            "octets behind the texts stay",
            Sessions {
                open: |session, request, issuer, account, method| {
                    let before = *session;
                    let reply = session.open(request, issuer, account, method);
                    if !reply.is_refusal() {
                        let from = session.method.length;
                        session.method.octets[from..]
                            .copy_from_slice(&before.method.octets[from..]);
                    }
                    Ok(reply)
                },
                ..OWN
            },
        ),
        (
            "the numbers stay",
            Sessions {
                open: |session, request, issuer, account, method| {
                    let before = *session;
                    let reply = session.open(request, issuer, account, method);
                    if !reply.is_refusal() {
                        session.rr = before.rr;
                    }
                    Ok(reply)
                },
                ..OWN
            },
        ),
        (
            "account and method are not checked",
            Sessions {
                open: |session, request, issuer, account, method| match session
                    .open(request, issuer, account, method)
                {
                    Reply::Judged(Answer::Refused(Refusal::BadApplicant)) => {
                        Ok(session.open(request, issuer, b"a", b"m"))
                    }
                    reply => Ok(reply),
                },
                ..OWN
            },
        ),
        (
            "account and method are checked before the issuer name",
            Sessions {
                open: |session, request, issuer, account, method| match session
                    .open(request, b"x", account, method)
                {
                    Reply::Judged(Answer::Refused(Refusal::BadApplicant)) => {
                        Ok(Reply::refused(Refusal::BadApplicant))
                    }
                    _ => Ok(session.open(request, issuer, account, method)),
                },
                ..OWN
            },
        ),
        (
            "account and method are kept in each other's place",
            Sessions {
                open: |session, request, issuer, account, method| {
                    let reply = session.open(request, issuer, account, method);
                    (session.account, session.method) = (session.method, session.account);
                    Ok(reply)
                },
                ..OWN
            },
        ),
    ]);
}

/// The session as a program takes it that lets one broken thing pass.
fn mended(session: &Session, mend: fn(&mut Session)) -> Session {
    let mut other = *session;
    if session.state() == Reply::NoVerdict {
        mend(&mut other);
    }
    other
}

macro_rules! lets_pass {
    ($mend:expr) => {
        Sessions {
            answer: |session, book| {
                let mend: fn(&mut Session) = $mend;
                let other = mended(session, mend);
                as_if(session, |s| *s = other, |other| other.answer(book))
            },
            fail: |session| {
                let mend: fn(&mut Session) = $mend;
                let other = mended(session, mend);
                as_if(session, |s| *s = other, |other| other.fail())
            },
            state: |session| {
                let mend: fn(&mut Session) = $mend;
                Ok(mended(session, mend).state())
            },
            ..OWN
        }
    };
}

#[test]
fn sessions_that_are_not_checked_are_found_out() {
    are_found_out(&[
        (
            "zeros are verdict 0",
            Sessions {
                state: |session| match session.state() {
                    Reply::NoVerdict if session.phase != ASKING && session.verdict == 0 => {
                        Ok(Reply::Judged(Answer::Permitted))
                    }
                    reply => Ok(reply),
                },
                ..OWN
            },
        ),
        (
            "a verdict is told whatever is kept",
            Sessions {
                state: |session| match session.state() {
                    Reply::NoVerdict if session.phase == DECIDED && session.verdict == 0 => {
                        Ok(Reply::Judged(Answer::Permitted))
                    }
                    reply => Ok(reply),
                },
                ..OWN
            },
        ),
        (
            "a failure is told whatever is kept",
            Sessions {
                state: |session| match session.state() {
                    Reply::NoVerdict if session.phase == DECIDED && session.verdict == 23 => {
                        Ok(Reply::LookupFailed)
                    }
                    reply => Ok(reply),
                },
                ..OWN
            },
        ),
        (
            "a broken account asks on",
            lets_pass!(|session| session.account = text(b"a")),
        ),
        (
            "a broken method asks on",
            lets_pass!(|session| session.method = text(b"m")),
        ),
        (
            "a broken issuer name asks on",
            lets_pass!(|session| session.issuer = text(b"x")),
        ),
        (
            "the place is not checked",
            lets_pass!(|session| session.up = 0),
        ),
        (
            "any other phase asks",
            lets_pass!(|session| session.phase = match session.phase {
                DECIDED => DECIDED,
                _ => ASKING,
            }),
        ),
        (
            "the phase is one octet",
            lets_pass!(|session| session.phase %= 256),
        ),
        (
            "the place is one octet",
            lets_pass!(|session| session.up %= 256),
        ),
        (
            "the verdict is one octet",
            lets_pass!(|session| session.verdict %= 256),
        ),
        (
            "the record is two octets",
            lets_pass!(|session| session.rr %= 65_536),
        ),
        (
            "records of 1,024 are told",
            Sessions {
                state: |session| {
                    let mut other = *session;
                    if session.rr == 1_024 {
                        other.rr = 0;
                    }
                    match other.state() {
                        Reply::Judged(verdict) if session.rr == 1_024 => Ok(Reply::Judged(
                            verdict.with(|[name, _, up]| [name, 1_024, up]),
                        )),
                        reply => Ok(reply),
                    }
                },
                ..OWN
            },
        ),
        (
            "an unknown verdict is 0",
            lets_pass!(
                |session| if ![0, 20, 21, 22, 23].contains(&session.verdict) {
                    session.verdict = 0;
                }
            ),
        ),
        (
            "lengths beyond the room are cut to it",
            lets_pass!(
                |session| for text in [&mut session.account, &mut session.method] {
                    if text.length > 256 {
                        text.length = 255;
                    }
                }
            ),
        ),
        (
            "a kept length is one octet",
            lets_pass!(|session| session.name.length %= 256),
        ),
        (
            "octets behind the kept name are accepted",
            lets_pass!(|session| {
                if let Some((_, behind)) = session.name.kept().and_then(read_requested_name) {
                    session.name.length -= behind.len();
                }
            }),
        ),
        (
            "a record is checked beside verdict 0 too",
            Sessions {
                state: |session| match session.state() {
                    Reply::Judged(Answer::Permitted) if session.rr >= 1_024 => Ok(Reply::NoVerdict),
                    reply => Ok(reply),
                },
                ..OWN
            },
        ),
        (
            "a verdict is checked while the session asks",
            Sessions {
                state: |session| match session.state() {
                    Reply::Asks { .. } if session.verdict != 0 => Ok(Reply::NoVerdict),
                    reply => Ok(reply),
                },
                ..OWN
            },
        ),
    ]);
}
