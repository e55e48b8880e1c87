//! The stored cases, and that running them would find a wrong desk out.

use std::collections::HashSet;
use std::fs;
use std::path::Path;

use compare::calls::{Convert, Desk, Judge, Lines, PermittedIssuers, Sessions};
use compare::cases::{self, run};
use compare::{
    permitted_issuers, read_line, read_request, write_line, Answer, Made, Permitted, Reply,
    Session, Word,
};

#[test]
fn every_stored_case_is_answered_rightly() {
    let report = run(Desk::OWN, &cases::stored().unwrap());
    assert!(report.wrong.is_empty(), "{report}");
}

#[test]
fn every_case_file_is_run() {
    let folder = Path::new(env!("CARGO_MANIFEST_DIR")).join("cases");
    let on_disk: HashSet<String> = fs::read_dir(folder)
        .unwrap()
        .map(|entry| entry.unwrap().file_name().into_string().unwrap())
        .filter(|file| file.ends_with(".txt"))
        .collect();
    let run: HashSet<String> = cases::FILES.map(|(file, _)| file.to_string()).into();
    assert_eq!(on_disk, run);
}

#[test]
fn no_two_cases_have_one_title() {
    let mut titles = HashSet::new();
    for case in cases::stored().unwrap() {
        assert!(titles.insert(case.title.clone()), "{}", case.title);
    }
}

fn wrong_cases(desk: Desk) -> usize {
    run(desk, &cases::stored().unwrap()).wrong.len()
}

#[test]
fn a_desk_with_one_verdict_is_found_out() {
    let judges: [Judge; 3] = [
        |_, _, _, _, _| Ok(Answer::Permitted),
        |_, _, _, _, _| {
            Ok(Answer::NotGranted {
                name: 0,
                record: 0,
                up: 0,
            })
        },
        |_, _, _, _, _| Err(Word::number(99)),
    ];
    for judge in judges {
        assert!(wrong_cases(Desk { judge, ..Desk::OWN }) > 50);
    }
}

/// One more or fewer than there are, none for all, and counted from the star.
#[test]
fn a_desk_that_counts_labels_wrongly_is_found_out() {
    let judges: [(Judge, usize); 4] = [
        (
            |request, issuer, account, method, book| {
                let answer = compare::judge(request, issuer, account, method, book);
                Ok(answer.with(|[name, record, up]| [name, record, up + 1]))
            },
            200,
        ),
        (
            |request, issuer, account, method, book| {
                let answer = compare::judge(request, issuer, account, method, book);
                Ok(answer.with(|[name, record, up]| [name, record, up.saturating_sub(1)]))
            },
            50,
        ),
        (
            |request, issuer, account, method, book| {
                let answer = compare::judge(request, issuer, account, method, book);
                Ok(answer.with(|[name, record, _]| [name, record, 0]))
            },
            50,
        ),
        (
            |request, issuer, account, method, book| {
                let answer = compare::judge(request, issuer, account, method, book);
                let names = read_request(request).unwrap_or_default();
                Ok(answer.with(|[name, record, up]| {
                    let star = usize::from(names[name].wildcard);
                    [name, record, up + star]
                }))
            },
            20,
        ),
    ];
    for (number, (judge, at_least)) in judges.into_iter().enumerate() {
        let wrong = wrong_cases(Desk { judge, ..Desk::OWN });
        assert!(wrong >= at_least, "judge {number}: {wrong}");
    }
}

fn wrong_lists(permitted_issuers: PermittedIssuers) -> usize {
    wrong_cases(Desk {
        permitted_issuers,
        ..Desk::OWN
    })
}

#[test]
fn a_list_with_a_made_up_count_is_found_out() {
    let wrong = wrong_lists(|request, account, method, book, buffer| {
        Ok(
            match permitted_issuers(request, account, method, book, buffer) {
                Permitted::List { count, octets } => Permitted::List {
                    count: count + 1,
                    octets,
                },
                other => other,
            },
        )
    });
    assert!(wrong > 50);
}

#[test]
fn a_touched_octet_is_found_out() {
    let touches_the_end = wrong_lists(|request, account, method, book, buffer| {
        let answer = permitted_issuers(request, account, method, book, buffer);
        if let Some(last) = buffer.last_mut() {
            *last = 0;
        }
        Ok(answer)
    });
    assert!(touches_the_end > 50);
    let writes_nothing = wrong_lists(|request, account, method, book, buffer| {
        let mut copy = buffer.to_vec();
        Ok(permitted_issuers(request, account, method, book, &mut copy))
    });
    assert!(writes_nothing > 50);
}

/// One account and one method for all, whoever asks.
#[test]
fn a_desk_that_does_not_look_at_the_asker_is_found_out() {
    let judge: Judge =
        |request, issuer, _, method, book| Ok(compare::judge(request, issuer, b"u", method, book));
    assert!(wrong_cases(Desk { judge, ..Desk::OWN }) > 10);
    let judge: Judge = |request, issuer, account, _, book| {
        Ok(compare::judge(request, issuer, account, b"m", book))
    };
    assert!(wrong_cases(Desk { judge, ..Desk::OWN }) > 10);
    let no_account = wrong_lists(|request, _, method, book, buffer| {
        Ok(permitted_issuers(request, b"u", method, book, buffer))
    });
    assert!(no_account > 10);
    let no_method = wrong_lists(|request, account, _, book, buffer| {
        Ok(permitted_issuers(request, account, b"m", book, buffer))
    });
    assert!(no_method > 10);
}

#[test]
fn wrong_sessions_are_found_out() {
    const OWN: Sessions = Desk::OWN.sessions;
    let wrong_ones: [(Sessions, usize); 7] = [
        // A failed lookup as an empty answer.
        (
            Sessions {
                fail: |session| Ok(session.answer(b"")),
                ..OWN
            },
            3,
        ),
        // The whole name whenever one is asked for.
        (
            Sessions {
                state: |session| match session.state() {
                    Reply::Asks { .. } => Ok(Reply::Asks {
                        length: session.name.length,
                        offset: 0,
                    }),
                    reply => Ok(reply),
                },
                ..OWN
            },
            5,
        ),
        // A verdict of whatever is kept.
        (
            Sessions {
                state: |session| match session.state() {
                    Reply::NoVerdict => Ok(Reply::Judged(Answer::Permitted)),
                    reply => Ok(reply),
                },
                ..OWN
            },
            20,
        ),
        // A refused opening that leaves the session alone.
        (
            Sessions {
                open: |session, request, issuer, account, method| {
                    let before = *session;
                    let reply = session.open(request, issuer, account, method);
                    if reply.is_refusal() {
                        *session = before;
                    }
                    Ok(reply)
                },
                ..OWN
            },
            15,
        ),
        // An opening that leaves what stood behind the texts.
        (
            Sessions {
                open: |session, request, issuer, account, method| {
                    let before = *session;
                    let reply = session.open(request, issuer, account, method);
                    session.account.octets[255] = before.account.octets[255];
                    Ok(reply)
                },
                ..OWN
            },
            50,
        ),
        // Each answer ends the session.
        (
            Sessions {
                answer: |session, book| {
                    let reply = session.answer(book);
                    session.phase = 2;
                    Ok(reply)
                },
                ..OWN
            },
            10,
        ),
        // Nothing is ever kept.
        (
            Sessions {
                answer: |session, book| {
                    let mut copy: Session = *session;
                    Ok(copy.answer(book))
                },
                ..OWN
            },
            30,
        ),
    ];
    for (number, (sessions, at_least)) in wrong_ones.into_iter().enumerate() {
        let wrong = wrong_cases(Desk {
            sessions,
            ..Desk::OWN
        });
        assert!(wrong >= at_least, "session {number}: {wrong}");
    }
}

#[test]
fn wrong_lines_are_found_out() {
    let nothing: Convert = |_, _| Ok(Made::Octets(0));
    let small_tags: Convert = |line, buffer| {
        let made = read_line(line, buffer);
        if let Made::Octets(octets) = made {
            buffer[..octets].make_ascii_lowercase();
        }
        Ok(made)
    };
    let clears_the_rest: Convert = |data, buffer| {
        let made = write_line(data, buffer);
        if let Made::Octets(octets) = made {
            buffer[octets..].fill(0);
        }
        Ok(made)
    };
    let own = Desk::OWN.lines;
    for (lines, at_least) in [
        (
            Lines {
                write: nothing,
                ..own
            },
            10,
        ),
        (
            Lines {
                read: nothing,
                ..own
            },
            20,
        ),
        (
            Lines {
                read: small_tags,
                ..own
            },
            3,
        ),
        (
            Lines {
                write: clears_the_rest,
                ..own
            },
            10,
        ),
    ] {
        assert!(wrong_cases(Desk { lines, ..Desk::OWN }) >= at_least);
    }
}
