//! Answers beside those of the whole case: anyone, nobody, unknown critical.

mod common;

use common::{caa, data, judge, name, permitted_issuers, record, request, whole_case_book};
use splinepearl::{Judgement, PermittedIssuers};

#[test]
fn anyone() {
    let mut buffer = [0xA5; 8];
    for book in [
        Vec::new(),
        caa("example.com", "iodef", "mailto:security@example.com"),
        caa("other.example", "issue", "ca1.example.net"),
    ] {
        let request = request(&["www.example.com"]);
        assert!(judge(&request, b"ca9.example", &book).is_permitted());
        assert_eq!(
            permitted_issuers(&request, &book, &mut buffer),
            PermittedIssuers::Anyone
        );
        assert_eq!(buffer, [0xA5; 8]);
    }
    // "Anyone" needs no room.
    assert_eq!(
        permitted_issuers(&name("a"), &[], &mut []),
        PermittedIssuers::Anyone
    );
}

#[test]
fn nobody() {
    let (request, book) = (name("example.com"), caa("example.com", "issue", ";"));
    assert_eq!(
        judge(&request, b"ca1.example.net", &book),
        Judgement::NotGranted {
            name: 0,
            record: 0,
            up: 0
        }
    );
    match permitted_issuers(&request, &book, &mut []) {
        PermittedIssuers::List(list) => assert!(list.is_empty()),
        other => panic!("{other}"),
    }
}

#[test]
fn unknown_critical() {
    let tbs = |flags| record("example.com", 257, &data(flags, "tbs", b"Unknown"));
    let (request, address) = (
        name("www.example.com"),
        record("example.com", 1, &[192, 0, 2, 1]),
    );
    let judgement = judge(&request, b"x", &[address, tbs(128)].concat());
    assert_eq!(
        judgement,
        Judgement::UnknownCritical {
            name: 0,
            record: 1,
            up: 1
        }
    );
    assert_eq!(judgement.to_string(), "verdict 20 name 0 record 1 up 1");
    assert!(judge(&request, b"x", &tbs(127)).is_permitted());
}

/// The last name of as many as a request may have, and the last record of as many as a book may have.
#[test]
fn the_largest_numbers() {
    let request = [name("a").repeat(249), name("b")].concat();
    let address = record("c", 1, &[192, 0, 2, 1]);
    let book = [address.repeat(1_023), caa("b", "issue", "ca2.example.org")].concat();
    assert_eq!(
        judge(&request, b"ca1.example.net", &book),
        Judgement::NotGranted {
            name: 249,
            record: 1_023,
            up: 0
        }
    );
    let issuers: Vec<String> = (0..1_024).map(|k| format!("ca{k}.example")).collect();
    let book: Vec<u8> = issuers
        .iter()
        .flat_map(|issuer| caa("b", "issue", issuer))
        .collect();
    let mut buffer = vec![0; book.len()];
    match permitted_issuers(&request, &book, &mut buffer) {
        PermittedIssuers::List(list) => assert!(list.into_iter().eq(&issuers)),
        other => panic!("{other}"),
    }
}

/// From the name itself, its parent and the top label of the deepest name. A star is not counted.
#[test]
fn labels_taken_off() {
    let book = caa("example.com", "issue", "ca2.example.org");
    let deepest = format!("{}c", "a.".repeat(126));
    for (requested, book, up) in [
        ("example.com", &book, 0),
        ("www.example.com", &book, 1),
        ("a.b.www.example.com", &book, 3),
        ("*.example.com", &book, 0),
        ("*.www.example.com", &book, 1),
        (&deepest, &caa("c", "issue", ";"), 126),
    ] {
        assert_eq!(
            judge(&name(requested), b"ca1.example.net", book),
            Judgement::NotGranted {
                name: 0,
                record: 0,
                up
            },
            "{requested}"
        );
    }
}

#[test]
fn wildcards() {
    let book = caa("example.com", "issuewild", "ca2.example.org");
    let (plain, star) = (name("example.com"), name("*.example.com"));
    assert!(judge(&plain, b"ca1.example.net", &book).is_permitted());
    assert!(!judge(&star, b"ca1.example.net", &book).is_permitted());
    assert!(judge(&star, b"ca2.example.org", &book).is_permitted());
}

#[test]
fn threads_may_call_at_once() {
    let (request, book) = (request(&["www.example.com"]), whole_case_book());
    std::thread::scope(|scope| {
        for _ in 0..4 {
            scope.spawn(|| {
                let mut buffer = vec![0; book.len()];
                for _ in 0..1_000 {
                    assert!(judge(&request, b"ca2.example.org", &book).is_permitted());
                    match permitted_issuers(&request, &book, &mut buffer) {
                        PermittedIssuers::List(list) => assert_eq!(list.len(), 2),
                        other => panic!("{other}"),
                    }
                }
            });
        }
    });
}
