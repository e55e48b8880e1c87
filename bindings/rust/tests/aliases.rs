//! Aliases (CNAME records): which records count for a name that is one, verdict 22, and refusal 12.

mod common;

use common::{caa, cname, judge, name, permitted_issuers, record, request};
use splinepearl::{Judgement, PermittedIssuers, Refusal};

const CA1: &[u8] = b"ca1.example.net";
const CA2: &[u8] = b"ca2.example.org";

/// Record `record` governs the first name, and grants it to ca1 alone. Its set, or the alias that leads
/// there, stands so many labels up.
#[track_caller]
fn granted_to_ca1(names: &[&str], book: &[u8], record: usize, up: usize) {
    let request = request(names);
    assert_eq!(judge(&request, CA1, book), Judgement::Permitted);
    assert_eq!(
        judge(&request, CA2, book),
        Judgement::NotGranted {
            name: 0,
            record,
            up
        }
    );
    let mut buffer = vec![0; book.len()];
    match permitted_issuers(&request, book, &mut buffer) {
        PermittedIssuers::List(list) => assert!(list.into_iter().eq(["ca1.example.net"])),
        other => panic!("{other}"),
    }
}

#[track_caller]
fn unrestricted(names: &[&str], book: &[u8]) {
    let request = request(names);
    assert_eq!(judge(&request, CA2, book), Judgement::Permitted);
    assert_eq!(
        permitted_issuers(&request, book, &mut []),
        PermittedIssuers::Anyone
    );
}

/// Verdict 22, and an empty list that needs no room.
#[track_caller]
fn too_many(names: &[&str], book: &[u8], [name, record, up]: [usize; 3]) {
    let request = request(names);
    assert_eq!(
        judge(&request, CA1, book),
        Judgement::TooManyAliases { name, record, up }
    );
    let mut buffer = [0xA5; 8];
    for room in [0, 8] {
        match permitted_issuers(&request, book, &mut buffer[..room]) {
            PermittedIssuers::List(list) => assert!(list.is_empty()),
            other => panic!("{other}"),
        }
    }
    assert_eq!(buffer, [0xA5; 8]);
}

/// Both calls refuse the book alike, and leave the buffer alone.
#[track_caller]
fn refused(book: &[u8], refusal: Refusal) {
    let request = name("www.example.com");
    assert_eq!(judge(&request, CA1, book), Judgement::Refused(refusal));
    let mut buffer = [0xA5; 64];
    assert_eq!(
        permitted_issuers(&request, book, &mut buffer),
        PermittedIssuers::Refused(refusal)
    );
    assert_eq!(buffer, [0xA5; 64]);
}

fn ca1(owner: &str) -> Vec<u8> {
    caa(owner, "issue", "ca1.example.net")
}

fn ca2(owner: &str) -> Vec<u8> {
    caa(owner, "issue", "ca2.example.org")
}

/// `count` aliases, the first at `owner`, to `prefix`1, `prefix`2 and so on.
fn chain(owner: &str, prefix: &str, count: usize) -> Vec<u8> {
    let target = |k: usize| match k {
        0 => owner.to_owned(),
        _ => format!("{prefix}{k}"),
    };
    (0..count)
        .flat_map(|k| cname(&target(k), &target(k + 1)))
        .collect()
}

#[test]
fn the_target_s_records_count() {
    let alias = cname("www.example.com", "web.example.org");
    let book = [alias, ca1("web.example.org"), ca2("example.com")].concat();
    granted_to_ca1(&["www.example.com"], &book, 1, 0);
    granted_to_ca1(&["*.www.example.com"], &book, 1, 0);
    // Below an alias, the climb comes to it.
    granted_to_ca1(&["a.b.www.example.com"], &book, 1, 2);
    granted_to_ca1(&["*.a.b.www.example.com"], &book, 1, 2);
}

#[test]
fn letter_case_does_not_count() {
    let alias = cname("WWW.example.com", "web.EXAMPLE.org");
    let book = [alias, ca1("Web.example.ORG")].concat();
    granted_to_ca1(&["www.Example.com"], &book, 1, 0);
}

#[test]
fn targets_of_every_kind() {
    for target in [
        "com",
        "a.www.example.com",
        "_web._tcp.example",
        "*.example",
        "",
    ] {
        let book = [cname("www.example.com", target), ca1(target)].concat();
        granted_to_ca1(&["www.example.com"], &book, 1, 0);
    }
}

/// Without records at the target, the climb goes on above the name, never above the target.
#[test]
fn the_target_is_not_climbed() {
    let alias = cname("www.example.com", "web.example.org");
    let book = [alias.clone(), ca2("example.org"), ca1("example.com")].concat();
    granted_to_ca1(&["www.example.com"], &book, 2, 1);
    let book = [alias, ca2("example.org"), ca2("org")].concat();
    unrestricted(&["www.example.com"], &book);
}

#[test]
fn a_set_of_iodef_alone_ends_the_climb() {
    let alias = cname("www.example.com", "web.example.org");
    let iodef = caa("web.example.org", "iodef", "mailto:a@example.org");
    unrestricted(
        &["www.example.com"],
        &[alias, iodef, ca1("example.com")].concat(),
    );
}

#[test]
fn eight_aliases_and_nine() {
    let book = |count: usize| {
        let chain = chain("www.example.com", "t", count);
        [ca2("elsewhere"), chain, ca1(&format!("t{count}"))].concat()
    };
    for count in 1..=8 {
        granted_to_ca1(&["www.example.com"], &book(count), count + 1, 0);
    }
    too_many(&["www.example.com"], &book(9), [0, 1, 0]);
    too_many(&["*.www.example.com"], &book(9), [0, 1, 0]);
    too_many(&["*.a.b.c.www.example.com"], &book(9), [0, 1, 3]);
    // From the first target it is one less.
    granted_to_ca1(&["t1"], &book(9), 10, 0);
}

#[test]
fn loops() {
    let book = [cname("b", "a"), cname("a", "B"), ca1("com")].concat();
    too_many(&["a"], &book, [0, 1, 0]);
    too_many(&["b"], &book, [0, 0, 0]);
    // The climb doesn't go on above an alias without an end.
    too_many(&["x.a"], &book, [0, 1, 1]);
    let book = [cname("a.com", "a.com"), ca1("com")].concat();
    too_many(&["a.com"], &book, [0, 0, 0]);
    // What stands nearer than the alias decides.
    granted_to_ca1(&["x.a"], &[cname("a", "a"), ca1("x.a")].concat(), 1, 0);
}

#[test]
fn aliases_are_counted_anew_at_each_name() {
    let below = chain("x.y", "c", 5);
    let above = chain("y", "d", 5);
    granted_to_ca1(&["x.y"], &[below, above, ca1("d5")].concat(), 10, 1);
    // The first alias of the name looked at is told, not that of the requested name.
    let book = [chain("x.y", "c", 5), chain("y", "d", 9)].concat();
    too_many(&["x.y"], &book, [0, 5, 1]);
}

#[test]
fn the_lowest_name_decides() {
    let book = [cname("a", "a"), ca1("b"), ca2("c")].concat();
    too_many(&["b", "a"], &book, [1, 0, 0]);
    too_many(&["a", "c"], &book, [0, 0, 0]);
    // The labels of the name that decides, whatever the others have.
    too_many(&["x.y.z.b", "x.a"], &book, [1, 0, 1]);
    assert_eq!(
        judge(&request(&["c", "a"]), CA1, &book),
        Judgement::NotGranted {
            name: 0,
            record: 2,
            up: 0
        }
    );
}

#[test]
fn a_name_without_records_beside_one_without_an_end() {
    too_many(&["open.example", "a"], &cname("a", "a"), [1, 0, 0]);
}

/// Type 5 of another class, and DNAME, are no aliases; their data may hold anything.
#[test]
fn other_types_and_classes() {
    let mut other_class = record("www.example.com", 5, &[0xC0]);
    other_class[20] = 3;
    let dname = record("www.example.com", 39, &[0xC0]);
    let book = [other_class, dname, ca1("www.example.com")].concat();
    granted_to_ca1(&["www.example.com"], &book, 2, 0);
}

#[test]
fn conflicts() {
    let alias = |owner| cname(owner, "web.example.org");
    for (first, second) in [
        (alias("a"), ca1("a")),
        (ca1("a"), alias("A")),
        (alias("a"), cname("a", "b")),
        (alias("a"), alias("a")),
        (alias(""), ca1("")),
    ] {
        let between = [ca1("b"), alias("c"), record("a", 1, &[])].concat();
        refused(
            &[first, between, second].concat(),
            Refusal::AliasConflict { record: 4 },
        );
    }
    // The lowest of the later records.
    let book = [alias("a"), ca1("b"), alias("b"), ca1("a"), alias("a")].concat();
    refused(&book, Refusal::AliasConflict { record: 2 });
    let book = [ca1("a"), ca1("a"), alias("a")].concat();
    refused(&book, Refusal::AliasConflict { record: 2 });
}

#[test]
fn no_conflicts() {
    let alias = cname("a", "web.example.org");
    let address = record("a", 1, &[192, 0, 2, 1]);
    let mut other_class = cname("a", "b");
    other_class[6] = 3;
    let book = [
        &address[..],
        &alias,
        &other_class,
        &address,
        &ca1("aa"),
        &ca1("b.a"),
        &ca1("b"),
        &ca1("b"),
    ];
    unrestricted(&["www.example.com"], &book.concat());
}

/// 12 is found only of a book that passes 5, 6 and 7.
#[test]
fn conflicts_come_after_the_layout() {
    let conflict = [cname("a", "b"), ca1("a")].concat();
    refused(&conflict, Refusal::AliasConflict { record: 1 });
    let cut = [&conflict[..], &[1]].concat();
    refused(&cut, Refusal::BadRecord { record: 2 });
    let address = record("a", 1, &[]);
    let full = [conflict.clone(), address.repeat(1_022)].concat();
    refused(&full, Refusal::AliasConflict { record: 1 });
    refused(
        &[full, address].concat(),
        Refusal::TooManyRecords { read: 1_024 },
    );
    let long = [conflict, record("a", 1, &[0; 49_152])].concat();
    refused(&long, Refusal::BookTooLong);
}

#[test]
fn malformed_targets() {
    let refused_data = |data: &[u8]| {
        let book = [ca1("b"), record("a", 5, data)].concat();
        refused(&book, Refusal::BadRecord { record: 1 });
    };
    refused_data(b"");
    refused_data(b"\x01b");
    refused_data(b"\x01b\x00\x00");
    refused_data(b"\xC0\x00");
    refused_data(&[&[64][..], &[b'a'; 64], &[0]].concat());
    // A name of 255 octets, and one of 256.
    let longest = |last: usize| {
        let labels = [
            "a".repeat(63),
            "a".repeat(63),
            "a".repeat(63),
            "a".repeat(last),
        ];
        name(&labels.join("."))
    };
    assert_eq!((longest(61).len(), longest(62).len()), (255, 256));
    unrestricted(&["b"], &record("a", 5, &longest(61)));
    refused_data(&longest(62));
    // The root.
    unrestricted(&["b"], &record("a", 5, &[0]));
    refused_data(&[0, 0]);
}
