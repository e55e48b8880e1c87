//! Laws of the requirements on random inputs.

use std::collections::BTreeMap;

use compare::book::read_raw_record;
use compare::generate::{Generator, Inputs};
use compare::limits::NAME_OCTETS;
use compare::request::read_requested_name;
use compare::{judge, permitted_issuers, read_issuer, Answer, Permitted, Refusal};

/// The names of a list, read back from the front of a buffer.
fn listed(count: usize, octets: usize, buffer: &[u8]) -> Vec<Vec<u8>> {
    let mut rest = &buffer[..octets];
    let mut names = Vec::new();
    while let Some((&length, behind)) = rest.split_first() {
        let (name, behind) = behind.split_at(usize::from(length));
        names.push(name.to_vec());
        rest = behind;
    }
    assert_eq!(names.len(), count);
    names
}

/// Half of the time a book whose records mostly limit their grants.
fn any_book(generator: &mut Generator, account: &[u8], method: &[u8]) -> Vec<u8> {
    let issuer = generator.issuer();
    match generator.once_in(2) {
        true => generator.book_of_limits(&issuer, account, method),
        false => generator.book(),
    }
}

/// One time in three with aliases.
fn any_request_and_book(
    generator: &mut Generator,
    account: &[u8],
    method: &[u8],
) -> (Vec<u8>, Vec<u8>) {
    match generator.once_in(3) {
        true => generator.good_request_and_book_of_aliases(),
        false => (generator.request(), any_book(generator, account, method)),
    }
}

/// Every name of one or two labels that the generator's issuers are near to, and longer ones.
fn candidates() -> Vec<Vec<u8>> {
    let labels = ["x", "y", "xx", "x-y", "X", "Y", "yx"];
    let mut names: Vec<String> = labels.map(String::from).to_vec();
    for first in labels {
        for second in labels {
            names.push(format!("{first}.{second}"));
            names.push(format!("x.{first}.{second}"));
        }
    }
    let (x, y) = ("x".repeat(63), "y".repeat(63));
    for last in 60..=61 {
        names.push(format!("{x}.{y}.{x}.{}", "y".repeat(last)));
    }
    names.into_iter().map(String::into_bytes).collect()
}

/// Who may issue, by trying every candidate.
#[test]
fn judge_permits_whom_the_list_holds() {
    let mut generator = Generator::new(1);
    let candidates = candidates();
    for _ in 0..3_000 {
        let (account, method) = (generator.account(), generator.method());
        let (request, book) = any_request_and_book(&mut generator, &account, &method);
        let before = generator.buffer(book.len());
        let mut buffer = before.clone();
        let list = match permitted_issuers(&request, &account, &method, &book, &mut buffer) {
            Permitted::Anyone => {
                assert_eq!(buffer, before);
                None
            }
            Permitted::List { count, octets } => {
                assert_eq!(buffer[octets..], before[octets..]);
                Some(listed(count, octets, &buffer))
            }
            Permitted::Refused(refusal) => panic!("good inputs {refusal}"),
        };
        for (place, name) in list.iter().flatten().enumerate() {
            assert_eq!(read_issuer(name).unwrap().octets(), name);
            assert!(!list.iter().flatten().take(place).any(|other| other == name));
        }
        for issuer in &candidates {
            let permits = judge(&request, issuer, &account, &method, &book) == Answer::Permitted;
            let allowed = match &list {
                None => true,
                Some(names) => names.contains(&issuer.to_ascii_lowercase()),
            };
            assert_eq!(permits, allowed, "{}", issuer.escape_ascii());
        }
    }
}

/// The book is made from two names' grants, so that the list is known without reading the book.
#[test]
fn the_list_follows_the_first_grants_of_the_lowest_restricted_name() {
    let names: [&[u8]; 3] = [b"\x01e\x00", b"\x01a\x01c\x00", b"\x01b\x01c\x00"];
    let mut generator = Generator::new(7);
    for _ in 0..2_000 {
        let mut book = Vec::new();
        let mut grants = [vec![], vec![]];
        for records in 0..8 {
            // Each of the two names is restricted: it has at least one record.
            let name = if records < 2 {
                records
            } else {
                generator.below(2)
            };
            let issuer = generator.issuer();
            book.extend(names[1 + name]);
            book.extend(b"\x01\x01\x00\x01\x00\x00\x00\x00\x00");
            book.push(7 + issuer.len() as u8);
            book.extend(b"\x00\x05issue");
            book.extend(&issuer);
            grants[name].push(issuer.to_ascii_lowercase());
        }
        let mut expected: Vec<&Vec<u8>> = Vec::new();
        for issuer in &grants[0] {
            if grants[1].contains(issuer) && !expected.contains(&issuer) {
                expected.push(issuer);
            }
        }
        let mut buffer = generator.buffer(book.len());
        match permitted_issuers(&names.concat(), b"a", b"m", &book, &mut buffer) {
            Permitted::List { count, octets } => {
                assert_eq!(
                    listed(count, octets, &buffer).iter().collect::<Vec<_>>(),
                    expected
                );
            }
            other => panic!("{other}"),
        }
    }
}

#[test]
fn room_is_enough_exactly_from_the_octets_told_on() {
    let mut generator = Generator::new(2);
    for _ in 0..2_000 {
        let (account, method) = (generator.account(), generator.method());
        let (request, book) = any_request_and_book(&mut generator, &account, &method);
        let list =
            |buffer: &mut [u8]| permitted_issuers(&request, &account, &method, &book, buffer);
        let answer = list(&mut generator.buffer(book.len()));
        let needed = match answer {
            Permitted::List { octets, .. } => octets,
            _ => 0,
        };
        assert_eq!(list(&mut generator.buffer(needed)), answer);
        if needed > 0 {
            let before = generator.buffer(needed - 1);
            let mut buffer = before.clone();
            assert_eq!(
                list(&mut buffer),
                Permitted::Refused(Refusal::BufferTooShort { needed })
            );
            assert_eq!(buffer, before);
        }
    }
}

/// A request is its names: the verdict is that of the first name not permitted by itself.
#[test]
fn a_verdict_is_that_of_the_first_name_not_permitted() {
    let mut generator = Generator::new(3);
    for _ in 0..3_000 {
        let (account, method) = (generator.account(), generator.method());
        let (request, book) = any_request_and_book(&mut generator, &account, &method);
        let mut parts = [generator.request(), request, generator.request()];
        parts.rotate_left(generator.below(3));
        let issuer = generator.issuer();
        let judge = |request: &[u8]| judge(request, &issuer, &account, &method, &book);
        let mut names_before = 0;
        let mut expected = Answer::Permitted;
        for part in &parts {
            expected = judge(part).with(|[name, record, up]| [names_before + name, record, up]);
            if expected != Answer::Permitted {
                break;
            }
            names_before += compare::read_request(part).unwrap().len();
        }
        assert_eq!(judge(&parts.concat()), expected);
    }
}

/// Deciding never computes with record numbers: a record before all others moves each by one.
#[test]
fn a_record_in_front_moves_the_numbers_and_nothing_else() {
    let forbids = b"\x01\x01\x00\x01\x00\x00\x00\x00\x00\x05\x80\x03tbs";
    let mut generator = Generator::new(4);
    for _ in 0..2_000 {
        let issuer = generator.issuer();
        let (account, method) = (generator.account(), generator.method());
        // An alias may lead to the root, but none leads to `g`.
        let (owner, (request, book)): (&[u8], _) = match generator.once_in(3) {
            true => (b"\x01g\x00", generator.good_request_and_book_of_aliases()),
            false => {
                let book = any_book(&mut generator, &account, &method);
                (b"\x00", (generator.request(), book))
            }
        };
        let judge = |book: &[u8]| judge(&request, &issuer, &account, &method, book);
        let expected = judge(&book).with(|[name, record, up]| [name, record + 1, up]);
        let moved = [owner, forbids, &book].concat();
        assert_eq!(judge(&moved), expected);
    }
}

/// A verdict's labels lead to the name that it came from: with one of them taken off beforehand one fewer
/// is told, and with a label before X one more. A star stays where it is, and is not counted.
#[test]
fn labels_taken_off_lead_to_the_name_that_decides() {
    let mut generator = Generator::new(10);
    let mut told: BTreeMap<usize, usize> = BTreeMap::new();
    for _ in 0..3_000 {
        let issuer = generator.issuer();
        let (account, method) = (generator.account(), generator.method());
        let (request, book) = match generator.once_in(2) {
            true => generator.request_and_book_of_heights(),
            false => any_request_and_book(&mut generator, &account, &method),
        };
        let judge = |request: &[u8]| judge(request, &issuer, &account, &method, &book);
        let mut rest = &request[..];
        while let Some((requested, behind)) = read_requested_name(rest) {
            let name = &rest[..rest.len() - behind.len()];
            rest = behind;
            let (star, x) = name.split_at(if requested.wildcard { 2 } else { 0 });
            let answer = judge(name);
            let mut up = None;
            answer.with(|numbers| {
                up = Some(numbers[2]);
                numbers
            });
            let Some(up) = up else {
                continue;
            };
            *told.entry(up.min(3)).or_default() += 1;
            let mut tail = x;
            for fewer in 1..=up {
                tail = &tail[1 + usize::from(tail[0])..];
                assert_eq!(
                    judge(&[star, tail].concat()),
                    answer.with(|[name, record, up]| [name, record, up - fewer])
                );
            }
            // No record has this label.
            let longer = [star, b"\x03q-q", x].concat();
            if longer.len() <= NAME_OCTETS {
                assert_eq!(
                    judge(&longer),
                    answer.with(|[name, record, up]| [name, record, up + 1])
                );
            }
        }
    }
    for up in 0..=3 {
        let times = told.get(&up).copied().unwrap_or_default();
        assert!(times >= 100, "{up} labels came {times} times: {told:?}");
    }
}

/// Limits only take away: without any parameter a record grants at least as much, and restricts and
/// governs alike.
#[test]
fn limits_take_grants_away_and_nothing_else() {
    let mut generator = Generator::new(8);
    let mut taken_away = 0;
    for _ in 0..4_000 {
        let (request, issuer) = (generator.request(), generator.issuer());
        let (account, method) = (generator.account(), generator.method());
        let book = generator.book_of_limits(&issuer, &account, &method);
        let judge = |book: &[u8]| judge(&request, &issuer, &account, &method, book);
        let without = judge(&without_parameters(&book));
        match (judge(&book), without) {
            (Answer::Permitted, without) => assert_eq!(without, Answer::Permitted),
            (Answer::NotGranted { .. }, Answer::Permitted) => taken_away += 1,
            (Answer::NotGranted { name, .. }, Answer::NotGranted { name: without, .. }) => {
                assert!(name <= without);
            }
            (with, without) => panic!("{with}, {without}"),
        }
    }
    assert!(taken_away > 400, "{taken_away}");
}

/// The `;` of each value and what stands behind it made blanks.
fn without_parameters(book: &[u8]) -> Vec<u8> {
    let mut octets = book.to_vec();
    let mut rest = book;
    while let Some((record, behind)) = read_raw_record(rest) {
        let end = book.len() - behind.len();
        let data = end - record.rdata.len();
        if let Some(semicolon) = record.rdata.iter().position(|&octet| octet == b';') {
            octets[data + semicolon..end].fill(b' ');
        }
        rest = behind;
    }
    octets
}

/// Letter case means nothing in requests and issuer names.
#[test]
fn letter_case_changes_no_verdict() {
    let mut generator = Generator::new(5);
    for _ in 0..2_000 {
        let issuer = generator.issuer();
        let (account, method) = (generator.account(), generator.method());
        let (request, book) = any_request_and_book(&mut generator, &account, &method);
        let judge =
            |request: &[u8], issuer: &[u8]| judge(request, issuer, &account, &method, &book);
        assert_eq!(
            judge(&request, &issuer),
            judge(&generator.any_case(&request), &generator.any_case(&issuer))
        );
    }
}

/// The generator is only worth something if each answer comes often.
#[test]
fn every_answer_comes() {
    let mut generator = Generator::new(6);
    let mut seen: BTreeMap<String, usize> = BTreeMap::new();
    for _ in 0..6_000 {
        let inputs = generator.inputs();
        let Inputs {
            request,
            issuer,
            account,
            method,
            book,
            buffer: before,
        } = &inputs;
        let judged = match judge(request, issuer, account, method, book) {
            Answer::Permitted => "verdict 0".to_string(),
            Answer::UnknownCritical { .. } => "verdict 20".to_string(),
            Answer::NotGranted { .. } => "verdict 21".to_string(),
            Answer::TooManyAliases { .. } => "verdict 22".to_string(),
            Answer::Refused(refusal) => format!("refused {}", refusal.number()),
        };
        *seen.entry(judged).or_default() += 1;
        let mut buffer = before.clone();
        let permitted = match permitted_issuers(request, account, method, book, &mut buffer) {
            Permitted::Anyone => "anyone".to_string(),
            Permitted::List { count, .. } => format!("list of {}", count.min(3)),
            Permitted::Refused(refusal) => {
                assert_eq!(&buffer, before);
                format!("refused {}", refusal.number())
            }
        };
        *seen.entry(permitted).or_default() += 1;
    }
    let wanted = (1..=8)
        .chain([12, 15])
        .map(|number| format!("refused {number}"))
        .chain(["verdict 0", "verdict 20", "verdict 21", "verdict 22"].map(String::from))
        .chain(["anyone".to_string()])
        .chain((0..=3).map(|count| format!("list of {count}")));
    for answer in wanted {
        let times = seen.get(&answer).copied().unwrap_or_default();
        assert!(times >= 20, "{answer} came {times} times: {seen:?}");
    }
}
