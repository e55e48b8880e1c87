//! The whole case of the requirements, with the octets printed there.

mod common;

use common::{judge, permitted_issuers, request, whole_case_book};
use splinepearl::{IssuerList, Judgement, PermittedIssuers, Refusal};

const LIST: [u8; 32] = [
    0x0F, 0x63, 0x61, 0x31, 0x2E, 0x65, 0x78, 0x61, 0x6D, 0x70, 0x6C, 0x65, 0x2E, 0x6E, 0x65, 0x74,
    0x0F, 0x63, 0x61, 0x32, 0x2E, 0x65, 0x78, 0x61, 0x6D, 0x70, 0x6C, 0x65, 0x2E, 0x6F, 0x72, 0x67,
];

/// What a buffer holds before a call.
const FILL: u8 = 0xA5;

fn list_of(answer: PermittedIssuers<'_>) -> IssuerList<'_> {
    match answer {
        PermittedIssuers::List(list) => list,
        other => panic!("{other} is no list"),
    }
}

#[test]
fn www_and_pay() {
    let (request, book) = (
        request(&["www.example.com", "pay.example.com"]),
        whole_case_book(),
    );

    let judgement = judge(&request, b"ca1.example.net", &book);
    assert_eq!(
        judgement,
        Judgement::NotGranted {
            name: 1,
            record: 3,
            up: 0
        }
    );
    assert_eq!(judgement.to_string(), "verdict 21 name 1 record 3 up 0");
    assert!(judge(&request, b"ca2.example.org", &book).is_permitted());
    assert_eq!(
        judge(&request, b"ca3.example.com", &book),
        Judgement::NotGranted {
            name: 0,
            record: 0,
            up: 1
        }
    );

    let mut buffer = vec![FILL; book.len()];
    let list = list_of(permitted_issuers(&request, &book, &mut buffer));
    assert_eq!(list.octets(), &LIST[16..]);
    assert_eq!(list.into_iter().collect::<Vec<_>>(), ["ca2.example.org"]);
}

#[test]
fn www_alone() {
    let (request, book) = (request(&["www.example.com"]), whole_case_book());
    assert!(judge(&request, b"CA1.EXAMPLE.NET", &book).is_permitted());

    let mut buffer = vec![FILL; book.len()];
    let answer = permitted_issuers(&request, &book, &mut buffer);
    assert_eq!(answer.to_string(), "list of 2 in 32 octets");
    let list = list_of(answer);
    assert_eq!((list.len(), list.octets()), (2, &LIST[..]));
    let names: Vec<_> = list.iter().collect();
    assert_eq!(names, ["ca1.example.net", "ca2.example.org"]);
    assert!(buffer[32..].iter().all(|&octet| octet == FILL));
}

#[test]
fn room() {
    let (request, book) = (request(&["www.example.com"]), whole_case_book());
    assert_eq!(
        list_of(permitted_issuers(&request, &book, &mut [0; 32])).len(),
        2
    );
    let mut buffer = [FILL; 31];
    assert_eq!(
        permitted_issuers(&request, &book, &mut buffer),
        PermittedIssuers::Refused(Refusal::NoRoom { needed: 32 })
    );
    assert_eq!(buffer, [FILL; 31]);
}
