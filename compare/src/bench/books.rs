//! Requests and books for the loads, mostly as large as may be. All follow the limits: where these
//! are moved, the loads move with them.

use crate::limits::{
    BOOK_OCTETS, BOOK_RECORDS, LABEL_OCTETS, NAME_OCTETS, REQUEST_NAMES, REQUEST_OCTETS,
};

pub const ISSUER: &str = "ca1.example.net";
/// Of all loads. Records limit their grants only where a load says so.
pub const ACCOUNT: &[u8] = b"https://ca1.example.net/acct/230123";
pub const METHOD: &[u8] = b"dns-01";

/// Octets of a record besides owner and data: type, class, time to live, length of the data.
const RECORD_FRAME: usize = 10;
/// What each record has when they fill a book as long and as crowded as may be.
const RECORD_OCTETS: usize = BOOK_OCTETS / BOOK_RECORDS;
/// The least data of a CAA record: flags, length of the tag, a tag of one octet.
pub const LEAST_CAA: &[u8] = b"\x00\x01t";
/// Labels of the deepest name, and of the deepest owner that [`RECORD_OCTETS`] leave room for, all
/// labels of one octet.
pub const DEEPEST_NAME: usize = (NAME_OCTETS - 1) / 2;
pub const DEEPEST_OWNER: usize = (RECORD_OCTETS - RECORD_FRAME - LEAST_CAA.len() - 1) / 2;
/// How many of the deepest names a request has room for.
pub const DEEPEST_NAMES: usize = REQUEST_OCTETS / NAME_OCTETS;
/// Labels that each of [`REQUEST_NAMES`] names of one-octet labels may have.
pub const DEEPEST_OF_ALL: usize = (REQUEST_OCTETS / REQUEST_NAMES - 1) / 2;

/// Names `www.h0.at` and so on.
pub fn plain_request() -> Vec<u8> {
    (0..REQUEST_NAMES)
        .flat_map(|name| wire(&format!("www.h{name}.at")))
        .collect()
}

/// Some records for the parent of each plain name, among them one that grants [`ISSUER`].
pub fn plain_book() -> Vec<u8> {
    book_of(|record| {
        let (name, turn) = (record % REQUEST_NAMES, record / REQUEST_NAMES);
        let issuer = format!("ca{turn}.example.net");
        caa(&wire(&format!("h{name}.at")), &issue(&issuer))
    })
}

/// As many names as may be, as deep as a request of so many leaves room for. Where one octet pair
/// more fits, the last names are deeper by one.
pub fn deep_request() -> Vec<u8> {
    let spare = REQUEST_OCTETS - REQUEST_NAMES * (2 * DEEPEST_OF_ALL + 1);
    let deeper = spare / 2;
    (0..REQUEST_NAMES)
        .flat_map(|name| {
            let one_more = usize::from(name >= REQUEST_NAMES - deeper);
            wire(&deep_name('a', DEEPEST_OF_ALL + one_more))
        })
        .collect()
}

/// Names as deep as may be, and one more in what is left. These have a few ancestors more than
/// those of [`deep_request`], and longer ones.
pub fn deepest_request() -> Vec<u8> {
    let mut request = wire(&deep_name('a', DEEPEST_NAME)).repeat(DEEPEST_NAMES);
    let left = (REQUEST_OCTETS - request.len()).saturating_sub(1) / 2;
    if left > 0 {
        request.extend(wire(&deep_name('a', left)));
    }
    request
}

/// A star before each deep name.
pub fn deep_wildcards() -> Vec<u8> {
    wire(&format!("*.{}", deep_name('a', DEEPEST_OF_ALL - 1))).repeat(REQUEST_NAMES)
}

/// Deep names under `a` and `b` in turn.
pub fn deep_request_of_two() -> Vec<u8> {
    let under = |top| wire(&format!("{}.{top}", deep_name('a', DEEPEST_OF_ALL - 1)));
    [under("a"), under("b")].concat().repeat(REQUEST_NAMES / 2)
}

/// The label in which an owner is none of a deep name's ancestors.
#[derive(Clone, Copy)]
pub enum Differs {
    AtTop,
    AtFront,
}

/// A full book whose owners are none of a deep name's ancestors, but differ from them in one label
/// only, and else in letter case. An owner deeper than the name differs by its depth as well.
pub fn missed_book(labels: usize, differs: Differs) -> Vec<u8> {
    book_of(|_| missed_record(labels, differs))
}

/// The same with a record for the top label of the deep names in place of the last that grants.
pub fn missed_book_with_set_at_top(labels: usize, differs: Differs) -> Vec<u8> {
    let mut book = missed_book(labels, differs);
    book.truncate(book.len() - missed_record(labels, differs).len());
    book.extend(full_record(&wire("A"), ISSUER));
    book
}

fn missed_record(labels: usize, differs: Differs) -> Vec<u8> {
    let alike = deep_name('A', labels - 1);
    let owner = wire(&match differs {
        Differs::AtTop => format!("{alike}.b"),
        Differs::AtFront => format!("b.{alike}"),
    });
    filled_up(&owner, LEAST_CAA.to_vec(), b'x')
}

/// The records with these numbers, from 0 on, as many as a book may hold.
pub fn book_of(record: impl Fn(usize) -> Vec<u8>) -> Vec<u8> {
    let mut book = Vec::new();
    for number in 0..BOOK_RECORDS {
        let record = record(number);
        if book.len() + record.len() > BOOK_OCTETS {
            break;
        }
        book.extend(record);
    }
    book
}

/// An `issue` record, filled up with blanks.
pub fn full_record(owner: &[u8], issuer: &str) -> Vec<u8> {
    filled_up(owner, issue(issuer), b' ')
}

/// A CAA record with that octet behind its data, so often that [`BOOK_RECORDS`] such records fill a
/// book.
pub fn filled_up(owner: &[u8], mut data: Vec<u8>, octet: u8) -> Vec<u8> {
    let room = RECORD_OCTETS.saturating_sub(RECORD_FRAME + owner.len());
    data.resize(room.max(data.len()), octet);
    caa(owner, &data)
}

/// An issuer name that fills a record of a one-octet owner, its last octets given. All have one
/// length, and the rest of one is that of any other.
pub fn long_issuer(last: &str) -> String {
    let octets = RECORD_OCTETS - caa(&wire("A"), &issue("")).len();
    let mut front = String::new();
    if octets > LABEL_OCTETS {
        front = "a".repeat(LABEL_OCTETS) + ".";
    }
    let letters = octets - front.len() - last.len();
    front + &"A".repeat(letters) + last
}

pub fn issue(value: &str) -> Vec<u8> {
    [b"\x00\x05issue", value.as_bytes()].concat()
}

pub fn caa(owner: &[u8], data: &[u8]) -> Vec<u8> {
    let length = (data.len() as u16).to_be_bytes();
    [owner, b"\x01\x01\x00\x01\x00\x00\x00\x00", &length, data].concat()
}

/// An alias of the target.
pub fn cname(owner: &[u8], target: &[u8]) -> Vec<u8> {
    let length = (target.len() as u16).to_be_bytes();
    [owner, b"\x00\x05\x00\x01\x00\x00\x00\x00", &length, target].concat()
}

/// So many labels, each of this letter alone.
pub fn deep_name(letter: char, labels: usize) -> String {
    vec![letter.to_string(); labels].join(".")
}

/// A good name in wire form.
pub fn wire(name: &str) -> Vec<u8> {
    let mut wire = Vec::new();
    for label in name.split('.') {
        wire.push(label.len() as u8);
        wire.extend(label.as_bytes());
    }
    wire.push(0);
    wire
}

#[cfg(test)]
mod tests {
    use super::*;
    use crate::{read_book, read_issuer, read_request};

    #[test]
    fn requests_are_as_large_as_may_be() {
        for request in [
            deep_request(),
            deepest_request(),
            deep_wildcards(),
            deep_request_of_two(),
        ] {
            let names = read_request(&request).unwrap().len();
            // One octet pair more for each name would be too many.
            assert!(request.len() + 2 * names > REQUEST_OCTETS);
        }
        for request in [plain_request(), deep_request(), deep_wildcards()] {
            assert_eq!(read_request(&request).unwrap().len(), REQUEST_NAMES);
        }
    }

    #[test]
    fn books_are_as_large_as_may_be() {
        for book in [
            missed_book(DEEPEST_OWNER, Differs::AtTop),
            missed_book(DEEPEST_OF_ALL, Differs::AtFront),
            missed_book_with_set_at_top(DEEPEST_OF_ALL, Differs::AtTop),
            book_of(|_| full_record(&wire("A"), &long_issuer("0"))),
        ] {
            let records = read_book(&book).unwrap().len();
            // One octet more for each record would be too many.
            assert!(
                book.len() + records > BOOK_OCTETS,
                "{} {records}",
                book.len()
            );
        }
    }

    #[test]
    fn long_issuers_are_alike_but_for_the_end() {
        let [one, other] = ["0001", "0255"].map(long_issuer);
        assert!(read_issuer(one.as_bytes()).is_ok());
        assert_eq!(one.len(), other.len());
        assert_eq!(one[..one.len() - 4], other[..one.len() - 4]);
        let record = full_record(&wire("A"), &one);
        assert_eq!(record.trim_ascii_end().len(), RECORD_OCTETS);
    }
}
