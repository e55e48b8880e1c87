//! How often the requests and books that got a verdict or a list were as large as may be.

use super::log::{Call, Tally};
use crate::book::read_book;
use crate::limits::{BOOK_OCTETS, BOOK_RECORDS, REQUEST_NAMES, REQUEST_OCTETS};
use crate::request::read_request;

const KINDS: &[(u8, &str)] = &[
    (MOST_NAMES, "most names"),
    (LONGEST_REQUEST, "longest request"),
    (MOST_RECORDS, "most records"),
    (LONGEST_BOOK, "longest book"),
];
const MOST_NAMES: u8 = 0;
const LONGEST_REQUEST: u8 = 1;
const MOST_RECORDS: u8 = 2;
const LONGEST_BOOK: u8 = 3;

pub static OF_VERDICTS: Call = Call {
    name: "judge, limits",
    kinds: KINDS,
};
pub static OF_LISTS: Call = Call {
    name: "list, limits",
    kinds: KINDS,
};

/// Counts the limits that the request and the book stand at. What is refused is not counted.
pub fn count_limits(tally: &mut Tally, request: &[u8], book: &[u8]) {
    let (Ok(names), Ok(records)) = (read_request(request), read_book(book)) else {
        return;
    };
    for (kind, is_there) in [
        (MOST_NAMES, names.len() == REQUEST_NAMES),
        (LONGEST_REQUEST, request.len() == REQUEST_OCTETS),
        (MOST_RECORDS, records.len() == BOOK_RECORDS),
        (LONGEST_BOOK, book.len() == BOOK_OCTETS),
    ] {
        if is_there {
            tally.count(kind);
        }
    }
}

#[cfg(test)]
mod tests {
    use super::*;

    #[test]
    fn only_what_is_as_large_as_may_be_is_counted() {
        let name = |octets| crate::generate::name_of_octets(octets, 63);
        let record = |data: usize| {
            let frame = b"\x00\x00\x10\x00\x01\x00\x00\x00\x00";
            [frame, &(data as u16).to_be_bytes()[..], &vec![0; data]].concat()
        };
        let names = |count| name(3).repeat(count);
        // 64 names of 255 octets are 16,320.
        let request = |octets: usize| [name(255).repeat(64), name(octets - 16_320)].concat();
        let records = |count| record(0).repeat(count);
        for (request, book, counted) in [
            (names(250), records(1), [1, 0, 0, 0]),
            (names(249), records(1), [0; 4]),
            (names(251), records(1_024), [0; 4]),
            (request(16_384), records(1), [0, 1, 0, 0]),
            (request(16_383), records(1), [0; 4]),
            (names(1), records(1_024), [0, 0, 1, 0]),
            (names(1), records(1_023), [0; 4]),
            (names(250), records(1_025), [0; 4]),
            // A record has 11 octets besides its data.
            (names(1), record(49_141), [0, 0, 0, 1]),
            (names(1), record(49_140), [0; 4]),
            (request(16_384), record(37).repeat(1_024), [0, 1, 1, 1]),
        ] {
            let mut tally = Tally::new(&OF_LISTS);
            count_limits(&mut tally, &request, &book);
            let [names, long, records, longest] = counted;
            let told = format!(
                "most names: {names}, longest request: {long}, most records: {records}, \
                 longest book: {longest}"
            );
            assert!(tally.to_string().ends_with(&told), "{tally}");
        }
    }
}
