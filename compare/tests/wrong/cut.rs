//! Inputs as programs see them that leave out what stands behind some limit.

use compare::book::read_raw_record;
use compare::request::read_requested_name;

/// The limits before requests and books could be larger.
pub const NAMES: usize = 100;
pub const REQUEST_OCTETS: usize = 8_192;
pub const RECORDS: usize = 256;
pub const BOOK_OCTETS: usize = 32_768;

/// The names of a good request, up to so many.
pub fn first_names(request: &[u8], names: usize) -> &[u8] {
    cut(request, names, request.len(), |rest| {
        Some(read_requested_name(rest)?.1)
    })
}

/// The names of a good request that end within so many octets.
pub fn names_within(request: &[u8], octets: usize) -> &[u8] {
    cut(request, request.len(), octets, |rest| {
        Some(read_requested_name(rest)?.1)
    })
}

/// The records of a good book, up to so many.
pub fn first_records(book: &[u8], records: usize) -> &[u8] {
    cut(book, records, book.len(), |rest| {
        Some(read_raw_record(rest)?.1)
    })
}

/// The records of a good book that end within so many octets.
pub fn records_within(book: &[u8], octets: usize) -> &[u8] {
    cut(book, book.len(), octets, |rest| {
        Some(read_raw_record(rest)?.1)
    })
}

/// At most so many items that end within so many octets. `behind` takes one item off the front.
fn cut(
    whole: &[u8],
    items: usize,
    octets: usize,
    behind: impl Fn(&[u8]) -> Option<&[u8]>,
) -> &[u8] {
    let mut rest = whole;
    for _ in 0..items {
        match behind(rest) {
            Some(behind) if whole.len() - behind.len() <= octets => rest = behind,
            _ => break,
        }
    }
    &whole[..whole.len() - rest.len()]
}

#[test]
fn what_is_left_are_whole_items() {
    let request = b"\x01a\x00\x02bc\x00";
    assert_eq!(first_names(request, 1), b"\x01a\x00");
    assert_eq!(first_names(request, 2), request);
    assert_eq!(names_within(request, 6), b"\x01a\x00");
    assert_eq!(names_within(request, 7), request);
    let record = b"\x00\x00\x10\x00\x01\x00\x00\x00\x00\x00\x00";
    let book = record.repeat(3);
    assert_eq!(first_records(&book, 2), record.repeat(2));
    assert_eq!(records_within(&book, 32), record.repeat(2));
    assert_eq!(records_within(&book, 33), book);
}
