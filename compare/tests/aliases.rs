//! Aliases on random inputs: a book gives the answers that it gives with the aliases replaced by the
//! CAA records that they lead to. So labels are counted to the name that the aliases start from.

use compare::book::{read_raw_record, read_target};
use compare::generate::Generator;
use compare::limits::{BOOK_OCTETS, BOOK_RECORDS};
use compare::request::read_requested_name;
use compare::{judge, Answer};

/// A CAA record or an alias, as it stands in the book.
struct Record<'a> {
    number: usize,
    owner: Vec<u8>,
    is_alias: bool,
    /// What stands behind the owner.
    rest: &'a [u8],
    rdata: &'a [u8],
}

fn records(book: &[u8]) -> Vec<Record<'_>> {
    let mut records = Vec::new();
    let mut rest = book;
    for number in 0.. {
        let Some((raw, behind)) = read_raw_record(rest) else {
            break;
        };
        let owner = raw.owner.in_lower_case();
        if raw.is_caa() || raw.is_alias() {
            records.push(Record {
                number,
                is_alias: raw.is_alias(),
                rest: &rest[owner.len()..rest.len() - behind.len()],
                rdata: raw.rdata,
                owner,
            });
        }
        rest = behind;
    }
    records
}

/// Where the aliases from this owner end: at the last target, or nowhere within eight.
fn end_of(records: &[Record], owner: &[u8]) -> Option<Vec<u8>> {
    let mut at = owner.to_vec();
    for _ in 0..=8 {
        match records.iter().find(|r| r.is_alias && r.owner == at) {
            Some(alias) => at = read_target(alias.rdata)?.in_lower_case(),
            None => return Some(at),
        }
    }
    None
}

/// An unknown critical record stands for too many aliases. With each record goes the number that it
/// had, or that of the alias.
fn without_aliases(records: &[Record]) -> (Vec<u8>, Vec<usize>) {
    let forbids = b"\x01\x01\x00\x01\x00\x00\x00\x00\x00\x08\x80\x06endles";
    let mut book = Vec::new();
    let mut numbers = Vec::new();
    for record in records.iter().filter(|record| !record.is_alias) {
        book.extend(&record.owner);
        book.extend(record.rest);
        numbers.push(record.number);
    }
    for alias in records.iter().filter(|record| record.is_alias) {
        let Some(end) = end_of(records, &alias.owner) else {
            book.extend(&alias.owner);
            book.extend(forbids);
            numbers.push(alias.number);
            continue;
        };
        for record in records.iter().filter(|r| !r.is_alias && r.owner == end) {
            book.extend(&alias.owner);
            book.extend(record.rest);
            numbers.push(record.number);
        }
    }
    (book, numbers)
}

#[test]
fn aliases_stand_for_the_records_that_they_lead_to() {
    let mut generator = Generator::new(9);
    let mut too_many = 0;
    let mut others = 0;
    for _ in 0..3_000 {
        let (request, book) = generator.good_request_and_book_of_aliases();
        let (issuer, account, method) =
            (generator.issuer(), generator.account(), generator.method());
        let records = records(&book);
        let (resolved, numbers) = without_aliases(&records);
        if numbers.len() > BOOK_RECORDS || resolved.len() > BOOK_OCTETS {
            continue;
        }
        let mut rest = &request[..];
        while let Some((_, behind)) = read_requested_name(rest) {
            let name = &rest[..rest.len() - behind.len()];
            rest = behind;
            let answer = judge(name, &issuer, &account, &method, &book);
            let of_resolved = judge(name, &issuer, &account, &method, &resolved);
            let is_alias = |number| records.iter().any(|r| r.is_alias && r.number == number);
            let expected = match of_resolved {
                Answer::UnknownCritical { name, record, up } if is_alias(numbers[record]) => {
                    too_many += 1;
                    let record = numbers[record];
                    Answer::TooManyAliases { name, record, up }
                }
                other => {
                    others += usize::from(matches!(other, Answer::NotGranted { .. }));
                    other.with(|[name, record, up]| [name, numbers[record], up])
                }
            };
            assert_eq!(answer, expected);
        }
    }
    assert!(too_many > 300 && others > 300, "{too_many} {others}");
}
