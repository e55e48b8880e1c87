//! Books of aliases: each look at a deep name, and at each name above it, goes along a chain of as many
//! aliases as are followed. Only the chains of the top labels lead to a set.

use super::books::{cname, deep_name, full_record, wire, DEEPEST_OF_ALL, ISSUER};
use crate::limits::{ALIASES, BOOK_OCTETS, BOOK_RECORDS, REQUEST_NAMES};

/// The top labels of the names, in turn: as many as give a full book of chains.
const TOPS: usize = BOOK_RECORDS / ALIASES / DEEPEST_OF_ALL;

pub struct Aliases {
    pub title: String,
    pub request: Vec<u8>,
    pub book: Vec<u8>,
}

pub fn loads() -> Vec<Aliases> {
    vec![Aliases {
        title: format!(
            "{REQUEST_NAMES} names of {DEEPEST_OF_ALL} labels, {} aliases in chains of {ALIASES}",
            BOOK_RECORDS - 1
        ),
        request: (0..REQUEST_NAMES)
            .flat_map(|name| name_of(name % TOPS, DEEPEST_OF_ALL))
            .collect(),
        book: book(),
    }]
}

/// A name of so many labels under a top label of its own.
fn name_of(top: usize, labels: usize) -> Vec<u8> {
    let letter = |top: usize| char::from(b'a' + top as u8);
    match labels {
        1 => wire(&letter(top).to_string()),
        _ => wire(&format!("{}.{}", deep_name('a', labels - 1), letter(top))),
    }
}

/// The names between are as long as have room, and differ in their last octets alone. Later aliases of
/// a chain stand before earlier ones.
fn book() -> Vec<u8> {
    let longest = (1..64)
        .rev()
        .find(|&octets| book_with(octets).len() <= BOOK_OCTETS);
    book_with(longest.expect("short names have room"))
}

fn book_with(octets: usize) -> Vec<u8> {
    let between = |chain: usize, place: usize| {
        let number = ALIASES * chain + place;
        wire(&format!("{}{number:04}", "k".repeat(octets)))
    };
    let set = wire("s");
    let mut book = full_record(&set, ISSUER);
    for chain in 0..TOPS * DEEPEST_OF_ALL {
        let (top, labels) = (chain % TOPS, 1 + chain / TOPS);
        // The set takes the place of an alias: the last chain is one shorter.
        let is_last = chain + 1 == TOPS * DEEPEST_OF_ALL;
        let aliases = ALIASES - usize::from(is_last);
        for place in (0..aliases).rev() {
            let owner = match place {
                0 => name_of(top, labels),
                _ => between(chain, place),
            };
            let target = match (place + 1 == aliases, labels) {
                (true, 1) => set.clone(),
                _ => between(chain, place + 1),
            };
            book.extend(cname(&owner, &target));
        }
    }
    book
}

#[cfg(test)]
mod tests {
    use super::super::books::{ACCOUNT, METHOD};
    use super::*;
    use crate::answer::Answer;
    use crate::applicant::Applicant;
    use crate::judge::judge;
    use crate::rule::{chains, Records};
    use crate::{read_book, read_request};

    #[test]
    fn every_look_follows_as_many_aliases_as_may_be() {
        for load in loads() {
            let names = read_request(&load.request).unwrap();
            assert_eq!(names.len(), REQUEST_NAMES);
            let book = read_book(&load.book).unwrap();
            assert_eq!(book.len(), BOOK_RECORDS);
            let octets_more = load.book.len() + 2 * BOOK_RECORDS;
            assert!(octets_more > BOOK_OCTETS, "{}", load.book.len());
            let records = Records::of(&book, Applicant::SOMEONE);
            for name in &names[..TOPS] {
                let chains = chains(&records, name);
                assert_eq!(chains.len(), DEEPEST_OF_ALL);
                let shorter = chains.iter().filter(|chain| chain.targets.len() < ALIASES);
                assert!(shorter.count() <= 1);
                assert!(chains.last().is_some_and(|chain| chain.finds_set));
            }
        }
    }

    #[test]
    fn each_name_is_restricted_and_granted() {
        for load in loads() {
            let by = |issuer: &str| {
                let (request, book) = (&load.request, &load.book);
                judge(request, issuer.as_bytes(), ACCOUNT, METHOD, book)
            };
            assert_eq!(by(ISSUER), Answer::Permitted);
            // The set stands at the top, or its aliases start there.
            let refused = Answer::NotGranted {
                name: 0,
                record: 0,
                up: DEEPEST_OF_ALL - 1,
            };
            assert_eq!(by("ca9.example.net"), refused);
        }
    }
}
