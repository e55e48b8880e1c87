//! Loads for the judge. All are permitted, so that no judge may stop at an early name.

use std::hint::black_box;

use super::books::{
    book_of, caa, deep_request, deep_request_of_two, deep_wildcards, deepest_request, full_record,
    issue, long_issuer, missed_book, missed_book_with_set_at_top, plain_book, plain_request, wire,
    Differs, ACCOUNT, DEEPEST_NAME, DEEPEST_NAMES, DEEPEST_OF_ALL, DEEPEST_OWNER, ISSUER, METHOD,
};
use super::measure::{measure, race, Measured, Plan, Race, Sides};
use super::shapes::{Shape, GRANTED, SHAPES};
use super::{aliases, alike, limited, yardstick, CALLS_OF_ONE_NAME, NIGHT_RUN_NAMES};
use crate::answer::Answer;
use crate::calls::{Desk, Judge};
use crate::limits::{BOOK_RECORDS, REQUEST_NAMES};

pub struct Load {
    pub title: String,
    pub request: Vec<u8>,
    pub issuer: Vec<u8>,
    pub book: Vec<u8>,
    calls: usize,
}

impl Load {
    fn new(title: impl Into<String>, request: Vec<u8>, issuer: &str, book: Vec<u8>) -> Load {
        Load {
            title: format!("judge: {}", title.into()),
            request,
            issuer: issuer.into(),
            book,
            calls: 1,
        }
    }

    /// All three programs.
    pub fn measure(&self, library: Judge) -> Result<Measured, String> {
        self.with_sides(library, measure)
    }

    /// The library and the yardstick.
    pub fn race(&self, library: Judge) -> Result<Race, String> {
        self.with_sides(library, race)
    }

    fn with_sides<R>(&self, library: Judge, then: impl Fn(Plan, Sides<'_, Answer>) -> R) -> R {
        let plan = Plan {
            load: self.title.clone(),
            room: 0,
            calls: self.calls,
        };
        let inputs = || {
            let Load {
                request,
                issuer,
                book,
                ..
            } = black_box(self);
            (request, issuer, book)
        };
        let sides = Sides {
            library: &|_| {
                let (request, issuer, book) = inputs();
                library(request, issuer, ACCOUNT, METHOD, book)
            },
            independent: &|_| {
                let (request, issuer, book) = inputs();
                (Desk::OWN.judge)(request, issuer, ACCOUNT, METHOD, book)
            },
            yardstick: Some(&|_| {
                let (request, issuer, book) = inputs();
                Ok(yardstick::judge(request, issuer, ACCOUNT, METHOD, book))
            }),
        };
        then(plan, sides)
    }
}

/// The loads, the same in every run.
pub fn loads() -> Vec<Load> {
    let mut loads = night_run();
    loads.extend(beside_night_run());
    loads
}

/// The night run: the names that it is about, in each shape.
pub fn night_run() -> Vec<Load> {
    let load = |shape| three_labels(shape, NIGHT_RUN_NAMES);
    SHAPES.iter().map(load).collect()
}

/// All other loads.
pub fn beside_night_run() -> Vec<Load> {
    let mut loads = vec![four_owners(NIGHT_RUN_NAMES)];
    if NIGHT_RUN_NAMES < REQUEST_NAMES {
        let load = |shape| three_labels(shape, REQUEST_NAMES);
        loads.extend(SHAPES.iter().map(load));
        loads.push(four_owners(REQUEST_NAMES));
    }
    loads.extend(plain_and_deep());
    loads.push(crowded());
    loads.push(two_tops());
    loads.push(one_name());
    let load =
        |alike: alike::Alike| Load::new(alike.title, alike.request, alike.issuer, alike.book);
    loads.extend(alike::loads().into_iter().map(load));
    let load =
        |limited: limited::Limited| Load::new(limited.title, limited.request, ISSUER, limited.book);
    loads.extend(limited::loads().into_iter().map(load));
    let load =
        |aliases: aliases::Aliases| Load::new(aliases.title, aliases.request, ISSUER, aliases.book);
    loads.extend(aliases::loads().into_iter().map(load));
    loads
}

fn three_labels(shape: &Shape, names: usize) -> Load {
    let title = format!("{names} names of three labels, {}", shape.title);
    Load::new(title, shape.request(names), GRANTED, shape.book())
}

/// Names of three labels governed in turn by four owners. Only the last records of the book grant.
fn four_owners(names: usize) -> Load {
    let owner = |number: usize| format!("h{}.at", number % 4);
    let request = (0..names).flat_map(|name| wire(&format!("w{name:04}.{}", owner(name))));
    let book = book_of(|record| {
        let issuer = match BOOK_RECORDS - record {
            1..=4 => GRANTED,
            _ => "ca2.net",
        };
        full_record(&wire(&owner(record)), issuer)
    });
    let title = format!(
        "{names} names of three labels, four owners of {} records in turn",
        BOOK_RECORDS / 4
    );
    Load::new(title, request.collect(), GRANTED, book)
}

fn plain_and_deep() -> Vec<Load> {
    let load =
        |title: String, request: &[u8], book| Load::new(title, request.to_vec(), ISSUER, book);
    let plain = format!("{REQUEST_NAMES} names of three labels, found at the parent, plain book");
    let deep = deep_request();
    let deepest = deepest_request();
    let mut loads = vec![load(plain, &plain_request(), plain_book())];
    let names = format!("{REQUEST_NAMES} names of {DEEPEST_OF_ALL} labels or one more");
    for (owners, labels, differs) in [
        ("owners as deep", DEEPEST_OF_ALL, Differs::AtTop),
        ("owners deepest", DEEPEST_OWNER, Differs::AtTop),
        ("owners share tails", DEEPEST_OF_ALL, Differs::AtFront),
        (
            "deepest owners share tails",
            DEEPEST_OWNER,
            Differs::AtFront,
        ),
    ] {
        // Owners that share tails are in nobody's way where there is no set.
        if matches!(differs, Differs::AtTop) {
            let title = format!("{names}, no set, {owners}");
            loads.push(load(title, &deep, missed_book(labels, differs)));
        }
        let title = format!("{names}, set at the top, {owners}");
        let book = missed_book_with_set_at_top(labels, differs);
        loads.push(load(title, &deep, book));
    }
    let names = format!("{DEEPEST_NAMES} names of {DEEPEST_NAME} labels");
    let (labels, differs) = (DEEPEST_OWNER, Differs::AtTop);
    loads.push(load(
        format!("{names}, no set, owners deepest"),
        &deepest,
        missed_book(labels, differs),
    ));
    loads.push(load(
        format!("{names}, set at the top, owners deepest"),
        &deepest,
        missed_book_with_set_at_top(labels, differs),
    ));
    loads
}

/// A set as large as may be, found at the top of every deep name. Only the last record grants; the
/// others' issuers differ from the one that asks in the last octet only. And since `*` stands before
/// each name, an `issuewild` is looked for in vain.
fn crowded() -> Load {
    let book = book_of(|record| {
        let last = if record == BOOK_RECORDS - 1 { "C" } else { "B" };
        full_record(&wire("A"), &long_issuer(last))
    });
    let title = format!("{REQUEST_NAMES} deep wildcards, {BOOK_RECORDS} records at the top");
    let issuer = long_issuer("c").to_ascii_lowercase();
    Load::new(title, deep_wildcards(), &issuer, book)
}

/// The same with two tops in turn, and half of the records at each.
fn two_tops() -> Load {
    let book = book_of(|record| {
        let owner = if record % 2 == 0 { "A" } else { "B" };
        let last = if record + 2 < BOOK_RECORDS { "B" } else { "C" };
        full_record(&wire(owner), &long_issuer(last))
    });
    let title = format!(
        "{REQUEST_NAMES} deep names, {} records at two tops in turn",
        BOOK_RECORDS / 2
    );
    let issuer = long_issuer("c").to_ascii_lowercase();
    Load::new(title, deep_request_of_two(), &issuer, book)
}

fn one_name() -> Load {
    let book = caa(&wire("example.com"), &issue(ISSUER));
    Load {
        calls: CALLS_OF_ONE_NAME,
        ..Load::new(
            "one name, one record",
            wire("www.example.com"),
            ISSUER,
            book,
        )
    }
}

#[cfg(test)]
mod tests {
    use super::*;
    use crate::book::RecordData;
    use crate::judge::judge;
    use crate::{read_book, read_request};

    #[test]
    fn every_load_is_permitted() {
        for load in loads() {
            let answer = judge(&load.request, &load.issuer, ACCOUNT, METHOD, &load.book);
            assert_eq!(answer, Answer::Permitted, "{}", load.title);
        }
    }

    /// But for the aliases of the loads that are about them.
    #[test]
    fn every_record_is_a_caa_record() {
        for load in loads() {
            for record in read_book(&load.book).unwrap() {
                let counts = match record.data {
                    RecordData::Caa(_) => true,
                    RecordData::Alias(_) => load.title.contains("aliases"),
                    RecordData::Other => false,
                };
                assert!(counts, "{}", load.title);
            }
        }
    }

    /// Where a set is said to be found, another issuer is not permitted; where none is, it is. Loads of
    /// keys have a test of their own.
    #[test]
    fn sets_are_found_where_said() {
        for load in loads().iter().filter(|load| !load.title.contains("keys")) {
            let answer = judge(
                &load.request,
                b"ca9.example.net",
                ACCOUNT,
                METHOD,
                &load.book,
            );
            let records = read_book(&load.book).unwrap().len();
            let title = &load.title;
            if title.contains("no set") {
                assert_eq!(answer, Answer::Permitted, "{title}");
                continue;
            }
            let Answer::NotGranted { name, record, up } = answer else {
                panic!("{title}: {answer}");
            };
            assert_eq!(name, 0, "{title}");
            let top = read_request(&load.request).unwrap()[0]
                .fqdn
                .labels()
                .count()
                - 1;
            if title.contains("set at the top") || title.contains("found at the top") {
                assert_eq!((record, up), (records - 1, top), "{title}");
            } else {
                assert_eq!(record, 0, "{title}");
            }
            for (said, taken_off) in [
                ("found at X", 0),
                ("found at the parent", 1),
                ("records at the top", top),
                ("records at two tops", top),
            ] {
                assert!(!title.contains(said) || up == taken_off, "{title}: {up}");
            }
        }
    }

    #[test]
    fn no_two_loads_have_one_title() {
        let mut titles: Vec<String> = loads().into_iter().map(|load| load.title).collect();
        let count = titles.len();
        titles.sort();
        titles.dedup();
        assert_eq!(titles.len(), count);
    }
}
