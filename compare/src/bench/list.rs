//! Loads for who may issue. Each makes a list, as long as the load allows.

use std::hint::black_box;

use super::books::{
    book_of, caa, deep_request, deep_request_of_two, full_record, issue, long_issuer, plain_book,
    plain_request, wire, ACCOUNT, ISSUER, METHOD,
};
use super::measure::{measure, race, Measured, Plan, Race, Sides};
use super::shapes::SHAPES;
use super::{aliases, alike, limited, yardstick, CALLS_OF_ONE_NAME, NIGHT_RUN_NAMES};
use crate::answer::Permitted;
use crate::calls::{Desk, PermittedIssuers};
use crate::limits::{BOOK_RECORDS, REQUEST_NAMES};

/// Owners that take turns.
const MANY_OWNERS: usize = 128;

pub struct Load {
    pub title: String,
    request: Vec<u8>,
    book: Vec<u8>,
    calls: usize,
}

impl Load {
    fn new(title: impl Into<String>, request: Vec<u8>, book: Vec<u8>) -> Load {
        Load {
            title: format!("list: {}", title.into()),
            request,
            book,
            calls: 1,
        }
    }

    /// All three programs.
    pub fn measure(&self, library: PermittedIssuers) -> Result<Measured, String> {
        self.with_sides(library, measure)
    }

    /// The library and the yardstick.
    pub fn race(&self, library: PermittedIssuers) -> Result<Race, String> {
        self.with_sides(library, race)
    }

    /// A buffer as long as the book is always enough.
    fn with_sides<R>(
        &self,
        library: PermittedIssuers,
        then: impl Fn(Plan, Sides<'_, Permitted>) -> R,
    ) -> R {
        let plan = Plan {
            load: self.title.clone(),
            room: self.book.len(),
            calls: self.calls,
        };
        let inputs = || {
            let Load { request, book, .. } = black_box(self);
            (request, book)
        };
        let sides = Sides {
            library: &|buffer| {
                let (request, book) = inputs();
                library(request, ACCOUNT, METHOD, book, buffer)
            },
            independent: &|buffer| {
                let (request, book) = inputs();
                (Desk::OWN.permitted_issuers)(request, ACCOUNT, METHOD, book, buffer)
            },
            yardstick: Some(&|buffer| {
                let (request, book) = inputs();
                Ok(yardstick::permitted_issuers(
                    request, ACCOUNT, METHOD, book, buffer,
                ))
            }),
        };
        then(plan, sides)
    }
}

/// The loads, the same in every run.
pub fn loads() -> Vec<Load> {
    let short = |number: usize| format!("ca{number:04}");
    let long = |number: usize| long_issuer(&format!("{number:04}"));
    let half = BOOK_RECORDS / 2;
    let mut loads: Vec<Load> = SHAPES
        .iter()
        .map(|shape| {
            let title = format!("{NIGHT_RUN_NAMES} names of three labels, {}", shape.title);
            Load::new(title, shape.request(NIGHT_RUN_NAMES), shape.book())
        })
        .collect();
    loads.extend([
        many_owners(),
        Load::new(
            format!("{REQUEST_NAMES} names of three labels, found at the parent, plain book"),
            plain_request(),
            plain_book(),
        ),
        Load::new(
            format!("{REQUEST_NAMES} deep names, {BOOK_RECORDS} grants at the top, short issuers"),
            deep_request(),
            book_of(|record| full_record(&wire("A"), &short(record))),
        ),
        Load::new(
            format!(
                "{REQUEST_NAMES} deep names, {BOOK_RECORDS} grants at the top, \
                 issuers share front and length"
            ),
            deep_request(),
            book_of(|record| full_record(&wire("A"), &long(record))),
        ),
        // The grants of the second top stand the other way round.
        Load::new(
            format!(
                "{REQUEST_NAMES} deep names, {half} grants at two tops in turn, \
                 issuers share front and length"
            ),
            deep_request_of_two(),
            book_of(|record| match record.checked_sub(half) {
                None => full_record(&wire("A"), &long(record)),
                Some(behind) => full_record(&wire("B"), &long(half - 1 - behind)),
            }),
        ),
        Load {
            calls: CALLS_OF_ONE_NAME,
            ..Load::new(
                "one name, one record",
                wire("www.example.com"),
                caa(&wire("example.com"), &issue(ISSUER)),
            )
        },
    ]);
    let load = |alike: alike::Alike| Load::new(alike.title, alike.request, alike.book);
    loads.extend(alike::loads().into_iter().map(load));
    let load = |limited: limited::Limited| Load::new(limited.title, limited.request, limited.book);
    loads.extend(limited::loads().into_iter().map(load));
    let load = |aliases: aliases::Aliases| Load::new(aliases.title, aliases.request, aliases.book);
    loads.extend(aliases::loads().into_iter().map(load));
    loads
}

/// Names of three labels governed in turn by many owners, which grant the same issuers.
fn many_owners() -> Load {
    let owner = |number: usize| format!("h{:04}.at", number % MANY_OWNERS);
    let request = (0..REQUEST_NAMES).flat_map(|name| wire(&format!("w.{}", owner(name))));
    let grants = BOOK_RECORDS / MANY_OWNERS;
    let title = format!(
        "{REQUEST_NAMES} names of three labels, {MANY_OWNERS} owners in turn, {grants} grants each"
    );
    let book = book_of(|record| {
        let issuer = format!("ca{:04}.net", record / MANY_OWNERS);
        full_record(&wire(&owner(record)), &issuer)
    });
    Load::new(title, request.collect(), book)
}

#[cfg(test)]
mod tests {
    use super::*;
    use crate::permitted::permitted_issuers;

    #[test]
    fn every_load_makes_its_list() {
        let counts = loads().into_iter().map(|load| {
            let mut buffer = vec![0; load.book.len()];
            match permitted_issuers(&load.request, ACCOUNT, METHOD, &load.book, &mut buffer) {
                Permitted::List { count, .. } => count,
                other => panic!("{}: {other}", load.title),
            }
        });
        let mut expected = vec![1; SHAPES.len()];
        expected.extend([
            BOOK_RECORDS / MANY_OWNERS,
            BOOK_RECORDS / REQUEST_NAMES,
            BOOK_RECORDS,
            BOOK_RECORDS,
            BOOK_RECORDS / 2,
            1,
        ]);
        let all = format!("{BOOK_RECORDS} grants at the top");
        expected.extend(alike::loads().iter().map(|alike| {
            let grants_all = alike.title.contains(&all);
            if grants_all {
                BOOK_RECORDS
            } else {
                1
            }
        }));
        expected.extend(limited::loads().iter().map(|_| 1));
        expected.extend(aliases::loads().iter().map(|_| 1));
        assert_eq!(counts.collect::<Vec<_>>(), expected);
    }
}
