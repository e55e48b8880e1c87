//! Names of three labels over a full book, in several shapes: where the set of each name stands, and
//! what the other owners look like. Every name is restricted and granted, so that no set is passed
//! over and no name ends the call early.

use super::books::{book_of, full_record, wire};
use crate::limits::BOOK_RECORDS;

/// Short, so that owners of many lengths have room in records of 48 octets.
pub const GRANTED: &str = "ca1.net";

/// The top label of all names of the shapes.
const TOP: &str = "at";

/// A shape is two functions: the owner of each record, and the name that is asked for by the number
/// of a record. To measure owners of another kind, add a shape.
pub struct Shape {
    pub title: &'static str,
    owner: fn(usize) -> Vec<u8>,
    name: fn(usize) -> Vec<u8>,
}

pub const SHAPES: [Shape; 5] = [
    Shape {
        title: "found at X, owners of one length",
        owner: x,
        name: x,
    },
    Shape {
        title: "found at X, owners of many lengths",
        owner: x_of_many_lengths,
        name: x_of_many_lengths,
    },
    // Every second owner is a parent; the others are as long as X and end like it.
    Shape {
        title: "found at the parent",
        owner: |record| match record % 2 {
            0 => wire(&format!("h{record:04}.{TOP}")),
            _ => not_x(record),
        },
        name: |record| x(record & !1),
    },
    // No other owner is as long as a name that is looked at.
    Shape {
        title: "found at the top, other lengths",
        owner: |record| match is_last(record) {
            true => wire(TOP),
            false => wire(&format!(
                "{}.h{record:04}.{TOP}",
                "w".repeat(3 + record % 10)
            )),
        },
        name: x,
    },
    // The other owners are as long as X or its parent, and end like it.
    Shape {
        title: "found at the top, same length and end",
        owner: |record| match record {
            _ if is_last(record) => wire(TOP),
            _ if record % 2 == 0 => not_x(record),
            _ => wire(&format!("k{record:04}.{TOP}")),
        },
        name: x,
    },
];

impl Shape {
    /// So many names, spread over the records.
    pub fn request(&self, names: usize) -> Vec<u8> {
        (0..names)
            .flat_map(|name| (self.name)(name * BOOK_RECORDS / names))
            .collect()
    }

    /// A full book, each record of which grants [`GRANTED`].
    pub fn book(&self) -> Vec<u8> {
        book_of(|record| full_record(&(self.owner)(record), GRANTED))
    }
}

fn x(record: usize) -> Vec<u8> {
    wire(&format!("w.h{record:04}.{TOP}"))
}

/// As long as X and with the same end, but never X.
fn not_x(record: usize) -> Vec<u8> {
    wire(&format!("v.h{record:04}.{TOP}"))
}

fn x_of_many_lengths(record: usize) -> Vec<u8> {
    wire(&format!(
        "{}.h{record:04}.{TOP}",
        "w".repeat(1 + record % 12)
    ))
}

fn is_last(record: usize) -> bool {
    record == BOOK_RECORDS - 1
}

#[cfg(test)]
mod tests {
    use super::*;
    use crate::applicant::Applicant;
    use crate::limits::{BOOK_OCTETS, REQUEST_NAMES};
    use crate::rule::{labels_taken_off, Records};
    use crate::{read_book, read_request};

    #[test]
    fn books_are_full() {
        for shape in SHAPES {
            let book = shape.book();
            assert_eq!(read_book(&book).unwrap().len(), BOOK_RECORDS);
            assert_eq!(book.len(), BOOK_OCTETS, "{}", shape.title);
        }
    }

    #[test]
    fn sets_stand_where_said() {
        for shape in SHAPES {
            let (request, book) = (shape.request(REQUEST_NAMES), shape.book());
            let names = read_request(&request).unwrap();
            assert_eq!(names.len(), REQUEST_NAMES);
            let book = read_book(&book).unwrap();
            let records = Records::of(&book, Applicant::SOMEONE);
            let height = match shape.title {
                title if title.contains("at X") => 0,
                title if title.contains("at the parent") => 1,
                _ => 2,
            };
            for name in &names {
                assert_eq!(name.fqdn.labels().count(), 3);
                let taken_off = labels_taken_off(&records, name);
                assert_eq!(taken_off, Some(height), "{}", shape.title);
            }
        }
    }
}
