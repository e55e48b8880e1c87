//! Deep cases: names of many labels, and sets that stand many labels above them.

use super::aliases::owner_of;
use super::Generator;
use crate::limits::{BOOK_RECORDS, NAME_OCTETS, REQUEST_OCTETS};

/// Labels of the deepest name: one octet each, behind a length octet, and the closing zero.
const MOST_LABELS: usize = (NAME_OCTETS - 1) / 2;
/// Names that have room in a request, however long they are.
const MANY_NAMES: usize = REQUEST_OCTETS / NAME_OCTETS;
/// Labels taken off, on both sides of where a climb could be given up.
const HEIGHTS: [usize; 12] = [0, 1, 2, 3, 39, 40, 41, 99, 100, 101, 125, 126];

impl Generator {
    /// A request of deep names that share a tail, and a book with a set at any height above them, and
    /// sometimes an alias. Now and then the request or the book is full.
    pub(super) fn deep_request_and_book(&mut self) -> (Vec<u8>, Vec<u8>) {
        let name = self.deep_name();
        let names = match self.once_in(16) {
            true => MANY_NAMES,
            false => 1 + self.near_front(&[0, 1, 2]),
        };
        let request = (0..names).flat_map(|_| self.name_below(&name)).collect();
        let mut records = self.records_above(&name);
        if self.once_in(3) {
            self.add_alias_above(&name, &mut records);
        }
        if self.once_in(16) {
            let unasked = self.unasked_records(BOOK_RECORDS - records.len());
            records.insert(0, unasked);
        }
        (request, records.concat())
    }

    /// Mostly as deep as may be, and its labels mostly of one octet.
    fn deep_name(&mut self) -> Vec<u8> {
        let labels = match self.below(4) {
            0 => 4 + self.below(MOST_LABELS - 4),
            _ => MOST_LABELS,
        };
        let mut spare = (NAME_OCTETS - 1) - 2 * labels;
        let mut wire = Vec::new();
        for _ in 0..labels {
            if spare > 0 && self.once_in(4) {
                spare -= 1;
                wire.extend(b"\x02ab");
            } else {
                wire.extend([1, self.near_front(b"aab")]);
            }
        }
        wire.push(0);
        wire
    }

    /// The name, or one close above it, with a star or without.
    fn name_below(&mut self, name: &[u8]) -> Vec<u8> {
        let star: &[u8] = if self.once_in(3) { b"\x01*" } else { b"" };
        let taken_off = self.near_front(&[0, 0, 0, 1, 2, 3]);
        let mut below = tail(name, taken_off);
        if star.len() + below.len() > NAME_OCTETS {
            below = tail(name, 1);
        }
        [star, &self.any_case(below)].concat()
    }

    /// A set at some height above the name, up to the root, which has no say; and in any order with
    /// its records some that must not count: of owners farther up, of owners that differ from an
    /// ancestor in one octet, and of the root.
    fn records_above(&mut self, name: &[u8]) -> Vec<Vec<u8>> {
        let labels = labels(name);
        let height = self.height(labels);
        let mut owners: Vec<Vec<u8>> = Vec::new();
        for _ in 0..1 + self.below(3) {
            owners.push(tail(name, height).to_vec());
        }
        for _ in 0..self.below(4) {
            let owner = match self.below(4) {
                0 => vec![0],
                1 => tail(name, height + self.below(labels - height + 1)).to_vec(),
                _ => {
                    let height = self.below(labels);
                    self.nearly(tail(name, height))
                }
            };
            let place = self.below(owners.len() + 1);
            owners.insert(place, owner);
        }
        owners
            .into_iter()
            .map(|owner| {
                let owner = self.any_case(&owner);
                let rdata = self.caa_data();
                self.record_of(owner, 257, 1, &rdata)
            })
            .collect()
    }

    /// Labels taken off a name of so many, up to all of them.
    fn height(&mut self, labels: usize) -> usize {
        match self.below(8) {
            0..=4 => self.one_of(&HEIGHTS).min(labels),
            5 => labels - 1,
            6 => labels,
            _ => self.below(labels),
        }
    }

    /// An alias at some height above the name, where there are no records: to a name with a set or
    /// without, to the root, or to itself.
    fn add_alias_above(&mut self, name: &[u8], records: &mut Vec<Vec<u8>>) {
        let height = self.height(labels(name));
        let owner = tail(name, height);
        let is_owner = |record: &Vec<u8>| owner_of(record).eq_ignore_ascii_case(owner);
        if records.iter().any(is_owner) {
            return;
        }
        let target: &[u8] = match self.below(8) {
            0 => &[0],
            1 => owner,
            _ => b"\x01m\x00",
        };
        let (alias, rdata) = (self.any_case(owner), self.any_case(target));
        let record = self.record_of(alias, 5, 1, &rdata);
        self.put_in(records, record);
        if target != owner && !self.once_in(4) {
            let (owner, rdata) = (self.any_case(target), self.caa_data());
            let record = self.record_of(owner, 257, 1, &rdata);
            self.put_in(records, record);
        }
    }

    /// The name with an octet changed that is no length octet, so that it is none of the ancestors.
    fn nearly(&mut self, name: &[u8]) -> Vec<u8> {
        let taken_off = self.below(labels(name));
        let place = name.len() - tail(name, taken_off).len() + 1;
        let mut nearly = name.to_vec();
        nearly[place] = self.one_of(b"c-");
        nearly
    }
}

/// The name with so many labels taken off, the root where it has no more.
pub(super) fn tail(name: &[u8], taken_off: usize) -> &[u8] {
    let mut rest = name;
    for _ in 0..taken_off {
        rest = &rest[1 + usize::from(rest[0])..];
    }
    rest
}

fn labels(name: &[u8]) -> usize {
    let mut rest = name;
    let mut labels = 0;
    while rest != [0] {
        rest = tail(rest, 1);
        labels += 1;
    }
    labels
}

#[cfg(test)]
mod tests {
    use super::*;
    use crate::{read_book, read_request};

    #[test]
    fn deep_requests_and_books_are_good() {
        let mut generator = Generator::new(1);
        for _ in 0..2_000 {
            let (request, book) = generator.deep_request_and_book();
            assert!(read_request(&request).is_ok());
            assert!(read_book(&book).is_ok());
        }
    }

    #[test]
    fn labels_are_taken_off_the_front() {
        let name = b"\x01a\x02bc\x01d\x00";
        assert_eq!(labels(name), 3);
        assert_eq!(tail(name, 0), name);
        assert_eq!(tail(name, 2), b"\x01d\x00");
        assert_eq!(tail(name, 3), b"\x00");
    }
}
