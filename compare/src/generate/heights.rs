//! Names whose climb ends a known number of labels up: at a set, at aliases that lead to one, or at too
//! many aliases. Sets that don't permit are the most of them, so that the number is told.

use super::aliases::with_label;
use super::deep::tail;
use super::names::OPEN_NAME;
use super::Generator;
use crate::limits::ALIASES;

/// Labels taken off.
const HEIGHTS: [usize; 8] = [0, 1, 1, 2, 2, 2, 3, 5];

impl Generator {
    /// One name, at times behind an open one, and a book where its climb ends at some height.
    pub fn request_and_book_of_heights(&mut self) -> (Vec<u8>, Vec<u8>) {
        let height = self.one_of(&HEIGHTS);
        let mut name = vec![0];
        for _ in 0..height + 1 + self.below(3) {
            name = with_label(&[self.one_of(b"abc")], &name);
        }
        let mut records = self.records_at(&name, height);
        // Aliases to nothing on the way, and a set farther up, which has no say.
        for below in 0..height {
            if self.once_in(4) {
                self.put_alias(tail(&name, below), b"\x01n\x00", &mut records);
            }
        }
        let above = tail(&name, height + 1);
        if above != [0] && self.once_in(2) {
            self.put_set(above, &mut records);
        }
        let star: &[u8] = if self.once_in(2) { b"\x01*" } else { b"" };
        let open = if self.once_in(3) { OPEN_NAME } else { b"" };
        let request = [open, star, &self.any_case(&name)].concat();
        (request, records.concat())
    }

    /// What ends the climb at this height.
    fn records_at(&mut self, name: &[u8], height: usize) -> Vec<Vec<u8>> {
        let from = tail(name, height);
        let mut records = Vec::new();
        match self.below(3) {
            0 => self.put_set(from, &mut records),
            1 => {
                let end = match self.below(6) {
                    0 => vec![0],
                    1 => tail(name, height + 1).to_vec(),
                    2 => with_label(b"b", name),
                    _ => with_label(b"t", &with_label(b"u", &[0])),
                };
                let aliases = self.one_of(&[1, 1, 2, ALIASES]);
                self.put_chain(from, aliases, &end, &mut records);
                self.put_set(&end, &mut records);
            }
            _ if self.once_in(2) => self.put_alias(from, from, &mut records),
            _ => self.put_chain(from, ALIASES + 1, b"\x01t\x00", &mut records),
        }
        records
    }

    fn put_chain(&mut self, from: &[u8], aliases: usize, end: &[u8], records: &mut Vec<Vec<u8>>) {
        let mut owner = from.to_vec();
        for number in 1..aliases {
            let target = with_label(format!("m{number}").as_bytes(), &[0]);
            self.put_alias(&owner, &target, records);
            owner = target;
        }
        self.put_alias(&owner, end, records);
    }

    fn put_alias(&mut self, owner: &[u8], target: &[u8], records: &mut Vec<Vec<u8>>) {
        let (owner, target) = (self.any_case(owner), self.any_case(target));
        let record = self.record_of(owner, 5, 1, &target);
        self.put_in(records, record);
    }

    /// One or two records: unknown critical ones, ones that grant nobody, and any others.
    fn put_set(&mut self, owner: &[u8], records: &mut Vec<Vec<u8>>) {
        for _ in 0..1 + self.below(2) {
            let rdata = match self.below(4) {
                0 | 1 => b"\x80\x03tbs".to_vec(),
                2 => b"\x00\x05issue;".to_vec(),
                _ => self.caa_data(),
            };
            let owner = self.any_case(owner);
            let record = self.record_of(owner, 257, 1, &rdata);
            self.put_in(records, record);
        }
    }
}

#[cfg(test)]
mod tests {
    use super::*;
    use crate::applicant::Applicant;
    use crate::rule::{labels_taken_off, Records};
    use crate::{read_book, read_request};

    #[test]
    fn requests_and_books_of_heights_are_good() {
        let mut generator = Generator::new(1);
        let mut came = [0; 6];
        for _ in 0..2_000 {
            let (request, book) = generator.request_and_book_of_heights();
            let names = read_request(&request).unwrap();
            let book = read_book(&book).unwrap();
            let records = Records::of(&book, Applicant::SOMEONE);
            let last = names.last().unwrap();
            came[labels_taken_off(&records, last).unwrap()] += 1;
        }
        assert!(HEIGHTS.iter().all(|&height| came[height] > 200), "{came:?}");
    }
}
