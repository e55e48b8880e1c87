//! Requests that lead through aliases, and books with these aliases: chains on both sides of how many
//! are followed, loops, chains that join, targets of every kind, and what can be wrong with them.

use super::deep::tail;
use super::names::name_of_octets;
use super::Generator;
use crate::limits::{BOOK_RECORDS, LABEL_OCTETS, NAME_OCTETS};
use crate::request::read_requested_name;

/// Aliases of one chain.
const LENGTHS: [usize; 14] = [1, 2, 3, 4, 5, 6, 7, 8, 8, 8, 8, 9, 9, 10];
/// Targets that are no name, or not the whole data.
const WRONG_TARGETS: [&[u8]; 9] = [
    b"",
    b"\x01c",
    b"\x01c\x00\x00",
    b"\x00\x00",
    b"\x01c\x00x",
    b"\xC0\x00",
    b"\x01a\xC0\x00",
    b"\x02c\x00",
    b"\x40c\x00",
];
/// Types and classes that are passed over beside an alias.
const PASSED_OVER: [(u16, u16); 6] = [(5, 3), (5, 3), (39, 1), (1, 1), (257, 3), (5, 257)];

/// What is put into a book, by owner. No owner has an alias and a set, or two aliases.
#[derive(Default)]
struct Planned {
    aliases: Vec<(Vec<u8>, Vec<u8>)>,
    sets: Vec<Vec<u8>>,
}

impl Planned {
    fn has_alias(&self, name: &[u8]) -> bool {
        let mut owners = self.aliases.iter().map(|(owner, _)| owner);
        owners.any(|owner| owner.eq_ignore_ascii_case(name))
    }

    fn has_set(&self, name: &[u8]) -> bool {
        let mut owners = self.sets.iter();
        owners.any(|owner| owner.eq_ignore_ascii_case(name))
    }

    fn add_alias(&mut self, owner: &[u8], target: &[u8]) {
        if !self.has_alias(owner) && !self.has_set(owner) {
            self.aliases.push((owner.to_vec(), target.to_vec()));
        }
    }

    fn add_set(&mut self, owner: &[u8]) {
        if !self.has_alias(owner) && !self.has_set(owner) {
            self.sets.push(owner.to_vec());
        }
    }
}

impl Generator {
    /// A good request, and a book with aliases that it mostly leads through. Some of the books have a
    /// wrong target or a conflict.
    pub(super) fn request_and_book_of_aliases(&mut self) -> (Vec<u8>, Vec<u8>) {
        let (request, mut records) = self.request_and_records_of_aliases();
        if self.once_in(4) {
            self.add_conflicts(&mut records);
        }
        if self.once_in(12) {
            let owner = self.owner();
            let rdata = self.wrong_target();
            let record = self.record_of(owner, 5, 1, &rdata);
            self.put_in(&mut records, record);
        }
        if self.once_in(12) {
            let unasked = self.unasked_records(BOOK_RECORDS.saturating_sub(records.len()));
            records.insert(0, unasked);
        }
        let mut book = records.concat();
        if self.once_in(24) {
            book.truncate(book.len() - 1 - self.below(4));
        }
        (request, book)
    }

    /// The same, and the book is accepted.
    pub fn good_request_and_book_of_aliases(&mut self) -> (Vec<u8>, Vec<u8>) {
        let (request, records) = self.request_and_records_of_aliases();
        (request, records.concat())
    }

    fn request_and_records_of_aliases(&mut self) -> (Vec<u8>, Vec<Vec<u8>>) {
        let request = self.request();
        let looked_at = looked_at(&request);
        let planned = match self.once_in(32) {
            true => self.many_aliases(&looked_at),
            false => self.chains(&looked_at),
        };
        let records = self.records_of(planned);
        (request, records)
    }

    /// A few chains from the names that are looked at, and sets that they lead to or not.
    fn chains(&mut self, looked_at: &[&[u8]]) -> Planned {
        let mut planned = Planned::default();
        for _ in 0..1 + self.near_front(&[0, 1, 2]) {
            let from = match self.below(16) {
                0 => vec![0],
                1 => {
                    let name = self.one_of(looked_at);
                    with_label(b"*", name)
                }
                2..=8 => self.one_of(looked_at).to_vec(),
                _ => self.near_front(looked_at).to_vec(),
            };
            self.add_chain(&from, looked_at, &mut planned);
        }
        for name in looked_at {
            if self.once_in(3) {
                planned.add_set(name);
            }
        }
        if self.once_in(4) {
            planned.add_set(&[0]);
        }
        planned
    }

    /// A chain of aliases, and often a set at its end, or around that, or above its first name.
    fn add_chain(&mut self, from: &[u8], looked_at: &[&[u8]], planned: &mut Planned) {
        let mut names = vec![from.to_vec()];
        for number in 1..self.one_of(&LENGTHS) {
            names.push(self.name_between(from, planned.aliases.len() + number));
        }
        let end = match self.below(20) {
            0 | 1 => vec![0],
            2 => self.one_of(looked_at).to_vec(),
            3..=6 if from != [0] => tail(from, 1).to_vec(),
            7..=9 => {
                let letter = self.near_front(b"ab");
                with_label(&[letter], from)
            }
            10 | 11 => names[self.below(names.len())].clone(),
            12 => self.owner(),
            _ => self.name_between(from, planned.aliases.len() + names.len()),
        };
        names.push(end);
        let end = names.last().cloned().unwrap_or_default();
        for pair in names.windows(2) {
            planned.add_alias(&pair[0], &pair[1]);
        }
        if self.once_in(2) {
            planned.add_set(&end);
        }
        if self.once_in(3) && end != [0] {
            planned.add_set(tail(&end, 1));
        }
        if self.once_in(2) && from != [0] {
            planned.add_set(tail(from, 1));
        }
    }

    /// As many aliases as may be, one leading to the next, or to one of a few sets.
    fn many_aliases(&mut self, looked_at: &[&[u8]]) -> Planned {
        let mut planned = Planned::default();
        // With room for three sets of two records each, and three records beside them.
        let aliases = BOOK_RECORDS - 10 - looked_at.len();
        let numbered = |number: usize| {
            let label = format!("m{:04}", number % aliases);
            with_label(label.as_bytes(), &[0])
        };
        // No two of these have one owner.
        for number in 0..aliases {
            let target = match self.below(8) {
                0 => vec![1, self.one_of(b"stuv"), 0],
                _ => numbered(number + 1),
            };
            planned.aliases.push((numbered(number), target));
        }
        for name in looked_at {
            let target = numbered(self.below(aliases));
            planned.add_alias(name, &target);
        }
        for letter in b"stu" {
            planned.add_set(&[1, *letter, 0]);
        }
        planned
    }

    /// A name that no request asks for: another one for each number.
    fn name_between(&mut self, from: &[u8], number: usize) -> Vec<u8> {
        let label = format!("m{number:02}");
        let alone = with_label(label.as_bytes(), &[0]);
        match self.below(8) {
            0 if from.len() + alone.len() <= NAME_OCTETS => with_label(label.as_bytes(), from),
            // As long as may be, and the same as others but for the last octets.
            1 => {
                let front = name_of_octets(NAME_OCTETS + 1 - alone.len(), LABEL_OCTETS);
                [&front[..front.len() - 1], &alone].concat()
            }
            2 | 3 => with_label(label.as_bytes(), &self.short_owner()),
            _ => alone,
        }
    }

    /// The records in any order, with some beside them that are passed over.
    fn records_of(&mut self, planned: Planned) -> Vec<Vec<u8>> {
        let mut records = Vec::new();
        for (owner, target) in &planned.aliases {
            let (owner, target) = (self.any_case(owner), self.any_case(target));
            let record = self.record_of(owner, 5, 1, &target);
            self.put_in(&mut records, record);
        }
        for owner in &planned.sets {
            for _ in 0..1 + self.near_front(&[0, 1]) {
                let owner = self.any_case(owner);
                let rdata = self.caa_data();
                let record = self.record_of(owner, 257, 1, &rdata);
                self.put_in(&mut records, record);
            }
        }
        for _ in 0..self.near_front(&[0, 1, 2, 3]) {
            let (owner, _) = &planned.aliases[self.below(planned.aliases.len())];
            let owner = self.any_case(owner);
            let (rtype, class) = self.one_of(&PASSED_OVER);
            let rdata = match self.below(3) {
                0 => self.wrong_target(),
                1 => self.top_name(),
                _ => vec![0],
            };
            let record = self.record_of(owner, rtype, class, &rdata);
            self.put_in(&mut records, record);
        }
        records
    }

    /// One record more or two, each beside an alias or a set: of the same owner, in any letter case.
    fn add_conflicts(&mut self, records: &mut Vec<Vec<u8>>) {
        for _ in 0..self.near_front(&[1, 2]) {
            let beside = records[self.below(records.len())].clone();
            let owner = self.any_case(owner_of(&beside));
            let record = match self.below(5) {
                0 => beside,
                1 | 2 => {
                    let rdata = self.caa_data();
                    self.record_of(owner, 257, 1, &rdata)
                }
                _ => {
                    let target = self.short_owner();
                    self.record_of(owner, 5, 1, &target)
                }
            };
            self.put_in(records, record);
        }
    }

    pub(super) fn put_in(&mut self, records: &mut Vec<Vec<u8>>, record: Vec<u8>) {
        let place = self.below(records.len() + 1);
        records.insert(place, record);
    }

    /// Data that is no target.
    pub(super) fn wrong_target(&mut self) -> Vec<u8> {
        match self.below(8) {
            0 => name_of_octets(NAME_OCTETS + 1, LABEL_OCTETS),
            1 => [self.owner(), self.owner()].concat(),
            _ => self.one_of(&WRONG_TARGETS).to_vec(),
        }
    }

    /// An alias with a target that is mostly good.
    pub(super) fn alias(&mut self) -> Vec<u8> {
        let owner = self.owner();
        let target = match self.below(4) {
            0 => self.wrong_target(),
            1 => self.name_around_limit(),
            _ => self.owner(),
        };
        self.record_of(owner, 5, 1, &target)
    }
}

/// The name with one label more, where that has room.
pub(super) fn with_label(label: &[u8], name: &[u8]) -> Vec<u8> {
    match 1 + label.len() + name.len() <= NAME_OCTETS {
        true => [&[label.len() as u8], label, name].concat(),
        false => name.to_vec(),
    }
}

/// The names that the climbs of a good request look at: first the requested ones, without stars.
fn looked_at(request: &[u8]) -> Vec<&[u8]> {
    let mut names = Vec::new();
    let mut rest = request;
    while let Some((requested, behind)) = read_requested_name(rest) {
        let name = &rest[..rest.len() - behind.len()];
        names.push(match requested.wildcard {
            true => &name[2..],
            false => name,
        });
        rest = behind;
    }
    for number in 0..names.len() {
        let mut above = tail(names[number], 1);
        while above != [0] && names.len() < 12 {
            names.push(above);
            above = tail(above, 1);
        }
    }
    names
}

/// The owner of a record, in wire form.
pub(super) fn owner_of(record: &[u8]) -> &[u8] {
    let mut end = 0;
    while record[end] != 0 {
        end += 1 + usize::from(record[end]);
    }
    &record[..=end]
}

#[cfg(test)]
mod tests {
    use super::*;
    use crate::{read_book, read_request};

    #[test]
    fn requests_and_books_of_aliases_are_good() {
        let mut generator = Generator::new(1);
        for _ in 0..2_000 {
            let (request, book) = generator.good_request_and_book_of_aliases();
            assert!(read_request(&request).is_ok());
            assert!(read_book(&book).is_ok());
        }
    }

    #[test]
    fn no_wrong_target_is_one_name() {
        let mut generator = Generator::new(1);
        for _ in 0..200 {
            let target = generator.wrong_target();
            assert!(crate::book::read_target(&target).is_none(), "{target:?}");
        }
    }

    #[test]
    fn names_and_those_above_them_are_looked_at() {
        assert_eq!(
            looked_at(b"\x01*\x01a\x01c\x00\x01d\x00"),
            [&b"\x01a\x01c\x00"[..], b"\x01d\x00", b"\x01c\x00"]
        );
        assert_eq!(owner_of(b"\x01a\x01c\x00\x00\x05"), b"\x01a\x01c\x00");
    }
}
