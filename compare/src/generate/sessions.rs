//! Answers to single lookups, cut from a whole book; books that are refused; and sessions that somebody
//! has written to.

use super::deep::tail;
use super::Generator;
use crate::book::{read_raw_record, read_target, RawRecord};
use crate::limits::{ALIASES, BOOK_OCTETS, BOOK_RECORDS};
use crate::name::{read_name, Name};
use crate::request::read_requested_name;
use crate::session::{Session, Text, ASKING, DECIDED, SESSION_OCTETS, TEXT_ROOM};

const PHASES: [usize; 8] = [0, 1, 2, 3, 256, 257, 1 << 32 | 1, usize::MAX];
const PLACES: [usize; 9] = [0, 1, 2, 3, 126, 127, 128, 1 << 32, usize::MAX];
const VERDICTS: [usize; 16] = [
    0,
    0,
    20,
    20,
    21,
    21,
    22,
    22,
    23,
    23,
    1,
    19,
    24,
    256,
    1 << 32 | 21,
    usize::MAX,
];
const NUMBERS: [usize; 8] = [0, 0, 1, 3, 1_023, 1_024, 65_536, usize::MAX];

/// What a session was made to differ in.
#[derive(Clone, Copy)]
pub enum Written {
    AnyOctets,
    OneOctet,
    Phase,
    Place,
    Verdict,
    Length,
    Name,
    Issuer,
    Account,
    Method,
}

/// The answer to one lookup.
pub struct CutAnswer {
    pub book: Vec<u8>,
    /// For each of its records the number that it has in the whole book, or none where it is not of that.
    pub numbers: Vec<Option<usize>>,
}

/// The records of an accepted book.
pub struct WholeBook<'a> {
    records: Vec<RawRecord<'a>>,
}

impl<'a> WholeBook<'a> {
    pub fn of(book: &'a [u8]) -> WholeBook<'a> {
        let mut records = Vec::new();
        let mut rest = book;
        while let Some((record, behind)) = read_raw_record(rest) {
            records.push(record);
            rest = behind;
        }
        WholeBook { records }
    }

    fn alias_of(&self, owner: Name) -> Option<usize> {
        let is_alias = |record: &RawRecord| record.is_alias() && record.owner.is(owner);
        self.records.iter().position(is_alias)
    }

    /// The records that an answer for this name has to hold, and the names whose aliases and CAA records
    /// it may hold no others of.
    fn needed(&self, asked: Name<'a>) -> (Vec<usize>, Vec<Name<'a>>) {
        let (mut needed, mut names) = (Vec::new(), vec![asked]);
        let mut name = asked;
        while let Some(alias) = self.alias_of(name) {
            needed.push(alias);
            if needed.len() > ALIASES {
                return (needed, names);
            }
            match read_target(self.records[alias].rdata) {
                Some(target) => name = target,
                None => break,
            }
            names.push(name);
        }
        for (number, record) in self.records.iter().enumerate() {
            if record.is_caa() && record.owner.is(name) {
                needed.push(number);
            }
        }
        (needed, names)
    }
}

impl Generator {
    /// Holds what the whole book does of the asked name: its aliases and the CAA records that they lead
    /// to, these in the same order. Others are strewn in that have no say.
    pub fn answer_for(&mut self, asked: &[u8], whole: &WholeBook) -> CutAnswer {
        let Some((asked, _)) = read_name(asked) else {
            return CutAnswer {
                book: Vec::new(),
                numbers: Vec::new(),
            };
        };
        let (needed, names) = whole.needed(asked);
        let has_say = |record: &RawRecord| {
            (record.is_caa() || record.is_alias()) && names.iter().any(|name| name.is(record.owner))
        };
        // All of the book, some of it, or nothing but what is needed.
        let (once_in, strewn) = match self.below(16) {
            0 => (1, 0),
            1..=4 => (100_000, 0),
            _ => (1 + whole.records.len() / 4, 1 + self.below(3)),
        };
        let mut records = Vec::new();
        for (number, record) in whole.records.iter().enumerate() {
            if needed.contains(&number) || !has_say(record) && self.once_in(once_in) {
                records.push((Some(number), self.same_record(record)));
            }
        }
        if self.once_in(2) {
            self.move_an_alias(&mut records, whole);
        }
        for _ in 0..strewn {
            let record = self.record_without_say(asked, &names, whole);
            let octets: usize = records.iter().map(|(_, record)| record.len()).sum();
            if records.len() < BOOK_RECORDS && octets + record.len() <= BOOK_OCTETS {
                let place = self.below(records.len() + 1);
                records.insert(place, (None, record));
            }
        }
        let (numbers, records): (Vec<_>, Vec<_>) = records.into_iter().unzip();
        CutAnswer {
            book: records.concat(),
            numbers,
        }
    }

    /// The same but for letter case and time to live.
    fn same_record(&mut self, record: &RawRecord) -> Vec<u8> {
        let owner = self.any_case(record.owner.wire());
        let rdata = match record.is_alias() {
            true => self.any_case(record.rdata),
            false => record.rdata.to_vec(),
        };
        self.record_of(owner, record.rtype, record.class, &rdata)
    }

    /// Where an alias stands in the answer doesn't matter.
    fn move_an_alias(&mut self, records: &mut Vec<(Option<usize>, Vec<u8>)>, whole: &WholeBook) {
        let is_alias = |(number, _): &(Option<usize>, Vec<u8>)| {
            number.is_some_and(|number| whole.records[number].is_alias())
        };
        if let Some(place) = records.iter().position(is_alias) {
            let alias = records.remove(place);
            let place = self.below(records.len() + 1);
            records.insert(place, alias);
        }
    }

    /// A record that an answer for this name may hold beside what it has to: of another type or class, or
    /// of an owner that the lookup doesn't come to, a parent for example.
    fn record_without_say(&mut self, asked: Name, names: &[Name], whole: &WholeBook) -> Vec<u8> {
        let owner = match self.below(4) {
            0 => self.owner(),
            1 => asked.wire().to_vec(),
            _ => tail(asked.wire(), 1).to_vec(),
        };
        let owner = self.any_case(&owner);
        let has_say = match read_name(&owner) {
            Some((name, _)) => {
                whole.alias_of(name).is_some() || names.iter().any(|other| other.is(name))
            }
            None => true,
        };
        if has_say || self.once_in(3) {
            let (rtype, class) = self.one_of(&[(16, 1), (257, 3), (5, 3), (1, 257)]);
            let rdata = self.caa_data();
            self.record_of(owner, rtype, class, &rdata)
        } else {
            let rdata = match self.below(3) {
                0 => b"\x80\x03tbs".to_vec(),
                1 => b"\x00\x05issue;".to_vec(),
                _ => self.caa_data(),
            };
            self.record_of(owner, 257, 1, &rdata)
        }
    }

    /// A book that is refused with 5, 6, 7 or 12.
    pub fn refused_book(&mut self) -> Vec<u8> {
        match self.below(8) {
            0 => self.record_of(vec![0], 16, 1, &[0xFF; BOOK_OCTETS - 10]),
            1 => self.record_of(vec![0], 16, 1, b"").repeat(BOOK_RECORDS + 1),
            2 | 3 => {
                let owner = self.owner();
                let aliases = [(); 2].map(|()| {
                    let owner = self.any_case(&owner);
                    self.record_of(owner, 5, 1, &[0])
                });
                [self.few_records(), aliases.concat()].concat()
            }
            4 => {
                let rdata = self.caa_data_with_wrong_tag();
                let owner = self.owner();
                [self.few_records(), self.record_of(owner, 257, 1, &rdata)].concat()
            }
            5 => {
                let rdata = self.wrong_target();
                let owner = self.owner();
                [self.few_records(), self.record_of(owner, 5, 1, &rdata)].concat()
            }
            _ => [self.few_records(), vec![0xFF]].concat(),
        }
    }

    fn few_records(&mut self) -> Vec<u8> {
        let records = self.below(3);
        let owner = |_| self.record_of(b"\x01f\x00".to_vec(), 16, 1, b"");
        (0..records).flat_map(owner).collect()
    }

    /// The session, with one thing of it written anew, or all of it. Half of what comes is still good.
    pub fn written_session(&mut self, mut session: Session) -> (Session, Written) {
        let written = match self.below(16) {
            0 => Written::AnyOctets,
            1 | 2 => Written::OneOctet,
            3 => Written::Phase,
            4 | 5 => Written::Place,
            6 | 7 => Written::Verdict,
            8 | 9 => Written::Length,
            10 | 11 => Written::Name,
            12 | 13 => Written::Issuer,
            14 => Written::Account,
            _ => Written::Method,
        };
        match written {
            Written::AnyOctets => {
                session = Session::from_octets(&self.buffer(SESSION_OCTETS));
                if self.once_in(2) {
                    session.phase = self.one_of(&[ASKING, DECIDED]);
                    session.up = 0;
                }
            }
            Written::OneOctet => session = self.with_one_octet(&session),
            Written::Phase => session.phase = self.one_of(&PHASES),
            Written::Place => session.up = self.place(&session),
            Written::Verdict => {
                session.phase = DECIDED;
                session.verdict = self.one_of(&VERDICTS);
                session.rr = self.one_of(&NUMBERS);
            }
            Written::Length => {
                let length = self.one_of(&[0, 1, 255, 256, 257, 1 << 32, usize::MAX]);
                let change = self.one_of(&[0, 1, usize::MAX]);
                let text = match self.below(4) {
                    0 => &mut session.name,
                    1 => &mut session.issuer,
                    2 => &mut session.account,
                    _ => &mut session.method,
                };
                text.length = match change {
                    0 => length,
                    _ => text.length.wrapping_add(change),
                };
            }
            Written::Name => {
                let name = match self.below(4) {
                    0 => self.name_around_limit(),
                    1 => self.request(),
                    2 => {
                        let name = self.requested_name();
                        self.damaged(name)
                    }
                    _ => self.requested_name(),
                };
                self.write_text(&mut session.name, &name);
            }
            Written::Issuer => {
                let issuer = match self.below(3) {
                    0 => self.issuer_around_limit(),
                    1 => self.any_issuer(),
                    _ => {
                        let issuer = self.issuer();
                        self.damaged(issuer)
                    }
                };
                self.write_text(&mut session.issuer, &issuer);
            }
            Written::Account => {
                let account = self.written_account();
                self.write_text(&mut session.account, &account);
            }
            Written::Method => {
                let method = self.written_account();
                self.write_text(&mut session.method, &method);
            }
        }
        (session, written)
    }

    fn written_account(&mut self) -> Vec<u8> {
        match self.below(4) {
            0 => self.text_around_limit(),
            1 => self.any_account(),
            2 => self.any_method(),
            _ => {
                let account = self.account();
                self.damaged(account)
            }
        }
    }

    /// What was there before stays behind it. What has no room is cut.
    fn write_text(&mut self, text: &mut Text, octets: &[u8]) {
        let octets = &octets[..octets.len().min(TEXT_ROOM)];
        text.length = octets.len();
        text.octets[..octets.len()].copy_from_slice(octets);
    }

    /// Places around the number of labels, and any.
    fn place(&mut self, session: &Session) -> usize {
        let name = session.name.kept().and_then(read_requested_name);
        let labels = name.map_or(1, |(name, _)| name.fqdn.labels().count());
        match self.below(3) {
            0 => self.one_of(&PLACES),
            _ => labels + 1 - self.below(labels.min(2) + 2),
        }
    }

    /// Mostly an octet of the numbers, or one of a text or just behind it.
    fn with_one_octet(&mut self, session: &Session) -> Session {
        let mut octets = session.octets();
        let text = |number: usize, text: &Text| (32 + 264 * number, 9 + text.length.min(247));
        let (from, among) = match self.below(6) {
            0 => (0, SESSION_OCTETS),
            1 => (0, 32),
            2 => text(0, &session.name),
            3 => text(1, &session.issuer),
            4 => text(2, &session.account),
            _ => text(3, &session.method),
        };
        let place = from + self.below(among);
        octets[place] = match self.below(3) {
            0 => self.octet(),
            1 => octets[place] ^ 1 << self.below(8),
            _ => self.one_of(b"\x00\x01-*;,. aZ~\x7F\x80\xFF"),
        };
        Session::from_octets(&octets)
    }
}

#[cfg(test)]
mod tests {
    use super::*;
    use crate::answer::Refusal;
    use crate::read_book;

    #[test]
    fn answers_are_accepted_and_hold_what_the_book_does() {
        let mut generator = Generator::new(1);
        for _ in 0..2_000 {
            let (request, book) = generator.good_request_and_book_of_aliases();
            let (name, behind) = read_requested_name(&request).unwrap();
            let whole = WholeBook::of(&book);
            assert!(request.len() > behind.len());
            for asked in name.fqdn.ancestors() {
                let answer = generator.answer_for(asked.wire(), &whole);
                let records = read_book(&answer.book).unwrap();
                assert_eq!(records.len(), answer.numbers.len());
                let (needed, _) = whole.needed(asked);
                assert!(needed
                    .iter()
                    .all(|number| answer.numbers.contains(&Some(*number))));
            }
        }
    }

    #[test]
    fn refused_books_are() {
        let mut generator = Generator::new(1);
        let mut came = [0; 13];
        for _ in 0..2_000 {
            let refusal = read_book(&generator.refused_book()).unwrap_err();
            came[usize::from(Refusal::number(refusal))] += 1;
        }
        assert!(
            [5, 6, 7, 12].iter().all(|&number| came[number] > 100),
            "{came:?}"
        );
    }
}
