//! Books: some records, as many or as long as may be, or many of one owner.

use super::names::UNASKED_OWNER;
use super::Generator;
use crate::limits::{BOOK_OCTETS, BOOK_RECORDS, ISSUER_OCTETS, LABEL_OCTETS};

pub(super) const KNOWN_TAGS: [&[u8]; 3] = [b"issue", b"issuewild", b"iodef"];
pub(super) const UNKNOWN_TAGS: [&[u8]; 5] = [b"tbs", b"issu", b"issues", b"issuewil", b"T0Z"];
/// Those that look like letters or digits, those next to them, and the ends.
pub(super) const WRONG_TAG_OCTETS: [u8; 14] = *b"-_ /:@[`{\x00\x11\x80\xE1\xFF";
pub(super) const FLAGS: [u8; 6] = [0, 1, 127, 128, 129, 255];
const BLANKS: [&[u8]; 4] = [b"", b"", b" ", b"\t "];
const PARAMETER_TAGS: [&[u8]; 6] = [b"a", b"b0", b"0", b"a-b", b"a--0", b"0-a-b"];
const WRONG_PARAMETER_TAGS: [&[u8]; 12] = [
    b"-a", b"a-", b"--a", b"a--", b"-", b"--", b"a -b", b"a- b", b"a b", b"a_b", b"a.b", b"",
];
const PARAMETER_VALUES: [&[u8]; 6] = [b"1", b"", b"a", b"-", b"a-b", b"=!~"];
const NOISE: [&[u8]; 6] = [b".", b"-", b"%", b";", b"\n", b" z"];

impl Generator {
    /// A good book of 0 to 15 records.
    pub fn book(&mut self) -> Vec<u8> {
        let records = self.below(16);
        (0..records).flat_map(|_| self.record()).collect()
    }

    /// Good records end to end, around the limit of a book's octets. One is as long as that takes;
    /// half of the time it is the first.
    pub(super) fn long_book(&mut self) -> Vec<u8> {
        let before = match self.once_in(2) {
            true => Vec::new(),
            false => self.book(),
        };
        let behind = self.book();
        let padding = BOOK_OCTETS - 1 + self.below(4) - before.len() - behind.len() - 11;
        let long = self.record_of(vec![0], 16, 1, &vec![0xFF; padding]);
        [before, long, behind].concat()
    }

    /// Good records end to end, around the limit of their number. Most are short, so that so many have
    /// room in a book. Half of the time only the last few can matter.
    pub(super) fn many_records(&mut self) -> Vec<u8> {
        let records = BOOK_RECORDS - 1 + self.below(3);
        let unasked = match self.once_in(2) {
            true => records - self.below(16),
            false => 0,
        };
        let mut octets = self.unasked_records(unasked);
        let record = |_| {
            if self.once_in(16) {
                return self.record();
            }
            let owner = self.short_owner();
            let tag = self.near_front(&KNOWN_TAGS);
            let rdata = [&[0, tag.len() as u8], tag, &self.issuer()].concat();
            self.record_of(owner, 257, 1, &rdata)
        };
        octets.extend((unasked..records).flat_map(record));
        octets
    }

    /// So many records that no request asks for.
    pub(super) fn unasked_records(&mut self, records: usize) -> Vec<u8> {
        self.record_of(UNASKED_OWNER.to_vec(), 257, 1, b"\x00\x05issuex")
            .repeat(records)
    }

    /// Many grants for one name, some of them twice and more. Half of the time there are as many as
    /// may be.
    pub(super) fn crowded_book(&mut self) -> Vec<u8> {
        let records = match self.once_in(2) {
            true => BOOK_RECORDS,
            false => self.below(BOOK_RECORDS + 1),
        };
        let issuers = self.one_of(&[200, 4 * BOOK_RECORDS, 4 * BOOK_RECORDS]);
        let grant = |_| {
            let tag = self.near_front(&KNOWN_TAGS);
            let issuer = format!("x{}", self.below(issuers));
            let rdata = [
                &[0, tag.len() as u8],
                tag,
                &self.any_case(issuer.as_bytes()),
            ]
            .concat();
            self.record_of(b"\x01c\x00".to_vec(), 257, 1, &rdata)
        };
        (0..records).flat_map(grant).collect()
    }

    /// Grants for one name, as many as have room, of issuer names as long as may be, some of them
    /// twice and more. A list can hardly be longer.
    pub(super) fn book_of_long_list(&mut self) -> Vec<u8> {
        let label = "x".repeat(LABEL_OCTETS);
        let digits = ISSUER_OCTETS - 3 * (LABEL_OCTETS + 1);
        let mut book = Vec::new();
        loop {
            let number = self.below(BOOK_RECORDS);
            let issuer = format!("{label}.{label}.{label}.{number:0digits$}");
            let rdata = [b"\x00\x05issue", &self.any_case(issuer.as_bytes())[..]].concat();
            let record = self.record_of(b"\x01c\x00".to_vec(), 257, 1, &rdata);
            if book.len() + record.len() > BOOK_OCTETS {
                return book;
            }
            book.extend(record);
        }
    }

    /// A few records of the top labels, whose values hold names around the limits of issuer names.
    pub(super) fn book_of_long_issuers(&mut self) -> Vec<u8> {
        let records = 1 + self.below(4);
        let grant = |_| {
            let tag = self.near_front(&KNOWN_TAGS);
            let rdata = [&[0, tag.len() as u8], tag, &self.issuer_around_limit()].concat();
            let owner = self.top_name();
            self.record_of(owner, 257, 1, &rdata)
        };
        (0..records).flat_map(grant).collect()
    }

    /// A good book but for one record, or two, whose tags hold a wrong octet. Now and then it is cut
    /// off somewhere behind them or before.
    pub(super) fn book_with_wrong_tag(&mut self) -> Vec<u8> {
        let few = |generator: &mut Generator| {
            let records = generator.near_front(&[0, 1, 2, 3]);
            (0..records).flat_map(|_| generator.record()).collect()
        };
        let mut book: Vec<u8> = few(self);
        for _ in 0..self.near_front(&[1, 2]) {
            let owner = self.owner();
            let rdata = self.caa_data_with_wrong_tag();
            book.extend(self.record_of(owner, 257, 1, &rdata));
            book.extend(few(self));
        }
        if self.once_in(4) {
            book.truncate(1 + self.below(book.len()));
        }
        book
    }

    /// One good record, CAA or not, and no alias.
    pub fn record(&mut self) -> Vec<u8> {
        let owner = self.owner();
        if self.once_in(8) {
            let (rtype, class) = self.one_of(&[(1, 1), (257, 3), (1, 257), (5, 3)]);
            // Often what would count, or be wrong, in a CAA record or an alias.
            let rdata = match self.below(4) {
                0 => self.caa_data(),
                1 => self.caa_data_with_wrong_tag(),
                _ => {
                    let length = self.below(4);
                    self.buffer(length)
                }
            };
            self.record_of(owner, rtype, class, &rdata)
        } else {
            let rdata = self.caa_data();
            self.record_of(owner, 257, 1, &rdata)
        }
    }

    pub(super) fn record_of(
        &mut self,
        owner: Vec<u8>,
        rtype: u16,
        class: u16,
        rdata: &[u8],
    ) -> Vec<u8> {
        let mut wire = owner;
        wire.extend(rtype.to_be_bytes());
        wire.extend(class.to_be_bytes());
        wire.extend(self.buffer(4));
        wire.extend((rdata.len() as u16).to_be_bytes());
        wire.extend(rdata);
        wire
    }

    pub(super) fn caa_data(&mut self) -> Vec<u8> {
        let tag = if self.once_in(16) {
            self.one_of(&UNKNOWN_TAGS)
        } else {
            self.near_front(&KNOWN_TAGS)
        };
        let mut rdata = vec![self.one_of(&FLAGS), tag.len() as u8];
        rdata.extend(self.any_case(tag));
        rdata.extend(self.value());
        rdata
    }

    /// CAA data that is good but for one octet of its tag.
    pub(super) fn caa_data_with_wrong_tag(&mut self) -> Vec<u8> {
        let mut rdata = self.caa_data();
        let place = 2 + self.below(usize::from(rdata[1]));
        let octet = self.one_of(&WRONG_TAG_OCTETS);
        if self.once_in(2) {
            rdata[place] = octet;
        } else {
            rdata.insert(place + self.below(2), octet);
            rdata[1] += 1;
        }
        rdata
    }

    /// An issue value that mostly fits, and sometimes holds a name beyond the limits.
    pub(super) fn value(&mut self) -> Vec<u8> {
        let mut value = self.one_of(&BLANKS).to_vec();
        match self.below(20) {
            0 => {}
            1 | 2 => value.extend(self.issuer_around_limit()),
            _ => value.extend(self.issuer()),
        }
        value.extend(self.one_of(&BLANKS));
        if self.once_in(3) {
            value.push(b';');
            value.extend(self.parameters());
        }
        if self.once_in(12) {
            value.extend(self.one_of(&NOISE));
        }
        value
    }

    /// What stands behind the `;` of a value: no parameter, or up to three that mostly fit.
    fn parameters(&mut self) -> Vec<u8> {
        let count = self.near_front(&[1, 2, 3, 0]);
        let mut text = self.one_of(&BLANKS).to_vec();
        for number in 0..count {
            if number > 0 {
                text.push(b';');
                text.extend(self.one_of(&BLANKS));
            }
            text.extend(self.parameter());
            text.extend(self.one_of(&BLANKS));
        }
        if self.once_in(16) {
            text.push(b';');
        }
        text
    }

    fn parameter(&mut self) -> Vec<u8> {
        match self.below(12) {
            0..=6 => self.other_parameter(),
            7 => self.nearly_limit(),
            _ => self.limit(),
        }
    }

    /// One that limits nothing, with a tag that mostly fits.
    pub(super) fn other_parameter(&mut self) -> Vec<u8> {
        let tag = match self.below(4) {
            0 => self.near_front(&WRONG_PARAMETER_TAGS),
            _ => self.one_of(&PARAMETER_TAGS),
        };
        let value = self.one_of(&PARAMETER_VALUES);
        let [before, behind] = [(); 2].map(|()| self.blanks());
        [tag, before, b"=", behind, value].concat()
    }

    /// None, one or two.
    pub(super) fn blanks(&mut self) -> &'static [u8] {
        self.one_of(&BLANKS)
    }
}
