//! The book: resource records in the form of RFC 1035 section 4.1.3, without compression, end to
//! end. Every record has a number, its place in the book from 0 on, CAA or not.

use std::collections::HashMap;

use crate::answer::Refusal;
use crate::limits::{BOOK_OCTETS, BOOK_RECORDS};
use crate::name::{read_name, Name};

const CLASS_IN: u16 = 1;
const TYPE_CAA: u16 = 257;
const TYPE_CNAME: u16 = 5;

/// The flag bit worth 128, "bit 0" in RFC 8659 section 4.1. The other seven mean nothing.
const CRITICAL: u8 = 128;

#[derive(Clone, Debug)]
pub struct Record<'a> {
    pub owner: Name<'a>,
    pub data: RecordData<'a>,
}

/// Records of other types and classes keep no data: they are counted and passed over.
#[derive(Clone, Debug)]
pub enum RecordData<'a> {
    Caa(Property<'a>),
    /// The owner is an alias of this name, the target (CNAME, RFC 1035 section 3.3.1).
    Alias(Name<'a>),
    Other,
}

/// What one CAA record says (RFC 8659 section 4.1).
#[derive(Clone, Copy, Debug, PartialEq, Eq)]
pub struct Property<'a> {
    pub flags: u8,
    pub tag: &'a [u8],
    pub value: &'a [u8],
}

impl Property<'_> {
    pub fn is_critical(&self) -> bool {
        self.flags & CRITICAL != 0
    }

    /// RFC 8659 section 4.1 has letters and digits in a tag and nothing else.
    pub fn has_good_tag(&self) -> bool {
        self.tag.iter().all(u8::is_ascii_alphanumeric)
    }

    /// Property tags match whatever their letter case.
    pub fn has_tag(&self, tag: &str) -> bool {
        self.tag.eq_ignore_ascii_case(tag.as_bytes())
    }
}

pub fn read_book(octets: &[u8]) -> Result<Vec<Record<'_>>, Refusal> {
    if octets.len() > BOOK_OCTETS {
        return Err(Refusal::BookTooLong);
    }
    let mut records = Vec::new();
    let mut rest = octets;
    while !rest.is_empty() {
        let read = records.len();
        if read == BOOK_RECORDS {
            return Err(Refusal::TooManyRecords { read });
        }
        let (record, behind) = read_record(rest).ok_or(Refusal::BadRecord { record: read })?;
        records.push(record);
        rest = behind;
    }
    match first_conflict(&records) {
        Some(record) => Err(Refusal::AliasConflict { record }),
        None => Ok(records),
    }
}

/// The first record that can't stand beside an earlier one of the same owner. An alias stands beside
/// no other alias and no CAA record; all other records stand beside each other.
fn first_conflict(records: &[Record]) -> Option<usize> {
    // By owner: whether the record before was an alias.
    let mut earlier = HashMap::new();
    records.iter().position(|record| {
        let is_alias = match record.data {
            RecordData::Alias(_) => true,
            RecordData::Caa(_) => false,
            RecordData::Other => return false,
        };
        match earlier.insert(record.owner.in_lower_case(), is_alias) {
            Some(was_alias) => was_alias || is_alias,
            None => false,
        }
    })
}

fn read_record(octets: &[u8]) -> Option<(Record<'_>, &[u8])> {
    let (raw, rest) = read_raw_record(octets)?;
    let data = raw.data()?;
    let owner = raw.owner;
    Some((Record { owner, data }, rest))
}

/// A record as it is laid out, its data not looked into.
#[derive(Clone, Debug)]
pub struct RawRecord<'a> {
    pub owner: Name<'a>,
    pub rtype: u16,
    pub class: u16,
    pub rdata: &'a [u8],
}

impl<'a> RawRecord<'a> {
    /// `None` when CAA data is laid out wrongly, or its tag holds another octet than letters and
    /// digits, and when the data of an alias is anything but one name.
    pub fn data(&self) -> Option<RecordData<'a>> {
        if self.is_caa() {
            let property = read_property(self.rdata)?;
            property.has_good_tag().then_some(RecordData::Caa(property))
        } else if self.is_alias() {
            read_target(self.rdata).map(RecordData::Alias)
        } else {
            Some(RecordData::Other)
        }
    }

    pub fn is_caa(&self) -> bool {
        self.class == CLASS_IN && self.rtype == TYPE_CAA
    }

    pub fn is_alias(&self) -> bool {
        self.class == CLASS_IN && self.rtype == TYPE_CNAME
    }
}

/// Reads the layout of one record at the front of `octets` and hands back what stands behind it.
pub fn read_raw_record(octets: &[u8]) -> Option<(RawRecord<'_>, &[u8])> {
    let (owner, rest) = read_name(octets)?;
    let (rtype, rest) = read_number(rest)?;
    let (class, rest) = read_number(rest)?;
    let (_time_to_live, rest) = rest.split_first_chunk::<4>()?;
    let (length, rest) = read_number(rest)?;
    let (rdata, rest) = rest.split_at_checked(usize::from(length))?;
    let raw = RawRecord {
        owner,
        rtype,
        class,
        rdata,
    };
    Some((raw, rest))
}

fn read_number(octets: &[u8]) -> Option<(u16, &[u8])> {
    let (number, rest) = octets.split_first_chunk()?;
    Some((u16::from_be_bytes(*number), rest))
}

/// Reads the layout of CAA data. Which octets its tag holds is for the caller.
pub fn read_property(rdata: &[u8]) -> Option<Property<'_>> {
    let (&[flags, tag_length], rest) = rdata.split_first_chunk()?;
    let (tag, value) = rest.split_at_checked(usize::from(tag_length))?;
    if tag.is_empty() {
        return None;
    }
    Some(Property { flags, tag, value })
}

/// The name that is the whole data of an alias, by the rule of owners.
pub fn read_target(rdata: &[u8]) -> Option<Name<'_>> {
    match read_name(rdata)? {
        (target, []) => Some(target),
        _ => None,
    }
}

#[cfg(test)]
mod tests {
    use super::*;

    /// A record of owner `a` with time to live 1.
    fn record(rtype: u16, class: u16, rdata: &[u8]) -> Vec<u8> {
        record_of(b"\x01a\x00", rtype, class, rdata)
    }

    fn record_of(owner: &[u8], rtype: u16, class: u16, rdata: &[u8]) -> Vec<u8> {
        let mut octets = owner.to_vec();
        octets.extend(rtype.to_be_bytes());
        octets.extend(class.to_be_bytes());
        octets.extend([0, 0, 0, 1]);
        octets.extend((rdata.len() as u16).to_be_bytes());
        octets.extend(rdata);
        octets
    }

    fn only_property(octets: &[u8]) -> Property<'_> {
        match read_book(octets).unwrap()[..] {
            [Record {
                data: RecordData::Caa(property),
                ..
            }] => property,
            ref other => panic!("not one CAA record: {other:?}"),
        }
    }

    #[test]
    fn caa_data_is_flags_tag_and_value() {
        let octets = record(257, 1, b"\x80\x05Issueca.net");
        let property = only_property(&octets);
        assert_eq!(
            property,
            Property {
                flags: 128,
                tag: b"Issue",
                value: b"ca.net",
            }
        );
        assert!(property.is_critical());
        assert!(property.has_tag("issue"));
        assert!(!property.has_tag("issuewild"));
    }

    #[test]
    fn a_value_may_be_empty_but_a_tag_may_not() {
        assert_eq!(only_property(&record(257, 1, b"\x7F\x01x")).value, b"");
        for rdata in [&b""[..], b"\x00", b"\x00\x00", b"\x00\x00x", b"\x00\x02x"] {
            let octets = record(257, 1, rdata);
            assert_eq!(
                read_book(&octets).unwrap_err(),
                Refusal::BadRecord { record: 0 }
            );
        }
    }

    #[test]
    fn a_tag_octet_that_is_no_letter_or_digit_is_refused() {
        for octet in 0..=255_u8 {
            for place in 2..5 {
                for flags in [0, 128] {
                    let mut rdata = [flags, 3, b'T', b'0', b'Z', b'_', octet];
                    rdata[place] = octet;
                    let octets = [record(16, 1, b""), record(257, 1, &rdata)].concat();
                    assert_eq!(
                        read_book(&octets).err(),
                        match octet {
                            b'0'..=b'9' | b'A'..=b'Z' | b'a'..=b'z' => None,
                            _ => Some(Refusal::BadRecord { record: 1 }),
                        }
                    );
                    assert!(read_book(&record(257, 3, &rdata)).is_ok());
                }
            }
        }
    }

    #[test]
    fn only_class_1_with_type_257_is_caa() {
        for (rtype, class) in [(257, 3), (1, 1), (1, 257), (256, 1), (258, 1)] {
            let octets = record(rtype, class, b"");
            let records = read_book(&octets).unwrap();
            assert!(matches!(records[0].data, RecordData::Other));
        }
    }

    #[test]
    fn only_class_1_with_type_5_is_an_alias() {
        let octets = record(5, 1, b"\x01b\x00");
        let records = read_book(&octets).unwrap();
        assert!(matches!(records[0].data, RecordData::Alias(_)));
        for (rtype, class) in [(5, 3), (1, 5), (5, 257), (4, 1), (6, 1), (39, 1), (261, 1)] {
            let octets = record(rtype, class, b"\x01b");
            let records = read_book(&octets).unwrap();
            assert!(matches!(records[0].data, RecordData::Other));
        }
    }

    #[test]
    fn the_data_of_an_alias_is_one_name() {
        let name_of = |octets| crate::generate::name_of_octets(octets, 63);
        for target in [b"\x00".to_vec(), b"\x04*._\xFF\x00".to_vec(), name_of(255)] {
            assert!(read_book(&record(5, 1, &target)).is_ok());
            for cut in 0..target.len() {
                let octets = [record(16, 1, b""), record(5, 1, &target[..cut])].concat();
                let refusal = Refusal::BadRecord { record: 1 };
                assert_eq!(read_book(&octets).unwrap_err(), refusal);
            }
            let behind = [&target[..], b"\x00"].concat();
            let refusal = Refusal::BadRecord { record: 0 };
            assert_eq!(read_book(&record(5, 1, &behind)).unwrap_err(), refusal);
        }
        for target in [
            b"\xC0\x00".to_vec(),
            b"\x01b\xC0\x00".to_vec(),
            name_of(256),
        ] {
            let refusal = Refusal::BadRecord { record: 0 };
            assert_eq!(read_book(&record(5, 1, &target)).unwrap_err(), refusal);
        }
    }

    /// All pairs of CAA, alias, and others of one owner.
    #[test]
    fn an_alias_stands_beside_no_alias_and_no_caa_record() {
        let kinds: [(u16, u16, &[u8]); 5] = [
            (257, 1, b"\x00\x01t"),
            (5, 1, b"\x01b\x00"),
            (1, 1, b""),
            (5, 3, b"\x01b\x00"),
            (257, 3, b""),
        ];
        for (one, (rtype, class, rdata)) in kinds.into_iter().enumerate() {
            let first = record_of(b"\x01a\x00", rtype, class, rdata);
            for (other, (rtype, class, rdata)) in kinds.into_iter().enumerate() {
                let conflict = matches!((one, other), (0, 1) | (1, 0) | (1, 1));
                let between = record_of(b"\x01c\x00", 5, 1, b"\x00");
                let later = record_of(b"\x01A\x00", rtype, class, rdata);
                let octets = [&first[..], &between, &later].concat();
                let expected = conflict.then_some(Refusal::AliasConflict { record: 2 });
                assert_eq!(read_book(&octets).err(), expected, "{one} {other}");
            }
        }
    }

    #[test]
    fn the_lowest_later_record_is_told_behind_the_other_faults() {
        let alias = |owner| record_of(owner, 5, 1, b"\x01b\x00");
        // Record 2 is a second alias of its owner, and so is record 4.
        let owners: [&[u8]; 5] = [b"\x01x\x00", b"\x00", b"\x00", b"\x01y\x00", b"\x01x\x00"];
        let octets = owners.map(alias).concat();
        let refusal = Refusal::AliasConflict { record: 2 };
        assert_eq!(read_book(&octets).unwrap_err(), refusal);
        let cut = &octets[..octets.len() - 1];
        let refusal = Refusal::BadRecord { record: 4 };
        assert_eq!(read_book(cut).unwrap_err(), refusal);
        let many = [octets, record(16, 1, b"").repeat(1_020)].concat();
        let refusal = Refusal::TooManyRecords { read: 1_024 };
        assert_eq!(read_book(&many).unwrap_err(), refusal);
    }

    #[test]
    fn a_record_cut_anywhere_is_refused_under_its_number() {
        let whole = record(257, 1, b"\x00\x05issueca.net");
        for cut in 1..whole.len() {
            let octets = [whole.as_slice(), &whole[..cut]].concat();
            assert_eq!(
                read_book(&octets).unwrap_err(),
                Refusal::BadRecord { record: 1 }
            );
        }
    }

    #[test]
    fn the_length_is_looked_at_before_the_records() {
        assert_eq!(
            read_book(&[0xFF; 49_153]).unwrap_err(),
            Refusal::BookTooLong
        );
        assert_eq!(
            read_book(&[0xFF; 49_152]).unwrap_err(),
            Refusal::BadRecord { record: 0 }
        );
    }

    #[test]
    fn anything_behind_1_024_records_is_too_much() {
        let octets = record(16, 1, b"").repeat(1_023);
        assert_eq!(
            read_book(&[&octets[..], &[0xFF]].concat()).unwrap_err(),
            Refusal::BadRecord { record: 1_023 }
        );
        let octets = record(16, 1, b"").repeat(1_024);
        assert_eq!(read_book(&octets).unwrap().len(), 1_024);
        assert_eq!(
            read_book(&[&octets[..], &[0xFF]].concat()).unwrap_err(),
            Refusal::TooManyRecords { read: 1_024 }
        );
    }

    #[test]
    fn an_empty_book_is_good() {
        assert!(read_book(b"").unwrap().is_empty());
    }
}
