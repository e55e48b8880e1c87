//! The readers under the two calls, each answering in one word, so that those of another
//! implementation can be tried by themselves. A place counts octets from 0 over the octets given.

use crate::book::{read_property, read_raw_record, read_target, Property, RawRecord};
use crate::name::read_name;
use crate::request::read_requested_name;
use crate::rule::KNOWN_TAGS;
use crate::value::{leading_blanks, read_value, IssueValue};
use crate::word::Word;

/// Type, class, time to live and data length: what stands between a record's owner and its data.
const FIXED_OCTETS: usize = 10;

pub type OfOctets = fn(&[u8]) -> Word;
pub type OfTwo = fn(&[u8], &[u8]) -> Word;
pub type AtPlace = fn(&[u8], usize) -> Word;

#[derive(Clone, Copy)]
pub struct Readers {
    /// 1 where both texts are the same, `A` to `Z` counting as `a` to `z`, else 0.
    pub same: OfTwo,
    /// The name that begins at the place, under the rule of owners: 1 with `a` where it ends.
    pub name_end: AtPlace,
    /// A requested name: 1, or 2 for `*.X`, with `a` where it ends and `b` where X begins.
    pub requested_name: AtPlace,
    /// CAA data: 1 with `a` where the value begins and `b` the flags.
    pub property: OfOctets,
    /// 1 to 3 for a known tag in the order of [`KNOWN_TAGS`], else 0.
    pub tag: OfOctets,
    /// A record: 1 with `a` where it ends, `b` where its owner ends, `c` where its data begins.
    pub record: AtPlace,
    /// A property value: 0 malformed, 1 no name, 2 with `a` where the name ends, `b` where it begins.
    pub value: OfOctets,
}

impl Readers {
    /// This package's own.
    pub const OWN: Readers = Readers {
        same: |one, other| Word::number(one.eq_ignore_ascii_case(other).into()),
        name_end: |octets, at| name_end(octets, at).unwrap_or(Word::FAULT),
        requested_name: |octets, at| requested_name(octets, at).unwrap_or(Word::FAULT),
        property: |octets| property(octets).unwrap_or(Word::FAULT),
        tag,
        record: record_of_layout,
        value,
    };

    /// The same, but a record whose CAA data is laid out wrongly is a fault.
    pub const OWN_WITH_CAA_DATA: Readers = Readers {
        record: record_with::<CAA_DATA>,
        ..Readers::OWN
    };

    /// The same, but a tag with another octet than letters and digits is a fault of CAA data and of
    /// its record.
    pub const OWN_WITH_TAGS: Readers = Readers {
        property: |octets| property_with_tag(octets).unwrap_or(Word::FAULT),
        record: record_with::<TAGS>,
        ..Readers::OWN
    };

    /// The same, but an alias whose data is not one name is a fault of its record as well.
    pub const OWN_WITH_ALL_DATA: Readers = Readers {
        record: record_with::<{ TAGS | TARGETS }>,
        ..Readers::OWN_WITH_TAGS
    };

    /// The reader of records for which these are faults. A wrong tag is one only where wrong CAA data
    /// is.
    pub fn own_record(caa_data: bool, tags: bool, targets: bool) -> AtPlace {
        match (caa_data, tags, targets) {
            (_, true, true) => record_with::<{ TAGS | TARGETS }>,
            (_, true, false) => record_with::<TAGS>,
            (true, false, true) => record_with::<{ CAA_DATA | TARGETS }>,
            (true, false, false) => record_with::<CAA_DATA>,
            (false, false, true) => record_with::<TARGETS>,
            (false, false, false) => record_of_layout,
        }
    }
}

/// What the reader of a record looks into, as bits. Tags stand in CAA data.
const CAA_DATA: u8 = 1;
const TAGS: u8 = CAA_DATA | 2;
const TARGETS: u8 = 4;

fn name_end(octets: &[u8], at: usize) -> Option<Word> {
    let (_, rest) = read_name(octets.get(at..)?)?;
    Some(Word::with(1, [octets.len() - rest.len(), 0, 0]))
}

fn requested_name(octets: &[u8], at: usize) -> Option<Word> {
    let (name, rest) = read_requested_name(octets.get(at..)?)?;
    let end = octets.len() - rest.len();
    Some(if name.wildcard {
        Word::with(2, [end, at + b"\x01*".len(), 0])
    } else {
        Word::with(1, [end, at, 0])
    })
}

fn property(octets: &[u8]) -> Option<Word> {
    let property = read_property(octets)?;
    let value_begins = octets.len() - property.value.len();
    Some(Word::with(1, [value_begins, property.flags.into(), 0]))
}

fn property_with_tag(octets: &[u8]) -> Option<Word> {
    read_property(octets).filter(Property::has_good_tag)?;
    property(octets)
}

fn tag(octets: &[u8]) -> Word {
    let known = KNOWN_TAGS
        .iter()
        .position(|tag| octets.eq_ignore_ascii_case(tag.as_bytes()));
    Word::number(known.map_or(0, |place| place as u8 + 1))
}

fn record_of_layout(octets: &[u8], at: usize) -> Word {
    record_with::<0>(octets, at)
}

fn record_with<const LOOKED_INTO: u8>(octets: &[u8], at: usize) -> Word {
    record(octets, at, |raw| {
        let looks_into = |what: u8| LOOKED_INTO & what == what;
        if raw.is_caa() && looks_into(CAA_DATA) {
            read_property(raw.rdata).is_some_and(|p| !looks_into(TAGS) || p.has_good_tag())
        } else if raw.is_alias() && looks_into(TARGETS) {
            read_target(raw.rdata).is_some()
        } else {
            true
        }
    })
    .unwrap_or(Word::FAULT)
}

fn record(octets: &[u8], at: usize, is_good: impl Fn(&RawRecord) -> bool) -> Option<Word> {
    let (raw, rest) = read_raw_record(octets.get(at..)?)?;
    if !is_good(&raw) {
        return None;
    }
    let end = octets.len() - rest.len();
    let data_begins = end - raw.rdata.len();
    Some(Word::with(
        1,
        [end, data_begins - FIXED_OCTETS, data_begins],
    ))
}

fn value(octets: &[u8]) -> Word {
    match read_value(octets) {
        IssueValue::Malformed => Word::number(0),
        IssueValue::NoName => Word::number(1),
        IssueValue::Name { name, .. } => {
            let begins = leading_blanks(octets);
            Word::with(2, [begins + name.len(), begins, 0])
        }
    }
}

#[cfg(test)]
mod tests {
    use super::*;

    const OWN: Readers = Readers::OWN;

    #[test]
    fn names_end_behind_their_zero() {
        let octets = b"\x01*\x01a\x00\x00";
        assert_eq!((OWN.name_end)(octets, 0), Word::with(1, [5, 0, 0]));
        assert_eq!((OWN.name_end)(octets, 2), Word::with(1, [5, 0, 0]));
        assert_eq!((OWN.name_end)(octets, 5), Word::with(1, [6, 0, 0]));
        assert_eq!((OWN.requested_name)(octets, 0), Word::with(2, [5, 2, 0]));
        assert_eq!((OWN.requested_name)(octets, 2), Word::with(1, [5, 2, 0]));
        assert_eq!((OWN.requested_name)(octets, 5), Word::FAULT);
        for at in [6, 7, usize::MAX] {
            assert_eq!((OWN.name_end)(octets, at), Word::FAULT);
            assert_eq!((OWN.requested_name)(octets, at), Word::FAULT);
            assert_eq!((OWN.record)(octets, at), Word::FAULT);
        }
    }

    #[test]
    fn a_record_is_owner_ten_octets_and_data() {
        let octets = b"?\x01a\x00\x01\x01\x00\x01\x00\x00\x00\x00\x00\x02\x80\x00?";
        assert_eq!((OWN.record)(octets, 1), Word::with(1, [16, 4, 14]));
        let with_caa_data = Readers::OWN_WITH_CAA_DATA.record;
        assert_eq!(with_caa_data(octets, 1), Word::FAULT);
    }

    #[test]
    fn a_tag_is_looked_into_or_not() {
        let record = b"\x00\x01\x01\x00\x01\x00\x00\x00\x00\x00\x03\x80\x01_";
        let of_class_3 = b"\x00\x01\x01\x00\x03\x00\x00\x00\x00\x00\x03\x80\x01_";
        let good = Word::with(1, [14, 1, 11]);
        let with_tags = Readers::OWN_WITH_TAGS;
        assert_eq!((Readers::OWN_WITH_CAA_DATA.record)(record, 0), good);
        assert_eq!((with_tags.record)(record, 0), Word::FAULT);
        assert_eq!((with_tags.record)(of_class_3, 0), good);
        assert_eq!((OWN.property)(b"\x80\x01_"), Word::with(1, [3, 128, 0]));
        assert_eq!((with_tags.property)(b"\x80\x01_"), Word::FAULT);
        assert_eq!(
            (with_tags.property)(b"\x80\x01a_"),
            Word::with(1, [3, 128, 0])
        );
    }

    #[test]
    fn a_target_is_looked_into_or_not() {
        let good = Word::with(1, [14, 1, 11]);
        for (target, is_name) in [(b"\x01b\x00", true), (b"\x00\x00\x00", false)] {
            for (class, looked_into) in [(1, true), (3, false)] {
                let frame = [0, 0, 5, 0, class, 0, 0, 0, 0, 0, 3];
                let octets = [&frame[..], target].concat();
                assert_eq!((Readers::OWN_WITH_TAGS.record)(&octets, 0), good);
                let expected = match is_name || !looked_into {
                    true => good,
                    false => Word::FAULT,
                };
                assert_eq!((Readers::OWN_WITH_ALL_DATA.record)(&octets, 0), expected);
            }
        }
    }

    #[test]
    fn data_and_values_are_told_by_place() {
        assert_eq!(
            (OWN.property)(b"\x80\x05issueca"),
            Word::with(1, [7, 128, 0])
        );
        assert_eq!((OWN.property)(b"\x80\x00"), Word::FAULT);
        assert_eq!((OWN.value)(b"\t ca.net ; a=1"), Word::with(2, [8, 2, 0]));
        assert_eq!((OWN.value)(b" ;"), Word::number(1));
        assert_eq!((OWN.value)(b"ca.net."), Word::number(0));
    }

    #[test]
    fn tags_and_texts_are_told_by_number() {
        for (tag, number) in [
            (&b"ISSUE"[..], 1),
            (b"issueWild", 2),
            (b"iodef", 3),
            (b"issu", 0),
            (b"", 0),
        ] {
            assert_eq!((OWN.tag)(tag), Word::number(number));
        }
        assert_eq!((OWN.same)(b"aZ", b"Az"), Word::number(1));
        assert_eq!((OWN.same)(b"[", b"{"), Word::number(0));
    }
}
