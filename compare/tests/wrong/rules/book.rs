//! The book as a wrong reader of tags or targets takes it.

use std::borrow::Cow;

use compare::book::{read_property, read_raw_record, read_target, RawRecord};
use compare::name::{is_ldh_label, read_name};
use compare::{read_book, read_request};

use super::aliases::owner_of;
use super::mistake::Mistake;

/// The book that the right reader takes as the wrong one takes this.
pub fn taken_as<'a>(request: &[u8], book: &'a [u8]) -> Cow<'a, [u8]> {
    if !Mistake::IN_THE_BOOK.iter().any(|mistake| mistake.is_made()) {
        return Cow::Borrowed(book);
    }
    let lenient = with_targets_let_pass(request, &with_tags_let_pass(request, book));
    // Where the layout is wrong, that is told first.
    let is_behind = Mistake::TagsAreLookedIntoBehindTheLayout.is_made()
        || Mistake::TargetsAreLookedIntoBehindTheLayout.is_made();
    if is_behind && read_book(&lenient).is_ok() {
        return Cow::Borrowed(book);
    }
    Cow::Owned(lenient)
}

/// Each target as it is taken: one that is wrong and let pass made a good one, or its record one that
/// is passed over; one that is good and refused made a wrong one.
fn with_targets_let_pass(request: &[u8], book: &[u8]) -> Vec<u8> {
    const PASSED_OVER: u16 = 16;
    let mut octets = Vec::new();
    let mut rest = book;
    while let Some((raw, behind)) = read_raw_record(rest) {
        let (mut rtype, mut class, mut rdata) = (raw.rtype, raw.class, raw.rdata);
        let is_wrong = read_target(rdata).is_none();
        if Mistake::TargetsOfClass3AreLookedInto.is_made() && rtype == 5 && class == 3 && is_wrong {
            class = 1;
        } else if raw.is_alias() && is_wrong {
            match read_name(rdata) {
                Some((_, behind)) if Mistake::OctetsBehindATargetAreLetPass.is_made() => {
                    rdata = &rdata[..rdata.len() - behind.len()];
                }
                _ if target_is_let_pass(request, &raw) => rtype = PASSED_OVER,
                _ => {}
            }
        } else if raw.is_alias() && target_is_refused(rdata) {
            rdata = b"";
        }
        let owner = owner_of(rest, &raw);
        octets.extend(owner);
        octets.extend(rtype.to_be_bytes());
        octets.extend(class.to_be_bytes());
        octets.extend(&rest[owner.len() + 4..owner.len() + 8]);
        octets.extend((rdata.len() as u16).to_be_bytes());
        octets.extend(rdata);
        rest = behind;
    }
    octets.extend(rest);
    octets
}

fn target_is_let_pass(request: &[u8], raw: &RawRecord) -> bool {
    Mistake::TargetsAreNotLookedInto.is_made()
        || Mistake::TargetsAreLookedIntoBehindTheLayout.is_made()
        || Mistake::TargetsOfRelevantNamesAloneAreLookedInto.is_made() && !is_relevant(request, raw)
        || Mistake::TargetsOfTheRootAreNotLookedInto.is_made() && raw.owner.is_root()
        || Mistake::EmptyTargetsAreLetPass.is_made() && raw.rdata.is_empty()
        || Mistake::CompressedTargetsAreLetPass.is_made() && raw.rdata.ends_with(b"\xC0\x00")
        || Mistake::TargetsOf256OctetsAreLetPass.is_made() && raw.rdata.len() == 256
}

fn target_is_refused(target: &[u8]) -> bool {
    let is_host = || match read_name(target) {
        Some((name, _)) => name.labels().all(is_ldh_label),
        None => false,
    };
    Mistake::RootAsTargetIsRefused.is_made() && target == [0]
        || Mistake::TargetsOf255OctetsAreRefused.is_made() && target.len() == 255
        || Mistake::TargetsHaveToBeHostNames.is_made() && !is_host()
}

/// Whether the climb from a requested name looks at the owner.
fn is_relevant(request: &[u8], raw: &RawRecord) -> bool {
    let names = read_request(request).unwrap_or_default();
    let mut looked_at = names.iter().flat_map(|name| name.fqdn.ancestors());
    looked_at.any(|name| name.is(raw.owner))
}

/// Each octet of a tag that is wrong and let pass made a letter, so that the tag is unknown.
fn with_tags_let_pass(request: &[u8], book: &[u8]) -> Vec<u8> {
    let mut octets = book.to_vec();
    let mut rest = book;
    while let Some((raw, behind)) = read_raw_record(rest) {
        let data = book.len() - behind.len() - raw.rdata.len();
        if let Some(property) = read_property(raw.rdata) {
            let last = property.tag.len() - 1;
            for (place, octet) in property.tag.iter().enumerate() {
                let is_wrong = !octet.is_ascii_alphanumeric();
                if is_wrong && raw.is_caa() && is_let_pass(request, &raw, *octet, place, last) {
                    octets[data + 2 + place] = b'Z';
                }
                if is_wrong && is_taken_for_caa(&raw) {
                    // The class stands in front of the time to live and the length of the data.
                    octets[data - 8..data - 6].copy_from_slice(&[0, 1]);
                }
            }
        }
        rest = behind;
    }
    octets
}

fn is_let_pass(request: &[u8], raw: &RawRecord, octet: u8, place: usize, last: usize) -> bool {
    let is_critical = raw.rdata[0] & 128 != 0;
    Mistake::TagsAreNotLookedInto.is_made()
        || Mistake::TagsAreLookedIntoBehindTheLayout.is_made()
        || Mistake::TagsOfCriticalRecordsAloneAreLookedInto.is_made() && !is_critical
        || Mistake::TagsOfOtherRecordsAloneAreLookedInto.is_made() && is_critical
        || Mistake::TagsOfTheRootAreNotLookedInto.is_made() && raw.owner.is_root()
        || Mistake::TagsOfRelevantNamesAloneAreLookedInto.is_made() && !is_relevant(request, raw)
        || Mistake::TagsHoldHyphens.is_made() && octet == b'-'
        || Mistake::TagsHoldUnderscores.is_made() && octet == b'_'
        || Mistake::TagsHoldBlanks.is_made() && octet == b' '
        || Mistake::TagsHoldOctetZero.is_made() && octet == 0
        || Mistake::TagsHoldOctetsFrom128On.is_made() && octet >= 128
        || Mistake::FirstOctetOfATagIsNotLookedAt.is_made() && place == 0
        || Mistake::LastOctetOfATagIsNotLookedAt.is_made() && place == last
}

fn is_taken_for_caa(raw: &RawRecord) -> bool {
    Mistake::TagsOfClass3AreLookedInto.is_made() && raw.rtype == 257 && raw.class == 3
}
