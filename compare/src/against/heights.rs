//! How far above the names the sets stood that the answers came from: a climb that is given up early
//! is found out only by sets that stand farther up.

use super::log::{Call, Tally};
use crate::answer::Refusal;
use crate::applicant::Applicant;
use crate::book::read_book;
use crate::request::read_request;
use crate::rule::{labels_taken_off, standing, Records, Standing};

/// The kinds, which stand for the labels taken off, but for the last: many labels were, in vain.
const KINDS: &[(u8, &str)] = &[
    (0, "0 to 2 labels"),
    (3, "3 to 40"),
    (41, "41 to 99"),
    (100, "100 and more"),
    (IN_VAIN, "100 and more and no set"),
];
const MANY: usize = 100;
const IN_VAIN: u8 = 255;

pub static OF_VERDICTS: Call = Call {
    name: "judge, climb",
    kinds: KINDS,
};
pub static OF_LISTS: Call = Call {
    name: "list, climb",
    kinds: KINDS,
};

/// The climb from one name.
struct Climb {
    labels: usize,
    /// Labels taken off to reach the set, where there is one.
    height: Option<usize>,
    restricted: bool,
}

/// Where a verdict says how far up its set stood.
pub fn count_verdict(tally: &mut Tally, up: usize) {
    tally.count(kind(up));
}

/// Where a list came from all restricted names: the farthest set.
pub fn count_of_restricted(tally: &mut Tally, request: &[u8], book: &[u8]) {
    let climbs = climbs(request, book).unwrap_or_default();
    let restricted = climbs.iter().filter(|climb| climb.restricted);
    if let Some(height) = restricted.filter_map(|climb| climb.height).max() {
        tally.count(kind(height));
    }
}

/// Where nobody is kept out: whether a climb took many labels off and found nothing.
pub fn count_in_vain(tally: &mut Tally, request: &[u8], book: &[u8]) {
    let climbs = climbs(request, book).unwrap_or_default();
    let in_vain = |climb: &Climb| climb.height.is_none() && climb.labels >= MANY;
    if climbs.iter().any(in_vain) {
        tally.count(IN_VAIN);
    }
}

fn climbs(request: &[u8], book: &[u8]) -> Result<Vec<Climb>, Refusal> {
    let names = read_request(request)?;
    let book = read_book(book)?;
    let records = Records::of(&book, Applicant::SOMEONE);
    Ok(names
        .iter()
        .map(|name| Climb {
            labels: name.fqdn.labels().count(),
            height: labels_taken_off(&records, name),
            restricted: standing(&records, name) != Standing::Unrestricted,
        })
        .collect())
}

fn kind(height: usize) -> u8 {
    match height {
        0..3 => 0,
        3..41 => 3,
        41..MANY => 41,
        _ => 100,
    }
}

#[cfg(test)]
mod tests {
    use super::*;

    /// An empty record of the owner: tag `t`, not critical.
    fn record(owner: &[u8], data: &[u8]) -> Vec<u8> {
        let frame = b"\x01\x01\x00\x01\x00\x00\x00\x00\x00";
        [owner, frame, &[data.len() as u8], data].concat()
    }

    #[test]
    fn a_set_is_counted_by_the_labels_below_it() {
        let name = [b"\x01a".repeat(127), vec![0]].concat();
        let governs = b"\x00\x05issue";
        for (height, counted) in [
            (0, "0 to 2 labels: 1"),
            (2, "0 to 2 labels: 1"),
            (3, ", 3 to 40: 1"),
            (40, ", 3 to 40: 1"),
            (41, "41 to 99: 1"),
            (99, "41 to 99: 1"),
            (100, "100 and more: 1"),
            (126, "100 and more: 1"),
        ] {
            let book = record(&name[2 * height..], governs);
            let mut tally = Tally::new(&OF_LISTS);
            count_of_restricted(&mut tally, &name, &book);
            assert!(tally.to_string().contains(counted), "{height}: {tally}");
            let mut tally = Tally::new(&OF_VERDICTS);
            count_verdict(&mut tally, height);
            assert!(tally.to_string().contains(counted), "{height}: {tally}");
            let mut tally = Tally::new(&OF_VERDICTS);
            count_in_vain(&mut tally, &name, &book);
            assert!(
                tally.to_string().ends_with("no set: 0"),
                "{height}: {tally}"
            );
        }
        // The root is not reached.
        let mut tally = Tally::new(&OF_VERDICTS);
        count_in_vain(&mut tally, &name, &record(b"\x00", governs));
        assert!(tally.to_string().ends_with("no set: 1"), "{tally}");
        // A set that restricts nothing says nothing on the list.
        let mut tally = Tally::new(&OF_LISTS);
        count_of_restricted(&mut tally, &name, &record(&name[200..], b"\x00\x01t"));
        assert!(tally.to_string().contains("100 and more: 0"), "{tally}");
    }
}
