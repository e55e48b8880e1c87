//! How many labels up the verdicts say that their sets stood: each verdict by itself, sets that aliases
//! led to, and names with a star. A wrong count in one of these alone has to be found out too.

use super::log::{Call, Tally};
use crate::answer::Refusal;
use crate::applicant::Applicant;
use crate::book::read_book;
use crate::request::read_request;
use crate::rule::{chains, Records};

/// Four kinds for each group: 0, 1, 2 labels, and 3 or more.
const KINDS: &[(u8, &str)] = &[
    (UNKNOWN_CRITICAL, "20 up 0"),
    (UNKNOWN_CRITICAL + 1, "20 up 1"),
    (UNKNOWN_CRITICAL + 2, "20 up 2"),
    (UNKNOWN_CRITICAL + 3, "20 up 3 and more"),
    (NOT_GRANTED, "21 up 0"),
    (NOT_GRANTED + 1, "21 up 1"),
    (NOT_GRANTED + 2, "21 up 2"),
    (NOT_GRANTED + 3, "21 up 3 and more"),
    (TOO_MANY, "22 up 0"),
    (TOO_MANY + 1, "22 up 1"),
    (TOO_MANY + 2, "22 up 2"),
    (TOO_MANY + 3, "22 up 3 and more"),
    (BY_ALIAS, "aliases up 0"),
    (BY_ALIAS + 1, "aliases up 1"),
    (BY_ALIAS + 2, "aliases up 2"),
    (BY_ALIAS + 3, "aliases up 3 and more"),
    (STAR, "star up 0"),
    (STAR + 1, "star up 1"),
    (STAR + 2, "star up 2"),
    (STAR + 3, "star up 3 and more"),
];
const UNKNOWN_CRITICAL: u8 = 0;
const NOT_GRANTED: u8 = 4;
const TOO_MANY: u8 = 8;
const BY_ALIAS: u8 = 12;
const STAR: u8 = 16;

pub static OF_VERDICTS: Call = Call {
    name: "judge, up",
    kinds: KINDS,
};

/// What a verdict tells: its number, the name, and how far up.
#[derive(Clone, Copy)]
pub struct ToldUp {
    pub verdict: u8,
    pub name: usize,
    pub up: usize,
}

/// Counts a verdict in each group that it belongs to.
pub fn count_up(tally: &mut Tally, request: &[u8], book: &[u8], told: ToldUp) {
    for group in groups(request, book, told).unwrap_or_default() {
        tally.count(group + told.up.min(3) as u8);
    }
}

fn groups(request: &[u8], book: &[u8], told: ToldUp) -> Result<Vec<u8>, Refusal> {
    let names = read_request(request)?;
    let book = read_book(book)?;
    let records = Records::of(&book, Applicant::SOMEONE);
    let mut groups = vec![match told.verdict {
        20 => UNKNOWN_CRITICAL,
        21 => NOT_GRANTED,
        _ => TOO_MANY,
    }];
    let Some(name) = names.get(told.name) else {
        return Ok(groups);
    };
    let last = chains(&records, name).pop();
    if last.is_some_and(|chain| chain.finds_set && !chain.targets.is_empty()) {
        groups.push(BY_ALIAS);
    }
    if name.wildcard {
        groups.push(STAR);
    }
    Ok(groups)
}

#[cfg(test)]
mod tests {
    use super::*;

    const ALIAS: &[u8] = b"\x01b\x00\x00\x05\x00\x01\x00\x00\x00\x00\x00\x03\x01c\x00";
    const SET: &[u8] = b"\x01c\x00\x01\x01\x00\x01\x00\x00\x00\x00\x00\x03\x00\x01t";

    #[test]
    fn a_verdict_is_counted_in_its_groups() {
        let request = b"\x01a\x01c\x00\x01*\x01c\x00\x01a\x01b\x00\x01*\x01a\x01b\x00";
        let book = [ALIAS, SET].concat();
        let groups = |verdict, name| {
            let told = ToldUp {
                verdict,
                name,
                up: 0,
            };
            groups(request, &book, told).unwrap()
        };
        assert_eq!(groups(20, 0), [UNKNOWN_CRITICAL]);
        assert_eq!(groups(21, 1), [NOT_GRANTED, STAR]);
        assert_eq!(groups(20, 2), [UNKNOWN_CRITICAL, BY_ALIAS]);
        assert_eq!(groups(21, 3), [NOT_GRANTED, BY_ALIAS, STAR]);
        assert_eq!(groups(22, 0), [TOO_MANY]);
    }

    #[test]
    fn three_labels_and_more_are_one_kind() {
        for (up, counted) in [
            (0, "20 up 0: 1, 20 up 1: 0"),
            (1, "20 up 0: 0, 20 up 1: 1, 20 up 2: 0"),
            (2, "20 up 2: 1, 20 up 3 and more: 0"),
            (3, "20 up 2: 0, 20 up 3 and more: 1, 21 up 0: 0"),
            (126, "20 up 2: 0, 20 up 3 and more: 1, 21 up 0: 0"),
        ] {
            let mut tally = Tally::new(&OF_VERDICTS);
            let told = ToldUp {
                verdict: 20,
                name: 0,
                up,
            };
            count_up(&mut tally, b"\x01a\x00", b"", told);
            assert!(tally.to_string().contains(counted), "{tally}");
        }
    }
}
