//! Names in wire form, and issuer names. Alphabets are small, so that names share tails, differ in
//! letter case only, and meet.

use super::Generator;
use crate::limits::{ISSUER_OCTETS, LABEL_OCTETS, NAME_OCTETS};

const LABELS: [&[u8]; 6] = [b"a", b"b", b"ab", b"a-b", b"0", b"a0b"];
const TOP_LABELS: [&[u8]; 2] = [b"c", b"d"];
/// Labels that a careless comparison takes for one of the above: other fold, star, dot, length.
const OWNER_LABELS: [&[u8]; 6] = [b"*", b"a\x0Db", b"\x10", b"a.b", b"\xE1", b"a\x01b"];
/// A name that no generated record is for, so that it is never restricted.
pub(super) const OPEN_NAME: &[u8] = b"\x01e\x00";
/// An owner that no generated request asks for.
pub(super) const UNASKED_OWNER: &[u8] = b"\x01f\x00";
const ISSUERS: [&[u8]; 6] = [b"x", b"y", b"x.y", b"xx.y", b"y.x", b"x-y.x"];

impl Generator {
    /// A good issuer name in any letter case.
    pub fn issuer(&mut self) -> Vec<u8> {
        let issuer = self.one_of(&ISSUERS);
        self.any_case(issuer)
    }

    /// An issuer name a little under or over the limit of its octets, or of one label's.
    pub(super) fn issuer_around_limit(&mut self) -> Vec<u8> {
        if self.once_in(2) {
            vec![b'x'; LABEL_OCTETS - 1 + self.below(3)]
        } else {
            let labels = [b'x', b'y', b'x'].map(|letter| vec![letter; LABEL_OCTETS]);
            let mut issuer = labels.join(&b'.');
            issuer.push(b'.');
            issuer.resize(ISSUER_OCTETS - 2 + self.below(3), b'y');
            issuer.push(self.near_front(b"yx"));
            issuer
        }
    }

    pub(super) fn requested_name(&mut self) -> Vec<u8> {
        let star: &[u8] = if self.once_in(3) { b"\x01*" } else { b"" };
        let name = if self.once_in(24) {
            self.long_name(NAME_OCTETS - star.len())
        } else {
            self.wire_labels(3, &LABELS)
        };
        [star, &name].concat()
    }

    pub(super) fn owner(&mut self) -> Vec<u8> {
        match self.below(24) {
            0 | 1 => vec![0],
            2 | 3 => self.wire_labels(2, &OWNER_LABELS),
            // As long as a requested name, or one above it.
            4 => {
                let octets = self.one_of(&[NAME_OCTETS, NAME_OCTETS - 2, NAME_OCTETS - 64]);
                self.long_name(octets)
            }
            _ => self.short_owner(),
        }
    }

    /// A name of one or two labels.
    pub(super) fn short_owner(&mut self) -> Vec<u8> {
        self.wire_labels(2, &LABELS)
    }

    /// A name a little under or over the limit of its octets, or of one label's.
    pub(super) fn name_around_limit(&mut self) -> Vec<u8> {
        if self.once_in(2) {
            let label = LABEL_OCTETS - 1 + self.below(3);
            [&[label as u8], vec![b'a'; label].as_slice(), b"\x01c\x00"].concat()
        } else {
            let star: &[u8] = if self.once_in(3) { b"\x01*" } else { b"" };
            let octets = NAME_OCTETS - 2 + self.below(5) - star.len();
            [star, &name_of_octets(octets, LABEL_OCTETS)].concat()
        }
    }

    /// A name of that many octets, an odd number, of labels as long or as short as may be. Some differ
    /// in the first letter or in the last alone.
    fn long_name(&mut self, octets: usize) -> Vec<u8> {
        let longest_label = self.one_of(&[LABEL_OCTETS, 1]);
        let mut name = name_of_octets(octets, longest_label);
        let place = self.one_of(&[1, octets - 2]);
        name[place] = self.near_front(b"ab");
        self.any_case(&name)
    }

    /// A name of fewer than `labels` labels from `choices` and a top label.
    fn wire_labels(&mut self, labels: usize, choices: &[&[u8]]) -> Vec<u8> {
        let mut wire = Vec::new();
        for _ in 0..self.below(labels) {
            let label = self.near_front(choices);
            wire.push(label.len() as u8);
            wire.extend(self.any_case(label));
        }
        wire.extend(self.top_name());
        wire
    }

    /// A name of a top label alone.
    pub(super) fn top_name(&mut self) -> Vec<u8> {
        let top = self.near_front(&TOP_LABELS);
        [&[top.len() as u8], &self.any_case(top)[..], &[0]].concat()
    }
}

/// A name of that many octets, 3 or more, in wire form, of labels up to `longest`, which is 2 or
/// more or the octets odd.
pub fn name_of_octets(octets: usize, longest: usize) -> Vec<u8> {
    let mut wire = Vec::new();
    let mut left = octets - 1;
    while left > 0 {
        let label = if left <= longest + 1 {
            left - 1
        } else if left == longest + 2 {
            // A label as long as may be would leave one octet, too few for another.
            longest - 1
        } else {
            longest
        };
        wire.push(label as u8);
        wire.extend(vec![b'a'; label]);
        left -= label + 1;
    }
    wire.push(0);
    wire
}

#[cfg(test)]
mod tests {
    use super::*;
    use crate::name::read_name;

    #[test]
    fn names_are_as_long_as_asked_for() {
        for octets in 3..=NAME_OCTETS {
            let long_labels = name_of_octets(octets, LABEL_OCTETS);
            assert_eq!(long_labels.len(), octets);
            assert!(read_name(&long_labels).unwrap().1.is_empty());
        }
        let short_labels = name_of_octets(NAME_OCTETS, 1);
        assert_eq!(short_labels.len(), NAME_OCTETS);
        assert_eq!(read_name(&short_labels).unwrap().0.labels().count(), 127);
    }
}
