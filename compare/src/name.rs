//! Domain names in the wire form of RFC 1035 section 3.1, without compression.

use std::iter::successors;

use crate::limits::{LABEL_OCTETS, NAME_OCTETS};

/// A name of any octets, laid out rightly; who needs letters, digits and hyphens asks
/// [`is_ldh_label`].
#[derive(Clone, Copy, Debug)]
pub struct Name<'a> {
    /// Each label behind its length octet, and the closing zero.
    wire: &'a [u8],
}

impl<'a> Name<'a> {
    /// The name itself, its parent, and so on up to its top label. The root is not among them.
    pub fn ancestors(self) -> impl Iterator<Item = Name<'a>> {
        let climb = successors(Some(self), |name| Some(name.split_first()?.1));
        climb.take_while(|name| !name.is_root())
    }

    /// Leftmost first.
    pub fn labels(self) -> impl Iterator<Item = &'a [u8]> {
        self.ancestors()
            .filter_map(|name| Some(name.split_first()?.0))
    }

    pub fn is_root(self) -> bool {
        self.wire == [0]
    }

    /// The first label and the name under it; `None` for the root.
    pub fn split_first(self) -> Option<(&'a [u8], Name<'a>)> {
        if self.is_root() {
            return None;
        }
        let (&length, rest) = self.wire.split_first()?;
        let (label, wire) = rest.split_at(usize::from(length));
        Some((label, Name { wire }))
    }

    /// The octets, closing zero included.
    pub fn wire(self) -> &'a [u8] {
        self.wire
    }

    /// Whether both are the same whole name, `A` to `Z` counting as `a` to `z`. No length octet is a
    /// letter, so the folding can't make one label of two.
    pub fn is(self, other: Name) -> bool {
        self.wire.len() == other.wire.len() && self.wire.eq_ignore_ascii_case(other.wire)
    }

    /// The octets, in lower case: those of two names are the same where the names are.
    pub fn in_lower_case(self) -> Vec<u8> {
        self.wire.to_ascii_lowercase()
    }
}

/// Reads one name at the front of `octets` and hands back what stands behind it. `None` when the
/// octets end within the name, a length octet is above 63 or the name is over 255 octets.
pub fn read_name(octets: &[u8]) -> Option<(Name<'_>, &[u8])> {
    let mut end = 0;
    loop {
        let length = usize::from(*octets.get(end)?);
        if length > LABEL_OCTETS {
            return None;
        }
        end += 1 + length;
        if length == 0 {
            break;
        }
    }
    let (wire, rest) = octets.split_at(end);
    (end <= NAME_OCTETS).then_some((Name { wire }, rest))
}

/// Letters, digits and hyphens, no hyphen first or last (the `label` of RFC 8659 section 4.2). The
/// grammar sets no length; that is for the caller.
pub fn is_ldh_label(label: &[u8]) -> bool {
    !label.is_empty()
        && !label.starts_with(b"-")
        && !label.ends_with(b"-")
        && label
            .iter()
            .all(|&octet| octet.is_ascii_alphanumeric() || octet == b'-')
}

#[cfg(test)]
mod tests {
    use super::*;

    fn name(wire: &[u8]) -> Name<'_> {
        match read_name(wire) {
            Some((name, b"")) => name,
            other => panic!("not one name: {other:?}"),
        }
    }

    #[test]
    fn reads_one_name_and_leaves_the_rest() {
        let (read, rest) = read_name(b"\x03www\x02at\x00\x01x").unwrap();
        assert!(read.labels().eq([&b"www"[..], b"at"]));
        assert_eq!(rest, b"\x01x");
    }

    #[test]
    fn reads_the_root() {
        let root = name(b"\x00");
        assert!(root.is_root());
        assert_eq!(root.labels().count(), 0);
    }

    #[test]
    fn octets_that_end_early_are_no_name() {
        assert!(read_name(b"").is_none());
        assert!(read_name(b"\x03ww").is_none());
        assert!(read_name(b"\x03www").is_none());
    }

    #[test]
    fn compression_is_no_name() {
        assert!(read_name(b"\x03www\xC0\x00").is_none());
    }

    #[test]
    fn only_a_to_z_fold() {
        let same = |one, other| name(one).is(name(other));
        assert!(same(b"\x02AZ\x01m\x00", b"\x02az\x01M\x00"));
        assert!(!same(b"\x01@\x00", b"\x01`\x00"));
        assert!(!same(b"\x01[\x00", b"\x01{\x00"));
        assert!(!same(b"\x03a\x0Db\x00", b"\x03a-b\x00"));
        assert!(!same(b"\x01\xC4\x00", b"\x01\xE4\x00"));
    }

    #[test]
    fn names_are_compared_whole_and_by_label() {
        let same = |one, other| name(one).is(name(other));
        assert!(!same(b"\x01a\x01b\x00", b"\x01b\x00"));
        assert!(!same(b"\x01a\x01b\x00", b"\x01a\x00"));
        assert!(!same(b"\x03a.b\x00", b"\x01a\x01b\x00"));
        assert!(!same(b"\x03a\x01b\x00", b"\x01b\x00"));
    }

    #[test]
    fn ancestors_stop_before_the_root() {
        let read = name(b"\x01a\x01b\x01c\x00");
        let lengths: Vec<usize> = read.ancestors().map(|name| name.labels().count()).collect();
        assert_eq!(lengths, [3, 2, 1]);
    }

    #[test]
    fn hyphens_stand_inside_only() {
        for good in [&b"a"[..], b"0", b"a-b", b"a--b", b"0-9"] {
            assert!(is_ldh_label(good));
        }
        for bad in [&b""[..], b"-", b"-a", b"a-", b"a_b", b"*", b"a.b", b"\xE4"] {
            assert!(!is_ldh_label(bad));
        }
    }
}
