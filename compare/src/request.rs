//! The request: names in wire form, end to end.

use crate::answer::Refusal;
use crate::limits::{REQUEST_NAMES, REQUEST_OCTETS};
use crate::name::{is_ldh_label, read_name, Name};

/// A requested name X or `*.X`.
#[derive(Clone, Debug)]
pub struct RequestedName<'a> {
    /// Whether `*.X` was asked for (a Wildcard Domain Name, RFC 8659 section 2.2).
    pub wildcard: bool,
    /// X; never the root.
    pub fqdn: Name<'a>,
}

pub fn read_request(octets: &[u8]) -> Result<Vec<RequestedName<'_>>, Refusal> {
    if octets.len() > REQUEST_OCTETS {
        return Err(Refusal::RequestTooLong);
    }
    if octets.is_empty() {
        return Err(Refusal::BadRequestedName { name: 0 });
    }
    let mut names = Vec::new();
    let mut rest = octets;
    while !rest.is_empty() {
        let read = names.len();
        if read == REQUEST_NAMES {
            return Err(Refusal::TooManyNames { read });
        }
        let (name, behind) =
            read_requested_name(rest).ok_or(Refusal::BadRequestedName { name: read })?;
        names.push(name);
        rest = behind;
    }
    Ok(names)
}

/// Reads one requested name at the front of `octets` and hands back what stands behind it.
pub fn read_requested_name(octets: &[u8]) -> Option<(RequestedName<'_>, &[u8])> {
    let (name, rest) = read_name(octets)?;
    let (wildcard, fqdn) = match name.split_first()? {
        (b"*", under_it) => (true, under_it),
        _ => (false, name),
    };
    let good = !fqdn.is_root() && fqdn.labels().all(is_ldh_label);
    good.then_some((RequestedName { wildcard, fqdn }, rest))
}

#[cfg(test)]
mod tests {
    use super::*;

    fn refusal(octets: &[u8]) -> Refusal {
        read_request(octets).unwrap_err()
    }

    #[test]
    fn a_star_is_kept_apart_from_the_name_under_it() {
        let names = read_request(b"\x01*\x01a\x02bc\x00\x01a\x00").unwrap();
        assert_eq!(names.len(), 2);
        assert!(names[0].wildcard);
        assert!(names[0].fqdn.labels().eq([&b"a"[..], b"bc"]));
        assert!(!names[1].wildcard);
        assert!(names[1].fqdn.labels().eq([b"a"]));
    }

    #[test]
    fn root_and_bare_star_are_no_requested_names() {
        assert_eq!(refusal(b"\x00"), Refusal::BadRequestedName { name: 0 });
        assert_eq!(
            refusal(b"\x01a\x00\x01*\x00"),
            Refusal::BadRequestedName { name: 1 }
        );
    }

    #[test]
    fn a_star_is_the_whole_first_label_or_nothing() {
        for bad in [
            &b"\x01a\x01*\x00"[..],
            b"\x01*\x01*\x01a\x00",
            b"\x02**\x01a\x00",
            b"\x02*a\x01a\x00",
        ] {
            assert_eq!(refusal(bad), Refusal::BadRequestedName { name: 0 });
        }
    }

    #[test]
    fn the_length_is_looked_at_before_the_names() {
        assert_eq!(refusal(&[0xFF; 16_385]), Refusal::RequestTooLong);
        assert_eq!(
            refusal(&[0xFF; 16_384]),
            Refusal::BadRequestedName { name: 0 }
        );
    }

    #[test]
    fn anything_behind_250_names_is_too_much() {
        let octets = b"\x01a\x00".repeat(249);
        assert_eq!(
            refusal(&[&octets[..], &[0xFF]].concat()),
            Refusal::BadRequestedName { name: 249 }
        );
        let octets = b"\x01a\x00".repeat(250);
        assert_eq!(read_request(&octets).unwrap().len(), 250);
        assert_eq!(
            refusal(&[&octets[..], &[0xFF]].concat()),
            Refusal::TooManyNames { read: 250 }
        );
    }
}
