//! Issuer domain names as text.

use crate::answer::Refusal;
use crate::limits::{ISSUER_OCTETS, LABEL_OCTETS};
use crate::name::is_ldh_label;

/// A well-formed issuer domain name in lower case, so that plain equality is equality of names.
#[derive(Clone, Debug, PartialEq, Eq, Hash)]
pub struct IssuerName {
    lower_case: Vec<u8>,
}

impl IssuerName {
    pub fn octets(&self) -> &[u8] {
        &self.lower_case
    }
}

pub fn read_issuer(text: &[u8]) -> Result<IssuerName, Refusal> {
    let good = text.len() <= ISSUER_OCTETS
        && text
            .split(|&octet| octet == b'.')
            .all(|label| is_ldh_label(label) && label.len() <= LABEL_OCTETS);
    if good {
        Ok(IssuerName {
            lower_case: text.to_ascii_lowercase(),
        })
    } else {
        Err(Refusal::BadIssuer)
    }
}

#[cfg(test)]
mod tests {
    use super::*;

    #[test]
    fn well_formed_names_are_kept_in_small_letters() {
        for (text, lower_case) in [
            (&b"ca1.example.net"[..], &b"ca1.example.net"[..]),
            (b"CA1.Example.NET", b"ca1.example.net"),
            (b"x", b"x"),
            (b"0.1", b"0.1"),
            (b"a--b.c-d", b"a--b.c-d"),
        ] {
            assert_eq!(read_issuer(text).unwrap().octets(), lower_case);
        }
    }

    #[test]
    fn everything_else_is_refused() {
        for text in [
            &b""[..],
            b".",
            b"ca.",
            b".ca",
            b"ca..net",
            b"-ca.net",
            b"ca-.net",
            b"ca.net\n",
            b" ca.net",
            b"*.net",
            b"ca_1.net",
            b"ca\xE4.net",
        ] {
            assert_eq!(read_issuer(text), Err(Refusal::BadIssuer));
        }
    }

    #[test]
    fn both_sides_of_63_and_253_octets() {
        assert!(read_issuer(&[b'a'; 63]).is_ok());
        assert!(read_issuer(&[b'a'; 64]).is_err());
        let three_labels = [[b'a'; 63], [b'b'; 63], [b'c'; 63]].join(&b'.');
        let with_last = |length: usize| [three_labels.clone(), vec![b'd'; length]].join(&b'.');
        assert_eq!(with_last(61).len(), 253);
        assert!(read_issuer(&with_last(61)).is_ok());
        assert!(read_issuer(&with_last(62)).is_err());
    }
}
