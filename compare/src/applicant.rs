//! Who asks for the certificate, and how control of the names was validated: what RFC 8657 lets a
//! record limit its grant to.

use crate::answer::Refusal;
use crate::limits::APPLICANT_OCTETS;

/// Both texts follow their rules.
#[derive(Clone, Copy, Debug, PartialEq, Eq)]
pub struct Applicant<'a> {
    pub account: &'a [u8],
    pub method: &'a [u8],
}

impl Applicant<'static> {
    /// For questions whose answer is the same for all: where a set stands, which records govern.
    pub const SOMEONE: Applicant<'static> = Applicant {
        account: b"a",
        method: b"m",
    };
}

pub fn read_applicant<'a>(account: &'a [u8], method: &'a [u8]) -> Result<Applicant<'a>, Refusal> {
    // A comma would part a method from another.
    if is_text(account) && is_text(method) && !method.contains(&b',') {
        Ok(Applicant { account, method })
    } else {
        Err(Refusal::BadApplicant)
    }
}

/// What a parameter's value can hold: 1 to 255 octets 33 to 126, none of them `;`.
fn is_text(text: &[u8]) -> bool {
    let is_good = |octet: &u8| octet.is_ascii_graphic() && *octet != b';';
    (1..=APPLICANT_OCTETS).contains(&text.len()) && text.iter().all(is_good)
}

#[cfg(test)]
mod tests {
    use super::*;

    fn is_account(text: &[u8]) -> bool {
        read_applicant(text, b"m").is_ok()
    }

    fn is_method(text: &[u8]) -> bool {
        read_applicant(b"a", text).is_ok()
    }

    #[test]
    fn both_texts_are_kept_as_they_stand() {
        assert_eq!(
            read_applicant(b"https://A/1,2", b"DNS-01"),
            Ok(Applicant {
                account: b"https://A/1,2",
                method: b"DNS-01",
            })
        );
    }

    #[test]
    fn every_octet_but_33_to_126_and_semicolon_and_comma() {
        for octet in 0..=255 {
            let good = (33..=126).contains(&octet) && octet != b';';
            for text in [vec![octet], vec![b'a', octet], vec![octet, b'a']] {
                assert_eq!(is_account(&text), good, "{octet}");
                assert_eq!(is_method(&text), good && octet != b',', "{octet}");
            }
        }
    }

    #[test]
    fn both_sides_of_1_and_255_octets() {
        for is_good in [is_account, is_method] {
            assert!(!is_good(b""));
            assert!(is_good(b"a"));
            assert!(is_good(&[b'~'; 255]));
            assert!(!is_good(&[b'~'; 256]));
        }
    }

    #[test]
    fn one_bad_text_is_enough() {
        assert_eq!(read_applicant(b"", b"m"), Err(Refusal::BadApplicant));
        assert_eq!(read_applicant(b"a", b""), Err(Refusal::BadApplicant));
        assert_eq!(read_applicant(b"", b""), Err(Refusal::BadApplicant));
    }
}
