//! The value of an `issue` or `issuewild` property (RFC 8659 section 4.2):
//!
//! ```text
//! issue-value = *WSP [issuer-domain-name *WSP] [";" *WSP [parameters *WSP]]
//! ```
//!
//! A parameter tag follows the same rule as a label of the name: letters and digits, and hyphens
//! between them.

use crate::applicant::Applicant;
use crate::issuer::{read_issuer, IssuerName};
use crate::name::is_ldh_label;
use crate::parameters::{admit, Parameter};

/// How a value reads. The name is the grammar's: it may still be beyond the issuer-name limits.
#[derive(Clone, Debug, PartialEq, Eq)]
pub enum IssueValue<'a> {
    Malformed,
    /// Whatever its parameters.
    NoName,
    Name {
        name: &'a [u8],
        parameters: Vec<Parameter<'a>>,
    },
}

impl IssueValue<'_> {
    /// Whom the value grants, this applicant asking. A malformed one grants nobody, like one with no
    /// name in it, and like one with a limit that isn't met.
    pub fn grantee(self, applicant: Applicant) -> Option<IssuerName> {
        match self {
            IssueValue::Name { name, parameters } if admit(&parameters, applicant) => {
                read_issuer(name).ok()
            }
            _ => None,
        }
    }
}

pub fn read_value(octets: &[u8]) -> IssueValue<'_> {
    match name_and_parameters(octets) {
        None => IssueValue::Malformed,
        Some((b"", _)) => IssueValue::NoName,
        Some((name, parameters)) => IssueValue::Name { name, parameters },
    }
}

/// No name, tag or parameter value can hold a `;`, so each `;` parts the value.
fn name_and_parameters(octets: &[u8]) -> Option<(&[u8], Vec<Parameter<'_>>)> {
    let mut parts = octets.split(|&octet| octet == b';').map(trim_blanks);
    let name = parts.next().unwrap_or_default();
    let parts: Vec<&[u8]> = parts.collect();
    if !name.is_empty() && !name.split(|&octet| octet == b'.').all(is_ldh_label) {
        return None;
    }
    // A single `;` may have nothing behind it; a `;` between parameters may not.
    let parameters = match parts[..] {
        [b""] => Vec::new(),
        _ => parts
            .into_iter()
            .map(read_parameter)
            .collect::<Option<_>>()?,
    };
    Some((name, parameters))
}

/// `tag *WSP "=" *WSP value`, the blanks around it already taken off.
fn read_parameter(octets: &[u8]) -> Option<Parameter<'_>> {
    let equals = octets.iter().position(|&octet| octet == b'=')?;
    let tag = trim_blanks(&octets[..equals]);
    let value = trim_blanks(&octets[equals + 1..]);
    let good = is_ldh_label(tag) && value.iter().all(u8::is_ascii_graphic);
    good.then_some(Parameter { tag, value })
}

fn trim_blanks(octets: &[u8]) -> &[u8] {
    let start = leading_blanks(octets);
    let end = octets
        .iter()
        .rposition(|&octet| !is_blank(octet))
        .map_or(start, |last| last + 1);
    &octets[start..end]
}

/// How many blanks stand in front.
pub fn leading_blanks(octets: &[u8]) -> usize {
    octets
        .iter()
        .position(|&octet| !is_blank(octet))
        .unwrap_or(octets.len())
}

/// Blanks are space and tab.
pub fn is_blank(octet: u8) -> bool {
    matches!(octet, b' ' | b'\t')
}

#[cfg(test)]
mod tests {
    use super::*;

    #[test]
    fn blanks_are_space_and_tab_only() {
        assert_eq!(trim_blanks(b" \t a b\t "), b"a b");
        assert_eq!(trim_blanks(b" \t "), b"");
        assert_eq!(trim_blanks(b"\na\r"), b"\na\r");
    }

    #[test]
    fn a_name_keeps_its_letter_case_and_loses_its_blanks() {
        let IssueValue::Name { name, .. } = read_value(b"\t CA1.example.net ; a=1") else {
            panic!("a name stands there");
        };
        assert_eq!(name, b"CA1.example.net");
    }

    #[test]
    fn parameters_are_handed_on_in_order_without_their_blanks() {
        let parameter = |tag, value| Parameter { tag, value };
        assert_eq!(
            read_value(b"ca; aB \t=\t 1,=2 ;C-d=; c-D= \t"),
            IssueValue::Name {
                name: b"ca",
                parameters: vec![
                    parameter(b"aB", b"1,=2"),
                    parameter(b"C-d", b""),
                    parameter(b"c-D", b""),
                ],
            }
        );
        for without in [&b"ca"[..], b"ca;", b"ca ; \t"] {
            let (name, parameters) = (&b"ca"[..], Vec::new());
            assert_eq!(read_value(without), IssueValue::Name { name, parameters });
        }
        assert_eq!(read_value(b"; a=1"), IssueValue::NoName);
    }

    #[test]
    fn hyphens_stand_inside_a_parameter_tag_only() {
        let reads = |parameters: &str| {
            let value = format!("ca.net;{parameters}");
            read_value(value.as_bytes()) != IssueValue::Malformed
        };
        for good in [
            "a-b=1",
            "a--b=",
            " 0-9 = -",
            "a-b-c=1 ; d-e=2",
            "a=-",
            "a=1-",
        ] {
            assert!(reads(good), "{good}");
        }
        for bad in [
            "-t=1", "t-=1", "-=1", "--=1", "t--=1", "--t=1", "t- =1", "t -u=1", "t- u=1",
            "a=1;-t=1", "a=1;t-=1", "-t=1;a=1", "t-", "-",
        ] {
            assert!(!reads(bad), "{bad}");
        }
    }

    const APPLICANT: Applicant = Applicant {
        account: b"a",
        method: b"m",
    };

    #[test]
    fn a_name_beyond_the_limits_fits_and_grants_nobody() {
        let label = [b'a'; 64];
        assert!(matches!(read_value(&label), IssueValue::Name { .. }));
        assert_eq!(read_value(&label).grantee(APPLICANT), None);
    }

    #[test]
    fn a_limit_that_is_not_met_grants_nobody() {
        let grants = |value: &[u8]| read_value(value).grantee(APPLICANT).is_some();
        assert!(grants(b"ca; accounturi = a ; validationmethods=m"));
        assert!(!grants(b"ca; accounturi = b"));
        assert!(!grants(b"; accounturi = a"));
        assert!(!grants(b"ca; accounturi = a;"));
    }
}
