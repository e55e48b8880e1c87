//! The parameters of an `issue` or `issuewild` value, and those among them that limit a grant: the
//! `accounturi` and `validationmethods` of RFC 8657.

use crate::applicant::Applicant;

pub const ACCOUNT_URI: &str = "accounturi";
pub const VALIDATION_METHODS: &str = "validationmethods";

/// A parameter of the grammar, without the blanks around its tag and its value.
#[derive(Clone, Copy, Debug, PartialEq, Eq)]
pub struct Parameter<'a> {
    pub tag: &'a [u8],
    pub value: &'a [u8],
}

/// Whether the applicant meets every limit. Where a limit stands twice nobody does, even where both
/// say the same.
pub fn admit(parameters: &[Parameter], applicant: Applicant) -> bool {
    let account_is_met = match values_of(ACCOUNT_URI, parameters)[..] {
        [] => true,
        [account] => account == applicant.account,
        _ => false,
    };
    let method_is_met = match values_of(VALIDATION_METHODS, parameters)[..] {
        [] => true,
        [methods] => are_methods(methods) && items(methods).any(|item| item == applicant.method),
        _ => false,
    };
    account_is_met && method_is_met
}

/// The values of all parameters with this tag, whatever its letter case.
pub fn values_of<'a>(tag: &str, parameters: &[Parameter<'a>]) -> Vec<&'a [u8]> {
    parameters
        .iter()
        .filter(|parameter| parameter.tag.eq_ignore_ascii_case(tag.as_bytes()))
        .map(|parameter| parameter.value)
        .collect()
}

/// Whether no item is empty.
pub fn are_methods(value: &[u8]) -> bool {
    items(value).all(|item| !item.is_empty())
}

/// What the commas part. A value without any is one item, the empty one an empty item.
fn items(value: &[u8]) -> impl Iterator<Item = &[u8]> {
    value.split(|&octet| octet == b',')
}

#[cfg(test)]
mod tests {
    use super::*;

    /// Whether account `a,b` with method `m` is admitted by these parameters, `TAG=VALUE` each.
    fn admits(parameters: &[&str]) -> bool {
        let parameters: Vec<Parameter> = parameters
            .iter()
            .map(|parameter| {
                let (tag, value) = parameter.split_once('=').unwrap();
                let (tag, value) = (tag.as_bytes(), value.as_bytes());
                Parameter { tag, value }
            })
            .collect();
        let applicant = Applicant {
            account: b"a,b",
            method: b"m",
        };
        admit(&parameters, applicant)
    }

    #[test]
    fn without_a_limit_everybody_is_admitted() {
        assert!(admits(&[]));
        assert!(admits(&["a=1", "a=1", "b=,,"]));
        assert!(admits(&["account-uri=x", "accounturis=x", "ccounturi=x"]));
    }

    #[test]
    fn the_account_is_the_whole_value() {
        assert!(admits(&["accounturi=a,b"]));
        for other in [
            "a", "b", "a,", ",b", "a,b,", "a,B", "A,b", "b,a", "aa,b", "",
        ] {
            assert!(!admits(&[&format!("accounturi={other}")]), "{other}");
        }
    }

    #[test]
    fn the_method_is_one_of_the_items() {
        for good in ["m", "m,n", "n,m", "n,m,o", "m,m"] {
            assert!(admits(&[&format!("validationmethods={good}")]), "{good}");
        }
        for bad in [
            "n", "M", "mm", "m-", "", ",", "m,", ",m", "m,,n", "n,,m", "m,n,", ",,",
        ] {
            assert!(!admits(&[&format!("validationmethods={bad}")]), "{bad}");
        }
    }

    #[test]
    fn both_limits_are_to_be_met_in_any_order_and_letter_case() {
        assert!(admits(&["accounturi=a,b", "x=1", "validationmethods=m"]));
        assert!(admits(&["VALIDATIONMETHODS=m", "AccountURI=a,b"]));
        assert!(!admits(&["accounturi=a,b", "validationmethods=n"]));
        assert!(!admits(&["accounturi=a", "validationmethods=m"]));
        assert!(!admits(&["AccountURI=a"]));
        assert!(!admits(&["validationMethods=n"]));
    }

    #[test]
    fn a_limit_that_stands_twice_admits_nobody() {
        assert!(!admits(&["accounturi=a,b", "accounturi=a,b"]));
        assert!(!admits(&["accounturi=a,b", "x=1", "ACCOUNTURI=a,b"]));
        assert!(!admits(&["validationmethods=m", "validationmethods=m"]));
        assert!(!admits(&["ValidationMethods=m", "validationmethods=n"]));
    }
}
