//! How often each kind of limit stood in a value that would have granted without it.

use super::log::{Call, Tally};
use crate::answer::Refusal;
use crate::applicant::{read_applicant, Applicant};
use crate::book::read_book;
use crate::generate::Inputs;
use crate::issuer::read_issuer;
use crate::parameters::{are_methods, values_of, Parameter, ACCOUNT_URI, VALIDATION_METHODS};
use crate::request::read_request;
use crate::rule::governing_values;
use crate::value::{read_value, IssueValue};

const KINDS: &[(u8, &str)] = &[
    (NO_LIMIT, "no limit"),
    (ACCOUNT_MET, "account met"),
    (ACCOUNT_NOT_MET, "not met"),
    (TWO_ACCOUNTS, "two accounts"),
    (METHOD_MET, "method met"),
    (METHOD_NOT_MET, "not among the methods"),
    (EMPTY_ITEM, "empty item"),
    (TWO_METHODS, "methods twice"),
    (BOTH_MET, "both limits met"),
];
const NO_LIMIT: u8 = 0;
const ACCOUNT_MET: u8 = 1;
const ACCOUNT_NOT_MET: u8 = 2;
const TWO_ACCOUNTS: u8 = 3;
const METHOD_MET: u8 = 4;
const METHOD_NOT_MET: u8 = 5;
const EMPTY_ITEM: u8 = 6;
const TWO_METHODS: u8 = 7;
const BOTH_MET: u8 = 8;

pub static OF_VERDICTS: Call = Call {
    name: "judge, accounts",
    kinds: KINDS,
};
pub static OF_LISTS: Call = Call {
    name: "list, accounts",
    kinds: KINDS,
};

/// Of requests with more names, the first ones are enough.
const SOME_NAMES: usize = 4;

/// Counts each kind once, however many values it stands in. Only those count that govern a requested
/// name and hold an issuer name, this one where it is given. What is refused is not counted.
pub fn count_parameters(tally: &mut Tally, inputs: &Inputs, issuer: Option<&[u8]>) {
    let mut kinds = kinds(inputs, issuer).unwrap_or_default();
    kinds.sort_unstable();
    kinds.dedup();
    for kind in kinds {
        tally.count(kind);
    }
}

fn kinds(inputs: &Inputs, issuer: Option<&[u8]>) -> Result<Vec<u8>, Refusal> {
    let names = read_request(&inputs.request)?;
    let applicant = read_applicant(&inputs.account, &inputs.method)?;
    let book = read_book(&inputs.book)?;
    let issuer = issuer.map(read_issuer).transpose()?;
    let mut kinds = Vec::new();
    for requested in names.iter().take(SOME_NAMES) {
        for value in governing_values(&book, requested) {
            if let IssueValue::Name { name, parameters } = read_value(value) {
                let grantee = read_issuer(name).ok();
                if grantee.is_some() && (issuer.is_none() || grantee == issuer) {
                    kinds.extend(kinds_of(&parameters, applicant));
                }
            }
        }
    }
    Ok(kinds)
}

fn kinds_of(parameters: &[Parameter], applicant: Applicant) -> Vec<u8> {
    let accounts = values_of(ACCOUNT_URI, parameters);
    let methods = values_of(VALIDATION_METHODS, parameters);
    let account = match accounts[..] {
        [] => None,
        [account] if account == applicant.account => Some(ACCOUNT_MET),
        [_] => Some(ACCOUNT_NOT_MET),
        _ => Some(TWO_ACCOUNTS),
    };
    let method = match methods[..] {
        [] => None,
        [methods] if !are_methods(methods) => Some(EMPTY_ITEM),
        [methods] => {
            let mut items = methods.split(|&octet| octet == b',');
            match items.any(|item| item == applicant.method) {
                true => Some(METHOD_MET),
                false => Some(METHOD_NOT_MET),
            }
        }
        _ => Some(TWO_METHODS),
    };
    match (account, method) {
        (None, None) => vec![NO_LIMIT],
        (Some(ACCOUNT_MET), Some(METHOD_MET)) => vec![ACCOUNT_MET, METHOD_MET, BOTH_MET],
        _ => account.into_iter().chain(method).collect(),
    }
}

#[cfg(test)]
mod tests {
    use super::*;

    fn counted(value: &str, issuer: Option<&[u8]>) -> Vec<u8> {
        let rdata = [b"\x00\x05issue", value.as_bytes()].concat();
        let frame = b"\x01a\x00\x01\x01\x00\x01\x00\x00\x00\x00\x00";
        let inputs = Inputs {
            request: b"\x01a\x00".to_vec(),
            issuer: Vec::new(),
            account: b"u".to_vec(),
            method: b"m".to_vec(),
            book: [frame, &[rdata.len() as u8][..], &rdata].concat(),
            buffer: Vec::new(),
        };
        kinds(&inputs, issuer).unwrap()
    }

    #[test]
    fn each_limit_is_counted_by_its_kind() {
        for (parameters, kinds) in [
            ("", &[NO_LIMIT][..]),
            ("; a=1", &[NO_LIMIT]),
            ("; accounturi=u", &[ACCOUNT_MET]),
            ("; accounturi=U", &[ACCOUNT_NOT_MET]),
            ("; accounturi=u; ACCOUNTURI=u", &[TWO_ACCOUNTS]),
            ("; validationmethods=n,m", &[METHOD_MET]),
            ("; validationmethods=n", &[METHOD_NOT_MET]),
            ("; validationmethods=m,", &[EMPTY_ITEM]),
            ("; validationmethods=m; validationMethods=m", &[TWO_METHODS]),
            (
                "; accounturi=u; validationmethods=m",
                &[ACCOUNT_MET, METHOD_MET, BOTH_MET],
            ),
            (
                "; accounturi=u; validationmethods=n",
                &[ACCOUNT_MET, METHOD_NOT_MET],
            ),
        ] {
            let value = format!("ca{parameters}");
            for issuer in [None, Some(&b"CA"[..])] {
                assert_eq!(counted(&value, issuer), kinds, "{value}");
            }
            assert_eq!(counted(&value, Some(b"cb")), [], "{value}");
            assert_eq!(counted(parameters, None), [], "{parameters}");
        }
    }
}
