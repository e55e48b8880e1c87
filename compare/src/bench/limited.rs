//! Books whose records limit their grants to [`ACCOUNT`] and [`METHOD`]: ordinary ones, and a record
//! as long as a book with as many items, or as many parameters, as have room.

use super::books::{book_of, caa, deep_wildcards, issue, wire, ACCOUNT, ISSUER, METHOD};
use super::NIGHT_RUN_NAMES;
use crate::limits::BOOK_OCTETS;

pub struct Limited {
    pub title: String,
    pub request: Vec<u8>,
    pub book: Vec<u8>,
}

pub fn loads() -> Vec<Limited> {
    let text = |octets: &[u8]| String::from_utf8(octets.to_vec()).unwrap();
    let (account, method) = (text(ACCOUNT), text(METHOD));
    let names = (0..NIGHT_RUN_NAMES).flat_map(|name| wire(&format!("www.h{name}.at")));
    let ordinary = format!("{ISSUER}; accounturi={account}; validationmethods=http-01,{method}");
    let items = |number: usize| {
        let others = "a,".repeat(number);
        format!("{ISSUER};validationmethods={others}{method}")
    };
    let parameters =
        |number: usize| format!("{ISSUER}{};accounturi={account}", ";a=".repeat(number));
    vec![
        Limited {
            title: format!("{NIGHT_RUN_NAMES} names of three labels, each grant with both limits"),
            request: names.collect(),
            book: book_of(|record| match record {
                0..NIGHT_RUN_NAMES => caa(&wire(&format!("h{record}.at")), &issue(&ordinary)),
                _ => vec![],
            }),
        },
        Limited {
            title: "deep wildcards, one record of as many methods as have room".to_string(),
            request: deep_wildcards(),
            book: longest(items),
        },
        Limited {
            title: "deep wildcards, one record of as many parameters as have room".to_string(),
            request: deep_wildcards(),
            book: longest(parameters),
        },
    ]
}

/// One record at the top of the deep names, whose value has so many of something that one more would
/// not have room.
fn longest(value: impl Fn(usize) -> String) -> Vec<u8> {
    let record = |number| caa(&wire("A"), &issue(&value(number)));
    let (none, one) = (record(0).len(), record(1).len());
    record((BOOK_OCTETS - none) / (one - none))
}

#[cfg(test)]
mod tests {
    use super::*;
    use crate::answer::Answer;
    use crate::judge::judge;
    use crate::read_book;

    /// Each grants for the account and the method, and the last two for these alone.
    #[test]
    fn the_limits_are_met() {
        for (number, load) in loads().iter().enumerate() {
            let judged = |account: &[u8], method: &[u8]| {
                judge(
                    &load.request,
                    ISSUER.as_bytes(),
                    account,
                    method,
                    &load.book,
                )
            };
            let is_refused = |answer| matches!(answer, Answer::NotGranted { .. });
            assert_eq!(judged(ACCOUNT, METHOD), Answer::Permitted, "{}", load.title);
            assert_eq!(is_refused(judged(b"other", METHOD)), number != 1);
            assert_eq!(is_refused(judged(ACCOUNT, b"other")), number != 2);
            let records = if number == 0 { NIGHT_RUN_NAMES } else { 1 };
            assert_eq!(read_book(&load.book).unwrap().len(), records);
            if number > 0 {
                assert!(load.book.len() + 3 > BOOK_OCTETS);
            }
        }
    }
}
