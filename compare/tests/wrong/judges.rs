//! Judges that answer wrongly to what they judged rightly.

use std::cell::Cell;

use compare::against::Other;
use compare::calls::Judge;
use compare::limits::{APPLICANT_OCTETS, BOOK_OCTETS, ISSUER_OCTETS, REQUEST_OCTETS};
use compare::{judge, Answer, Refusal, Word};

use super::cut::{self, first_names, first_records, names_within, records_within};
use super::is_found_at_random;

const TOO_LONG_A_REQUEST: usize = REQUEST_OCTETS + 1;
const TOO_LONG_A_BOOK: usize = BOOK_OCTETS + 1;

/// A change of a verdict's numbers, and the verdict whose are changed.
type WrongNumbers = (fn([usize; 3]) -> [usize; 3], fn(&Answer) -> bool);

thread_local! {
    /// A judge is a plain function, so it is told here what to change.
    static WRONG_NUMBERS: Cell<WrongNumbers> = const { Cell::new((|numbers| numbers, |_| false)) };
}

#[test]
fn wrong_judges_are_found_out() {
    let wrong_ones: [Judge; 9] = [
        |_, _, _, _, _| Ok(Answer::Permitted),
        |_, _, _, _, _| Err(Word::number(99)),
        |request, issuer, account, method, book| match judge(request, issuer, account, method, book)
        {
            Answer::NotGranted { name, record, up } => Ok(Answer::NotGranted {
                name: record,
                record: name,
                up,
            }),
            other => Ok(other),
        },
        // Looks at the issuer name last.
        |request, issuer, account, method, book| match judge(request, b"x", account, method, book) {
            Answer::Refused(refusal) => Ok(Answer::Refused(refusal)),
            _ => Ok(judge(request, issuer, account, method, book)),
        },
        |request, issuer, account, method, book| match judge(request, issuer, account, method, book)
        {
            Answer::Refused(Refusal::TooManyRecords { .. }) => Ok(Answer::Permitted),
            other => Ok(other),
        },
        |request, issuer, account, method, book| match judge(request, issuer, account, method, book)
        {
            Answer::Refused(Refusal::TooManyNames { .. }) => Ok(Answer::Permitted),
            other => Ok(other),
        },
        // Refuses only what is an octet longer.
        |request, issuer, account, method, book| match request.len() {
            TOO_LONG_A_REQUEST => Ok(Answer::Permitted),
            _ => Ok(judge(request, issuer, account, method, book)),
        },
        |request, issuer, account, method, book| match book.len() {
            TOO_LONG_A_BOOK => Ok(Answer::Permitted),
            _ => Ok(judge(request, issuer, account, method, book)),
        },
        // Looks at no more of the issuer name than may be there.
        |request, issuer, account, method, book| {
            Ok(judge(
                request,
                &issuer[..issuer.len().min(ISSUER_OCTETS)],
                account,
                method,
                book,
            ))
        },
    ];
    all_are_found_out(&wrong_ones);
}

#[test]
fn judges_that_leave_out_what_stands_far_behind_are_found_out() {
    all_are_found_out(&[
        |request, issuer, account, method, book| {
            unless_refused(judge(request, issuer, account, method, book), || {
                judge(
                    first_names(request, cut::NAMES),
                    issuer,
                    account,
                    method,
                    book,
                )
            })
        },
        |request, issuer, account, method, book| {
            unless_refused(judge(request, issuer, account, method, book), || {
                judge(
                    names_within(request, cut::REQUEST_OCTETS),
                    issuer,
                    account,
                    method,
                    book,
                )
            })
        },
        |request, issuer, account, method, book| {
            unless_refused(judge(request, issuer, account, method, book), || {
                judge(
                    request,
                    issuer,
                    account,
                    method,
                    first_records(book, cut::RECORDS),
                )
            })
        },
        |request, issuer, account, method, book| {
            unless_refused(judge(request, issuer, account, method, book), || {
                judge(
                    request,
                    issuer,
                    account,
                    method,
                    records_within(book, cut::BOOK_OCTETS),
                )
            })
        },
        // Keeps a record number in one octet.
        |request, issuer, account, method, book| match judge(request, issuer, account, method, book)
        {
            Answer::NotGranted { name, record, up } => Ok(Answer::NotGranted {
                name,
                record: record % 256,
                up,
            }),
            other => Ok(other),
        },
        // Keeps the places of two refusals where they were.
        |request, issuer, account, method, book| match judge(request, issuer, account, method, book)
        {
            Answer::Refused(Refusal::TooManyNames { .. }) => {
                Ok(Answer::Refused(Refusal::TooManyNames { read: cut::NAMES }))
            }
            other => Ok(other),
        },
        |request, issuer, account, method, book| match judge(request, issuer, account, method, book)
        {
            Answer::Refused(Refusal::TooManyRecords { .. }) => {
                let read = cut::RECORDS;
                Ok(Answer::Refused(Refusal::TooManyRecords { read }))
            }
            other => Ok(other),
        },
    ]);
}

#[test]
fn judges_that_check_account_or_method_wrongly_are_found_out() {
    all_are_found_out(&[
        |request, issuer, _, method, book| Ok(judge(request, issuer, b"u", method, book)),
        |request, issuer, account, _, book| Ok(judge(request, issuer, account, b"m", book)),
        |request, issuer, account, method, book| Ok(judge(request, issuer, method, account, book)),
        // Looks at them before the issuer name.
        |request, issuer, account, method, book| match judge(request, b"x", account, method, book) {
            Answer::Refused(Refusal::BadApplicant) => Ok(Answer::Refused(Refusal::BadApplicant)),
            _ => Ok(judge(request, issuer, account, method, book)),
        },
        // Looks at them before the request.
        |request, issuer, account, method, book| match judge(
            b"\x01a\x00",
            b"x",
            account,
            method,
            b"",
        ) {
            Answer::Permitted => Ok(judge(request, issuer, account, method, book)),
            refused => Ok(refused),
        },
        // Looks at them last.
        |request, issuer, account, method, book| match judge(request, issuer, b"u", b"m", book) {
            refused @ Answer::Refused(_) => Ok(refused),
            _ => Ok(judge(request, issuer, account, method, book)),
        },
        // Gives the number of the issuer name.
        |request, issuer, account, method, book| match judge(request, issuer, account, method, book)
        {
            Answer::Refused(Refusal::BadApplicant) => Ok(Answer::Refused(Refusal::BadIssuer)),
            other => Ok(other),
        },
        // Takes one that is empty.
        |request, issuer, account, method, book| {
            let account = if account.is_empty() { b"u" } else { account };
            Ok(judge(request, issuer, account, method, book))
        },
        |request, issuer, account, method, book| {
            let method = if method.is_empty() { b"m" } else { method };
            Ok(judge(request, issuer, account, method, book))
        },
        // Takes one that is an octet too long.
        |request, issuer, account, method, book| {
            let account = &account[..account.len().min(APPLICANT_OCTETS)];
            Ok(judge(request, issuer, account, method, book))
        },
        |request, issuer, account, method, book| {
            let method = &method[..method.len().min(APPLICANT_OCTETS)];
            Ok(judge(request, issuer, account, method, book))
        },
        // Takes none that is as long as may be.
        |request, issuer, account, method, book| {
            let account = if account.len() == APPLICANT_OCTETS {
                b""
            } else {
                account
            };
            Ok(judge(request, issuer, account, method, book))
        },
        |request, issuer, account, method, book| {
            let method = if method.len() == APPLICANT_OCTETS {
                b""
            } else {
                method
            };
            Ok(judge(request, issuer, account, method, book))
        },
        // Takes no comma in an account.
        |request, issuer, account, method, book| {
            let account = if account.contains(&b',') {
                b""
            } else {
                account
            };
            Ok(judge(request, issuer, account, method, book))
        },
        // Takes a comma in a method, and a semicolon, a blank, a line end, octet 127 and octets from
        // 128 on in both.
        |request, issuer, account, method, book| {
            Ok(judge(
                request,
                issuer,
                account,
                &without(method, |o| o == b','),
                book,
            ))
        },
        |request, issuer, account, method, book| {
            Ok(judge(
                request,
                issuer,
                &without(account, |o| o == b';'),
                method,
                book,
            ))
        },
        |request, issuer, account, method, book| {
            Ok(judge(
                request,
                issuer,
                account,
                &without(method, |o| o == b';'),
                book,
            ))
        },
        |request, issuer, account, method, book| {
            Ok(judge(
                request,
                issuer,
                &without(account, |o| o == b' '),
                method,
                book,
            ))
        },
        |request, issuer, account, method, book| {
            Ok(judge(
                request,
                issuer,
                account,
                &without(method, |o| o == b'\t'),
                book,
            ))
        },
        |request, issuer, account, method, book| {
            Ok(judge(
                request,
                issuer,
                &without(account, |o| o == b'\n'),
                method,
                book,
            ))
        },
        |request, issuer, account, method, book| {
            Ok(judge(
                request,
                issuer,
                account,
                &without(method, |o| o == 127),
                book,
            ))
        },
        |request, issuer, account, method, book| {
            Ok(judge(
                request,
                issuer,
                &without(account, |o| o >= 128),
                method,
                book,
            ))
        },
    ]);
}

#[test]
fn judges_that_tell_aliases_wrongly_are_found_out() {
    all_are_found_out(&[
        |request, issuer, account, method, book| match judge(request, issuer, account, method, book)
        {
            Answer::TooManyAliases { .. } => Ok(Answer::Permitted),
            other => Ok(other),
        },
        |request, issuer, account, method, book| match judge(request, issuer, account, method, book)
        {
            Answer::TooManyAliases { name, record, up } => {
                Ok(Answer::NotGranted { name, record, up })
            }
            other => Ok(other),
        },
        |request, issuer, account, method, book| match judge(request, issuer, account, method, book)
        {
            Answer::TooManyAliases { name, record, up } => Ok(Answer::TooManyAliases {
                name: record,
                record: name,
                up,
            }),
            other => Ok(other),
        },
        // Keeps a record number in one octet.
        |request, issuer, account, method, book| match judge(request, issuer, account, method, book)
        {
            Answer::TooManyAliases { name, record, up } => Ok(Answer::TooManyAliases {
                name,
                record: record % 256,
                up,
            }),
            other => Ok(other),
        },
        |request, issuer, account, method, book| match judge(request, issuer, account, method, book)
        {
            Answer::Refused(Refusal::AliasConflict { record }) => {
                let record = record % 256;
                Ok(Answer::Refused(Refusal::AliasConflict { record }))
            }
            other => Ok(other),
        },
        // Takes a conflict for a fault of the record.
        |request, issuer, account, method, book| match judge(request, issuer, account, method, book)
        {
            Answer::Refused(Refusal::AliasConflict { record }) => {
                Ok(Answer::Refused(Refusal::BadRecord { record }))
            }
            other => Ok(other),
        },
    ]);
}

/// How labels are counted wrongly is among the mistakes in the rule.
#[test]
fn judges_that_tell_labels_taken_off_wrongly_are_found_out() {
    let wrong_ones: [fn([usize; 3]) -> [usize; 3]; 4] = [
        // In the place of the record, and of the name.
        |[name, record, up]| [name, up, record],
        |[name, record, up]| [up, record, name],
        |[name, record, _]| [name, record, 0],
        // Keeps them in six bits: no name has more than 127 labels.
        |[name, record, up]| [name, record, up % 64],
    ];
    // Each for one verdict alone.
    let verdicts: [fn(&Answer) -> bool; 3] = [
        |answer| matches!(answer, Answer::UnknownCritical { .. }),
        |answer| matches!(answer, Answer::NotGranted { .. }),
        |answer| matches!(answer, Answer::TooManyAliases { .. }),
    ];
    for numbers in wrong_ones {
        for is_wrong in verdicts {
            WRONG_NUMBERS.set((numbers, is_wrong));
            all_are_found_out(&[|request, issuer, account, method, book| {
                let (numbers, is_wrong) = WRONG_NUMBERS.get();
                Ok(match judge(request, issuer, account, method, book) {
                    answer if is_wrong(&answer) => answer.with(numbers),
                    answer => answer,
                })
            }]);
        }
    }
}

/// The text without these octets.
fn without(text: &[u8], is_left_out: fn(u8) -> bool) -> Vec<u8> {
    text.iter()
        .copied()
        .filter(|&octet| !is_left_out(octet))
        .collect()
}

fn all_are_found_out(wrong_ones: &[Judge]) {
    for (number, judge) in wrong_ones.iter().enumerate() {
        let other = Other {
            judge: Some(*judge),
            ..Other::NOTHING
        };
        assert!(is_found_at_random(other), "wrong judge {number}");
    }
}

/// Refuses rightly, and answers wrongly to what is accepted.
fn unless_refused(right: Answer, wrong: impl FnOnce() -> Answer) -> Result<Answer, Word> {
    match right {
        Answer::Refused(_) => Ok(right),
        _ => Ok(wrong()),
    }
}
