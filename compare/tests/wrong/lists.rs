//! Lists that are handed over wrongly.

use compare::against::Other;
use compare::calls::PermittedIssuers;
use compare::{permitted_issuers, read_book, read_request, Permitted, Refusal, Word};

use super::cut::{self, first_names, first_records, names_within, records_within};
use super::is_found_at_random;

#[test]
fn wrong_lists_are_found_out() {
    let wrong_ones: [PermittedIssuers; 6] = [
        |request, account, method, book, buffer| {
            Ok(permitted_issuers(
                request,
                account,
                method,
                book,
                &mut buffer.to_vec(),
            ))
        },
        |_, _, _, _, _| Err(Word::number(0)),
        // Wants one octet more than it needs.
        |request, account, method, book, buffer| match permitted_issuers(
            request,
            account,
            method,
            book,
            &mut buffer.to_vec(),
        ) {
            Permitted::List { octets, .. } if octets > 0 && octets == buffer.len() => {
                let needed = octets;
                Ok(Permitted::Refused(Refusal::BufferTooShort { needed }))
            }
            _ => Ok(permitted_issuers(request, account, method, book, buffer)),
        },
        // Writes what it has room for and then refuses.
        |request, account, method, book, buffer| {
            let answer = permitted_issuers(request, account, method, book, buffer);
            if let Permitted::Refused(Refusal::BufferTooShort { .. }) = answer {
                let mut room = vec![0; book.len()];
                permitted_issuers(request, account, method, book, &mut room);
                buffer.copy_from_slice(&room[..buffer.len()]);
            }
            Ok(answer)
        },
        // Clears the octet behind the list.
        |request, account, method, book, buffer| {
            let answer = permitted_issuers(request, account, method, book, buffer);
            if let Permitted::List { octets, .. } = answer {
                if let Some(octet) = buffer.get_mut(octets) {
                    *octet = 0;
                }
            }
            Ok(answer)
        },
        // Keeps upper case.
        |request, account, method, book, buffer| {
            let answer = permitted_issuers(request, account, method, book, buffer);
            if let (Permitted::List { octets: 1.., .. }, Some(octet)) = (answer, buffer.get_mut(1))
            {
                octet.make_ascii_uppercase();
            }
            Ok(answer)
        },
    ];
    all_are_found_out(&wrong_ones);
}

#[test]
fn lists_that_leave_out_what_stands_far_behind_are_found_out() {
    all_are_found_out(&[
        |request, account, method, book, buffer| {
            let request = match is_refused(request, book) {
                true => request,
                false => first_names(request, cut::NAMES),
            };
            Ok(permitted_issuers(request, account, method, book, buffer))
        },
        |request, account, method, book, buffer| {
            let request = match is_refused(request, book) {
                true => request,
                false => names_within(request, cut::REQUEST_OCTETS),
            };
            Ok(permitted_issuers(request, account, method, book, buffer))
        },
        |request, account, method, book, buffer| {
            let book = match is_refused(request, book) {
                true => book,
                false => first_records(book, cut::RECORDS),
            };
            Ok(permitted_issuers(request, account, method, book, buffer))
        },
        |request, account, method, book, buffer| {
            let book = match is_refused(request, book) {
                true => book,
                false => records_within(book, cut::BOOK_OCTETS),
            };
            Ok(permitted_issuers(request, account, method, book, buffer))
        },
        // Keeps the count in one octet.
        |request, account, method, book, buffer| match permitted_issuers(
            request, account, method, book, buffer,
        ) {
            Permitted::List { count, octets } => Ok(Permitted::List {
                count: count % 256,
                octets,
            }),
            other => Ok(other),
        },
        // Keeps the octets in 15 bits.
        |request, account, method, book, buffer| match permitted_issuers(
            request, account, method, book, buffer,
        ) {
            Permitted::List { count, octets } => Ok(Permitted::List {
                count,
                octets: octets % 32_768,
            }),
            other => Ok(other),
        },
    ]);
}

#[test]
fn lists_that_check_account_or_method_wrongly_are_found_out() {
    all_are_found_out(&[
        |request, _, method, book, buffer| {
            Ok(permitted_issuers(request, b"u", method, book, buffer))
        },
        |request, account, _, book, buffer| {
            Ok(permitted_issuers(request, account, b"m", book, buffer))
        },
        |request, account, method, book, buffer| {
            Ok(permitted_issuers(request, method, account, book, buffer))
        },
        // Looks at them before the request.
        |request, account, method, book, buffer| match permitted_issuers(
            b"\x01a\x00",
            account,
            method,
            b"",
            &mut [],
        ) {
            refused @ Permitted::Refused(_) => Ok(refused),
            _ => Ok(permitted_issuers(request, account, method, book, buffer)),
        },
        // Looks at them behind the book.
        |request, account, method, book, buffer| match is_refused(request, book) {
            true => Ok(permitted_issuers(request, b"u", b"m", book, buffer)),
            false => Ok(permitted_issuers(request, account, method, book, buffer)),
        },
        // Looks at them only where there is something to grant.
        |request, account, method, book, buffer| match permitted_issuers(
            request,
            b"u",
            b"m",
            book,
            &mut [],
        ) {
            Permitted::Anyone => Ok(Permitted::Anyone),
            _ => Ok(permitted_issuers(request, account, method, book, buffer)),
        },
        // Takes an empty account, and a comma in a method.
        |request, account, method, book, buffer| {
            let account = if account.is_empty() { b"u" } else { account };
            Ok(permitted_issuers(request, account, method, book, buffer))
        },
        |request, account, method, book, buffer| {
            let method: Vec<u8> = method.iter().copied().filter(|&o| o != b',').collect();
            Ok(permitted_issuers(request, account, &method, book, buffer))
        },
    ]);
}

fn all_are_found_out(wrong_ones: &[PermittedIssuers]) {
    for (number, permitted_issuers) in wrong_ones.iter().enumerate() {
        let other = Other {
            permitted_issuers: Some(*permitted_issuers),
            ..Other::NOTHING
        };
        assert!(is_found_at_random(other), "wrong list {number}");
    }
}

/// Whether the request or the book is, whatever the room.
fn is_refused(request: &[u8], book: &[u8]) -> bool {
    read_request(request).is_err() || read_book(book).is_err()
}
