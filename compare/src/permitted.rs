//! Who may sign this request, asked for by this account and validated by this method?

use std::collections::HashSet;

use crate::answer::{Permitted, Refusal};
use crate::applicant::read_applicant;
use crate::book::read_book;
use crate::buffer::put_at_front;
use crate::issuer::IssuerName;
use crate::request::read_request;
use crate::rule::{standing, Records, Standing};

/// Writes the permitted issuer names to the front of `buffer`, each as a length octet and the name
/// in lower case. Nothing else of the buffer changes; on a refusal and on "anyone" nothing does.
pub fn permitted_issuers(
    request: &[u8],
    account: &[u8],
    method: &[u8],
    book: &[u8],
    buffer: &mut [u8],
) -> Permitted {
    list(request, account, method, book, buffer).unwrap_or_else(Permitted::Refused)
}

/// No issuer name is given; account and method are checked where it would be.
fn list(
    request: &[u8],
    account: &[u8],
    method: &[u8],
    book: &[u8],
    buffer: &mut [u8],
) -> Result<Permitted, Refusal> {
    let names = read_request(request)?;
    let applicant = read_applicant(account, method)?;
    let book = read_book(book)?;
    let records = Records::of(&book, applicant);
    let mut restricted = names
        .iter()
        .map(|name| standing(&records, name))
        .filter(|standing| *standing != Standing::Unrestricted);
    let Some(lowest) = restricted.next() else {
        return Ok(Permitted::Anyone);
    };
    let issuers = granted_by_all(lowest, restricted);
    let encoded: Vec<u8> = issuers.iter().flat_map(list_entry).collect();
    put_at_front(&encoded, buffer)?;
    Ok(Permitted::List {
        count: issuers.len(),
        octets: encoded.len(),
    })
}

/// The grantees of the lowest restricted name that the others grant too, each once, in the order of
/// the first record that grants it.
fn granted_by_all<'a>(
    lowest: Standing<'a>,
    others: impl Iterator<Item = Standing<'a>>,
) -> Vec<&'a IssuerName> {
    let mut seen = HashSet::new();
    let mut issuers = grantees(lowest);
    issuers.retain(|issuer| seen.insert(*issuer));
    for other in others {
        let granted: HashSet<&IssuerName> = grantees(other).into_iter().collect();
        issuers.retain(|issuer| granted.contains(issuer));
    }
    issuers
}

fn grantees(restricted: Standing<'_>) -> Vec<&IssuerName> {
    match restricted {
        Standing::Governed { grantees, .. } => grantees,
        Standing::Unrestricted
        | Standing::UnknownCritical { .. }
        | Standing::TooManyAliases { .. } => Vec::new(),
    }
}

/// An issuer name is at most 253 octets, so its length always fits one octet.
fn list_entry<'a>(issuer: &&'a IssuerName) -> impl Iterator<Item = u8> + 'a {
    let name = issuer.octets();
    std::iter::once(name.len() as u8).chain(name.iter().copied())
}

#[cfg(test)]
mod tests {
    use super::*;

    /// A book with an `issue` record of the owner `a` for each name, and the list that it gives.
    fn book_and_list(issuers: impl Iterator<Item = String>) -> (Vec<u8>, Vec<u8>) {
        let mut book = Vec::new();
        let mut list = Vec::new();
        for issuer in issuers {
            book.extend(b"\x01a\x00\x01\x01\x00\x01\x00\x00\x00\x00");
            book.extend((7 + issuer.len() as u16).to_be_bytes());
            book.extend(b"\x00\x05issue");
            book.extend(issuer.as_bytes());
            list.push(issuer.len() as u8);
            list.extend(issuer.as_bytes());
        }
        (book, list)
    }

    /// No stored case has as many names as a book has records.
    #[test]
    fn a_list_of_1_024_names() {
        let (book, list) = book_and_list((0..1_024).map(|number| format!("ca{number:04}")));
        let mut buffer = vec![0xFF; 1_024 * 7];
        assert_eq!(
            permitted_issuers(b"\x01a\x00", b"a", b"m", &book, &mut buffer),
            Permitted::List {
                count: 1_024,
                octets: 7_168
            }
        );
        assert_eq!(buffer, list);
    }

    /// No list is longer: a name of 253 octets takes 273 of the book, and 180 such have room there.
    #[test]
    fn a_list_of_180_names_of_253_octets() {
        let label = "a".repeat(63);
        let issuers = (0..180).map(|number| format!("{label}.{label}.{label}.{number:061}"));
        let (book, list) = book_and_list(issuers);
        assert_eq!(book.len(), 49_140);
        let mut buffer = vec![0xFF; 45_719];
        assert_eq!(
            permitted_issuers(b"\x01a\x00", b"a", b"m", &book, &mut buffer),
            Permitted::Refused(Refusal::BufferTooShort { needed: 45_720 })
        );
        assert_eq!(buffer, [0xFF; 45_719]);
        buffer.push(0xFF);
        assert_eq!(
            permitted_issuers(b"\x01a\x00", b"a", b"m", &book, &mut buffer),
            Permitted::List {
                count: 180,
                octets: 45_720
            }
        );
        assert_eq!(buffer, list);
    }
}
