//! Inputs for judging and listing: mostly good ones, and some that are damaged or beyond a limit, so
//! that every answer comes.

use super::names::{name_of_octets, OPEN_NAME};
use super::Generator;
use crate::limits::{LABEL_OCTETS, NAME_OCTETS, REQUEST_NAMES, REQUEST_OCTETS};

/// Inputs for both calls.
#[derive(Clone, Debug)]
pub struct Inputs {
    pub request: Vec<u8>,
    pub issuer: Vec<u8>,
    pub account: Vec<u8>,
    pub method: Vec<u8>,
    pub book: Vec<u8>,
    pub buffer: Vec<u8>,
}

impl Generator {
    /// Inputs of any kind: mostly good, else damaged, too long or too many.
    pub fn inputs(&mut self) -> Inputs {
        let (mut account, mut method) = (self.any_account(), self.any_method());
        let (request, book, issuer) = match self.below(30) {
            0..=3 => {
                let (request, book) = self.deep_request_and_book();
                (request, book, self.any_issuer())
            }
            // Issuer names around their limits on both sides, so that they meet.
            4 => (
                self.request(),
                self.book_of_long_issuers(),
                self.issuer_around_limit(),
            ),
            // The same for accounts and methods.
            5 => {
                (account, method) = (self.text_around_limit(), self.text_around_limit());
                let issuer = self.issuer();
                (self.request(), self.book_of_long_limits(&issuer), issuer)
            }
            // Limits that are met by issuer, account and method, or nearly.
            6..=9 => {
                let issuer = self.issuer();
                let book = self.book_of_limits(&issuer, &account, &method);
                (self.request(), book, issuer)
            }
            10..=13 => {
                let (request, book) = self.request_and_book_of_aliases();
                (request, book, self.any_issuer())
            }
            14 | 15 => {
                let (request, book) = self.request_and_book_of_heights();
                (request, book, self.issuer())
            }
            _ => (self.any_request(), self.any_book(), self.any_issuer()),
        };
        let room = if self.once_in(4) {
            self.below(12)
        } else {
            book.len()
        };
        Inputs {
            request,
            issuer,
            account,
            method,
            book,
            buffer: self.buffer(room),
        }
    }

    fn any_request(&mut self) -> Vec<u8> {
        match self.below(32) {
            0..=2 => self.long_request(),
            3..=5 => self.many_names(),
            6..=8 => {
                let request = self.request();
                self.damaged(request)
            }
            9 => [self.request(), self.name_around_limit()].concat(),
            _ => self.request(),
        }
    }

    fn any_book(&mut self) -> Vec<u8> {
        match self.below(32) {
            0..=2 => self.long_book(),
            3..=5 => self.many_records(),
            6..=8 => {
                let book = self.book();
                self.damaged(book)
            }
            9 => {
                let owner = self.name_around_limit();
                let rdata = self.caa_data();
                [self.book(), self.record_of(owner, 257, 1, &rdata)].concat()
            }
            10..=13 => self.crowded_book(),
            14 => self.book_of_long_list(),
            15 | 16 => self.book_with_wrong_tag(),
            _ => self.book(),
        }
    }

    pub(super) fn any_issuer(&mut self) -> Vec<u8> {
        match self.below(16) {
            0 => {
                let issuer = self.issuer();
                self.damaged(issuer)
            }
            1 => self.issuer_around_limit(),
            _ => self.issuer(),
        }
    }

    /// A good request of 1 to 4 names.
    pub fn request(&mut self) -> Vec<u8> {
        let names = 1 + self.near_front(&[0, 1, 2, 3]);
        (0..names).flat_map(|_| self.requested_name()).collect()
    }

    /// Good names end to end, around the limit of a request's octets. Those that are mostly
    /// restricted stand last.
    fn long_request(&mut self) -> Vec<u8> {
        let last = self.request();
        let length = REQUEST_OCTETS - 1 + self.below(4) - last.len();
        let mut octets = Vec::new();
        // What is left for the last of these names is then 61 to 255 octets.
        while length - octets.len() > NAME_OCTETS {
            octets.extend(name_of_octets(195, LABEL_OCTETS));
        }
        octets.extend(name_of_octets(length - octets.len(), LABEL_OCTETS));
        [octets, last].concat()
    }

    /// Good names end to end, around the limit of their number. Half of the time only the last few
    /// can be restricted, so that the answer comes from them.
    fn many_names(&mut self) -> Vec<u8> {
        let names = REQUEST_NAMES - 1 + self.below(3);
        let open = match self.once_in(2) {
            true => names - 1 - self.below(4),
            false => 0,
        };
        let mut octets = OPEN_NAME.repeat(open);
        octets.extend((open..names).flat_map(|_| self.requested_name()));
        octets
    }
}

#[cfg(test)]
mod tests {
    use super::*;

    #[test]
    fn requests_and_books_are_good() {
        let mut generator = Generator::new(1);
        for _ in 0..1_000 {
            assert!(crate::read_request(&generator.request()).is_ok());
            assert!(crate::read_book(&generator.book()).is_ok());
            assert!(crate::read_issuer(&generator.issuer()).is_ok());
            let (account, method) = (generator.account(), generator.method());
            assert!(crate::read_applicant(&account, &method).is_ok());
            let book = generator.book_of_limits(b"x", &account, &method);
            assert!(crate::read_book(&book).is_ok());
            assert!(crate::read_book(&generator.book_of_long_limits(b"x")).is_ok());
        }
    }
}
