//! Who may issue?

use std::fmt;
use std::iter::FusedIterator;
use std::str;

use crate::foreign;
use crate::word::Word;
use crate::Refusal;

/// The answer of [`permitted_issuers`].
#[derive(Clone, Copy, Debug, PartialEq, Eq, Hash)]
#[must_use]
pub enum PermittedIssuers<'a> {
    /// 30: no requested name is restricted. Nothing was written.
    Anyone,
    /// 31: the listed issuers and nobody else. An empty list means nobody.
    List(IssuerList<'a>),
    /// Nothing was decided, and nothing written.
    Refused(Refusal),
}

/// Displayed as `anyone`, `list of 2 in 32 octets`, or as the refusal is.
impl fmt::Display for PermittedIssuers<'_> {
    fn fmt(&self, f: &mut fmt::Formatter<'_>) -> fmt::Result {
        match self {
            PermittedIssuers::Anyone => write!(f, "anyone"),
            PermittedIssuers::List(list) => {
                write!(
                    f,
                    "list of {} in {} octets",
                    list.len(),
                    list.octets().len()
                )
            }
            PermittedIssuers::Refused(refusal) => refusal.fmt(f),
        }
    }
}

/// Who may issue for every name of `request`, for this account and by this validation method, by the
/// records of `book`?
///
/// A list is written to the start of `buffer`. The rest of the buffer is not changed; without a list
/// none of it is. A buffer as long as the book is always enough. [`judge`](crate::judge()) says what the
/// inputs hold.
pub fn permitted_issuers<'a>(
    request: &[u8],
    account: &[u8],
    method: &[u8],
    book: &[u8],
    buffer: &'a mut [u8],
) -> PermittedIssuers<'a> {
    let word = foreign::permitted_issuers(request, account, method, book, buffer);
    let word = Word::unpacked(word);
    match word.number {
        30 => PermittedIssuers::Anyone,
        31 => match IssuerList::at_front(buffer, word.a, word.b) {
            Some(list) => PermittedIssuers::List(list),
            None => PermittedIssuers::Refused(word.refusal()),
        },
        _ => PermittedIssuers::Refused(word.refusal()),
    }
}

/// The permitted issuer domain names in lower case, each once, as they stand in the buffer.
#[derive(Clone, Copy, Debug, PartialEq, Eq, Hash)]
pub struct IssuerList<'a> {
    octets: &'a [u8],
    count: usize,
}

impl<'a> IssuerList<'a> {
    /// `None` if the buffer doesn't start with a list of that many names, so that iterating can't fail.
    fn at_front(buffer: &'a [u8], octets: usize, count: usize) -> Option<IssuerList<'a>> {
        let octets = buffer.get(..octets)?;
        let mut rest = octets;
        for _ in 0..count {
            (_, rest) = first_entry(rest)?;
        }
        rest.is_empty().then_some(IssuerList { octets, count })
    }

    /// How many names are listed.
    pub fn len(&self) -> usize {
        self.count
    }

    /// May nobody issue?
    pub fn is_empty(&self) -> bool {
        self.count == 0
    }

    /// The list as it stands in the buffer: a length octet and the name, for each name.
    pub fn octets(&self) -> &'a [u8] {
        self.octets
    }

    /// The names, in the list's order.
    pub fn iter(&self) -> Issuers<'a> {
        Issuers {
            rest: self.octets,
            left: self.count,
        }
    }
}

impl<'a> IntoIterator for IssuerList<'a> {
    type Item = &'a str;
    type IntoIter = Issuers<'a>;

    fn into_iter(self) -> Issuers<'a> {
        self.iter()
    }
}

impl<'a> IntoIterator for &IssuerList<'a> {
    type Item = &'a str;
    type IntoIter = Issuers<'a>;

    fn into_iter(self) -> Issuers<'a> {
        self.iter()
    }
}

/// The names of an [`IssuerList`].
#[derive(Clone, Debug)]
pub struct Issuers<'a> {
    rest: &'a [u8],
    left: usize,
}

impl<'a> Iterator for Issuers<'a> {
    type Item = &'a str;

    fn next(&mut self) -> Option<&'a str> {
        let (name, rest) = first_entry(self.rest)?;
        self.rest = rest;
        self.left -= 1;
        Some(name)
    }

    fn size_hint(&self) -> (usize, Option<usize>) {
        (self.left, Some(self.left))
    }
}

impl ExactSizeIterator for Issuers<'_> {}

impl FusedIterator for Issuers<'_> {}

/// The first name of a list, and the rest of the list.
fn first_entry(list: &[u8]) -> Option<(&str, &[u8])> {
    let (&length, rest) = list.split_first()?;
    let length = usize::from(length);
    let name = str::from_utf8(rest.get(..length)?).ok()?;
    Some((name, &rest[length..]))
}

#[cfg(test)]
mod tests {
    use super::*;

    #[test]
    fn names_in_order_and_how_many_are_left() {
        let list = IssuerList::at_front(b"\x01x\x03y.z\xFF", 6, 2).unwrap();
        let mut names = list.iter();
        assert_eq!((names.len(), names.next()), (2, Some("x")));
        assert_eq!((names.len(), names.next()), (1, Some("y.z")));
        assert_eq!((names.len(), names.next()), (0, None));
        assert_eq!(names.next(), None);
        assert_eq!(list.octets(), b"\x01x\x03y.z");
    }

    #[test]
    fn the_empty_list() {
        let list = IssuerList::at_front(b"\x01x", 0, 0).unwrap();
        assert!(list.is_empty());
        assert_eq!(list.into_iter().next(), None);
    }

    #[test]
    fn what_is_no_list_is_none() {
        for (buffer, octets, count) in [
            (&b"\x01x"[..], 3, 1), // past the buffer
            (b"\x01x\x01y", 4, 1), // more than one
            (b"\x01x\x01y", 2, 2), // fewer than two
            (b"\x02x", 2, 1),      // an entry past the list
            (b"\x01\xE9", 2, 1),   // no text
        ] {
            assert_eq!(IssuerList::at_front(buffer, octets, count), None);
        }
    }
}
