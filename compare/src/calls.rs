//! The calls that are tried and compared, whoever made them. Another implementation may answer with
//! a word that is no answer.

use std::fmt;

use crate::answer::{Answer, Made, Permitted, Reply};
use crate::judge::judge;
use crate::permitted::permitted_issuers;
use crate::presentation::{read_line, write_line};
use crate::session::Session;
use crate::word::Word;

/// Takes request, issuer name, account, method and book.
pub type Judge = fn(&[u8], &[u8], &[u8], &[u8], &[u8]) -> Result<Answer, Word>;

/// Takes request, account, method, book and buffer.
pub type PermittedIssuers = fn(&[u8], &[u8], &[u8], &[u8], &mut [u8]) -> Result<Permitted, Word>;

/// Takes data or a line, and the buffer for the other.
pub type Convert = fn(&[u8], &mut [u8]) -> Result<Made, Word>;

/// From CAA data to a line and back.
#[derive(Clone, Copy)]
pub struct Lines {
    pub write: Convert,
    pub read: Convert,
}

/// Takes request, issuer name, account and method.
pub type Open = fn(&mut Session, &[u8], &[u8], &[u8], &[u8]) -> Result<Reply, Word>;

/// The calls on a session that its keeper lends.
#[derive(Clone, Copy)]
pub struct Sessions {
    pub open: Open,
    /// Takes a book.
    pub answer: fn(&mut Session, &[u8]) -> Result<Reply, Word>,
    pub fail: fn(&mut Session) -> Result<Reply, Word>,
    pub state: fn(&Session) -> Result<Reply, Word>,
}

/// All calls of one maker.
#[derive(Clone, Copy)]
pub struct Desk {
    pub judge: Judge,
    pub permitted_issuers: PermittedIssuers,
    pub lines: Lines,
    pub sessions: Sessions,
}

impl Desk {
    /// This package's own.
    pub const OWN: Desk = Desk {
        judge: |request, issuer, account, method, book| {
            Ok(judge(request, issuer, account, method, book))
        },
        permitted_issuers: |request, account, method, book, buffer| {
            Ok(permitted_issuers(request, account, method, book, buffer))
        },
        lines: Lines {
            write: |data, buffer| Ok(write_line(data, buffer)),
            read: |line, buffer| Ok(read_line(line, buffer)),
        },
        sessions: Sessions {
            open: |session, request, issuer, account, method| {
                Ok(session.open(request, issuer, account, method))
            },
            answer: |session, book| Ok(session.answer(book)),
            fail: |session| Ok(session.fail()),
            state: |session| Ok(session.state()),
        },
    };
}

/// An answer in words, or the word that is none.
pub fn told(answer: Result<impl fmt::Display, Word>) -> String {
    match answer {
        Ok(answer) => answer.to_string(),
        Err(word) => format!("no answer: {word}"),
    }
}
