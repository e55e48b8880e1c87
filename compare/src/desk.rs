//! The desk program's work: five files of a folder in, one line out.

use std::fmt;
use std::fs;
use std::path::Path;

use crate::answer::Answer;
use crate::judge::judge;

/// What the desk's line says, without its line end.
#[derive(Clone, Copy, Debug, PartialEq, Eq)]
pub enum DeskLine {
    NoBook,
    Judged(Answer),
}

impl fmt::Display for DeskLine {
    fn fmt(&self, f: &mut fmt::Formatter<'_>) -> fmt::Result {
        match self {
            DeskLine::NoBook => write!(f, "no book"),
            DeskLine::Judged(answer) => answer.fmt(f),
        }
    }
}

/// A book that can't be read whole is no book: a cut one could permit what the whole one forbids. Any
/// other file that can't be read is taken as empty, which is refused.
pub fn judge_folder(folder: &Path) -> DeskLine {
    let read = |file: &str| fs::read(folder.join(file));
    let Ok(book) = read("book.bin") else {
        return DeskLine::NoBook;
    };
    let [request, issuer, account, method] =
        ["request.bin", "issuer.txt", "account.txt", "method.txt"]
            .map(|file| read(file).unwrap_or_default());
    DeskLine::Judged(judge(&request, &issuer, &account, &method, &book))
}
