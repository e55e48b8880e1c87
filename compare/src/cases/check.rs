//! What a case asks: directives that end in `=>` and an answer.

use super::notation::{hex, number, quoted, text, word};
use crate::answer::{Made, Permitted};

/// The account text and the method text that judging and listing are asked with.
#[derive(Clone, PartialEq, Eq)]
pub struct Asker {
    pub account: Vec<u8>,
    pub method: Vec<u8>,
}

/// Good ones, for the cases that say nothing of them.
impl Default for Asker {
    fn default() -> Asker {
        Asker {
            account: b"https://ca1.example.net/acct/230123".to_vec(),
            method: b"dns-01".to_vec(),
        }
    }
}

pub(super) enum Check {
    /// What judging has to give for this issuer name.
    Judge {
        issuer: Vec<u8>,
        asker: Asker,
        verdict: String,
    },
    /// Who may issue, with a buffer of `room` octets, or as long as the book.
    Permitted {
        asker: Asker,
        room: Option<usize>,
        expected: Expected,
    },
    /// CAA data as a line, with a buffer of `room` octets, or long enough for any line.
    Write {
        data: Vec<u8>,
        room: Option<usize>,
        expected: Expected,
    },
    /// A line as CAA data, with a buffer of `room` octets, or as long as the line.
    Read {
        line: Vec<u8>,
        room: Option<usize>,
        expected: Expected,
    },
    /// How a property value reads.
    Value { octets: Vec<u8>, reading: String },
}

/// What a call has to answer, in words, and to put at the front of the buffer.
pub(super) struct Expected {
    pub answer: String,
    pub front: Vec<u8>,
}

impl Check {
    /// `None` when the directive is none that asks.
    pub fn read(directive: &str, rest: &str, asker: &Asker) -> Option<Result<Check, String>> {
        let read: fn(&str, &str, Asker) -> Result<Check, String> = match directive {
            "judge" => judge,
            "permitted" => permitted,
            "write" => |given, expected, _| write(given, expected),
            "read" => |given, expected, _| read_line(given, expected),
            "value" => |given, expected, _| value(given, expected),
            _ => return None,
        };
        Some(match rest.rsplit_once("=>") {
            Some((given, expected)) => read(given.trim(), expected.trim(), asker.clone()),
            None => Err("no `=>`".to_string()),
        })
    }
}

fn judge(given: &str, expected: &str, asker: Asker) -> Result<Check, String> {
    Ok(Check::Judge {
        issuer: text(given)?,
        asker,
        verdict: expected.to_string(),
    })
}

fn permitted(given: &str, expected: &str, asker: Asker) -> Result<Check, String> {
    let (room, rest) = room(given)?;
    if !rest.is_empty() {
        return Err(format!("`{given}` is no room"));
    }
    let expected = match word(expected) {
        ("list", names) => {
            let names = names
                .split_whitespace()
                .map(text)
                .collect::<Result<Vec<_>, _>>()?;
            let mut octets = Vec::new();
            for name in &names {
                octets.push(u8::try_from(name.len()).map_err(|_| "a name over 255 octets")?);
                octets.extend(name);
            }
            list(names.len(), octets)
        }
        ("list-hex", rest) => {
            let (count, rest) = word(rest);
            let (length, rest) = word(rest);
            let octets = hex(rest)?;
            if octets.len() != number(length)? {
                return Err(format!("{} octets are given", octets.len()));
            }
            list(number(count)?, octets)
        }
        _ => nothing(expected),
    };
    Ok(Check::Permitted {
        asker,
        room,
        expected,
    })
}

fn write(given: &str, expected: &str) -> Result<Check, String> {
    let (room, data) = room(given)?;
    Ok(Check::Write {
        data: text(data)?,
        room,
        expected: made("line", expected)?,
    })
}

fn read_line(given: &str, expected: &str) -> Result<Check, String> {
    let (room, line) = room(given)?;
    Ok(Check::Read {
        line: text(line)?,
        room,
        expected: made("data", expected)?,
    })
}

fn value(given: &str, expected: &str) -> Result<Check, String> {
    Ok(Check::Value {
        octets: quoted(given)?,
        reading: expected.to_string(),
    })
}

/// A `room N` at the front, and what stands behind it.
fn room(given: &str) -> Result<(Option<usize>, &str), String> {
    match word(given) {
        ("room", rest) => {
            let (octets, rest) = word(rest);
            Ok((Some(number(octets)?), rest))
        }
        _ => Ok((None, given)),
    }
}

fn list(count: usize, front: Vec<u8>) -> Expected {
    let answer = Permitted::List {
        count,
        octets: front.len(),
    };
    Expected {
        answer: answer.to_string(),
        front,
    }
}

/// What was made, behind the word for it; else a refusal.
fn made(what: &str, expected: &str) -> Result<Expected, String> {
    let (first, rest) = word(expected);
    if first != what {
        return Ok(nothing(expected));
    }
    let front = text(rest)?;
    Ok(Expected {
        answer: Made::Octets(front.len()).to_string(),
        front,
    })
}

/// An answer that leaves the whole buffer as it was.
fn nothing(answer: &str) -> Expected {
    Expected {
        answer: answer.to_string(),
        front: Vec::new(),
    }
}
