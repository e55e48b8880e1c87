//! Runs stored cases against a desk and tells what was answered wrongly.

use std::fmt;

use super::check::{Asker, Check, Expected};
use super::reader::Case;
use super::session::try_steps;
use crate::buffer::MARGIN;
use crate::calls::{told, Desk};
use crate::limits::LINE_OCTETS;
use crate::value::{read_value, IssueValue};

/// How many cases were run, and one line for each that went wrong.
pub struct Report {
    pub cases: usize,
    pub wrong: Vec<String>,
}

impl fmt::Display for Report {
    fn fmt(&self, f: &mut fmt::Formatter<'_>) -> fmt::Result {
        for line in &self.wrong {
            writeln!(f, "wrong: {line}")?;
        }
        write!(
            f,
            "compare: {} cases, {} wrong",
            self.cases,
            self.wrong.len()
        )
    }
}

pub fn run(desk: Desk, cases: &[Case]) -> Report {
    let wrong = cases
        .iter()
        .filter_map(|case| {
            let checks = case.checks.iter().map(|check| try_one(desk, case, check));
            let steps = std::iter::once_with(|| try_steps(&desk.sessions, &case.steps));
            let first = checks.chain(steps).filter_map(Result::err).next()?;
            Some(format!("{}: {first}", case.title))
        })
        .collect();
    Report {
        cases: cases.len(),
        wrong,
    }
}

fn try_one(desk: Desk, case: &Case, check: &Check) -> Result<(), String> {
    match check {
        Check::Judge {
            issuer,
            asker,
            verdict,
        } => {
            let Asker { account, method } = asker;
            let answer = (desk.judge)(&case.request, issuer, account, method, &case.book);
            let what = format!("judge {}{}", issuer.escape_ascii(), of(asker));
            expect(&what, verdict, &told(answer))
        }
        Check::Permitted {
            asker,
            room,
            expected,
        } => {
            let Asker { account, method } = asker;
            let room = room.unwrap_or(case.book.len());
            let what = format!("permitted room {room}{}", of(asker));
            try_with_buffer(&what, room, expected, |buffer| {
                told((desk.permitted_issuers)(
                    &case.request,
                    account,
                    method,
                    &case.book,
                    buffer,
                ))
            })
        }
        Check::Write {
            data,
            room,
            expected,
        } => {
            let room = room.unwrap_or(LINE_OCTETS);
            let what = format!("write room {room} {}", shown(data));
            try_with_buffer(&what, room, expected, |buffer| {
                told((desk.lines.write)(data, buffer))
            })
        }
        Check::Read {
            line,
            room,
            expected,
        } => {
            let room = room.unwrap_or(line.len());
            let what = format!("read room {room} {}", shown(line));
            try_with_buffer(&what, room, expected, |buffer| {
                told((desk.lines.read)(line, buffer))
            })
        }
        Check::Value { octets, reading } => {
            let value = octets.escape_ascii();
            expect(
                &format!("value \"{value}\""),
                reading,
                &in_words(read_value(octets)),
            )
        }
    }
}

/// Tries two fillings of the buffer that agree in no octet: an octet left as it was can't pass for a
/// written one in both.
fn try_with_buffer(
    what: &str,
    room: usize,
    expected: &Expected,
    call: impl Fn(&mut [u8]) -> String,
) -> Result<(), String> {
    let Expected { answer, front } = expected;
    if front.len() > room {
        return Err(format!("{what}: what is expected has no room"));
    }
    for mask in [0x00, 0xFF] {
        let before: Vec<u8> = (0..MARGIN + room + MARGIN)
            .map(|place| place as u8 ^ mask)
            .collect();
        let mut octets = before.clone();
        expect(what, answer, &call(&mut octets[MARGIN..MARGIN + room]))?;
        let mut wanted = before;
        wanted[MARGIN..MARGIN + front.len()].copy_from_slice(front);
        if let Some(place) = (0..wanted.len()).find(|&place| octets[place] != wanted[place]) {
            let (left, wanted) = (octets[place], wanted[place]);
            let place = place as isize - MARGIN as isize;
            return Err(format!(
                "{what}: expected {wanted:02X} at {place} of the buffer, got {left:02X}"
            ));
        }
    }
    Ok(())
}

/// Account and method, where they are not those of every case.
fn of(asker: &Asker) -> String {
    if *asker == Asker::default() {
        return String::new();
    }
    let (account, method) = (shown(&asker.account), shown(&asker.method));
    format!(", account {account}, method {method}")
}

/// The octets, or the front of them where they are many.
fn shown(octets: &[u8]) -> String {
    const FEW: usize = 64;
    match octets.get(..FEW) {
        Some(front) => format!("{} .. ({} octets)", front.escape_ascii(), octets.len()),
        None => octets.escape_ascii().to_string(),
    }
}

fn in_words(value: IssueValue) -> String {
    match value {
        IssueValue::Malformed => "malformed".to_string(),
        IssueValue::NoName => "no name".to_string(),
        IssueValue::Name { name, .. } => format!("name {}", name.escape_ascii()),
    }
}

fn expect(what: &str, expected: &str, answered: &str) -> Result<(), String> {
    if expected == answered {
        Ok(())
    } else {
        Err(format!("{what}: expected {expected}, got {answered}"))
    }
}
