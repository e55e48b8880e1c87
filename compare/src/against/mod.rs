//! Another implementation's answers against ours, on the stored cases and on random ones.

mod aliases;
mod buffer;
mod heights;
mod judge;
mod limits;
mod lines;
mod list;
mod log;
mod parameters;
mod readers;
mod session;
mod up;

use std::fmt;

use crate::calls::{Desk, Judge, Lines, PermittedIssuers, Sessions};
use crate::cases::{self, Case, Report};
use crate::generate::{Generator, Inputs};
use crate::readers::Readers;
use judge::JudgeComparison;
use lines::LinesComparison;
use list::ListComparison;
use log::{Differences, Tally};
use readers::ReadersComparison;
use session::SessionComparison;

/// A run of so many cases or more is worth something only if each kind of answer comes
/// `WANTED_TIMES`.
pub const LONG_RUN: usize = 20_000;
const WANTED_TIMES: usize = 100;

/// Comparing stops at that many differences.
const ENOUGH: usize = 5;

/// What there is of the other implementation.
#[derive(Clone, Copy)]
pub struct Other {
    pub readers: Option<Readers>,
    pub judge: Option<Judge>,
    pub permitted_issuers: Option<PermittedIssuers>,
    pub lines: Option<Lines>,
    pub sessions: Option<Sessions>,
}

impl Other {
    pub const NOTHING: Other = Other {
        readers: None,
        judge: None,
        permitted_issuers: None,
        lines: None,
        sessions: None,
    };

    /// This package's own.
    pub const OWN: Other = Other {
        readers: Some(Readers::OWN),
        judge: Some(Desk::OWN.judge),
        permitted_issuers: Some(Desk::OWN.permitted_issuers),
        lines: Some(Desk::OWN.lines),
        sessions: Some(Desk::OWN.sessions),
    };

    pub fn is_nothing(&self) -> bool {
        self.readers.is_none() && !self.has_calls()
    }

    /// Whether there is more than readers.
    pub fn has_calls(&self) -> bool {
        self.judge.is_some()
            || self.permitted_issuers.is_some()
            || self.lines.is_some()
            || self.sessions.is_some()
    }

    /// Its calls, with ours for those it has not; `None` without any.
    fn desk(&self) -> Option<Desk> {
        let Other {
            judge,
            permitted_issuers,
            lines,
            sessions,
            ..
        } = *self;
        self.has_calls().then(|| Desk {
            judge: judge.unwrap_or(Desk::OWN.judge),
            permitted_issuers: permitted_issuers.unwrap_or(Desk::OWN.permitted_issuers),
            lines: lines.unwrap_or(Desk::OWN.lines),
            sessions: sessions.unwrap_or(Desk::OWN.sessions),
        })
    }
}

/// What came of comparing.
pub struct Comparison {
    /// Its calls' answers to the stored cases, against those worked out by hand.
    pub stored: Option<Report>,
    /// Random cases, up to the one that brought too many differences.
    pub cases: usize,
    pub differences: Vec<String>,
    /// What came too seldom for a long run.
    pub too_rare: Vec<String>,
    remarks: Vec<String>,
    tallies: Vec<Tally>,
}

impl Comparison {
    pub fn is_good(&self) -> bool {
        self.wrong_stored().is_empty() && self.differences.is_empty() && self.too_rare.is_empty()
    }

    /// One line for each stored case that went wrong.
    pub fn wrong_stored(&self) -> &[String] {
        self.stored.as_ref().map_or(&[], |report| &report.wrong)
    }
}

impl fmt::Display for Comparison {
    fn fmt(&self, f: &mut fmt::Formatter<'_>) -> fmt::Result {
        for line in &self.remarks {
            writeln!(f, "{line}")?;
        }
        for tally in &self.tallies {
            writeln!(f, "{tally}")?;
        }
        for line in self.differences.iter().chain(&self.too_rare) {
            writeln!(f, "{line}")?;
        }
        if let Some(report) = &self.stored {
            for line in &report.wrong {
                writeln!(f, "wrong: {line}")?;
            }
            let (cases, wrong) = (report.cases, report.wrong.len());
            writeln!(f, "stored: {cases} cases, {wrong} wrong")?;
        }
        let (cases, differ) = (self.cases, self.differences.len());
        write!(f, "compare: {cases} cases, {differ} differ")
    }
}

/// A part of the other implementation, compared by itself. Each has a generator of its own where it
/// needs one, so that its cases don't depend on the other parts.
trait Part {
    /// All short inputs of some kinds, for parts that take short ones.
    fn short_ones(&mut self, _: &mut Differences) {}

    fn stored(&mut self, case: &Case, differences: &mut Differences);

    fn random(&mut self, inputs: &Inputs, differences: &mut Differences);

    /// What was found out about the part, apart from its answers.
    fn remark(&self) -> Option<String> {
        None
    }

    fn into_tallies(self: Box<Self>) -> Vec<Tally>;
}

/// Compares all that the other has: on short inputs, on the stored cases, and on so many random
/// ones. Stops at some differences.
pub fn compare(other: &Other, stored: &[Case], cases: usize, seed: u64) -> Comparison {
    compare_up_to(ENOUGH, other, stored, cases, seed)
}

/// Whether random cases alone find a difference, and stops there.
pub fn differs_at_random(other: &Other, cases: usize, seed: u64) -> bool {
    !compare_up_to(1, other, &[], cases, seed)
        .differences
        .is_empty()
}

fn compare_up_to(
    enough: usize,
    other: &Other,
    stored: &[Case],
    cases: usize,
    seed: u64,
) -> Comparison {
    let mut parts = parts(other, seed);
    let mut differences = Differences::up_to(enough);
    for part in &mut parts {
        part.short_ones(&mut differences);
        for case in stored {
            part.stored(case, &mut differences);
        }
    }
    let mut generator = Generator::new(seed);
    let mut done = 0;
    while done < cases && !differences.are_enough() {
        let inputs = generator.inputs();
        for part in &mut parts {
            part.random(&inputs, &mut differences);
        }
        done += 1;
    }

    let remarks = parts.iter().filter_map(|part| part.remark()).collect();
    let tallies: Vec<Tally> = parts.into_iter().flat_map(|p| p.into_tallies()).collect();
    let wanted = if done < LONG_RUN { 0 } else { WANTED_TIMES };
    let too_rare = tallies.iter().flat_map(|t| t.rarer_than(wanted)).collect();
    Comparison {
        stored: other.desk().map(|desk| cases::run(desk, stored)),
        cases: done,
        differences: differences.told,
        too_rare,
        remarks,
        tallies,
    }
}

fn parts(other: &Other, seed: u64) -> Vec<Box<dyn Part>> {
    let mut parts: Vec<Box<dyn Part>> = Vec::new();
    if let Some(readers) = other.readers {
        parts.push(Box::new(ReadersComparison::new(readers, seed)));
    }
    if let Some(judge) = other.judge {
        parts.push(Box::new(JudgeComparison::new(judge)));
    }
    if let Some(list) = other.permitted_issuers {
        parts.push(Box::new(ListComparison::new(list, seed)));
    }
    if let Some(lines) = other.lines {
        parts.push(Box::new(LinesComparison::new(lines, seed)));
    }
    if let Some(sessions) = other.sessions {
        parts.push(Box::new(SessionComparison::new(sessions, seed)));
    }
    parts
}
