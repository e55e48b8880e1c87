//! The rule of issue for one requested name (RFC 8659 sections 3 and 4).

use std::iter::successors;

use crate::applicant::Applicant;
use crate::book::{Property, Record, RecordData};
use crate::issuer::IssuerName;
use crate::limits::ALIASES;
use crate::name::Name;
use crate::request::RequestedName;
use crate::value::read_value;

const ISSUE: &str = "issue";
const ISSUEWILD: &str = "issuewild";
const IODEF: &str = "iodef";
pub const KNOWN_TAGS: [&str; 3] = [ISSUE, ISSUEWILD, IODEF];

/// The records of a book that the rule looks at, under the numbers that they have there. They are read
/// once for all requested names and for one applicant.
#[derive(Debug)]
pub struct Records<'a> {
    caa: Vec<CaaRecord<'a>>,
    aliases: Vec<Alias<'a>>,
}

#[derive(Debug)]
struct Alias<'a> {
    number: usize,
    owner: Name<'a>,
    target: Name<'a>,
}

/// A CAA record as the rule sees it.
#[derive(Debug)]
struct CaaRecord<'a> {
    number: usize,
    owner: Name<'a>,
    says: Says,
}

/// What a CAA record says on issuing. A grant names whom it grants, if anybody: one that grants
/// nobody still governs.
#[derive(Debug)]
enum Says {
    Issue(Option<IssuerName>),
    IssueWild(Option<IssuerName>),
    UnknownCritical,
    Nothing,
}

/// A record that governs: its number, and whom it grants.
type Governing<'a> = (usize, Option<&'a IssuerName>);

impl CaaRecord<'_> {
    fn issue(&self) -> Option<Governing<'_>> {
        match &self.says {
            Says::Issue(grantee) => Some((self.number, grantee.as_ref())),
            _ => None,
        }
    }

    fn issuewild(&self) -> Option<Governing<'_>> {
        match &self.says {
            Says::IssueWild(grantee) => Some((self.number, grantee.as_ref())),
            _ => None,
        }
    }

    fn is_unknown_critical(&self) -> bool {
        matches!(self.says, Says::UnknownCritical)
    }
}

impl<'a> Records<'a> {
    /// The applicant counts only for whom the CAA records grant.
    pub fn of(book: &'a [Record<'a>], applicant: Applicant) -> Records<'a> {
        let mut records = Records {
            caa: Vec::new(),
            aliases: Vec::new(),
        };
        for (number, record) in book.iter().enumerate() {
            let owner = record.owner;
            match &record.data {
                RecordData::Caa(property) => records.caa.push(CaaRecord {
                    number,
                    owner,
                    says: said_by(property, applicant),
                }),
                &RecordData::Alias(target) => records.aliases.push(Alias {
                    number,
                    owner,
                    target,
                }),
                RecordData::Other => {}
            }
        }
        records
    }

    /// No owner has two aliases, since the book was accepted.
    fn alias_of(&self, owner: Name) -> Option<&Alias<'a>> {
        self.aliases.iter().find(|alias| alias.owner.is(owner))
    }

    fn owned_by(&self, owner: Name) -> Vec<&CaaRecord<'a>> {
        let owned = |record: &&CaaRecord| record.owner.is(owner);
        self.caa.iter().filter(owned).collect()
    }
}

fn said_by(property: &Property, applicant: Applicant) -> Says {
    let grantee = || read_value(property.value).grantee(applicant);
    if property.has_tag(ISSUE) {
        Says::Issue(grantee())
    } else if property.has_tag(ISSUEWILD) {
        Says::IssueWild(grantee())
    } else if property.is_critical() && !property.has_tag(IODEF) {
        Says::UnknownCritical
    } else {
        Says::Nothing
    }
}

/// What a look at one name finds. It follows the aliases from that name on, and counts them anew.
enum Found<'r, 'a> {
    /// The CAA records of the name that the aliases lead to, which may be any name, the root too.
    Set(Vec<&'r CaaRecord<'a>>),
    /// There are more aliases than are followed; `first` is the one of the name looked at.
    TooManyAliases { first: usize },
}

impl Found<'_, '_> {
    /// Then the climb goes on from the name looked at, whatever names the aliases led to.
    fn is_nothing(&self) -> bool {
        matches!(self, Found::Set(set) if set.is_empty())
    }
}

/// The aliases from a name on, the first of them owned by it: at most one more than are followed.
fn aliases_from<'r, 'a>(records: &'r Records<'a>, name: Name) -> Vec<&'r Alias<'a>> {
    let first = records.alias_of(name);
    successors(first, |alias| records.alias_of(alias.target))
        .take(ALIASES + 1)
        .collect()
}

fn look<'r, 'a>(records: &'r Records<'a>, name: Name) -> Found<'r, 'a> {
    let aliases = aliases_from(records, name);
    match aliases[..] {
        [] => Found::Set(records.owned_by(name)),
        [first, ..] if aliases.len() > ALIASES => Found::TooManyAliases {
            first: first.number,
        },
        [.., last] => Found::Set(records.owned_by(last.target)),
    }
}

/// Where the climb from X ends, and what it finds there.
struct End<'r, 'a> {
    /// Labels taken off X, 0 where the climb ends at X. A star is no label of X.
    up: usize,
    found: Found<'r, 'a>,
}

/// The climb from a requested name ends at the nearest name where anything is found, or nowhere
/// (RFC 8659 section 3). What the records say plays no part: a set of `iodef` alone ends the climb too.
fn climb<'r, 'a>(records: &'r Records<'a>, name: &RequestedName) -> Option<End<'r, 'a>> {
    let looks = name
        .fqdn
        .ancestors()
        .map(|ancestor| look(records, ancestor));
    let mut ends = looks.enumerate().map(|(up, found)| End { up, found });
    ends.find(|end| !end.found.is_nothing())
}

/// How a requested name stands. In all cases but the first it is restricted, and `up` tells how many
/// labels the climb took off X.
#[derive(Clone, Debug, PartialEq, Eq)]
pub enum Standing<'a> {
    Unrestricted,
    /// Granted to nobody; `record` is the first unknown critical one.
    UnknownCritical {
        record: usize,
        up: usize,
    },
    /// Granted to nobody; `record` is the first alias of the look that met too many.
    TooManyAliases {
        record: usize,
        up: usize,
    },
    /// Granted to `grantees`, in the order of the records, repeats included; `first_governing` is
    /// the first record that governs, whether or not it grants anybody.
    Governed {
        first_governing: usize,
        up: usize,
        grantees: Vec<&'a IssuerName>,
    },
}

/// The values of the records that govern, in their order. With an unknown critical record, or too many
/// aliases, none does.
pub fn governing_values<'a>(book: &'a [Record<'a>], name: &RequestedName) -> Vec<&'a [u8]> {
    let records = Records::of(book, Applicant::SOMEONE);
    let Some(Found::Set(relevant)) = climb(&records, name).map(|end| end.found) else {
        return Vec::new();
    };
    if relevant.iter().any(|record| record.is_unknown_critical()) {
        return Vec::new();
    }
    let governing = governing_records(&relevant, name.wildcard);
    let value = |(number, _): Governing| match &book[number].data {
        RecordData::Caa(property) => Some(property.value),
        RecordData::Alias(_) | RecordData::Other => None,
    };
    governing.into_iter().filter_map(value).collect()
}

/// How many labels the climb takes off X to reach the name where it ends, 0 where that is X; `None`
/// where it finds nothing.
pub fn labels_taken_off(records: &Records, name: &RequestedName) -> Option<usize> {
    climb(records, name).map(|end| end.up)
}

/// One look of a climb, as far as its aliases go.
pub struct Chain<'a> {
    /// The name looked at.
    pub from: Name<'a>,
    /// The targets of the aliases that are followed, in their order.
    pub targets: Vec<Name<'a>>,
    pub too_many: bool,
    /// Whether the final target, or the name itself, has CAA records.
    pub finds_set: bool,
}

/// The looks of the climb from a requested name, up to the one where it ends.
pub fn chains<'a>(records: &Records<'a>, name: &RequestedName<'a>) -> Vec<Chain<'a>> {
    let mut chains = Vec::new();
    for from in name.fqdn.ancestors() {
        let aliases = aliases_from(records, from);
        let found = look(records, from);
        let too_many = matches!(found, Found::TooManyAliases { .. });
        let finds_set = !too_many && !found.is_nothing();
        let targets = aliases.iter().take(ALIASES).map(|alias| alias.target);
        chains.push(Chain {
            from,
            targets: targets.collect(),
            too_many,
            finds_set,
        });
        if !found.is_nothing() {
            break;
        }
    }
    chains
}

pub fn standing<'a>(records: &'a Records, name: &RequestedName) -> Standing<'a> {
    match climb(records, name) {
        Some(end) => standing_by(end, name.wildcard),
        None => Standing::Unrestricted,
    }
}

/// How a requested name stands by one look, at the name above X with `up` labels taken off; `None`
/// where nothing is found there. Other names above X are not looked at.
pub fn standing_at<'a>(
    records: &'a Records,
    name: &RequestedName,
    up: usize,
) -> Option<Standing<'a>> {
    let found = look(records, name.fqdn.ancestors().nth(up)?);
    let end = (!found.is_nothing()).then_some(End { up, found })?;
    Some(standing_by(end, name.wildcard))
}

fn standing_by<'r>(end: End<'r, '_>, wildcard: bool) -> Standing<'r> {
    let End { up, found } = end;
    let relevant = match found {
        Found::Set(relevant) => relevant,
        Found::TooManyAliases { first } => return Standing::TooManyAliases { record: first, up },
    };
    if let Some(record) = relevant.iter().find(|record| record.is_unknown_critical()) {
        return Standing::UnknownCritical {
            record: record.number,
            up,
        };
    }
    let governing = governing_records(&relevant, wildcard);
    match governing.first() {
        None => Standing::Unrestricted,
        Some(&(first_governing, _)) => Standing::Governed {
            first_governing,
            up,
            grantees: governing
                .iter()
                .filter_map(|(_, grantee)| *grantee)
                .collect(),
        },
    }
}

/// Once there is an `issuewild`, no `issue` counts for a wildcard (RFC 8659 section 4.3).
fn governing_records<'a>(relevant: &[&'a CaaRecord], wildcard: bool) -> Vec<Governing<'a>> {
    let issuewild: Vec<_> = relevant.iter().filter_map(|r| r.issuewild()).collect();
    if wildcard && !issuewild.is_empty() {
        issuewild
    } else {
        relevant.iter().filter_map(|r| r.issue()).collect()
    }
}
