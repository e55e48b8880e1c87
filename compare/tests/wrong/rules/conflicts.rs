//! What can't stand beside an alias, with room for mistakes.

use compare::book::read_raw_record;
use compare::{read_request, Refusal};

use super::aliases::owner_of;
use super::mistake::Mistake;

#[derive(Clone, Copy, PartialEq)]
enum Kind {
    Caa,
    Alias,
    AliasOfClass3,
    Other,
}

struct Record<'a> {
    owner: &'a [u8],
    kind: Kind,
    data: &'a [u8],
    is_relevant: bool,
}

/// What is refused of a book, where this is what the right reader refuses.
pub fn refused(right: Option<Refusal>, request: &[u8], book: &[u8]) -> Option<Refusal> {
    let mistakes = Mistake::IN_THE_CONFLICTS;
    if !mistakes.iter().any(|mistake| mistake.is_made()) {
        return right;
    }
    let conflict = |records| {
        let record = conflict(request, book, records)?;
        Some(Refusal::AliasConflict { record })
    };
    match right {
        None | Some(Refusal::AliasConflict { .. }) => conflict(usize::MAX),
        Some(
            Refusal::BadRecord { record: records } | Refusal::TooManyRecords { read: records },
        ) if Mistake::ConflictsAreToldInReadingOrder.is_made() => conflict(records).or(right),
        other => other,
    }
}

/// The record that is told, of the first ones of the book.
fn conflict(request: &[u8], book: &[u8], records: usize) -> Option<usize> {
    let records = read(request, book, records);
    let mut pairs: Vec<(usize, usize)> = Vec::new();
    for (later, record) in records.iter().enumerate() {
        for (earlier, before) in records[..later].iter().enumerate() {
            let is_near = later - earlier == 1 || !Mistake::NeighboursAloneConflict.is_made();
            if is_near && conflicts(before, record) {
                pairs.push((later, earlier));
            }
        }
    }
    if Mistake::ConflictOfTheEarliestRecordIsTold.is_made() {
        return pairs
            .iter()
            .map(|&(later, earlier)| (earlier, later))
            .min()
            .map(|(_, later)| later);
    }
    if Mistake::LastConflictIsTold.is_made() {
        return pairs.last().map(|&(later, _)| later);
    }
    let &(later, earlier) = pairs.first()?;
    Some(match Mistake::EarlierRecordIsTold.is_made() {
        true => earlier,
        false => later,
    })
}

fn read<'a>(request: &[u8], book: &'a [u8], at_most: usize) -> Vec<Record<'a>> {
    let names = read_request(request).unwrap_or_default();
    let mut records = Vec::new();
    let mut rest = book;
    while let Some((raw, behind)) = read_raw_record(rest) {
        if records.len() == at_most {
            break;
        }
        let kind = match (raw.rtype, raw.class) {
            (257, 1) => Kind::Caa,
            (5, 1) => Kind::Alias,
            (5, 3) => Kind::AliasOfClass3,
            _ => Kind::Other,
        };
        let mut looked_at = names.iter().flat_map(|name| name.fqdn.ancestors());
        records.push(Record {
            owner: owner_of(rest, &raw),
            kind,
            data: raw.rdata,
            is_relevant: Mistake::ConflictsOfRelevantNamesAloneCount.is_made()
                && looked_at.any(|name| name.is(raw.owner)),
        });
        rest = behind;
    }
    records
}

fn conflicts(earlier: &Record, later: &Record) -> bool {
    let is_same = match Mistake::ConflictsAreFoundByLetterCase.is_made() {
        true => earlier.owner == later.owner,
        false => earlier.owner.eq_ignore_ascii_case(later.owner),
    };
    if !is_same
        || Mistake::ConflictsOfTheRootAreLetPass.is_made() && later.owner == [0]
        || Mistake::ConflictsOfRelevantNamesAloneCount.is_made() && !later.is_relevant
    {
        return false;
    }
    match (earlier.kind, later.kind) {
        _ if Mistake::ConflictsAreLetPass.is_made() => false,
        (Kind::Alias, Kind::Alias) => {
            let are_equal = earlier.data.eq_ignore_ascii_case(later.data);
            !(Mistake::TwoAliasesAreLetPass.is_made()
                || Mistake::EqualAliasesAreLetPass.is_made() && are_equal)
        }
        (Kind::Caa, Kind::Alias) => !Mistake::AliasBehindCaaIsLetPass.is_made(),
        (Kind::Alias, Kind::Caa) => !Mistake::CaaBehindAliasIsLetPass.is_made(),
        (Kind::Caa, Kind::Caa) => Mistake::CaaTwiceIsAConflict.is_made(),
        (Kind::Alias, Kind::Other) | (Kind::Other, Kind::Alias) => {
            Mistake::AliasBesideOtherTypesIsAConflict.is_made()
        }
        (Kind::Alias | Kind::Caa, Kind::AliasOfClass3)
        | (Kind::AliasOfClass3, Kind::Alias | Kind::Caa) => {
            Mistake::AliasOfClass3IsAConflict.is_made()
        }
        _ => false,
    }
}
