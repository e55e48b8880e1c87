//! The two calls over the rule with its mistakes. Refusals are left to the right ones.

use compare::applicant::Applicant;
use compare::buffer::put_at_front;
use compare::{Answer, Permitted, Word};

use super::book::taken_as;
use super::conflicts;
use super::mistake::Mistake;
use super::rule::{same_up_to_128_octets, standings, Standing};

pub fn judge(
    request: &[u8],
    issuer: &[u8],
    account: &[u8],
    method: &[u8],
    book: &[u8],
) -> Result<Answer, Word> {
    let book: &[u8] = &taken_as(request, book);
    let right = match compare::judge(request, issuer, account, method, book) {
        Answer::Refused(refusal) => Some(refusal),
        _ => None,
    };
    if let Some(refusal) = conflicts::refused(right, request, book) {
        return Ok(Answer::Refused(refusal));
    }
    let applicant = Applicant { account, method };
    let mut against = Vec::new();
    for (name, standing) in standings(request, applicant, book).into_iter().enumerate() {
        match standing {
            Standing::Forbidden { record, up } => {
                against.push(Answer::UnknownCritical { name, record, up });
            }
            Standing::TooManyAliases { record, up } => {
                against.push(Answer::TooManyAliases { name, record, up });
            }
            Standing::Governed {
                record,
                up,
                grantees,
            } => {
                if !grantees.iter().any(|grantee| is_same(grantee, issuer)) {
                    against.push(Answer::NotGranted { name, record, up });
                }
            }
            Standing::Open => {}
        }
    }
    if Mistake::LastNameIsTold.is_made() {
        against.reverse();
    }
    if Mistake::UnknownCriticalIsToldFirst.is_made() {
        against.sort_by_key(|answer| !matches!(answer, Answer::UnknownCritical { .. }));
    }
    if Mistake::TooManyAliasesAreToldFirst.is_made() {
        against.sort_by_key(|answer| !matches!(answer, Answer::TooManyAliases { .. }));
    }
    Ok(against.first().copied().unwrap_or(Answer::Permitted))
}

fn is_same(grantee: &[u8], issuer: &[u8]) -> bool {
    if Mistake::IssuersAreComparedByTail.is_made() {
        let (grantee, issuer) = (grantee.to_ascii_lowercase(), issuer.to_ascii_lowercase());
        issuer.ends_with(&grantee)
    } else if Mistake::IssuersAreComparedUpTo128Octets.is_made() {
        same_up_to_128_octets(grantee, issuer)
    } else if Mistake::IssuersAreComparedByLetterCase.is_made() {
        grantee == issuer
    } else {
        grantee.eq_ignore_ascii_case(issuer)
    }
}

pub fn permitted_issuers(
    request: &[u8],
    account: &[u8],
    method: &[u8],
    book: &[u8],
    buffer: &mut [u8],
) -> Result<Permitted, Word> {
    let book: &[u8] = &taken_as(request, book);
    let mut enough = vec![0; book.len()];
    let right = match compare::permitted_issuers(request, account, method, book, &mut enough) {
        Permitted::Refused(refusal) => Some(refusal),
        _ => None,
    };
    if let Some(refusal) = conflicts::refused(right, request, book) {
        return Ok(Permitted::Refused(refusal));
    }
    let applicant = Applicant { account, method };
    let Some(listed) = listed(standings(request, applicant, book)) else {
        return Ok(Permitted::Anyone);
    };
    let entries = listed
        .iter()
        .map(|name| [&[name.len() as u8], &name[..]].concat());
    let encoded = entries.collect::<Vec<_>>().concat();
    Ok(match put_at_front(&encoded, buffer) {
        Ok(()) => Permitted::List {
            count: listed.len(),
            octets: encoded.len(),
        },
        Err(refusal) => Permitted::Refused(refusal),
    })
}

/// `None` is anyone.
fn listed(standings: Vec<Standing>) -> Option<Vec<Vec<u8>>> {
    let names = standings.len();
    let mut grants = grants_of_restricted(standings);
    if grants.is_empty() || grants.len() < names && Mistake::OneOpenNameIsAnyone.is_made() {
        return None;
    }
    if Mistake::OrderIsOfTheLastName.is_made() {
        grants.reverse();
    }
    let mut candidates = match Mistake::OneGrantIsEnough.is_made() {
        true => grants.concat(),
        false => grants[0].clone(),
    };
    if !Mistake::OneGrantIsEnough.is_made() && !Mistake::FirstNameDecides.is_made() {
        candidates.retain(|candidate| {
            let is_among = |grantees: &Vec<&[u8]>| {
                let mut grantees = grantees.iter();
                grantees.any(|grantee| grantee.eq_ignore_ascii_case(candidate))
            };
            grants.iter().all(is_among)
        });
    }
    let mut listed = each_once(candidates);
    if Mistake::OrderIsOfTheAlphabet.is_made() {
        listed.sort();
    }
    if listed.is_empty() && Mistake::EmptyIsAnyone.is_made() {
        return None;
    }
    Some(listed)
}

/// The grantees of each restricted name.
fn grants_of_restricted(standings: Vec<Standing<'_>>) -> Vec<Vec<&[u8]>> {
    let mut grants = Vec::new();
    for standing in standings {
        match standing {
            Standing::Open => {}
            Standing::Forbidden { .. }
                if !grants.is_empty() && Mistake::UnknownCriticalBehindIsIgnored.is_made() => {}
            Standing::TooManyAliases { .. }
                if !grants.is_empty() && Mistake::TooManyAliasesBehindAreIgnored.is_made() => {}
            Standing::Forbidden { .. } | Standing::TooManyAliases { .. } => grants.push(Vec::new()),
            Standing::Governed { grantees, .. } => grants.push(grantees),
        }
    }
    grants
}

fn each_once(mut candidates: Vec<&[u8]>) -> Vec<Vec<u8>> {
    if Mistake::OrderIsOfTheLastGrant.is_made() {
        candidates.reverse();
    }
    let mut kept: Vec<&[u8]> = Vec::new();
    for candidate in candidates {
        let is_repeat = if Mistake::RepeatsAreKept.is_made() {
            false
        } else if Mistake::RepeatsAreFoundByLetterCase.is_made() {
            kept.contains(&candidate)
        } else if Mistake::RepeatsAreFoundUpTo128Octets.is_made() {
            kept.iter()
                .any(|name| same_up_to_128_octets(name, candidate))
        } else {
            kept.iter().any(|name| name.eq_ignore_ascii_case(candidate))
        };
        if !is_repeat {
            kept.push(candidate);
        }
    }
    if Mistake::OrderIsOfTheLastGrant.is_made() {
        kept.reverse();
    }
    let written = |name: &&[u8]| match Mistake::LargeLettersAreKept.is_made() {
        true => name.to_vec(),
        false => name.to_ascii_lowercase(),
    };
    kept.iter().map(written).collect()
}
