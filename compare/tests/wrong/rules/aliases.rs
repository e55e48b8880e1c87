//! Aliases once more, with room for mistakes in following them. Names are in wire form.

use compare::book::{read_raw_record, read_target, RawRecord};

use super::mistake::Mistake;
use super::rule::same_up_to_128_octets;

#[derive(Clone, Copy)]
pub struct Alias<'a> {
    pub number: usize,
    pub owner: &'a [u8],
    pub target: &'a [u8],
}

/// Where a look at a name gets to.
pub enum Led<'a> {
    /// To the name whose CAA records are the set.
    To(&'a [u8]),
    /// To nothing: the climb goes on.
    Nowhere,
    /// To nothing, and the name is not restricted.
    ToOpen,
    /// To too many aliases, of which this record is told.
    TooFar(usize),
}

pub fn aliases(book: &[u8]) -> Vec<Alias<'_>> {
    let mut aliases = Vec::new();
    let mut rest = book;
    for number in 0.. {
        let Some((raw, behind)) = read_raw_record(rest) else {
            break;
        };
        if counts(&raw) && read_target(raw.rdata).is_some() {
            aliases.push(Alias {
                number,
                owner: owner_of(rest, &raw),
                target: raw.rdata,
            });
        }
        rest = behind;
    }
    aliases
}

fn counts(raw: &RawRecord) -> bool {
    raw.is_alias()
        || Mistake::AliasesOfAnyClassCount.is_made() && raw.rtype == 5
        || Mistake::DnamesCount.is_made() && raw.rtype == 39 && raw.class == 1
}

/// The owner of the record at the front of these octets.
pub fn owner_of<'a>(octets: &'a [u8], raw: &RawRecord) -> &'a [u8] {
    let labels: usize = raw.owner.labels().map(|label| 1 + label.len()).sum();
    &octets[..labels + 1]
}

/// The alias of this name.
pub fn alias_of<'r, 'a>(aliases: &'r [Alias<'a>], name: &[u8]) -> Option<&'r Alias<'a>> {
    aliases
        .iter()
        .find(|alias| alias.owner.eq_ignore_ascii_case(name))
}

/// Follows the aliases from a name that is looked at, behind so many others. `counted` is how many
/// aliases were followed before.
pub fn follow<'a>(
    aliases: &[Alias<'a>],
    name: &'a [u8],
    looked_at: usize,
    counted: &mut usize,
) -> Led<'a> {
    if Mistake::AliasesAreNotFollowed.is_made()
        || Mistake::AliasesOfXAloneAreFollowed.is_made() && looked_at > 0
        || Mistake::AliasesAboveXAloneAreFollowed.is_made() && looked_at == 0
        || Mistake::AliasesOf3NamesAreFollowed.is_made() && looked_at >= 3
        || Mistake::AliasesOf40NamesAreFollowed.is_made() && looked_at >= 40
        || Mistake::AliasesOf100NamesAreFollowed.is_made() && looked_at >= 100
    {
        return Led::To(name);
    }
    let most = if Mistake::SevenAliasesAreFollowed.is_made() {
        7
    } else if Mistake::NineAliasesAreFollowed.is_made() {
        9
    } else {
        8
    };
    if !Mistake::AliasesAreCountedFromLookToLook.is_made() {
        *counted = 0;
    }
    let mut chain: Vec<usize> = Vec::new();
    let mut at = name;
    while let Some(alias) = next(aliases, at, chain.is_empty()) {
        if Mistake::OneAliasIsFollowed.is_made() && chain.len() == 1 {
            break;
        }
        if Mistake::LoopsLeadNowhere.is_made() && chain.contains(&alias.number) {
            return Led::Nowhere;
        }
        chain.push(alias.number);
        if *counted == most {
            return too_far(&chain);
        }
        *counted += 1;
        at = alias.target;
    }
    if Mistake::RootAsTargetIsPassedOver.is_made() && at == [0] {
        return Led::Nowhere;
    }
    Led::To(at)
}

/// The alias that is followed from a name: the one looked at, or the target of another alias.
fn next<'r, 'a>(aliases: &'r [Alias<'a>], name: &[u8], is_first: bool) -> Option<&'r Alias<'a>> {
    if Mistake::AliasOfTheRootIsNotFollowed.is_made() && name == [0] {
        return None;
    }
    let is_same = |owner: &[u8]| {
        if Mistake::TargetsAreFollowedByLetterCase.is_made() && !is_first {
            owner == name
        } else if Mistake::TargetsAreFollowedUpTo128Octets.is_made() && !is_first {
            same_up_to_128_octets(owner, name)
        } else {
            owner.eq_ignore_ascii_case(name)
        }
    };
    aliases.iter().find(|alias| is_same(alias.owner))
}

/// The chain has one alias more than may be followed.
fn too_far<'a>(chain: &[usize]) -> Led<'a> {
    if Mistake::TooManyAliasesLeadNowhere.is_made() {
        Led::Nowhere
    } else if Mistake::TooManyAliasesAreOpen.is_made() {
        Led::ToOpen
    } else if Mistake::LastAliasIsTold.is_made() {
        Led::TooFar(chain[chain.len() - 1])
    } else if Mistake::LastFollowedAliasIsTold.is_made() {
        Led::TooFar(chain[chain.len().saturating_sub(2)])
    } else if Mistake::LowestAliasIsTold.is_made() {
        Led::TooFar(chain.iter().copied().min().unwrap_or_default())
    } else {
        Led::TooFar(chain[0])
    }
}
