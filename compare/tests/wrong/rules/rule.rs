//! The rule of issue once more, with room for mistakes. Names are in wire form.

use std::iter::successors;

use compare::applicant::Applicant;
use compare::book::{read_property, read_raw_record, Property};
use compare::limits::{ISSUER_OCTETS, LABEL_OCTETS};
use compare::request::read_requested_name;
use compare::value::{leading_blanks, IssueValue};
use compare::{read_issuer, read_value};

use super::aliases::{alias_of, aliases, follow, owner_of, Alias, Led};
use super::count::{labels_taken_off, told, Look};
use super::limits::limits_are_met;
use super::mistake::Mistake;

pub enum Standing<'a> {
    Open,
    Forbidden {
        record: usize,
        up: usize,
    },
    TooManyAliases {
        record: usize,
        up: usize,
    },
    Governed {
        record: usize,
        up: usize,
        grantees: Vec<&'a [u8]>,
    },
}

/// How each name of a good request stands by a good book, for a good applicant.
pub fn standings<'a>(
    request: &[u8],
    applicant: Applicant<'a>,
    book: &'a [u8],
) -> Vec<Standing<'a>> {
    let records = caa_records(book, applicant);
    let aliases = aliases(book);
    let mut standings = Vec::new();
    let mut counts: Vec<usize> = Vec::new();
    let mut rest = request;
    while let Some((requested, behind)) = read_requested_name(rest) {
        let name = &rest[..rest.len() - behind.len()];
        let star_is_followed =
            Mistake::AliasOfTheStarIsFollowed.is_made() && alias_of(&aliases, name).is_some();
        let star_counts = Mistake::StarIsLookedAt.is_made() || star_is_followed;
        let start = match requested.wildcard && !star_counts {
            true => &name[2..],
            false => name,
        };
        let (looks, found) = relevant_set(&records, &aliases, start);
        let taken_off = labels_taken_off(start, &looks, requested.wildcard);
        let up = told(taken_off, &counts);
        counts.push(taken_off);
        standings.push(match found {
            Ok(set) => standing(&set, up, requested.wildcard),
            Err(record) => Standing::TooManyAliases { record, up },
        });
        rest = behind;
    }
    standings
}

struct Record<'a> {
    number: usize,
    owner: &'a [u8],
    property: Property<'a>,
    applicant: Applicant<'a>,
}

fn caa_records<'a>(book: &'a [u8], applicant: Applicant<'a>) -> Vec<Record<'a>> {
    let mut records = Vec::new();
    let mut numbered = 0;
    let mut rest = book;
    while let Some((raw, behind)) = read_raw_record(rest) {
        let class_counts = raw.class == 1 || Mistake::OtherClassesCount.is_made();
        let is_caa = raw.rtype == 257 && class_counts;
        if let Some(property) = read_property(raw.rdata).filter(|_| is_caa) {
            records.push(Record {
                number: numbered,
                owner: owner_of(rest, &raw),
                property,
                applicant,
            });
        }
        if is_caa || !Mistake::CaaRecordsAloneAreNumbered.is_made() {
            numbered += 1;
        }
        rest = behind;
    }
    records
}

/// The looks up to the one where the climb ends, and the set; or the record that is told where there are
/// too many aliases.
fn relevant_set<'r, 'a, 'n>(
    records: &'r [Record<'a>],
    aliases: &[Alias<'n>],
    name: &'n [u8],
) -> (Vec<Look<'n>>, Result<Vec<&'r Record<'a>>, usize>) {
    let mut looks = Vec::new();
    let set = set_of_climb(records, aliases, name, &mut looks);
    (looks, set)
}

fn set_of_climb<'r, 'a, 'n>(
    records: &'r [Record<'a>],
    aliases: &[Alias<'n>],
    name: &'n [u8],
    looks: &mut Vec<Look<'n>>,
) -> Result<Vec<&'r Record<'a>>, usize> {
    let mut set = Vec::new();
    let mut place = name;
    let mut counted = 0;
    for looked_at in 0.. {
        let at_root = place == [0];
        let root_counts = Mistake::RootIsLookedAt.is_made()
            || Mistake::AliasOfTheRootIsLookedAt.is_made() && alias_of(aliases, place).is_some();
        if at_root && !root_counts || is_given_up(looked_at) {
            return Ok(set);
        }
        let led = follow(aliases, place, looked_at, &mut counted);
        looks.push(Look {
            at: place,
            target: match led {
                Led::To(target) if target != place => Some(target),
                _ => None,
            },
            aliases: counted,
        });
        let target = match led {
            Led::To(target) => Some(target),
            Led::Nowhere => None,
            Led::ToOpen => return Ok(Vec::new()),
            Led::TooFar(record) => {
                let of_x = alias_of(aliases, name).map(|alias| alias.number);
                let told = of_x.filter(|_| Mistake::AliasOfXIsTold.is_made());
                return Err(told.unwrap_or(record));
            }
        };
        let is_led = target.is_some_and(|target| target != place);
        let owned_by = |target: &[u8]| -> Vec<&'r Record<'a>> {
            let by_letter_case = Mistake::SetsOfTargetsAreFoundByLetterCase.is_made() && is_led;
            let is_owned = |record: &&Record| match by_letter_case {
                true => record.owner == target,
                false => is_same(record.owner, target),
            };
            records.iter().filter(is_owned).collect()
        };
        let mut found = target.map(owned_by).unwrap_or_default();
        let is_grant =
            |record: &&Record| ["issue", "issuewild"].iter().any(|tag| record.has_tag(tag));
        if Mistake::SetsWithoutGrantsArePassed.is_made() && !found.iter().any(is_grant) {
            found.clear();
        }
        if let Some(target) = target.filter(|_| found.is_empty() && is_led) {
            if Mistake::TargetIsClimbed.is_made() {
                found = ancestors(target)
                    .map(owned_by)
                    .find(|found| !found.is_empty())
                    .unwrap_or_default();
            }
            if Mistake::TargetWithoutSetEndsTheClimb.is_made() {
                return Ok(set);
            }
            if Mistake::ClimbGoesOnFromTheTarget.is_made() && looked_at < 200 {
                place = target;
            }
        }
        set.extend(found);
        let is_found = !set.is_empty() && !Mistake::AllParentsCount.is_made();
        if is_found || place == [0] || Mistake::ParentsAreNotLookedAt.is_made() {
            return Ok(set);
        }
        place = &place[1 + usize::from(place[0])..];
    }
    Ok(set)
}

/// The name itself, its parent, and so on up to its top label.
fn ancestors(name: &[u8]) -> impl Iterator<Item = &[u8]> {
    successors(Some(name), |name| Some(&name[1 + usize::from(name[0])..]))
        .take_while(|name| *name != [0])
}

/// Whether the climb ends after so many names.
fn is_given_up(looked_at: usize) -> bool {
    [
        (Mistake::ClimbEndsAfter3Names, 3),
        (Mistake::ClimbEndsAfter40Names, 40),
        (Mistake::ClimbEndsAfter100Names, 100),
        (Mistake::ClimbEndsAfter126Names, 126),
    ]
    .iter()
    .any(|&(mistake, names)| mistake.is_made() && looked_at == names)
}

fn is_same(owner: &[u8], name: &[u8]) -> bool {
    if Mistake::OwnersAreComparedByTail.is_made() {
        let (owner, name) = (as_text(owner), as_text(name));
        !owner.is_empty() && name.ends_with(&owner)
    } else if Mistake::OwnersAreComparedUpTo128Octets.is_made() {
        same_up_to_128_octets(owner, name)
    } else if Mistake::OwnersAreComparedByLetterCase.is_made() {
        owner == name
    } else if Mistake::OwnersFoldMoreThanLetters.is_made() {
        let fold = |octet: &u8| octet | 0x20;
        owner.iter().map(fold).eq(name.iter().map(fold))
    } else {
        owner.eq_ignore_ascii_case(name)
    }
}

pub fn same_up_to_128_octets(one: &[u8], other: &[u8]) -> bool {
    let front = one.len().min(128);
    one.len() == other.len() && one[..front].eq_ignore_ascii_case(&other[..front])
}

/// Labels in lower case, each with a dot behind it.
fn as_text(name: &[u8]) -> Vec<u8> {
    let mut text = Vec::new();
    let mut rest = name;
    while let [length @ 1..=63, behind @ ..] = rest {
        let (label, behind) = behind.split_at(usize::from(*length));
        text.extend(label.to_ascii_lowercase());
        text.push(b'.');
        rest = behind;
    }
    text
}

fn standing<'a>(set: &[&Record<'a>], up: usize, wildcard: bool) -> Standing<'a> {
    let mut forbidding = set.iter().filter(|record| record.forbids());
    let forbidding = match Mistake::LastUnknownCriticalIsTold.is_made() {
        true => forbidding.next_back(),
        false => forbidding.next(),
    };
    if let Some(record) = forbidding {
        return Standing::Forbidden {
            record: record.number,
            up,
        };
    }
    let governing = governing_records(set, wildcard);
    let told = if Mistake::LastGoverningIsTold.is_made() {
        governing.last()
    } else if Mistake::FirstOfTheSetIsTold.is_made() && !governing.is_empty() {
        set.first()
    } else {
        governing.first()
    };
    match told {
        None => Standing::Open,
        Some(record) => Standing::Governed {
            record: record.number,
            up,
            grantees: governing
                .iter()
                .filter_map(|record| record.grantee())
                .collect(),
        },
    }
}

fn governing_records<'r, 'a>(set: &[&'r Record<'a>], wildcard: bool) -> Vec<&'r Record<'a>> {
    let with_tag = |tags: &[&str]| -> Vec<&'r Record<'a>> {
        let governs =
            |record: &&&Record| tags.iter().any(|tag| record.has_tag(tag)) && !record.is_absent();
        set.iter().filter(governs).copied().collect()
    };
    let issuewild = with_tag(&["issuewild"]);
    if !wildcard && !Mistake::IssuewildGovernsAll.is_made() {
        with_tag(&["issue"])
    } else if wildcard && Mistake::IssueCountsBesideIssuewild.is_made() {
        with_tag(&["issue", "issuewild"])
    } else if issuewild.is_empty() && !Mistake::StarsNeedIssuewild.is_made() {
        with_tag(&["issue"])
    } else {
        issuewild
    }
}

impl Record<'_> {
    fn forbids(&self) -> bool {
        let flags = self.property.flags;
        let critical = if Mistake::CriticalIsTheBitWorthOne.is_made() {
            flags & 1 != 0
        } else if Mistake::AnyFlagIsCritical.is_made() {
            flags != 0
        } else {
            flags & 128 != 0 || Mistake::UnknownTagsAlwaysForbid.is_made()
        };
        let known = ["issue", "issuewild", "iodef"];
        let is_known = known.iter().any(|tag| self.has_tag(tag));
        critical
            && (!is_known || Mistake::KnownTagsCanForbid.is_made())
            && !Mistake::UnknownCriticalIsIgnored.is_made()
    }

    fn has_tag(&self, tag: &str) -> bool {
        let (own, tag) = (self.property.tag, tag.as_bytes());
        if Mistake::TagsAreComparedByLetterCase.is_made() {
            own == tag
        } else if Mistake::TagsAreComparedByFront.is_made() {
            own.to_ascii_lowercase().starts_with(tag)
        } else {
            own.eq_ignore_ascii_case(tag)
        }
    }
}

impl Record<'_> {
    /// Whether the record is taken as if it weren't there.
    fn is_absent(&self) -> bool {
        match reading(self.property.value) {
            IssueValue::Malformed => {
                Mistake::BadValuesAreAbsent.is_made()
                    || Mistake::BadValuesOfIssueAreAbsent.is_made() && self.has_tag("issue")
                    || Mistake::BadValuesOfIssuewildAreAbsent.is_made() && self.has_tag("issuewild")
            }
            IssueValue::NoName => Mistake::ValuesWithoutNameAreAbsent.is_made(),
            IssueValue::Name { name, parameters } => match Beyond::of(name) {
                None => {
                    let is_met = limits_are_met(&parameters, self.applicant);
                    !is_met && Mistake::UnmetLimitsAreAbsent.is_made()
                        || !is_met
                            && Mistake::UnmetLimitsOfIssuewildAreAbsent.is_made()
                            && self.has_tag("issuewild")
                }
                Some(Beyond::Label) => Mistake::NamesWithLongLabelsAreAbsent.is_made(),
                Some(Beyond::Whole) => Mistake::LongNamesAreAbsent.is_made(),
            },
        }
    }
}

/// Which limit of issuer names a name of the grammar breaks.
enum Beyond {
    Label,
    Whole,
}

impl Beyond {
    fn of(name: &[u8]) -> Option<Beyond> {
        if name.len() > ISSUER_OCTETS {
            Some(Beyond::Whole)
        } else {
            read_issuer(name).is_err().then_some(Beyond::Label)
        }
    }
}

/// How a value reads, with the mistakes in the grammar.
fn reading(value: &[u8]) -> IssueValue<'_> {
    let mut taken = value.split(|&octet| octet == b';').map(<[u8]>::to_vec);
    let mut parts: Vec<Vec<u8>> = taken.next().into_iter().collect();
    parts.extend(
        taken
            .enumerate()
            .map(|(number, part)| taken_as(number, part)),
    );
    match read_value(&parts.join(&b';')) {
        IssueValue::Malformed => IssueValue::Malformed,
        IssueValue::NoName => IssueValue::NoName,
        // The name stands before all parameters, so it is where it was. Those of a value that fits
        // by a mistake alone are left out.
        IssueValue::Name { name, .. } => {
            let begins = leading_blanks(value);
            let parameters = match read_value(value) {
                IssueValue::Name { parameters, .. } => parameters,
                _ => Vec::new(),
            };
            IssueValue::Name {
                name: &value[begins..begins + name.len()],
                parameters,
            }
        }
    }
}

/// The parameter that a wrong reader of tags takes this one for.
fn taken_as(number: usize, parameter: Vec<u8>) -> Vec<u8> {
    const WRONG: &[u8] = b"%";
    let Some(equals) = parameter.iter().position(|&octet| octet == b'=') else {
        return parameter;
    };
    let (tag, rest) = parameter.split_at(equals);
    let tag = tag[leading_blanks(tag)..].trim_ascii_end();
    let holds = |octets: &[u8]| tag.windows(octets.len()).any(|place| place == octets);
    let taken_as = if Mistake::ParameterTagsHoldNoHyphens.is_made() && holds(b"-")
        || Mistake::ParameterTagsHoldNoTwoHyphensInARow.is_made() && holds(b"--")
        || Mistake::FirstParameterTagAloneHoldsHyphens.is_made() && number > 0 && holds(b"-")
    {
        Some(WRONG)
    } else if Mistake::ParameterTagsBeginWithHyphens.is_made() {
        tag.strip_prefix(b"-")
    } else if Mistake::ParameterTagsEndWithHyphens.is_made() {
        tag.strip_suffix(b"-")
    } else if Mistake::ParameterTagsMayBeAHyphen.is_made() && tag == b"-"
        || Mistake::ParameterTagsHoldBlanksBesideHyphens.is_made()
            && (tag == b"a -b" || tag == b"a- b")
    {
        Some(&b"a"[..])
    } else {
        None
    };
    match taken_as {
        Some(tag) => [tag, rest].concat(),
        None => parameter,
    }
}

impl<'a> Record<'a> {
    /// In the letters of the record.
    fn grantee(&self) -> Option<&'a [u8]> {
        let value = self.property.value;
        let name = match reading(value) {
            IssueValue::Name { name, parameters } => {
                let ignored =
                    Mistake::LimitsOfIssuewildAreIgnored.is_made() && self.has_tag("issuewild");
                if !ignored && !limits_are_met(&parameters, self.applicant) {
                    return None;
                }
                name
            }
            IssueValue::Malformed if Mistake::BadValuesGrantTheirFront.is_made() => {
                value[..value.iter().position(|&octet| octet == b';')?].trim_ascii()
            }
            IssueValue::NoName | IssueValue::Malformed => return None,
        };
        match Beyond::of(name) {
            None => Some(name),
            Some(Beyond::Label) if Mistake::NamesWithLongLabelsAreListed.is_made() => Some(name),
            Some(Beyond::Label) if Mistake::NamesWithLongLabelsGrantTheirFront.is_made() => {
                Some(&name[..LABEL_OCTETS])
            }
            Some(Beyond::Whole) if Mistake::LongNamesAreListed.is_made() => Some(name),
            Some(Beyond::Whole) if Mistake::LongNamesGrantTheirFront.is_made() => {
                Some(&name[..ISSUER_OCTETS])
            }
            Some(_) => None,
        }
    }
}
