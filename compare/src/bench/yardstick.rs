//! The yardstick for speed: judging and listing as an ordinary Rust program does them.
//!
//! All checks are made and all answers given. The records are read once into a vector of borrowed
//! parts, which is searched from its front; values are read for the set found alone. There is no hash
//! table, nothing is sorted, and nothing is kept between calls. Of this package it takes the answers
//! and the limits; it reads and decides by itself.

use crate::answer::{Answer, Permitted, Refusal};
use crate::limits::{
    ALIASES, APPLICANT_OCTETS, BOOK_OCTETS, BOOK_RECORDS, ISSUER_OCTETS, LABEL_OCTETS, NAME_OCTETS,
    REQUEST_NAMES, REQUEST_OCTETS,
};

pub fn judge(request: &[u8], issuer: &[u8], account: &[u8], method: &[u8], book: &[u8]) -> Answer {
    verdict(request, issuer, Asker { account, method }, book).unwrap_or_else(Answer::Refused)
}

fn verdict(request: &[u8], issuer: &[u8], asker: Asker, book: &[u8]) -> Result<Answer, Refusal> {
    let names = parse_request(request)?;
    if !is_issuer_name(issuer) {
        return Err(Refusal::BadIssuer);
    }
    asker.check()?;
    let records = parse_book(book)?;
    let mut previous = None;
    for (number, name) in names.iter().enumerate() {
        let (up, looked) = climb(&records, name.fqdn);
        let set = match looked {
            Ok(set) => set,
            Err(TooManyAliases { first }) => {
                return Ok(Answer::TooManyAliases {
                    name: number,
                    record: first,
                    up,
                })
            }
        };
        if is_repeated(&set, name, &mut previous) {
            continue;
        }
        if let Some(record) = set.iter().find(|record| record.is_unknown_critical()) {
            return Ok(Answer::UnknownCritical {
                name: number,
                record: record.number,
                up,
            });
        }
        let mut governing = governing(&set, name.wildcard).peekable();
        let Some(first) = governing.peek().map(|record| record.number) else {
            continue;
        };
        let grants = |record: &Record| {
            grantee(record, asker).is_some_and(|grantee| grantee.eq_ignore_ascii_case(issuer))
        };
        if !governing.any(grants) {
            return Ok(Answer::NotGranted {
                name: number,
                record: first,
                up,
            });
        }
    }
    Ok(Answer::Permitted)
}

pub fn permitted_issuers(
    request: &[u8],
    account: &[u8],
    method: &[u8],
    book: &[u8],
    buffer: &mut [u8],
) -> Permitted {
    list(request, Asker { account, method }, book, buffer).unwrap_or_else(Permitted::Refused)
}

fn list(
    request: &[u8],
    asker: Asker,
    book: &[u8],
    buffer: &mut [u8],
) -> Result<Permitted, Refusal> {
    let names = parse_request(request)?;
    asker.check()?;
    let records = parse_book(book)?;
    let mut previous = None;
    let mut listed: Option<Vec<&[u8]>> = None;
    for name in &names {
        // Too many aliases grant nobody, whatever the other names say.
        let (_, Ok(set)) = climb(&records, name.fqdn) else {
            listed = Some(Vec::new());
            break;
        };
        if is_repeated(&set, name, &mut previous) {
            continue;
        }
        let Some(grantees) = grantees(&set, name.wildcard, asker) else {
            continue;
        };
        match &mut listed {
            None => listed = Some(without_repeats(grantees)),
            Some(listed) => listed.retain(|issuer| contains(&grantees, issuer)),
        }
    }
    match listed {
        None => Ok(Permitted::Anyone),
        Some(issuers) => write_list(&issuers, buffer),
    }
}

/// Whom the set grants, repeats included; `None` where it doesn't restrict.
fn grantees<'a>(set: &[&Record<'a>], wildcard: bool, asker: Asker) -> Option<Vec<&'a [u8]>> {
    if set.iter().any(|record| record.is_unknown_critical()) {
        return Some(Vec::new());
    }
    let mut governing = governing(set, wildcard).peekable();
    governing.peek()?;
    Some(governing.filter_map(|r| grantee(r, asker)).collect())
}

fn without_repeats(grantees: Vec<&[u8]>) -> Vec<&[u8]> {
    let mut issuers = Vec::new();
    for grantee in grantees {
        if !contains(&issuers, grantee) {
            issuers.push(grantee);
        }
    }
    issuers
}

fn contains(issuers: &[&[u8]], issuer: &[u8]) -> bool {
    issuers.iter().any(|one| one.eq_ignore_ascii_case(issuer))
}

fn write_list(issuers: &[&[u8]], buffer: &mut [u8]) -> Result<Permitted, Refusal> {
    let octets = issuers.iter().map(|issuer| 1 + issuer.len()).sum();
    let mut rest = buffer
        .get_mut(..octets)
        .ok_or(Refusal::BufferTooShort { needed: octets })?;
    for issuer in issuers {
        let (entry, behind) = rest.split_at_mut(1 + issuer.len());
        entry[0] = issuer.len() as u8;
        entry[1..].copy_from_slice(issuer);
        entry[1..].make_ascii_lowercase();
        rest = behind;
    }
    let count = issuers.len();
    Ok(Permitted::List { count, octets })
}

/// For which account, and validated by which method.
#[derive(Clone, Copy)]
struct Asker<'a> {
    account: &'a [u8],
    method: &'a [u8],
}

impl Asker<'_> {
    fn check(self) -> Result<(), Refusal> {
        let is_good = |text: &[u8], without: &[u8]| {
            !text.is_empty()
                && text.len() <= APPLICANT_OCTETS
                && text
                    .iter()
                    .all(|octet| matches!(octet, 33..=126) && !without.contains(octet))
        };
        match is_good(self.account, b";") && is_good(self.method, b";,") {
            true => Ok(()),
            false => Err(Refusal::BadApplicant),
        }
    }
}

/// A requested name X or `*.X`.
struct Name<'a> {
    wildcard: bool,
    /// X in wire form, its closing zero included.
    fqdn: &'a [u8],
}

/// A CAA record or an alias, under the number that it has among all records of the book.
struct Record<'a> {
    number: usize,
    owner: &'a [u8],
    data: Data<'a>,
}

enum Data<'a> {
    Caa {
        flags: u8,
        tag: &'a [u8],
        value: &'a [u8],
    },
    Alias {
        target: &'a [u8],
    },
}

impl Record<'_> {
    fn has_tag(&self, wanted: &str) -> bool {
        match self.data {
            Data::Caa { tag, .. } => tag.eq_ignore_ascii_case(wanted.as_bytes()),
            Data::Alias { .. } => false,
        }
    }

    fn is_unknown_critical(&self) -> bool {
        let known = ["issue", "issuewild", "iodef"];
        matches!(self.data, Data::Caa { flags, .. } if flags & 128 != 0)
            && !known.iter().any(|tag| self.has_tag(tag))
    }
}

/// A look that would follow more aliases than may be; `first` is the first one's number.
struct TooManyAliases {
    first: usize,
}

type Looked<'r, 'a> = Result<Vec<&'r Record<'a>>, TooManyAliases>;

/// The set of the nearest name that has one, itself or by aliases, behind the number of labels taken off
/// to get there. The root is not looked at.
fn climb<'r, 'a>(records: &'r [Record<'a>], fqdn: &[u8]) -> (usize, Looked<'r, 'a>) {
    let mut name = fqdn;
    let mut up = 0;
    while name != [0] {
        match look(records, name) {
            Ok(set) if set.is_empty() => {}
            found => return (up, found),
        }
        name = &name[1 + usize::from(name[0])..];
        up += 1;
    }
    (up, Ok(Vec::new()))
}

/// The CAA records of the name that the aliases lead to from this one. An owner of an alias has no
/// other record here.
fn look<'r, 'a>(records: &'r [Record<'a>], name: &[u8]) -> Looked<'r, 'a> {
    let mut set = owned_by(records, name);
    let mut followed = 0;
    let mut first = 0;
    while let [Record {
        number,
        data: Data::Alias { target },
        ..
    }] = set[..]
    {
        if followed == 0 {
            first = *number;
        }
        if followed == ALIASES {
            return Err(TooManyAliases { first });
        }
        followed += 1;
        set = owned_by(records, target);
    }
    Ok(set)
}

fn owned_by<'r, 'a>(records: &'r [Record<'a>], owner: &[u8]) -> Vec<&'r Record<'a>> {
    records
        .iter()
        .filter(|record| record.owner.eq_ignore_ascii_case(owner))
        .collect()
}

/// Whether the name before was of the same kind and led to the same set, known by its first record:
/// then all that the set says is done with.
fn is_repeated(set: &[&Record], name: &Name, previous: &mut Option<(usize, bool)>) -> bool {
    let this = set.first().map(|record| (record.number, name.wildcard));
    this.is_some() && std::mem::replace(previous, this) == this
}

fn governing<'r, 'a>(
    set: &'r [&'r Record<'a>],
    wildcard: bool,
) -> impl Iterator<Item = &'r Record<'a>> {
    let tag = if wildcard && set.iter().any(|record| record.has_tag("issuewild")) {
        "issuewild"
    } else {
        "issue"
    };
    set.iter().copied().filter(move |r| r.has_tag(tag))
}

/// The issuer name that a record grants. `None` where its value doesn't fit the grammar, holds no
/// name, or one beyond the limits of issuer names, or a limit that isn't met.
fn grantee<'a>(record: &Record<'a>, asker: Asker) -> Option<&'a [u8]> {
    let Data::Caa { value, .. } = record.data else {
        return None;
    };
    let (name, parameters) = match value.iter().position(|&octet| octet == b';') {
        Some(place) => (&value[..place], trim(&value[place + 1..])),
        None => (value, &[][..]),
    };
    let fit = parameters.is_empty() || fit_and_are_met(parameters, asker);
    let name = trim(name);
    (fit && is_issuer_name(name)).then_some(name)
}

/// Whether all parameters fit the grammar, and the limits among them are met. One that stands twice
/// is not.
fn fit_and_are_met(parameters: &[u8], asker: Asker) -> bool {
    let mut has_account = false;
    let mut has_methods = false;
    parameters.split(|&octet| octet == b';').all(|parameter| {
        let Some((tag, value)) = parse_parameter(parameter) else {
            return false;
        };
        if tag.eq_ignore_ascii_case(b"accounturi") {
            !std::mem::replace(&mut has_account, true) && value == asker.account
        } else if tag.eq_ignore_ascii_case(b"validationmethods") {
            !std::mem::replace(&mut has_methods, true) && has_item(value, asker.method)
        } else {
            true
        }
    })
}

/// Whether the item is among those that the commas part. Where one is empty, none is.
fn has_item(list: &[u8], item: &[u8]) -> bool {
    let mut found = false;
    for one in list.split(|&octet| octet == b',') {
        if one.is_empty() {
            return false;
        }
        found |= one == item;
    }
    found
}

fn parse_parameter(parameter: &[u8]) -> Option<(&[u8], &[u8])> {
    let equals = parameter.iter().position(|&octet| octet == b'=')?;
    let (tag, value) = (trim(&parameter[..equals]), trim(&parameter[equals + 1..]));
    (is_label(tag) && value.iter().all(u8::is_ascii_graphic)).then_some((tag, value))
}

/// The text without the spaces and tabs around it.
fn trim(mut text: &[u8]) -> &[u8] {
    while let [b' ' | b'\t', rest @ ..] = text {
        text = rest;
    }
    while let [rest @ .., b' ' | b'\t'] = text {
        text = rest;
    }
    text
}

fn is_issuer_name(text: &[u8]) -> bool {
    text.len() <= ISSUER_OCTETS
        && text
            .split(|&octet| octet == b'.')
            .all(|label| label.len() <= LABEL_OCTETS && is_label(label))
}

/// Letters, digits and hyphens, no hyphen first or last. A parameter tag has the same rule.
fn is_label(label: &[u8]) -> bool {
    let is_good = |octet: &u8| octet.is_ascii_alphanumeric() || *octet == b'-';
    label.iter().all(is_good)
        && label.first().is_some_and(|&octet| octet != b'-')
        && label.last().is_some_and(|&octet| octet != b'-')
}

fn parse_request(request: &[u8]) -> Result<Vec<Name<'_>>, Refusal> {
    if request.len() > REQUEST_OCTETS {
        return Err(Refusal::RequestTooLong);
    }
    if request.is_empty() {
        return Err(Refusal::BadRequestedName { name: 0 });
    }
    let mut names = Vec::new();
    let mut rest = request;
    while !rest.is_empty() {
        let read = names.len();
        if read == REQUEST_NAMES {
            return Err(Refusal::TooManyNames { read });
        }
        let name = take_requested_name(&mut rest);
        names.push(name.ok_or(Refusal::BadRequestedName { name: read })?);
    }
    Ok(names)
}

fn take_requested_name<'a>(rest: &mut &'a [u8]) -> Option<Name<'a>> {
    let (wildcard, fqdn) = match take_name(rest)? {
        [1, b'*', fqdn @ ..] => (true, fqdn),
        fqdn => (false, fqdn),
    };
    if fqdn == [0] {
        return None;
    }
    let mut labels = fqdn;
    while labels != [0] {
        let (label, behind) = labels[1..].split_at(usize::from(labels[0]));
        if !is_label(label) {
            return None;
        }
        labels = behind;
    }
    Some(Name { wildcard, fqdn })
}

fn parse_book(book: &[u8]) -> Result<Vec<Record<'_>>, Refusal> {
    if book.len() > BOOK_OCTETS {
        return Err(Refusal::BookTooLong);
    }
    let mut records = Vec::new();
    let mut rest = book;
    let mut number = 0;
    while !rest.is_empty() {
        if number == BOOK_RECORDS {
            return Err(Refusal::TooManyRecords { read: number });
        }
        let record = take_record(&mut rest, number);
        records.extend(record.ok_or(Refusal::BadRecord { record: number })?);
        number += 1;
    }
    match find_conflict(&records) {
        Some(record) => Err(Refusal::AliasConflict { record }),
        None => Ok(records),
    }
}

/// The first record whose owner has an alias before it, or that is an alias and whose owner has any
/// record before it.
fn find_conflict(records: &[Record]) -> Option<usize> {
    let mut aliased: Vec<&[u8]> = Vec::new();
    for (place, record) in records.iter().enumerate() {
        let is_same = |owner: &[u8]| owner.eq_ignore_ascii_case(record.owner);
        let conflicts = match record.data {
            Data::Caa { .. } => aliased.iter().any(|owner| is_same(owner)),
            Data::Alias { .. } => {
                aliased.push(record.owner);
                let mut before = records[..place].iter();
                before.any(|earlier| is_same(earlier.owner))
            }
        };
        if conflicts {
            return Some(record.number);
        }
    }
    None
}

/// One record: `None` where it is laid out wrongly, `Some(None)` where it is neither a CAA record nor
/// an alias.
fn take_record<'a>(rest: &mut &'a [u8], number: usize) -> Option<Option<Record<'a>>> {
    let owner = take_name(rest)?;
    let fields = take(rest, 10)?;
    let (type_and_class, length) = (&fields[..4], [fields[8], fields[9]]);
    let data = take(rest, usize::from(u16::from_be_bytes(length)))?;
    let data = match type_and_class {
        // Type 257, class 1.
        [1, 1, 0, 1] => parse_property(data)?,
        // Type 5, class 1.
        [0, 5, 0, 1] => {
            let mut rest = data;
            let target = take_name(&mut rest).filter(|_| rest.is_empty())?;
            Data::Alias { target }
        }
        _ => return Some(None),
    };
    Some(Some(Record {
        number,
        owner,
        data,
    }))
}

fn parse_property(data: &[u8]) -> Option<Data<'_>> {
    let (&[flags, tag_length], tag_and_value) = data.split_first_chunk()?;
    let (tag, value) = tag_and_value.split_at_checked(usize::from(tag_length))?;
    let is_good = !tag.is_empty() && tag.iter().all(u8::is_ascii_alphanumeric);
    is_good.then_some(Data::Caa { flags, tag, value })
}

/// A name in wire form, its closing zero included.
fn take_name<'a>(rest: &mut &'a [u8]) -> Option<&'a [u8]> {
    let mut end = 0;
    loop {
        match usize::from(*rest.get(end)?) {
            0 => break,
            length if length <= LABEL_OCTETS => end += 1 + length,
            _ => return None,
        }
    }
    if end >= NAME_OCTETS {
        return None;
    }
    take(rest, end + 1)
}

fn take<'a>(rest: &mut &'a [u8], octets: usize) -> Option<&'a [u8]> {
    let (taken, behind) = rest.split_at_checked(octets)?;
    *rest = behind;
    Some(taken)
}
