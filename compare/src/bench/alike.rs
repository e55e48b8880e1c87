//! Books whose owners all have one key, made so on purpose: what somebody can do who knows how the
//! library finds records. Then every look goes along all records of the book. Beside them stands a
//! load that is the same but for its keys.

use std::iter;

use super::books::{book_of, cname, filled_up, full_record, wire, LEAST_CAA};
use super::shapes::GRANTED;
use super::NIGHT_RUN_NAMES;
use crate::limits::{ALIASES, BOOK_OCTETS, BOOK_RECORDS, REQUEST_NAMES, REQUEST_OCTETS};

/// The issuer of the crowded loads, as short as may be, so that owners have room.
const SHORT: &str = "a";

/// The issuer of the last of [`BOOK_RECORDS`] records with an issuer each.
const LAST_OF_ALL: &str = "aaaaaaaaaaaaaaaaaaaaaaa1023";

const LETTERS: &[u8; 36] = b"abcdefghijklmnopqrstuvwxyz0123456789";

/// Octets of an owner that the key reads, from the front and from the end.
const KEY_FRONT: usize = 10;
const KEY_END: usize = 6;

pub struct Alike {
    pub title: String,
    pub request: Vec<u8>,
    pub issuer: &'static str,
    pub book: Vec<u8>,
}

/// The key of a name in wire form, as crates/book_keys has it. Nothing but these loads depends on it:
/// where it is no longer the library's, they are ordinary loads.
fn key(name: &[u8]) -> usize {
    let octets = name.len();
    let front = &name[..octets.min(KEY_FRONT)];
    let end = &name[octets.saturating_sub(KEY_END)..];
    let mixed = front.iter().chain(end).fold(octets, |mixed, octet| {
        (31 * mixed + usize::from(octet.to_ascii_lowercase())) % 65_536
    });
    mixed % 1_024
}

/// The names under this one that have the key, by one label more of this length. They differ in the
/// first octets of this label.
fn longer(name: &[u8], length: usize, wanted: usize) -> impl Iterator<Item = Vec<u8>> {
    let mut longer = vec![b'k'; 1 + length];
    longer[0] = length as u8;
    longer.extend(name);
    let octets = length.min(3);
    (0..LETTERS.len().pow(octets as u32)).filter_map(move |number| {
        let mut number = number;
        for octet in &mut longer[1..=octets] {
            *octet = LETTERS[number % LETTERS.len()];
            number /= LETTERS.len();
        }
        (key(&longer) == wanted).then(|| longer.clone())
    })
}

/// The same by as many labels as have room in so many octets. All are of two octets but for at most so
/// many of three, and each name on the way has the key.
fn deeper(name: &[u8], room: usize, of_three: usize, wanted: usize) -> Option<Vec<u8>> {
    if room < 3 + of_three {
        return Some(name.to_vec());
    }
    longer(name, 2, wanted)
        .find_map(|name| deeper(&name, room - 3, of_three, wanted))
        .or_else(|| {
            let of_three = of_three.checked_sub(1)?;
            longer(name, 3, wanted).find_map(|name| deeper(&name, room - 4, of_three, wanted))
        })
}

/// The deepest name of a number of octets, with every name on the way of one key, that can be made from
/// the names that are this one but for two letters at the front.
fn deepest(name: &[u8], octets: usize) -> Vec<u8> {
    let names = || (0..LETTERS.len().pow(2)).map(|number| numbered(name, 1, number));
    (0..octets)
        .find_map(|of_three| {
            names().find_map(|name| deeper(&name, octets - name.len(), of_three, key(&name)))
        })
        .expect("a name of any depth")
}

/// A number below 1,296 as two letters or digits.
fn put_number(name: &mut [u8], at: usize, number: usize) {
    name[at] = LETTERS[number / LETTERS.len()];
    name[at + 1] = LETTERS[number % LETTERS.len()];
}

fn numbered(name: &[u8], at: usize, number: usize) -> Vec<u8> {
    let mut name = name.to_vec();
    put_number(&mut name, at, number);
    name
}

/// The loads, the same in every run.
pub fn loads() -> Vec<Alike> {
    vec![
        three_labels_at_x(),
        three_labels_at_top(),
        climbs(true),
        climbs(false),
        climbs_to_all(),
        many_sets(34),
        many_sets(20),
        chains_of_aliases(),
    ]
}

/// The load of the night run with owners of one key, found at X.
fn three_labels_at_x() -> Alike {
    let x = wire("w.kkkkkkkkkkkkkkkkk.at");
    let names = (0..NIGHT_RUN_NAMES).map(|name| name * BOOK_RECORDS / NIGHT_RUN_NAMES);
    Alike {
        title: format!("keys alike, {NIGHT_RUN_NAMES} names of three labels, found at X"),
        request: names.flat_map(|name| numbered(&x, 12, name)).collect(),
        issuer: GRANTED,
        book: book_of(|record| full_record(&numbered(&x, 12, record), GRANTED)),
    }
}

/// The load of the night run with owners of one key, found at the top: X, its parent and the top have
/// the key of all owners. No other owner is as long as a name that is looked at.
fn three_labels_at_top() -> Alike {
    let top = wire("at");
    let wanted = key(&top);
    let x = longer(&top, 17, wanted)
        .find_map(|parent| longer(&parent, 2, wanted).next())
        .expect("a name has the key");
    let other = longer(&[0], 22, wanted).next().expect("so has an owner");
    Alike {
        title: format!(
            "keys alike, {NIGHT_RUN_NAMES} names of three labels, found at the top, other lengths"
        ),
        request: (0..NIGHT_RUN_NAMES)
            .flat_map(|name| numbered(&x, 14, name))
            .collect(),
        issuer: GRANTED,
        book: book_of(|record| match record + 1 < BOOK_RECORDS {
            true => full_record(&numbered(&other, 12, record), GRANTED),
            false => full_record(&top, GRANTED),
        }),
    }
}

/// Deep names whose every ancestor has one key, and a set at their top. The other owners differ from
/// an ancestor in two octets. Where the key doesn't read these, all of them have the key too, and a
/// comparison finds the difference late.
fn climbs(alike: bool) -> Alike {
    let name = deepest(&wire("kk"), REQUEST_OCTETS / REQUEST_NAMES);
    let top = &name[name.len() - 4..];
    let ancestor = ancestors(&name).find(|x| x.len() <= 35).expect("the top");
    let at = if alike { unread(ancestor) } else { 1 };
    let differ: Vec<Vec<u8>> = (0..=BOOK_RECORDS)
        .map(|number| numbered(ancestor, at, number))
        .filter(|owner| owner != ancestor)
        .collect();
    let keys = if alike { "keys alike" } else { "keys apart" };
    let labels = ancestors(&name).count();
    Alike {
        title: format!("{keys}, {REQUEST_NAMES} names of {labels} labels, set at the top"),
        request: name.repeat(REQUEST_NAMES),
        issuer: SHORT,
        book: book_of(|record| match record + 1 < BOOK_RECORDS {
            true => filled_up(&differ[record], LEAST_CAA.to_vec(), b'x'),
            false => full_record(top, SHORT),
        }),
    }
}

/// The same names with all records at their top, which grant different issuers.
fn climbs_to_all() -> Alike {
    let name = deepest(&wire("kk"), REQUEST_OCTETS / REQUEST_NAMES);
    let top = &name[name.len() - 4..];
    let labels = ancestors(&name).count();
    Alike {
        title: format!(
            "keys alike, {REQUEST_NAMES} names of {labels} labels, {BOOK_RECORDS} grants at the top"
        ),
        request: name.repeat(REQUEST_NAMES),
        issuer: LAST_OF_ALL,
        book: book_of(|record| full_record(top, &format!("{}{record:04}", "a".repeat(23)))),
    }
}

/// As many sets as names, all of one key, and as many labels before each name as there is room for,
/// all of this key. A set is asked four times, each time to its end or nearly: its first record stands
/// at the front of the book and says nothing, its last grants and stands at the end; and since `*`
/// stands before each name, an `issuewild` is looked for in vain.
fn many_sets(octets: usize) -> Alike {
    let star = b"\x01*";
    let owner = wire(&"k".repeat(octets - 2));
    let name = deepest(&owner, REQUEST_OCTETS / REQUEST_NAMES - star.len());
    let from = name.len() - octets;
    let at = unread(&name[from..]);
    let owner = |number| numbered(&name[from..], at, number);
    let says_nothing = |number| filled_up(&owner(number), LEAST_CAA.to_vec(), b'x');
    let grants = |number| full_record(&owner(number), SHORT);
    let mut front: Vec<u8> = (0..REQUEST_NAMES).flat_map(says_nothing).collect();
    let end: Vec<u8> = (0..REQUEST_NAMES).flat_map(grants).collect();
    for number in REQUEST_NAMES..BOOK_RECORDS - REQUEST_NAMES {
        let record = says_nothing(number);
        if front.len() + record.len() + end.len() <= BOOK_OCTETS {
            front.extend(record);
        }
    }
    let labels = ancestors(&name).count();
    Alike {
        title: format!(
            "keys alike, {REQUEST_NAMES} wildcards of {labels} labels, as many sets, \
             owners of {octets} octets"
        ),
        request: (0..REQUEST_NAMES)
            .flat_map(|number| [star.to_vec(), numbered(&name, from + at, number)].concat())
            .collect(),
        issuer: SHORT,
        book: [front, end].concat(),
    }
}

/// Deep names whose every ancestor has one key and goes along as many aliases as are followed. That of
/// the top leads to the one set. All owners have the key. The aliases that the looks begin with stand
/// last, so that each look passes by all other records. Aliases that no look comes to fill the book:
/// their owners differ from an ancestor in two octets, and their targets are found last.
fn chains_of_aliases() -> Alike {
    let name = deepest(&wire("kk"), REQUEST_OCTETS / REQUEST_NAMES);
    let starts: Vec<&[u8]> = ancestors(&name).collect();
    let labels = starts.len();
    let between = longer(&[0], 19, key(&name))
        .next()
        .expect("an owner has the key");
    let between = |number| numbered(&between, unread(&between), number);
    let set = between(0);
    let mut behind = vec![full_record(&set, SHORT)];
    let mut first = Vec::new();
    for (chain, start) in starts.iter().enumerate() {
        for number in ALIASES * chain..ALIASES * (chain + 1) {
            let target = match number + 1 == ALIASES * labels {
                true => set.clone(),
                false => between(number + 1),
            };
            match number % ALIASES {
                0 => first.push(cname(start, &target)),
                _ => behind.push(cname(&between(number), &target)),
            }
        }
    }
    behind.extend(first);
    let rest = behind.concat();
    let ancestor = ancestors(&name).find(|x| x.len() <= 33).expect("the top");
    let mut book = Vec::new();
    for number in 0..BOOK_RECORDS - behind.len() {
        let owner = numbered(ancestor, unread(ancestor), number);
        let record = cname(&owner, starts[labels - 1]);
        if owner != ancestor && book.len() + record.len() + rest.len() <= BOOK_OCTETS {
            book.extend(record);
        }
    }
    book.extend(rest);
    Alike {
        title: format!(
            "keys alike, {REQUEST_NAMES} names of {labels} labels, aliases in chains of {ALIASES}"
        ),
        request: name.repeat(REQUEST_NAMES),
        issuer: SHORT,
        book,
    }
}

/// The name itself, its parent, and so on up to its top label.
fn ancestors(name: &[u8]) -> impl Iterator<Item = &[u8]> {
    iter::successors(Some(name), |name| Some(&name[1 + usize::from(name[0])..]))
        .take_while(|name| *name != [0])
}

/// Where the key doesn't read two octets of a name, both in one label: behind the first 16, which the
/// library compares late, or else as far behind as may be.
fn unread(name: &[u8]) -> usize {
    let lengths: Vec<usize> = ancestors(name).map(|x| name.len() - x.len()).collect();
    let mut places = (KEY_FRONT..name.len() - KEY_END - 1)
        .filter(|at| !lengths.contains(at) && !lengths.contains(&(at + 1)));
    places
        .clone()
        .find(|&at| at >= 16)
        .or_else(|| places.next_back())
        .expect("a long label")
}

#[cfg(test)]
mod tests {
    use std::fs;
    use std::path::Path;

    use super::super::books::{ACCOUNT, METHOD};
    use super::*;
    use crate::answer::Answer;
    use crate::judge::judge;
    use crate::{read_book, read_request};

    /// Names in wire form, the first at the front of a request.
    fn names(mut request: &[u8]) -> Vec<&[u8]> {
        let mut names = Vec::new();
        while !request.is_empty() {
            let (name, behind) = request.split_at(end_of_name(request));
            names.push(name);
            request = behind;
        }
        names
    }

    fn owners(mut book: &[u8]) -> Vec<&[u8]> {
        let mut owners = Vec::new();
        while !book.is_empty() {
            let (owner, behind) = book.split_at(end_of_name(book));
            owners.push(owner);
            let data = u16::from_be_bytes([behind[8], behind[9]]);
            book = &behind[10 + usize::from(data)..];
        }
        owners
    }

    fn end_of_name(octets: &[u8]) -> usize {
        let mut end = 0;
        while octets[end] != 0 {
            end += 1 + usize::from(octets[end]);
        }
        end + 1
    }

    #[test]
    fn the_key_is_that_of_the_library() {
        let top = Path::new(env!("CARGO_MANIFEST_DIR"));
        let source = fs::read_to_string(top.join("../crates/book_keys/src/lib.rt")).unwrap();
        for line in [
            "m = (31 * m + text_ascii::to_lower(*octet) as usize) % 65536;",
            "let first = n.min(10);",
            "let last = n.saturating_sub(6);",
            "mixed(mixed(n % 65536, &x[..first]), &x[last..]) % MAX_RECORDS",
        ] {
            assert_eq!(source.matches(line).count(), 1, "{line}");
        }
        assert_eq!(BOOK_RECORDS, 1_024);
        // Worked out by hand: 3, then 1 and 97 and 0, twice, since both parts read all of it.
        let mixed = [1, 97, 0, 1, 97, 0].iter().fold(3, |h, o| 31 * h + o);
        assert_eq!(key(b"\x01A\x00"), mixed % 65_536 % 1_024);
    }

    #[test]
    fn keys_are_alike_where_said() {
        for load in loads() {
            let owners = owners(&load.book);
            let wanted = key(owners[0]);
            let same = owners.iter().filter(|owner| key(owner) == wanted).count();
            if load.title.starts_with("keys alike") {
                assert_eq!(same, owners.len(), "{}", load.title);
            } else {
                assert!(same < 10, "{}: {same}", load.title);
            }
            // Where the set stands at X, nothing above it is looked at.
            for name in names(&load.request) {
                for look in ancestors(name.strip_prefix(b"\x01*").unwrap_or(name)) {
                    if load.title.starts_with("keys alike") {
                        assert_eq!(key(look), wanted, "{}", load.title);
                    }
                    if owners.iter().any(|owner| owner.eq_ignore_ascii_case(look)) {
                        break;
                    }
                }
            }
        }
    }

    #[test]
    fn books_and_requests_are_full() {
        for load in loads() {
            let names = read_request(&load.request).unwrap().len();
            let records = read_book(&load.book).unwrap().len();
            assert!(load.book.len() > 48_000, "{}", load.title);
            assert!(records > 1_000, "{}", load.title);
            if load.title.contains("three labels") {
                assert_eq!(records, BOOK_RECORDS, "{}", load.title);
                assert_eq!(names, NIGHT_RUN_NAMES, "{}", load.title);
            } else {
                assert_eq!(names, REQUEST_NAMES, "{}", load.title);
                assert!(load.request.len() + 3 * names > REQUEST_OCTETS);
            }
        }
    }

    /// Each name is restricted, and granted to the one issuer.
    #[test]
    fn each_name_is_restricted_and_granted() {
        for load in loads() {
            for name in names(&load.request) {
                let by = |issuer: &str| judge(name, issuer.as_bytes(), ACCOUNT, METHOD, &load.book);
                assert_eq!(by(load.issuer), Answer::Permitted, "{}", load.title);
                let other = by("ca9.example.net");
                assert!(matches!(other, Answer::NotGranted { .. }), "{}", load.title);
            }
        }
    }

    #[test]
    fn owners_differ_as_said() {
        for load in loads() {
            let mut owners = owners(&load.book);
            owners.sort_unstable();
            owners.dedup();
            let expected = match load.title.contains("grants at the top") {
                true => 1..2,
                false => 700..BOOK_RECORDS + 1,
            };
            assert!(expected.contains(&owners.len()), "{}", load.title);
        }
    }
}
