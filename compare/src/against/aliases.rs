//! How often looks went through aliases, how many they followed, and where these led.

use super::log::{Call, Tally};
use crate::answer::Refusal;
use crate::applicant::Applicant;
use crate::book::read_book;
use crate::limits::ALIASES;
use crate::name::Name;
use crate::request::read_request;
use crate::rule::{chains, Chain, Records};

const KINDS: &[(u8, &str)] = &[
    (SET_BY_1, "set by 1 alias"),
    (SET_BY_SOME, "by 2 to 7"),
    (SET_BY_MOST, "by 8"),
    (SET_OF_ROOT, "set of the root"),
    (SET_ABOVE, "set of a name above"),
    (SET_BELOW, "set of a name below"),
    (NO_SET, "aliases to no set"),
    (NO_SET_BY_MOST, "8 aliases to no set"),
    (SET_BEHIND_NO_SET, "to no set, and a set farther up"),
    (TOO_MANY_AT_X, "too many at X"),
    (TOO_MANY_ABOVE, "too many farther up"),
];
const SET_BY_1: u8 = 0;
const SET_BY_SOME: u8 = 1;
const SET_BY_MOST: u8 = 2;
const SET_OF_ROOT: u8 = 3;
const SET_ABOVE: u8 = 4;
const SET_BELOW: u8 = 5;
const NO_SET: u8 = 6;
const NO_SET_BY_MOST: u8 = 7;
const SET_BEHIND_NO_SET: u8 = 8;
const TOO_MANY_AT_X: u8 = 9;
const TOO_MANY_ABOVE: u8 = 10;

pub static OF_VERDICTS: Call = Call {
    name: "judge, aliases",
    kinds: KINDS,
};
pub static OF_LISTS: Call = Call {
    name: "list, aliases",
    kinds: KINDS,
};
pub static OF_SESSIONS: Call = Call {
    name: "session, chains",
    kinds: KINDS,
};

/// Of requests with more names, the first ones are enough.
const SOME_NAMES: usize = 4;

/// Counts each kind once, however many names it stands for. What is refused is not counted.
pub fn count_aliases(tally: &mut Tally, request: &[u8], book: &[u8]) {
    let mut kinds = kinds(request, book).unwrap_or_default();
    kinds.sort_unstable();
    kinds.dedup();
    for kind in kinds {
        tally.count(kind);
    }
}

fn kinds(request: &[u8], book: &[u8]) -> Result<Vec<u8>, Refusal> {
    let names = read_request(request)?;
    let book = read_book(book)?;
    let records = Records::of(&book, Applicant::SOMEONE);
    let mut kinds = Vec::new();
    for name in names.iter().take(SOME_NAMES) {
        let chains = chains(&records, name);
        kinds.extend(chains.iter().flat_map(kinds_of_look));
        if let Some((last, before)) = chains.split_last() {
            if last.too_many {
                kinds.push(match before {
                    [] => TOO_MANY_AT_X,
                    _ => TOO_MANY_ABOVE,
                });
            }
            if last.finds_set && before.iter().any(|chain| !chain.targets.is_empty()) {
                kinds.push(SET_BEHIND_NO_SET);
            }
        }
    }
    Ok(kinds)
}

/// Where one look got to by aliases.
fn kinds_of_look(chain: &Chain) -> Vec<u8> {
    let Some(&target) = chain.targets.last().filter(|_| !chain.too_many) else {
        return Vec::new();
    };
    let followed = chain.targets.len();
    if !chain.finds_set {
        return match followed {
            ALIASES => vec![NO_SET, NO_SET_BY_MOST],
            _ => vec![NO_SET],
        };
    }
    let mut kinds = vec![match followed {
        1 => SET_BY_1,
        ALIASES => SET_BY_MOST,
        _ => SET_BY_SOME,
    }];
    if target.is_root() {
        kinds.push(SET_OF_ROOT);
    } else if is_above(target, chain.from) {
        kinds.push(SET_ABOVE);
    } else if is_above(chain.from, target) {
        kinds.push(SET_BELOW);
    }
    kinds
}

fn is_above(one: Name, other: Name) -> bool {
    other.ancestors().skip(1).any(|ancestor| ancestor.is(one))
}

#[cfg(test)]
mod tests {
    use super::*;

    fn record(owner: &[u8], rtype: u16, data: &[u8]) -> Vec<u8> {
        let frame = b"\x00\x01\x00\x00\x00\x00\x00";
        let length = [data.len() as u8];
        [owner, &rtype.to_be_bytes(), frame, &length, data].concat()
    }

    /// So many aliases from this name on, the last of this target. The names between are `0`, `1` and
    /// so on.
    fn chain(from: &[u8], aliases: u8, to: &[u8]) -> Vec<u8> {
        let between = |number: u8| vec![1, b'0' + number, 0];
        (0..aliases)
            .flat_map(|number| {
                let owner = match number {
                    0 => from.to_vec(),
                    _ => between(number),
                };
                let target = match number + 1 == aliases {
                    true => to.to_vec(),
                    false => between(number + 1),
                };
                record(&owner, 5, &target)
            })
            .collect()
    }

    fn counted(book: &[u8]) -> Vec<u8> {
        kinds(b"\x01a\x01b\x00", book).unwrap()
    }

    #[test]
    fn looks_are_counted_by_their_aliases() {
        let x = b"\x01a\x01b\x00";
        let parent = b"\x01b\x00";
        let set = |owner: &[u8]| record(owner, 257, b"\x00\x01t");
        let found = |from: &[u8], aliases, to: &[u8]| {
            counted(&[chain(from, aliases, to), set(to)].concat())
        };
        assert_eq!(counted(&set(x)), []);
        assert_eq!(found(x, 1, b"\x01x\x00"), [SET_BY_1]);
        assert_eq!(found(parent, 1, b"\x01x\x00"), [SET_BY_1]);
        assert_eq!(found(x, 2, b"\x01x\x00"), [SET_BY_SOME]);
        assert_eq!(found(x, 7, b"\x01x\x00"), [SET_BY_SOME]);
        assert_eq!(found(x, 8, b"\x01x\x00"), [SET_BY_MOST]);
        assert_eq!(found(x, 9, b"\x01x\x00"), [TOO_MANY_AT_X]);
        assert_eq!(found(parent, 9, b"\x01x\x00"), [TOO_MANY_ABOVE]);
        assert_eq!(found(x, 1, b"\x00"), [SET_BY_1, SET_OF_ROOT]);
        assert_eq!(found(x, 1, parent), [SET_BY_1, SET_ABOVE]);
        let below = b"\x01x\x01a\x01b\x00";
        assert_eq!(found(x, 1, below), [SET_BY_1, SET_BELOW]);
        assert_eq!(found(parent, 1, x), []);
        assert_eq!(counted(&chain(x, 1, b"\x01x\x00")), [NO_SET]);
        let by_most = chain(x, 8, b"\x01x\x00");
        assert_eq!(counted(&by_most), [NO_SET, NO_SET_BY_MOST]);
        assert_eq!(
            counted(&[by_most, set(parent)].concat()),
            [NO_SET, NO_SET_BY_MOST, SET_BEHIND_NO_SET]
        );
    }
}
