//! The rule of issue with one mistake.

mod aliases;
mod book;
mod calls;
mod conflicts;
mod count;
mod limits;
mod mistake;
mod rule;

use compare::against::Other;
use mistake::Mistake;

use super::is_found_at_random;

const JUDGE: Other = Other {
    judge: Some(calls::judge),
    ..Other::NOTHING
};
const LIST: Other = Other {
    permitted_issuers: Some(calls::permitted_issuers),
    ..Other::NOTHING
};

fn all_are_found_out(other: Other, groups: &[&[Mistake]]) {
    let is_missed = |mistake: &Mistake| {
        mistake.is_made_from_now_on();
        !is_found_at_random(other)
    };
    let missed: Vec<Mistake> = groups.concat().into_iter().filter(is_missed).collect();
    assert_eq!(missed, []);
}

#[test]
fn without_a_mistake_nothing_differs() {
    Mistake::None.is_made_from_now_on();
    let both = Other {
        judge: JUDGE.judge,
        ..LIST
    };
    assert!(!is_found_at_random(both));
}

#[test]
fn mistakes_in_judging_are_found_out() {
    all_are_found_out(
        JUDGE,
        &[
            Mistake::IN_THE_BOOK,
            Mistake::IN_THE_CONFLICTS,
            Mistake::IN_THE_ALIASES,
            Mistake::IN_THE_LOOK,
            Mistake::IN_THE_SET,
            Mistake::IN_THE_LIMITS,
            Mistake::IN_THE_VERDICT,
            Mistake::IN_THE_COUNT,
        ],
    );
}

#[test]
fn mistakes_in_listing_are_found_out() {
    all_are_found_out(
        LIST,
        &[
            Mistake::IN_THE_BOOK,
            Mistake::IN_THE_CONFLICTS,
            Mistake::IN_THE_ALIASES,
            Mistake::IN_THE_LOOK,
            Mistake::IN_THE_SET,
            Mistake::IN_THE_LIMITS,
            Mistake::IN_THE_LIST,
        ],
    );
}
