//! That comparing finds an implementation out that is wrong in one thing.

mod cut;
mod judges;
mod lines;
mod lists;
mod readers;
mod rules;
mod sessions;

use compare::against::{differs_at_random, Other};

/// Without the stored cases, so that it is the others that find something.
fn is_found_at_random(other: Other) -> bool {
    differs_at_random(&other, 20_000, 1)
}
