//! How long the library's calls take, next to the independent implementation and the yardstick: on
//! plain inputs, and on the longest work that we can think of among inputs that are not refused.
//! Nothing here says what is fast enough.

mod aliases;
mod alike;
mod books;
pub mod comparing;
mod folders;
mod judge;
mod limited;
mod lines;
mod list;
mod measure;
pub mod night;
mod sessions;
mod shapes;
pub mod yardstick;

use crate::against::Other;
use crate::limits::REQUEST_NAMES;
pub use folders::write_night_run;
pub use measure::{heading, Measured};

/// Names of three labels in the loads that stand for a night run, where a request may have so many.
const NIGHT_RUN_NAMES: usize = if REQUEST_NAMES < 200 {
    REQUEST_NAMES
} else {
    200
};

/// Calls that are timed together where each has one name and one record.
const CALLS_OF_ONE_NAME: usize = 1_000;

/// The yardstick's calls, to be compared like those of another implementation.
pub const YARDSTICK: Other = Other {
    judge: Some(|request, issuer, account, method, book| {
        Ok(yardstick::judge(request, issuer, account, method, book))
    }),
    permitted_issuers: Some(|request, account, method, book, buffer| {
        Ok(yardstick::permitted_issuers(
            request, account, method, book, buffer,
        ))
    }),
    ..Other::NOTHING
};

/// Measures every call that the library has, on each load whose title has this text in it. Where
/// answers differ nothing is measured; how they differ is told.
pub fn run(library: &Other, text: &str, mut tell: impl FnMut(Result<Measured, String>)) {
    if let Some(library) = library.judge {
        for load in judge::loads() {
            if load.title.contains(text) {
                tell(load.measure(library));
            }
        }
    }
    if let Some(library) = library.permitted_issuers {
        for load in list::loads() {
            if load.title.contains(text) {
                tell(load.measure(library));
            }
        }
    }
    if let Some(library) = library.lines {
        for load in lines::loads() {
            if load.title.contains(text) {
                tell(load.measure(library));
            }
        }
    }
    if let Some(library) = library.sessions {
        for load in sessions::loads() {
            if load.title.contains(text) {
                tell(load.measure(library));
            }
        }
    }
}
