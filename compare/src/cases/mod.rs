//! Stored cases: inputs in a readable notation, and the answers worked out by hand for them. The
//! notation is described in `cases/README.md`.

mod check;
mod notation;
mod reader;
mod runner;
mod session;

pub use check::Asker;
pub use notation::to_hex;
pub use reader::{read_cases, Case};
pub use runner::{run, Report};
pub use session::{memory, SessionCall, Step};

/// Every stored case file, by name.
pub const FILES: [(&str, &str); 14] = [
    ("whole-case.txt", include_str!("../../cases/whole-case.txt")),
    ("rfc8659.txt", include_str!("../../cases/rfc8659.txt")),
    ("values.txt", include_str!("../../cases/values.txt")),
    ("accounts.txt", include_str!("../../cases/accounts.txt")),
    ("rule.txt", include_str!("../../cases/rule.txt")),
    ("climb.txt", include_str!("../../cases/climb.txt")),
    ("up.txt", include_str!("../../cases/up.txt")),
    ("aliases.txt", include_str!("../../cases/aliases.txt")),
    ("sessions.txt", include_str!("../../cases/sessions.txt")),
    ("permitted.txt", include_str!("../../cases/permitted.txt")),
    ("request.txt", include_str!("../../cases/request.txt")),
    ("issuer.txt", include_str!("../../cases/issuer.txt")),
    ("book.txt", include_str!("../../cases/book.txt")),
    ("lines.txt", include_str!("../../cases/lines.txt")),
];

/// The cases of all files.
pub fn stored() -> Result<Vec<Case>, String> {
    let mut cases = Vec::new();
    for (file, text) in FILES {
        cases.extend(read_cases(file, text)?);
    }
    Ok(cases)
}
