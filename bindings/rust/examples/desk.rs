//! Judges request.bin, issuer.txt, account.txt, method.txt and book.bin of a folder, and prints the same
//! line as the desk program.
//!
//!     SPLINEPEARL_LIBS="$PWD/target/staticlib" \
//!         cargo run --manifest-path bindings/rust/Cargo.toml --example desk -- examples/whole-case

use std::env;
use std::ffi::OsString;
use std::fs;
use std::io::{self, Write};
use std::path::Path;
use std::process::ExitCode;

use splinepearl::{judge, Judgement};

const USAGE: &str = "\
usage: desk FOLDER

Judges request.bin, issuer.txt, account.txt, method.txt and book.bin in FOLDER, and prints the same
line as the desk program.

Exit status: 0 permitted; 1 not permitted; 2 anything else: refused, no book, an answer that isn't
known, output that can't be written, wrong use.
";

const PERMITTED: u8 = 0;
const NOT_PERMITTED: u8 = 1;
const NOTHING_DECIDED: u8 = 2;

fn main() -> ExitCode {
    let arguments: Vec<OsString> = env::args_os().skip(1).collect();
    let (text, status) = match arguments.as_slice() {
        [word] if word == "--help" || word == "-h" => (USAGE.to_owned(), PERMITTED),
        [folder] if !folder.as_encoded_bytes().starts_with(b"-") => judged(Path::new(folder)),
        _ => {
            eprint!("{USAGE}");
            return ExitCode::from(NOTHING_DECIDED);
        }
    };
    let mut output = io::stdout();
    let written = output
        .write_all(text.as_bytes())
        .and_then(|()| output.flush());
    if let Err(why) = written {
        eprintln!("desk: the answer could not be written: {why}");
        return ExitCode::from(NOTHING_DECIDED);
    }
    ExitCode::from(status)
}

/// The line to print, and the exit status.
fn judged(folder: &Path) -> (String, u8) {
    let read = |file: &str| fs::read(folder.join(file));

    // A part of a book could permit what the whole of it forbids.
    let Ok(book) = read("book.bin") else {
        return ("no book\n".to_owned(), NOTHING_DECIDED);
    };
    // An empty request, issuer name, account or method is refused.
    let request = read("request.bin").unwrap_or_default();
    let issuer = read("issuer.txt").unwrap_or_default();
    let account = read("account.txt").unwrap_or_default();
    let method = read("method.txt").unwrap_or_default();

    let judgement = judge(&request, &issuer, &account, &method, &book);
    let status = match judgement {
        Judgement::Permitted => PERMITTED,
        Judgement::UnknownCritical { .. }
        | Judgement::NotGranted { .. }
        | Judgement::TooManyAliases { .. } => NOT_PERMITTED,
        Judgement::Refused(_) => NOTHING_DECIDED,
    };
    (format!("{judgement}\n"), status)
}
