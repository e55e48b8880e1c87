//! The loads of the night run as files, for programs that are not linked here.

use std::fs;
use std::io;
use std::path::Path;

use super::books::{ACCOUNT, METHOD};
use super::judge::night_run;
use super::night::{names_of, OTHER_ISSUER};
use crate::judge::judge;

/// Writes each load into a folder of its own, named 0, 1 and so on: the five files of the desk
/// program, the title, the verdict, another issuer, and the verdict of each name by itself for that
/// one, a line each.
pub fn write_night_run(folder: &Path) -> io::Result<()> {
    for (number, load) in night_run().iter().enumerate() {
        let folder = folder.join(number.to_string());
        fs::create_dir_all(&folder)?;
        let verdict = judge(&load.request, &load.issuer, ACCOUNT, METHOD, &load.book);
        let others: Vec<String> = names_of(&load.request)
            .map(|name| judge(name, OTHER_ISSUER, ACCOUNT, METHOD, &load.book).to_string())
            .collect();
        for (file, octets) in [
            ("request.bin", load.request.as_slice()),
            ("issuer.txt", &load.issuer),
            ("account.txt", ACCOUNT),
            ("method.txt", METHOD),
            ("book.bin", &load.book),
            ("title.txt", load.title.as_bytes()),
            ("verdict.txt", verdict.to_string().as_bytes()),
            ("other-issuer.txt", OTHER_ISSUER),
            ("other-verdicts.txt", others.join("\n").as_bytes()),
        ] {
            fs::write(folder.join(file), octets)?;
        }
    }
    Ok(())
}
