//! The desk's line from the files of a folder.

use std::fs;
use std::path::{Path, PathBuf};

use compare::cases;
use compare::desk::judge_folder;
use compare::{read_applicant, read_book};

/// A folder of its own for one test, taken away at the end.
struct Folder(PathBuf);

impl Folder {
    fn new(test: &str) -> Folder {
        let path = std::env::temp_dir().join(format!("compare-{test}-{}", std::process::id()));
        fs::create_dir_all(&path).unwrap();
        Folder(path)
    }

    fn with(self, file: &str, octets: &[u8]) -> Folder {
        fs::write(self.0.join(file), octets).unwrap();
        self
    }

    fn line(&self) -> String {
        judge_folder(&self.0).to_string()
    }
}

impl Drop for Folder {
    fn drop(&mut self) {
        let _ = fs::remove_dir_all(&self.0);
    }
}

const REQUEST: &[u8] = b"\x01a\x00";

/// A folder with good account and method files.
fn folder(test: &str) -> Folder {
    Folder::new(test)
        .with("account.txt", b"https://x/1")
        .with("method.txt", b"dns-01")
}

fn whole_case_folder() -> PathBuf {
    Path::new(env!("CARGO_MANIFEST_DIR")).join("../examples/whole-case")
}

#[test]
fn the_whole_case() {
    assert_eq!(
        judge_folder(&whole_case_folder()).to_string(),
        "verdict 21 name 1 record 3 up 0"
    );
}

#[test]
fn the_example_is_the_stored_case() {
    let stored = cases::stored().unwrap();
    let case = stored
        .iter()
        .find(|case| case.title == "whole case: www and pay")
        .unwrap();
    let read = |file: &str| fs::read(whole_case_folder().join(file)).unwrap();
    assert_eq!(read("request.bin"), case.request);
    assert_eq!(read("issuer.txt"), b"ca1.example.net");
    assert!(read_applicant(&read("account.txt"), &read("method.txt")).is_ok());
    // As values: their times to live differ.
    let records = |octets: &[u8]| format!("{:?}", read_book(octets).unwrap());
    assert_eq!(records(&read("book.bin")), records(&case.book));
}

#[test]
fn without_a_book_the_others_dont_matter() {
    let folder = Folder::new("no-book");
    assert_eq!(folder.line(), "no book");
    let folder = folder.with("request.bin", REQUEST).with("issuer.txt", b"x");
    assert_eq!(folder.line(), "no book");
}

#[test]
fn a_book_that_cannot_be_read_is_no_book() {
    let folder = Folder::new("book-folder").with("request.bin", REQUEST);
    fs::create_dir(folder.0.join("book.bin")).unwrap();
    assert_eq!(folder.line(), "no book");
}

#[test]
fn other_files_that_are_missing_are_empty() {
    let folder = Folder::new("missing").with("book.bin", b"");
    assert_eq!(folder.line(), "refused 2 at 0");
    let folder = folder.with("request.bin", REQUEST);
    assert_eq!(folder.line(), "refused 4 at 0");
    let folder = folder.with("issuer.txt", b"x");
    assert_eq!(folder.line(), "refused 15 at 0");
    let folder = folder.with("account.txt", b"a");
    assert_eq!(folder.line(), "refused 15 at 0");
    let folder = folder.with("method.txt", b"m");
    assert_eq!(folder.line(), "verdict 0");
    fs::remove_file(folder.0.join("account.txt")).unwrap();
    assert_eq!(folder.line(), "refused 15 at 0");
}

#[test]
fn account_and_method_files_are_taken_octet_for_octet() {
    let rdata = b"\x00\x05issuex; accounturi=https://x/1; validationmethods=dns-01";
    let record = [
        b"\x01a\x00\x01\x01\x00\x01\x00\x00\x00\x00\x00",
        &[rdata.len() as u8][..],
        rdata,
    ]
    .concat();
    let folder = folder("octet-for-octet")
        .with("request.bin", REQUEST)
        .with("issuer.txt", b"x")
        .with("book.bin", &record);
    assert_eq!(folder.line(), "verdict 0");
    let folder = folder.with("account.txt", b"https://x/1\n");
    assert_eq!(folder.line(), "refused 15 at 0");
    let folder = folder.with("account.txt", b"https://x/2");
    assert_eq!(folder.line(), "verdict 21 name 0 record 0 up 0");
    let folder = folder
        .with("account.txt", b"https://x/1")
        .with("method.txt", b"dns-01\n");
    assert_eq!(folder.line(), "refused 15 at 0");
    let folder = folder.with("method.txt", b"DNS-01");
    assert_eq!(folder.line(), "verdict 21 name 0 record 0 up 0");
    // A bad issuer name is told first.
    let folder = folder.with("method.txt", b"").with("issuer.txt", b"x\n");
    assert_eq!(folder.line(), "refused 4 at 0");
}

#[test]
fn aliases_are_told() {
    let to_itself = b"\x01a\x00\x00\x05\x00\x01\x00\x00\x00\x00\x00\x03\x01A\x00";
    let folder = folder("aliases")
        .with("request.bin", REQUEST)
        .with("issuer.txt", b"x")
        .with("book.bin", to_itself);
    assert_eq!(folder.line(), "verdict 22 name 0 record 0 up 0");
    // The star is not counted.
    let folder = folder.with("request.bin", b"\x01*\x01w\x01x\x01a\x00");
    assert_eq!(folder.line(), "verdict 22 name 0 record 0 up 2");
    let folder = folder.with("request.bin", REQUEST);
    let folder = folder.with("book.bin", &to_itself.repeat(2));
    assert_eq!(folder.line(), "refused 12 at 1");
    let folder = folder.with("book.bin", &to_itself[..to_itself.len() - 1]);
    assert_eq!(folder.line(), "refused 6 at 0");
}

#[test]
fn other_files_that_cannot_be_read_are_empty() {
    let folder = Folder::new("folders").with("book.bin", b"");
    fs::create_dir(folder.0.join("issuer.txt")).unwrap();
    let folder = folder.with("request.bin", REQUEST);
    assert_eq!(folder.line(), "refused 4 at 0");
    fs::remove_file(folder.0.join("request.bin")).unwrap();
    fs::create_dir(folder.0.join("request.bin")).unwrap();
    assert_eq!(folder.line(), "refused 2 at 0");

    let folder = Folder::new("more-folders")
        .with("book.bin", b"")
        .with("request.bin", REQUEST)
        .with("issuer.txt", b"x")
        .with("account.txt", b"a");
    fs::create_dir(folder.0.join("method.txt")).unwrap();
    assert_eq!(folder.line(), "refused 15 at 0");
}

#[test]
fn a_line_end_in_the_issuer_file_is_refused() {
    let folder = Folder::new("line-end")
        .with("request.bin", REQUEST)
        .with("issuer.txt", b"x\n")
        .with("book.bin", b"");
    assert_eq!(folder.line(), "refused 4 at 0");
}

#[test]
fn a_file_over_a_limit_gets_the_limits_refusal() {
    let folder = folder("limit")
        .with("request.bin", &[0; 16_385])
        .with("issuer.txt", b"x")
        .with("book.bin", &[0; 49_153]);
    assert_eq!(folder.line(), "refused 1 at 0");
    let folder = folder.with("request.bin", REQUEST);
    assert_eq!(folder.line(), "refused 5 at 0");
}

/// A zero octet is no name, and FF no length of a label.
#[test]
fn a_file_as_long_as_may_be_is_read() {
    let folder = folder("as-long-as-may-be")
        .with("request.bin", &[0; 16_384])
        .with("issuer.txt", b"x")
        .with("book.bin", &[0xFF; 49_152]);
    assert_eq!(folder.line(), "refused 2 at 0");
    let folder = folder.with("request.bin", REQUEST);
    assert_eq!(folder.line(), "refused 6 at 0");
}

#[test]
fn names_and_records_over_their_limits_are_told() {
    let record = b"\x00\x00\x10\x00\x01\x00\x00\x00\x00\x00\x00";
    let folder = folder("too-many")
        .with("request.bin", &REQUEST.repeat(250))
        .with("issuer.txt", b"x")
        .with("book.bin", &record.repeat(1_024));
    assert_eq!(folder.line(), "verdict 0");
    let folder = folder.with("book.bin", &record.repeat(1_025));
    assert_eq!(folder.line(), "refused 7 at 1024");
    let folder = folder.with("request.bin", &REQUEST.repeat(251));
    assert_eq!(folder.line(), "refused 3 at 250");
}
