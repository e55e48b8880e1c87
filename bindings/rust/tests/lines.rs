//! CAA data to a line and back.

mod common;

use common::data;
use splinepearl::{read_line, write_line, MAX_DATA_OCTETS, MAX_LINE_OCTETS};

fn written(data: &[u8]) -> String {
    let mut buffer = [0; MAX_LINE_OCTETS];
    write_line(data, &mut buffer).unwrap().to_owned()
}

fn read(line: &str) -> Vec<u8> {
    let mut buffer = [0; MAX_DATA_OCTETS];
    read_line(line.as_bytes(), &mut buffer).unwrap().to_owned()
}

#[test]
fn lines_of_rfc_8659() {
    for line in [
        r#"0 issue "ca1.example.net""#,
        r#"0 issue "ca1.example.net; account=230123""#,
        r#"0 issue ";""#,
        r#"0 issue """#,
        r#"0 issue "%%%%%""#,
        r#"0 iodef "mailto:security@example.com""#,
        r#"128 tbs "Unknown""#,
    ] {
        assert_eq!(written(&read(line)), line);
    }
}

#[test]
fn every_octet_there_and_back() {
    let every: Vec<u8> = (0..=255).collect();
    let data = data(255, "tag1", &every);
    let line = written(&data);
    assert!(line.starts_with(r#"255 tag1 "\000\001"#));
    assert!(line.contains(r##"\031 !\"#$%"##));
    assert!(line.contains(r#"[\\]"#));
    assert!(line.contains(r#"}~\127"#));
    assert!(line.ends_with(r#"\254\255""#));
    assert_eq!(read(&line), data);
}

#[test]
fn only_the_tag_s_letter_case_is_lost() {
    assert_eq!(written(&data(0, "IssueWild", b"CA")), r#"0 issuewild "CA""#);
    assert_eq!(read(r#"0 IssueWild "CA""#), data(0, "IssueWild", b"CA"));
}

#[test]
fn a_line_may_be_written_in_other_ways() {
    let plain = data(7, "issue", b"ca1.example.net");
    for line in [
        "7 issue ca1.example.net",
        "007 issue \"ca1.example.net\"",
        "7 \t issue\tca1\\.example\\046net",
    ] {
        assert_eq!(read(line), plain);
    }
    assert_eq!(read(r"0 t a\ b\;"), data(0, "t", b"a b;"));
}

#[test]
fn the_longest_data_fits_the_longest_line() {
    let longest = data(255, "t", &[0; MAX_DATA_OCTETS - 3]);
    assert_eq!(longest.len(), MAX_DATA_OCTETS);
    assert_eq!(read(&written(&longest)), longest);
}
