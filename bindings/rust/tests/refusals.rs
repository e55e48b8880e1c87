//! Every numbered refusal, with the number that goes with it, and both sides of its limit if it has one.

mod common;

use common::{caa, data, judge, name, permitted_issuers, record};
use splinepearl::{
    read_line, write_line, Judgement, PermittedIssuers, Refusal, MAX_DATA_OCTETS, MAX_LINE_OCTETS,
};

const ISSUER: &[u8] = b"ca1.example.net";

/// Both calls refuse a request or a book alike, and leave the buffer alone.
#[track_caller]
fn refused(request: &[u8], book: &[u8], refusal: Refusal) {
    assert_eq!(judge(request, ISSUER, book), Judgement::Refused(refusal));
    let mut buffer = [0xA5; 64];
    assert_eq!(
        permitted_issuers(request, book, &mut buffer),
        PermittedIssuers::Refused(refusal)
    );
    assert_eq!(buffer, [0xA5; 64]);
}

#[track_caller]
fn judged(request: &[u8], book: &[u8]) {
    assert_eq!(judge(request, ISSUER, book), Judgement::Permitted);
}

#[test]
fn requests() {
    refused(&[], &[], Refusal::BadName { name: 0 });
    refused(
        &[name("a"), name("-a")].concat(),
        &[],
        Refusal::BadName { name: 1 },
    );
    // 100 names were the limit before.
    for names in [100, 101, 250] {
        judged(&name("a").repeat(names), &[]);
    }
    refused(
        &name("a").repeat(251),
        &[],
        Refusal::TooManyNames { read: 250 },
    );
    // Names of 128 octets, and the last of 128 or 129. 8,192 octets were the limit before.
    let long = |octets: usize| name(&format!("{}.{}", "a".repeat(63), "a".repeat(octets - 66)));
    let request = |names: usize, last| [long(128).repeat(names - 1), long(last)].concat();
    for (names, last, octets) in [(64, 128, 8_192), (64, 129, 8_193), (128, 128, 16_384)] {
        assert_eq!(request(names, last).len(), octets);
        judged(&request(names, last), &[]);
    }
    refused(&request(128, 129), &[], Refusal::RequestTooLong);
    refused(&[0; 16_384], &[], Refusal::BadName { name: 0 });
    refused(&[0; 16_385], &[], Refusal::RequestTooLong);
}

#[test]
fn issuer_names() {
    for issuer in [&b""[..], b"ca1.example.net.", b"ca1.example.net\n", b"ca_1"] {
        assert_eq!(
            judge(&name("a"), issuer, &[]),
            Judgement::Refused(Refusal::BadIssuer)
        );
    }
}

#[test]
fn books() {
    let (request, good) = (name("a"), record("b", 1, &[]));
    let cut = &good[..good.len() - 1];
    refused(
        &request,
        &[&good[..], cut].concat(),
        Refusal::BadRecord { record: 1 },
    );
    let empty_tag = record("b", 257, &data(0, "", b"x"));
    refused(&request, &empty_tag, Refusal::BadRecord { record: 0 });
    // A tag octet that is no letter or digit, critical or not, at an owner that nobody asks for.
    for flags in [0, 128] {
        let tagged = |tag| [good.clone(), record("b", 257, &data(flags, tag, b"_"))].concat();
        judged(&request, &tagged("T0z"));
        for tag in ["tb_s", "_tbs", "tbs_", "a-b", "issue "] {
            refused(&request, &tagged(tag), Refusal::BadRecord { record: 1 });
        }
    }
    // 256 records were the limit before.
    for records in [256, 257, 1_024] {
        judged(&request, &good.repeat(records));
    }
    refused(
        &request,
        &good.repeat(1_025),
        Refusal::TooManyRecords { read: 1_024 },
    );
    // One record that fills the book. 32,768 octets were the limit before.
    let filled = |octets: usize| record("b", 1, &vec![0; octets - 13]);
    for octets in [32_768, 32_769, 49_152] {
        assert_eq!(filled(octets).len(), octets);
        judged(&request, &filled(octets));
    }
    refused(&request, &filled(49_153), Refusal::BookTooLong);
    refused(&request, &[255; 49_152], Refusal::BadRecord { record: 0 });
    refused(&request, &[255; 49_153], Refusal::BookTooLong);
}

#[test]
fn room() {
    let book = caa("a", "issue", "x");
    assert_eq!(
        permitted_issuers(&name("a"), &book, &mut [0]),
        PermittedIssuers::Refused(Refusal::NoRoom { needed: 2 })
    );
    let mut buffer = [0xA5; 10];
    assert_eq!(
        write_line(b"\x00\x01tx", &mut buffer),
        Ok(r#"0 t "x""#),
        "7 octets"
    );
    assert_eq!(
        write_line(b"\x00\x01tx", &mut buffer[..6]),
        Err(Refusal::NoRoom { needed: 7 })
    );
    assert_eq!(
        read_line(b"0 t xyz", &mut buffer[..5]),
        Err(Refusal::NoRoom { needed: 6 })
    );
    assert_eq!(&buffer, b"0 t \"x\"\xA5\xA5\xA5");
}

#[test]
fn lines() {
    let mut buffer = [0xA5; MAX_DATA_OCTETS];
    for line in [
        &b""[..],
        b"256 issue x",
        b"0000 issue x",
        b" 0 issue x",
        b"0 issue x ",
        b"0 issue \"x\"\n",
        b"0 issue",
        b"0 tb_s x",
        b"0 issue \"x",
        b"0 issue a;b",
        b"0 issue \"\\256\"",
    ] {
        assert_eq!(read_line(line, &mut buffer), Err(Refusal::BadLine));
    }
    assert_eq!(
        read_line(&[b'0'; MAX_LINE_OCTETS + 1], &mut buffer),
        Err(Refusal::LineTooLong)
    );
    // Data of 4,096 octets has a value of 4,093 octets after a tag of one octet.
    let line = |length| format!("0 t {}", "x".repeat(length));
    assert_eq!(
        read_line(line(4_094).as_bytes(), &mut buffer),
        Err(Refusal::LineTooLong)
    );
    assert_eq!(buffer, [0xA5; MAX_DATA_OCTETS]);
    assert_eq!(
        read_line(line(4_093).as_bytes(), &mut buffer).map(<[u8]>::len),
        Ok(MAX_DATA_OCTETS)
    );
}

#[test]
fn data_to_be_written() {
    let mut buffer = [0xA5; 64];
    for bad in [
        &b""[..],
        b"\x00",
        b"\x00\x00",
        b"\x00\x02t",
        b"\x00\x04tb_sx",
    ] {
        assert_eq!(write_line(bad, &mut buffer), Err(Refusal::BadData));
    }
    assert_eq!(
        write_line(&[0; MAX_DATA_OCTETS + 1], &mut buffer),
        Err(Refusal::LineTooLong)
    );
    assert_eq!(buffer, [0xA5; 64]);
}
