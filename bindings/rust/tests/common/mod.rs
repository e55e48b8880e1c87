//! Requests and books from readable names.

// Each test program uses its own part of this.
#![allow(dead_code)]

use splinepearl::{Judgement, PermittedIssuers};

/// A good account text and a good method text.
pub const ACCOUNT: &[u8] = b"https://ca1.example.net/acct/230123";
pub const METHOD: &[u8] = b"dns-01";

/// [`splinepearl::judge`] for the good account and method.
pub fn judge(request: &[u8], issuer: &[u8], book: &[u8]) -> Judgement {
    splinepearl::judge(request, issuer, ACCOUNT, METHOD, book)
}

/// [`splinepearl::permitted_issuers`] for the good account and method.
pub fn permitted_issuers<'a>(
    request: &[u8],
    book: &[u8],
    buffer: &'a mut [u8],
) -> PermittedIssuers<'a> {
    splinepearl::permitted_issuers(request, ACCOUNT, METHOD, book, buffer)
}

/// A name in wire form.
pub fn name(text: &str) -> Vec<u8> {
    let mut wire = Vec::new();
    for label in text.split('.').filter(|label| !label.is_empty()) {
        wire.push(label.len() as u8);
        wire.extend(label.bytes());
    }
    wire.push(0);
    wire
}

/// Names in wire form, end to end.
pub fn request(names: &[&str]) -> Vec<u8> {
    names.iter().flat_map(|text| name(text)).collect()
}

/// CAA data.
pub fn data(flags: u8, tag: &str, value: &[u8]) -> Vec<u8> {
    let mut data = vec![flags, tag.len() as u8];
    data.extend(tag.bytes());
    data.extend(value);
    data
}

/// A resource record of class 1 with a time to live of 0.
pub fn record(owner: &str, rr_type: u16, data: &[u8]) -> Vec<u8> {
    let mut record = name(owner);
    record.extend(rr_type.to_be_bytes());
    record.extend([0, 1, 0, 0, 0, 0]);
    record.extend((data.len() as u16).to_be_bytes());
    record.extend(data);
    record
}

/// A CAA record without flags.
pub fn caa(owner: &str, tag: &str, value: &str) -> Vec<u8> {
    record(owner, 257, &data(0, tag, value.as_bytes()))
}

/// An alias: a CNAME record.
pub fn cname(owner: &str, target: &str) -> Vec<u8> {
    record(owner, 5, &name(target))
}

/// The book of the requirements' whole case.
pub fn whole_case_book() -> Vec<u8> {
    [
        caa("example.com", "issue", "CA1.example.net"),
        caa("example.com", "issue", "ca2.example.org; account=230123"),
        caa("example.com", "issue", "ca1.example.net"),
        caa("pay.example.com", "issue", "ca2.example.org"),
    ]
    .concat()
}
