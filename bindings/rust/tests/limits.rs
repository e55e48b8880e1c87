//! The account and the method: refusal 15, and records that limit their grant to them (RFC 8657).

mod common;

use common::{caa, name, ACCOUNT, METHOD};
use splinepearl::{judge, permitted_issuers, Judgement, PermittedIssuers, Refusal};

const ISSUER: &[u8] = b"ca1.example.net";

/// The most octets of an account or a method.
const MOST: usize = 255;

/// Both calls take this account and this method.
#[track_caller]
fn taken(account: &[u8], method: &[u8]) {
    assert!(judge(&name("a"), ISSUER, account, method, &[]).is_permitted());
    assert_eq!(
        permitted_issuers(&name("a"), account, method, &[], &mut []),
        PermittedIssuers::Anyone
    );
}

/// Both calls refuse this account or this method, and leave the buffer alone.
#[track_caller]
fn refused(account: &[u8], method: &[u8]) {
    let book = caa("a", "issue", "ca1.example.net");
    assert_eq!(
        judge(&name("a"), ISSUER, account, method, &book),
        Judgement::Refused(Refusal::BadAccountOrMethod)
    );
    let mut buffer = [0xA5; 64];
    assert_eq!(
        permitted_issuers(&name("a"), account, method, &book, &mut buffer),
        PermittedIssuers::Refused(Refusal::BadAccountOrMethod)
    );
    assert_eq!(buffer, [0xA5; 64]);
}

/// Refused as an account and as a method.
#[track_caller]
fn refused_as_either(text: &[u8]) {
    refused(text, METHOD);
    refused(ACCOUNT, text);
}

#[test]
fn good_texts_are_taken() {
    taken(ACCOUNT, METHOD);
    taken(b"!", b"~");
}

#[test]
fn an_empty_text_is_refused() {
    refused_as_either(b"");
    refused(b"", b"");
}

#[test]
fn a_text_of_255_octets_is_taken() {
    taken(&[b'a'; MOST], METHOD);
    taken(ACCOUNT, &[b'm'; MOST]);
}

#[test]
fn a_text_of_256_octets_is_refused() {
    refused_as_either(&[b'a'; MOST + 1]);
}

#[test]
fn white_space_is_refused() {
    refused_as_either(b"dns 01");
    refused_as_either(b" dns-01");
    refused_as_either(b"dns-01\t");
}

#[test]
fn a_line_end_is_refused() {
    refused_as_either(b"dns-01\n");
    refused_as_either(b"dns-01\r\n");
}

#[test]
fn a_semicolon_is_refused() {
    taken(b"a:b", b"a<b");
    refused_as_either(b"a;b");
}

#[test]
fn an_octet_over_126_is_refused() {
    refused_as_either(b"a\x7F");
    refused_as_either(b"a\x80");
    refused_as_either(b"\xFF");
}

#[test]
fn an_octet_under_33_is_refused() {
    refused_as_either(b"a\x20");
    refused_as_either(b"a\x00");
}

#[test]
fn a_comma_is_refused_in_the_method_alone() {
    taken(b"a,b", METHOD);
    refused(ACCOUNT, b"a,b");
}

/// The request and the issuer name are checked before the account and the method, the book and the buffer after.
#[test]
fn order_of_checks() {
    let (bad, cut, good) = (b"-", [0], name("a"));
    assert_eq!(
        judge(&cut, bad, b"", METHOD, &cut),
        Judgement::Refused(Refusal::BadName { name: 0 })
    );
    assert_eq!(
        judge(&good, bad, b"", METHOD, &cut),
        Judgement::Refused(Refusal::BadIssuer)
    );
    assert_eq!(
        judge(&good, ISSUER, ACCOUNT, b"", &cut),
        Judgement::Refused(Refusal::BadAccountOrMethod)
    );
    assert_eq!(
        permitted_issuers(&cut, b"", METHOD, &cut, &mut []),
        PermittedIssuers::Refused(Refusal::BadName { name: 0 })
    );
    assert_eq!(
        permitted_issuers(&good, b"", METHOD, &cut, &mut []),
        PermittedIssuers::Refused(Refusal::BadAccountOrMethod)
    );
    let book = caa("a", "issue", "ca1.example.net");
    assert_eq!(
        permitted_issuers(&good, ACCOUNT, b"", &book, &mut []),
        PermittedIssuers::Refused(Refusal::BadAccountOrMethod)
    );
}

/// One record with these parameters after the issuer name: both calls say whether it grants.
#[track_caller]
fn grants(parameters: &str, granted: bool) {
    let book = caa("a", "issue", &format!("ca1.example.net; {parameters}"));
    let verdict = if granted {
        Judgement::Permitted
    } else {
        Judgement::NotGranted {
            name: 0,
            record: 0,
            up: 0,
        }
    };
    assert_eq!(judge(&name("a"), ISSUER, ACCOUNT, METHOD, &book), verdict);
    let mut buffer = vec![0; book.len()];
    match permitted_issuers(&name("a"), ACCOUNT, METHOD, &book, &mut buffer) {
        PermittedIssuers::List(list) => assert_eq!(list.is_empty(), !granted),
        other => panic!("{other}"),
    }
}

#[test]
fn limits_of_the_account() {
    grants("accounturi=https://ca1.example.net/acct/230123", true);
    grants("AccountURI = https://ca1.example.net/acct/230123 ", true);
    grants("accounturi=https://ca1.example.net/acct/230124", false);
    grants("accounturi=https://ca1.example.net/acct/23012", false);
    grants("accounturi=https://CA1.example.net/acct/230123", false);
    grants("accounturi=", false);
}

#[test]
fn limits_of_the_method() {
    grants("validationmethods=dns-01", true);
    grants("ValidationMethods=http-01,dns-01", true);
    grants("validationmethods=http-01", false);
    grants("validationmethods=DNS-01", false);
    grants("validationmethods=dns-0,dns-011", false);
}

#[test]
fn an_empty_item_grants_nobody() {
    for list in ["", "dns-01,", ",dns-01", "dns-01,,http-01"] {
        grants(&format!("validationmethods={list}"), false);
    }
}

#[test]
fn a_limit_given_twice_grants_nobody() {
    grants("validationmethods=dns-01; validationmethods=dns-01", false);
    grants(
        "accounturi=https://ca1.example.net/acct/230123; \
         AccountUri=https://ca1.example.net/acct/230123",
        false,
    );
}

#[test]
fn both_limits_have_to_be_met() {
    let account = "accounturi=https://ca1.example.net/acct/230123";
    grants(&format!("{account}; validationmethods=dns-01"), true);
    grants(&format!("{account}; validationmethods=http-01"), false);
    grants("accounturi=x; validationmethods=dns-01", false);
}

#[test]
fn other_parameters_do_not_matter() {
    grants("account=1; account=2; tier=", true);
}
