//! May this certificate authority issue? The CAA rules of RFC 8659 and RFC 8657, by a proved library.
//!
//! Safe wrappers for the calls of `libsplinepearl.a`: slices in, enums out. Each call accepts any
//! octets and checks them itself. None panics, allocates, keeps state or reads anything but its
//! parameters. What a [`Session`] knows is in there, and the caller keeps it.
//!
//! - [`judge`]: may this issuer issue for these names, for this account and by this validation method, by
//!   these records?
//! - [`permitted_issuers`]: who may?
//! - [`Session`]: may this issuer issue for one name, by one lookup after the other?
//! - [`write_line`] and [`read_line`]: CAA data as a line of text, and back.
//!
//! A request is a list of DNS names, not a CSR; a book is a list of resource records. Both are in the
//! wire form of RFC 1035, one item after the other, without compression:
//!
//! ```
//! use splinepearl::{judge, permitted_issuers, Judgement, PermittedIssuers};
//!
//! let request = b"\x03www\x07example\x03com\x00";
//! // The account that asks, and the validation method used (RFC 8657).
//! let (account, method) = (b"https://ca1.example.net/acct/230123", b"dns-01");
//! // example.com IN CAA 0 issue "ca1.example.net", with a time to live of 0
//! let book = b"\x07example\x03com\x00\x01\x01\x00\x01\x00\x00\x00\x00\x00\x16\x00\x05issueca1.example.net";
//!
//! assert_eq!(
//!     judge(request, b"ca1.example.net", account, method, book),
//!     Judgement::Permitted
//! );
//! assert_eq!(
//!     judge(request, b"notca1.example.net", account, method, book),
//!     // The first name, by the first record, which stands one label up: www is taken off.
//!     Judgement::NotGranted { name: 0, record: 0, up: 1 }
//! );
//!
//! let mut buffer = vec![0; book.len()];
//! match permitted_issuers(request, account, method, book, &mut buffer) {
//!     PermittedIssuers::Anyone => println!("anyone"),
//!     PermittedIssuers::List(issuers) => {
//!         assert_eq!(issuers.iter().collect::<Vec<_>>(), ["ca1.example.net"]);
//!     }
//!     PermittedIssuers::Refused(refusal) => println!("{refusal:#}"),
//! }
//! ```
//!
//! # Building
//!
//! Set the environment variable `SPLINEPEARL_LIBS` to the absolute path of the folder that holds
//! `libsplinepearl.a`. `bash scripts/archive.sh splinepearl` writes it to `target/staticlib`. It is
//! for x86-64 Linux.
//!
//! # Stack
//!
//! A call needs stack that this crate can't check: docs/ASSUMPTIONS.md of the repository has the
//! figures.

#![deny(missing_docs)]
// Denied, not forbidden: only `foreign`, which calls the library, allows it.
#![deny(unsafe_code)]

mod foreign;
mod issuers;
mod judgement;
mod lines;
mod refusal;
mod session;
mod word;

pub use issuers::{permitted_issuers, IssuerList, Issuers, PermittedIssuers};
pub use judgement::{judge, Judgement};
pub use lines::{read_line, write_line, MAX_DATA_OCTETS, MAX_LINE_OCTETS};
pub use refusal::Refusal;
pub use session::{Session, Verdict, SESSION_OCTETS};
