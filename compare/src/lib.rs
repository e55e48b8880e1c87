//! An independent implementation of CAA (RFC 8659 with the limits of RFC 8657), written from the
//! requirements, the RFCs and the readings of docs/DECISIONS.md, so that its answers can be compared
//! with those of the proved library.
//!
//! Four calls: [`judge()`] says whether an issuer may sign a request, [`permitted_issuers`] says who
//! may, [`write_line`] and [`read_line`] turn a record's CAA data into a line and back. All take raw
//! octets and check everything themselves. A [`Session`] judges one name by one lookup after the other.
//!
//! [`against`] compares the answers of another implementation with those of this one, reader by
//! reader and call by call; [`library`] is the one it is made for. [`mod@bench`] measures its calls
//! next to ours, and next to the [yardstick](bench::yardstick), a third program that is written for
//! speed comparisons alone.

// Denied and not forbidden: `library` calls foreign functions, and allows it for itself alone.
#![deny(unsafe_code)]

pub mod against;
pub mod answer;
pub mod applicant;
pub mod bench;
pub mod book;
pub mod buffer;
pub mod calls;
pub mod cases;
pub mod desk;
pub mod generate;
pub mod issuer;
pub mod judge;
pub mod library;
pub mod limits;
pub mod name;
pub mod parameters;
pub mod permitted;
pub mod presentation;
pub mod readers;
pub mod request;
pub mod rule;
pub mod session;
pub mod small_stack;
pub mod value;
pub mod word;

pub use answer::{Answer, Made, Permitted, Refusal, Reply};
pub use applicant::read_applicant;
pub use book::read_book;
pub use issuer::read_issuer;
pub use judge::judge;
pub use permitted::permitted_issuers;
pub use presentation::{read_line, write_line};
pub use request::read_request;
pub use session::Session;
pub use value::read_value;
pub use word::Word;
