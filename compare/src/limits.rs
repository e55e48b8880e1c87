//! The limits of the requirements, each under one name.

/// Octets of a request.
pub const REQUEST_OCTETS: usize = 16_384;
/// Names in a request.
pub const REQUEST_NAMES: usize = 250;
/// Octets of a book.
pub const BOOK_OCTETS: usize = 49_152;
/// Records in a book.
pub const BOOK_RECORDS: usize = 1_024;
/// Aliases that are followed from one name.
pub const ALIASES: usize = 8;
/// Octets of a name in wire form, its closing zero octet included (RFC 1035 section 2.3.4).
pub const NAME_OCTETS: usize = 255;
/// Octets of a label (RFC 1035 section 2.3.4).
pub const LABEL_OCTETS: usize = 63;
/// Octets of an issuer domain name as text.
pub const ISSUER_OCTETS: usize = 253;
/// Octets of an account text, and of a method text.
pub const APPLICANT_OCTETS: usize = 255;
/// Octets of CAA data that is written as a line or read from one.
pub const DATA_OCTETS: usize = 4_096;
/// Octets of a line.
pub const LINE_OCTETS: usize = 16_384;
