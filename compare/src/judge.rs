//! May this issuer sign this request, asked for by this account and validated by this method?

use crate::answer::{Answer, Refusal};
use crate::applicant::read_applicant;
use crate::book::read_book;
use crate::issuer::{read_issuer, IssuerName};
use crate::request::read_request;
use crate::rule::{standing, Records, Standing};

pub fn judge(request: &[u8], issuer: &[u8], account: &[u8], method: &[u8], book: &[u8]) -> Answer {
    verdict(request, issuer, account, method, book).unwrap_or_else(Answer::Refused)
}

/// The inputs are checked in the order of the requirements: request, issuer name, account and method,
/// book.
fn verdict(
    request: &[u8],
    issuer: &[u8],
    account: &[u8],
    method: &[u8],
    book: &[u8],
) -> Result<Answer, Refusal> {
    let names = read_request(request)?;
    let issuer = read_issuer(issuer)?;
    let applicant = read_applicant(account, method)?;
    let book = read_book(book)?;
    let records = Records::of(&book, applicant);
    for (name, requested) in names.iter().enumerate() {
        match verdict_on(name, &standing(&records, requested), &issuer) {
            Answer::Permitted => {}
            other => return Ok(other),
        }
    }
    Ok(Answer::Permitted)
}

/// The verdict on one name, which has this number in its request.
pub fn verdict_on(name: usize, standing: &Standing, issuer: &IssuerName) -> Answer {
    match *standing {
        Standing::Unrestricted => Answer::Permitted,
        Standing::Governed { ref grantees, .. } if grantees.contains(&issuer) => Answer::Permitted,
        Standing::UnknownCritical { record, up } => Answer::UnknownCritical { name, record, up },
        Standing::TooManyAliases { record, up } => Answer::TooManyAliases { name, record, up },
        Standing::Governed {
            first_governing: record,
            up,
            ..
        } => Answer::NotGranted { name, record, up },
    }
}
