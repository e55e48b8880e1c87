//! From CAA data to a line.

use crate::answer::{Made, Refusal};
use crate::book::read_property;
use crate::buffer::put_at_front;
use crate::limits::DATA_OCTETS;

/// Writes CAA data as a line: flags, tag in lower case, value in double quotes.
pub fn write_line(data: &[u8], buffer: &mut [u8]) -> Made {
    let written = line_of(data).and_then(|line| {
        put_at_front(&line, buffer)?;
        Ok(Made::Octets(line.len()))
    });
    written.unwrap_or_else(Made::Refused)
}

/// An octet of data takes at most four of the line, so no line is too long.
fn line_of(data: &[u8]) -> Result<Vec<u8>, Refusal> {
    if data.len() > DATA_OCTETS {
        return Err(Refusal::LineOrDataTooLong);
    }
    let property = read_property(data)
        .filter(|property| property.has_good_tag())
        .ok_or(Refusal::BadData)?;
    let mut line = property.flags.to_string().into_bytes();
    line.push(b' ');
    line.extend(property.tag.to_ascii_lowercase());
    line.extend(b" \"");
    for &octet in property.value {
        match octet {
            b'"' | b'\\' => line.extend([b'\\', octet]),
            b' '..=b'~' => line.push(octet),
            _ => line.extend(by_number(octet)),
        }
    }
    line.push(b'"');
    Ok(line)
}

/// `\` and three decimal digits.
fn by_number(octet: u8) -> [u8; 4] {
    let digit = |number: u8| b'0' + number % 10;
    [b'\\', digit(octet / 100), digit(octet / 10), digit(octet)]
}

#[cfg(test)]
mod tests {
    use super::*;

    fn written(data: &[u8]) -> Result<String, Refusal> {
        line_of(data).map(|line| String::from_utf8(line).unwrap())
    }

    #[test]
    fn fields_are_parted_by_one_space() {
        assert_eq!(
            written(b"\x80\x05Issueca1.example.net").unwrap(),
            r#"128 issue "ca1.example.net""#
        );
        assert_eq!(written(b"\x00\x01t").unwrap(), r#"0 t """#);
    }

    #[test]
    fn octets_stand_as_they_are_or_escaped() {
        assert_eq!(
            written(b"\x07\x01t\x00\x1F !\"\\~\x7F\xFF").unwrap(),
            r#"7 t "\000\031 !\"\\~\127\255""#
        );
    }

    #[test]
    fn tags_are_letters_and_digits() {
        assert!(written(b"\x00\x04aZ09").is_ok());
        for octet in *b"-_ /:@[`{\x00\xE1" {
            assert_eq!(written(&[0, 1, octet]), Err(Refusal::BadData));
        }
    }
}
