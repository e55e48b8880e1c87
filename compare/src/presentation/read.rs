//! From a line to CAA data.

use crate::answer::{Made, Refusal};
use crate::buffer::put_at_front;
use crate::limits::{DATA_OCTETS, LINE_OCTETS};
use crate::value::{is_blank, leading_blanks};

/// Reads a line as CAA data. Its tag is kept as it stands.
pub fn read_line(line: &[u8], buffer: &mut [u8]) -> Made {
    let read = data_of(line).and_then(|data| {
        put_at_front(&data, buffer)?;
        Ok(Made::Octets(data.len()))
    });
    read.unwrap_or_else(Made::Refused)
}

/// The whole line is read before its data is found too long.
fn data_of(line: &[u8]) -> Result<Vec<u8>, Refusal> {
    if line.len() > LINE_OCTETS {
        return Err(Refusal::LineOrDataTooLong);
    }
    let data = read_fields(line).ok_or(Refusal::BadLine)?;
    if data.len() > DATA_OCTETS {
        return Err(Refusal::LineOrDataTooLong);
    }
    Ok(data)
}

/// `flags blanks tag blanks value`, and nothing around it.
fn read_fields(line: &[u8]) -> Option<Vec<u8>> {
    let (flags, rest) = split_at_blanks(line)?;
    let (tag, value) = split_at_blanks(rest)?;
    let tag_length = u8::try_from(tag.len()).ok()?;
    if tag.is_empty() || !tag.iter().all(u8::is_ascii_alphanumeric) {
        return None;
    }
    let mut data = vec![decimal(flags)?, tag_length];
    data.extend(tag);
    read_value(value, &mut data).then_some(data)
}

/// What stands before the first blanks, and what stands behind them.
fn split_at_blanks(text: &[u8]) -> Option<(&[u8], &[u8])> {
    let blank = text.iter().position(|&octet| is_blank(octet))?;
    let (field, rest) = text.split_at(blank);
    Some((field, &rest[leading_blanks(rest)..]))
}

/// 1 to 3 digits, not above 255.
fn decimal(digits: &[u8]) -> Option<u8> {
    if !(1..=3).contains(&digits.len()) {
        return None;
    }
    digits.iter().try_fold(0u8, |number, octet| {
        let digit = octet.is_ascii_digit().then(|| octet - b'0')?;
        number.checked_mul(10)?.checked_add(digit)
    })
}

/// Adds the octets of a value, quoted or bare, and says whether it was one.
fn read_value(text: &[u8], data: &mut Vec<u8>) -> bool {
    match text.strip_prefix(b"\"") {
        Some(inside) => {
            let plain = |octet| matches!(octet, b' '..=b'~') && !matches!(octet, b'"' | b'\\');
            read_octets(inside, plain, data) == b"\""
        }
        None => {
            let plain = |octet| {
                matches!(octet, b'!'..=b'~') && !matches!(octet, b'"' | b'\\' | b';' | b'(' | b')')
            };
            !text.is_empty() && read_octets(text, plain, data).is_empty()
        }
    }
}

/// Adds octets up to the first place where none can be read, and hands back what stands there.
fn read_octets<'a>(
    mut text: &'a [u8],
    is_plain: impl Fn(u8) -> bool,
    data: &mut Vec<u8>,
) -> &'a [u8] {
    while let Some((octet, behind)) = read_octet(text, &is_plain) {
        data.push(octet);
        text = behind;
    }
    text
}

/// One octet, as it stands or escaped, and what stands behind it.
fn read_octet(text: &[u8], is_plain: impl Fn(u8) -> bool) -> Option<(u8, &[u8])> {
    match text {
        [b'\\', b'0'..=b'9', ..] => {
            let (digits, behind) = text[1..].split_at_checked(3)?;
            Some((decimal(digits)?, behind))
        }
        [b'\\', octet @ b' '..=b'~', behind @ ..] => Some((*octet, behind)),
        [octet, behind @ ..] if is_plain(*octet) => Some((*octet, behind)),
        _ => None,
    }
}

#[cfg(test)]
mod tests {
    use super::*;

    #[test]
    fn flags_are_one_to_three_digits_up_to_255() {
        for (digits, number) in [("0", 0), ("00", 0), ("007", 7), ("255", 255)] {
            assert_eq!(decimal(digits.as_bytes()), Some(number));
        }
        for digits in ["", "256", "999", "0000", "+1", "1a", " 1"] {
            assert_eq!(decimal(digits.as_bytes()), None, "{digits}");
        }
    }

    #[test]
    fn a_line_is_flags_tag_and_value() {
        let data = Some(b"\x80\x05Issueca".to_vec());
        for line in [
            r#"128 Issue "ca""#,
            "128 Issue ca",
            "128\t \tIssue   ca",
            r"128 Issue \c\097",
        ] {
            assert_eq!(read_fields(line.as_bytes()), data, "{line}");
        }
    }

    #[test]
    fn blanks_stand_between_fields_and_nowhere_else() {
        for line in [
            " 0 t v", "0 t v ", "0 t v\t", "0 t v w", "0 t ", "0 t", "0t v", "",
        ] {
            assert_eq!(read_fields(line.as_bytes()), None, "{line}");
        }
        assert!(read_fields(b"0 t \\ ").is_some());
        assert!(read_fields(b"0 t \" \"").is_some());
    }
}
