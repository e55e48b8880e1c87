//! Writing and reading lines with one mistake.

use compare::against::Other;
use compare::buffer::put_at_front;
use compare::calls::{Convert, Lines};
use compare::limits::{DATA_OCTETS, LINE_OCTETS};
use compare::{read_line, write_line, Made, Refusal, Word};

use super::is_found_at_random;

const OWN: Lines = compare::calls::Desk::OWN.lines;

/// Hands over what the mistake makes of what was made rightly.
fn with_mistake(
    right: fn(&[u8], &mut [u8]) -> Made,
    given: &[u8],
    buffer: &mut [u8],
    mistake: impl Fn(Vec<u8>) -> Vec<u8>,
) -> Result<Made, Word> {
    let mut room = vec![0; LINE_OCTETS];
    let made = match right(given, &mut room) {
        Made::Octets(octets) => mistake(room[..octets].to_vec()),
        refused => return Ok(refused),
    };
    Ok(match put_at_front(&made, buffer) {
        Ok(()) => Made::Octets(made.len()),
        Err(refusal) => Made::Refused(refusal),
    })
}

/// Every place of `old` put right by `new`.
fn replaced(octets: &[u8], old: &[u8], new: &[u8]) -> Vec<u8> {
    let mut made = Vec::new();
    let mut rest = octets;
    while let Some(&first) = rest.first() {
        if let Some(behind) = rest.strip_prefix(old) {
            made.extend(new);
            rest = behind;
        } else {
            made.push(first);
            rest = &rest[1..];
        }
    }
    made
}

fn all_are_found_out(wrong_ones: &[(&str, Convert)], lines: fn(Convert) -> Lines) {
    for &(mistake, convert) in wrong_ones {
        let other = Other {
            lines: Some(lines(convert)),
            ..Other::NOTHING
        };
        assert!(is_found_at_random(other), "{mistake}");
    }
}

#[test]
fn wrong_writers_are_found_out() {
    let wrong_ones: [(&str, Convert); 15] = [
        ("keeps upper case in the tag", |data, buffer| {
            with_mistake(write_line, data, buffer, |mut line| {
                let tag = line.iter().position(|&octet| octet == b' ').unwrap() + 1;
                let octets = usize::from(data[1]);
                line[tag..tag + octets].copy_from_slice(&data[2..2 + octets]);
                line
            })
        }),
        ("writes flags with three digits", |data, buffer| {
            with_mistake(write_line, data, buffer, |line| match line[1] {
                b' ' => [b"00", &line[..]].concat(),
                _ => line,
            })
        }),
        ("lets 127 stand as it is", |data, buffer| {
            with_mistake(write_line, data, buffer, |line| {
                replaced(&line, b"\\127", b"\x7F")
            })
        }),
        ("writes a space by its number", |data, buffer| {
            with_mistake(write_line, data, buffer, |line| {
                let value = line.iter().position(|&octet| octet == b'"').unwrap();
                let (fields, value) = line.split_at(value);
                [fields, &replaced(value, b" ", b"\\032")].concat()
            })
        }),
        ("lets a backslash stand alone", |data, buffer| {
            with_mistake(write_line, data, buffer, |line| {
                replaced(&line, b"\\\\", b"\\")
            })
        }),
        ("lets a quote stand alone", |data, buffer| {
            with_mistake(write_line, data, buffer, |line| {
                replaced(&line, b"\\\"", b"\"")
            })
        }),
        ("writes octets below 10 with two digits", |data, buffer| {
            with_mistake(write_line, data, buffer, |line| {
                replaced(&line, b"\\00", b"\\0")
            })
        }),
        ("leaves out empty quotes", |data, buffer| {
            with_mistake(write_line, data, buffer, |line| {
                replaced(&line, b"\"\"", b"")
            })
        }),
        ("ends the line", |data, buffer| {
            with_mistake(write_line, data, buffer, |line| [&line[..], b"\n"].concat())
        }),
        ("takes no digits in a tag", |data, buffer| {
            let tag = data.get(2..).unwrap_or_default();
            match tag.first().is_some_and(u8::is_ascii_digit) {
                true => Ok(Made::Refused(Refusal::BadData)),
                false => Ok(write_line(data, buffer)),
            }
        }),
        ("takes an octet more of data", |data, buffer| {
            Ok(match data.len() == DATA_OCTETS + 1 {
                true => write_line(&data[..DATA_OCTETS], buffer),
                false => write_line(data, buffer),
            })
        }),
        ("looks at the layout before the length", |data, buffer| {
            let front = &data[..data.len().min(DATA_OCTETS)];
            match write_line(front, &mut []) {
                Made::Refused(Refusal::BadData) => Ok(Made::Refused(Refusal::BadData)),
                _ => Ok(write_line(data, buffer)),
            }
        }),
        ("tells no octets needed", |data, buffer| {
            Ok(match write_line(data, buffer) {
                Made::Refused(Refusal::BufferTooShort { .. }) => {
                    Made::Refused(Refusal::BufferTooShort { needed: 0 })
                }
                made => made,
            })
        }),
        (
            "writes what there is room for, and refuses",
            |data, buffer| {
                let made = write_line(data, buffer);
                if let Made::Refused(Refusal::BufferTooShort { needed }) = made {
                    let mut room = vec![0; needed];
                    write_line(data, &mut room);
                    buffer.copy_from_slice(&room[..buffer.len()]);
                }
                Ok(made)
            },
        ),
        ("clears the rest of the buffer", |data, buffer| {
            let made = write_line(data, buffer);
            if let Made::Octets(octets) = made {
                buffer[octets..].fill(0);
            }
            Ok(made)
        }),
    ];
    all_are_found_out(&wrong_ones, |write| Lines { write, ..OWN });
}

#[test]
fn wrong_readers_of_lines_are_found_out() {
    let wrong_ones: [(&str, Convert); 21] = [
        ("makes the tag's letters small", |line, buffer| {
            with_mistake(read_line, line, buffer, |mut data| {
                let tag = 2 + usize::from(data[1]);
                data[2..tag].make_ascii_lowercase();
                data
            })
        }),
        ("takes no tab for a blank", |line, buffer| {
            Ok(match line.contains(&b'\t') {
                true => Made::Refused(Refusal::BadLine),
                false => read_line(line, buffer),
            })
        }),
        ("takes a line end for a blank", |line, buffer| {
            Ok(read_line(&replaced(line, b"\n", b" "), buffer))
        }),
        ("takes a tab in quotes", |line, buffer| {
            let quote = line.iter().position(|&octet| octet == b'"');
            let (fields, value) = line.split_at(quote.unwrap_or(line.len()));
            let value = replaced(value, b"\t", b"\\009");
            Ok(read_line(&[fields, &value].concat(), buffer))
        }),
        ("takes flags of four digits", |line, buffer| {
            Ok(match line {
                [b'0', b'0'..=b'9', b'0'..=b'9', b'0'..=b'9', ..] => read_line(&line[1..], buffer),
                _ => read_line(line, buffer),
            })
        }),
        ("takes no flags with needless zeros", |line, buffer| {
            Ok(match line {
                [b'0', b'0'..=b'9', ..] => Made::Refused(Refusal::BadLine),
                _ => read_line(line, buffer),
            })
        }),
        ("takes 256 for flags of 0", |line, buffer| {
            Ok(match line.strip_prefix(b"256") {
                Some(rest) => read_line(&[b"0", rest].concat(), buffer),
                None => read_line(line, buffer),
            })
        }),
        ("takes \\256 for the octet 0", |line, buffer| {
            Ok(read_line(&replaced(line, b"\\256", b"\\000"), buffer))
        }),
        ("takes an escape of two digits", |line, buffer| {
            Ok(read_line(&replaced(line, b"\\25\"", b"\\025\""), buffer))
        }),
        ("takes a lone backslash at the end", |line, buffer| {
            Ok(match line.split_last() {
                Some((b'\\', rest)) => read_line(rest, buffer),
                _ => read_line(line, buffer),
            })
        }),
        ("takes a semicolon bare", |line, buffer| {
            Ok(match line.contains(&b'"') {
                true => read_line(line, buffer),
                false => read_line(&replaced(line, b";", b"\\;"), buffer),
            })
        }),
        ("takes a bare value that is empty", |line, buffer| {
            Ok(match line.ends_with(b" ") {
                true => read_line(&[line, b"\"\""].concat(), buffer),
                false => read_line(line, buffer),
            })
        }),
        ("wants something in quotes", |line, buffer| {
            Ok(match line.ends_with(b" \"\"") {
                true => Made::Refused(Refusal::BadLine),
                false => read_line(line, buffer),
            })
        }),
        ("takes blanks before the whole", |line, buffer| {
            Ok(read_line(line.trim_ascii_start(), buffer))
        }),
        ("takes blanks after the whole", |line, buffer| {
            Ok(read_line(line.trim_ascii_end(), buffer))
        }),
        (
            "takes what stands behind the closing quote",
            |line, buffer| {
                Ok(match line.iter().rposition(|&octet| octet == b'"') {
                    Some(quote) => read_line(&line[..=quote], buffer),
                    None => read_line(line, buffer),
                })
            },
        ),
        ("takes hyphens in a tag", |line, buffer| {
            Ok(match line.strip_prefix(b"0 a- ") {
                Some(value) => read_line(&[b"0 ab ", value].concat(), buffer),
                None => read_line(line, buffer),
            })
        }),
        ("takes an octet more of the line", |line, buffer| {
            Ok(match line.len() == LINE_OCTETS + 1 {
                true => read_line(&replaced(line, b"  ", b" "), buffer),
                false => read_line(line, buffer),
            })
        }),
        (
            "stops reading where the data is too long",
            |line, buffer| {
                Ok(match read_line(line, buffer) {
                    Made::Refused(Refusal::BadLine) if line.len() > 2 * DATA_OCTETS => {
                        Made::Refused(Refusal::LineOrDataTooLong)
                    }
                    made => made,
                })
            },
        ),
        ("looks at the rules before the length", |line, buffer| {
            Ok(match line.len() > LINE_OCTETS && line.contains(&0xFF) {
                true => Made::Refused(Refusal::BadLine),
                false => read_line(line, buffer),
            })
        }),
        ("wants room for the line", |line, buffer| {
            let needed = line.len();
            Ok(match buffer.len() < needed {
                true => Made::Refused(Refusal::BufferTooShort { needed }),
                false => read_line(line, buffer),
            })
        }),
    ];
    all_are_found_out(&wrong_ones, |read| Lines { read, ..OWN });
}
