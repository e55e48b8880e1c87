//! How the case files write octets: text with escapes and repeats, dotted names, and hex.

/// One written octet. An escaped dot is part of a label, a plain one parts labels.
#[derive(Clone, Copy)]
struct Written {
    octet: u8,
    escaped: bool,
}

/// Text: printable ASCII as it stands, `\DDD` an octet by decimal number, `\` before any other
/// character that character, `{N}` behind an octet for N of it, and `{N:TEXT}` for N times that text.
pub fn text(notation: &str) -> Result<Vec<u8>, String> {
    Ok(written(notation)?.iter().map(|w| w.octet).collect())
}

/// A name in wire form from its dotted form; `.` alone is the root. Lengths are not checked against
/// the limits, so that bad names can be written too.
pub fn wire_name(notation: &str) -> Result<Vec<u8>, String> {
    if notation == "." {
        return Ok(vec![0]);
    }
    let mut wire = Vec::new();
    for label in written(notation)?.split(|w| w.octet == b'.' && !w.escaped) {
        let length = u8::try_from(label.len()).map_err(|_| "a label over 255 octets")?;
        if length == 0 {
            return Err(format!("an empty label in `{notation}`"));
        }
        wire.push(length);
        wire.extend(label.iter().map(|w| w.octet));
    }
    wire.push(0);
    Ok(wire)
}

/// Octets of two hex digits each, blanks between them; `{N}` behind an octet for N of it.
pub fn hex(notation: &str) -> Result<Vec<u8>, String> {
    let mut octets = Vec::new();
    for word in notation.split_whitespace() {
        let (digits, behind) = word.split_at_checked(2).ok_or("a lone hex digit")?;
        let octet = u8::from_str_radix(digits, 16).map_err(|_| format!("`{digits}` is no hex"))?;
        let times = match behind {
            "" => 1,
            _ => match repeat(behind)? {
                Some((times, "")) => times,
                _ => return Err(format!("`{word}` is no octet")),
            },
        };
        octets.extend(vec![octet; times]);
    }
    Ok(octets)
}

/// Writes octets so that `hex` reads them; four or more of an octet in a row as a repeat.
pub fn to_hex(octets: &[u8]) -> String {
    let run_in_hex = |run: &[u8]| match run {
        [octet, _, _, _, ..] => format!("{octet:02X}{{{}}}", run.len()),
        _ => {
            let each: Vec<String> = run.iter().map(|octet| format!("{octet:02X}")).collect();
            each.join(" ")
        }
    };
    let runs = octets.chunk_by(|one, next| one == next);
    runs.map(run_in_hex).collect::<Vec<_>>().join(" ")
}

fn written(notation: &str) -> Result<Vec<Written>, String> {
    let mut octets = Vec::new();
    let mut rest = notation;
    while !rest.is_empty() {
        if let Some((times, group, behind)) = repeated_group(rest)? {
            octets.extend(written(group)?.repeat(times));
            rest = behind;
        } else {
            let (one, behind) = one_octet(rest)?;
            let (times, behind) = repeat(behind)?.unwrap_or((1, behind));
            octets.extend(vec![one; times]);
            rest = behind;
        }
    }
    Ok(octets)
}

fn one_octet(notation: &str) -> Result<(Written, &str), String> {
    let (escaped, rest) = match notation.strip_prefix('\\') {
        Some(rest) => (true, rest),
        None => (false, notation),
    };
    if escaped && rest.starts_with(|c: char| c.is_ascii_digit()) {
        let (digits, behind) = rest
            .split_at_checked(3)
            .ok_or("an escape of under 3 digits")?;
        let octet = digits
            .parse()
            .map_err(|_| format!("`\\{digits}` is no octet"))?;
        return Ok((Written { octet, escaped }, behind));
    }
    match rest.as_bytes().first() {
        Some(b'{') if !escaped => Err(format!("`{notation}` repeats nothing")),
        Some(&octet @ b' '..=b'~') => Ok((Written { octet, escaped }, &rest[1..])),
        _ => Err(format!("`{notation}` holds no printable ASCII here")),
    }
}

/// A `{N}` at the front, and what stands behind it.
fn repeat(notation: &str) -> Result<Option<(usize, &str)>, String> {
    match braces(notation)? {
        Some((times, behind)) if !times.contains(':') => Ok(Some((number(times)?, behind))),
        _ => Ok(None),
    }
}

/// A `{N:TEXT}` at the front: how often, the text, and what stands behind it.
fn repeated_group(notation: &str) -> Result<Option<(usize, &str, &str)>, String> {
    match braces(notation)? {
        Some((inside, behind)) => match inside.split_once(':') {
            Some((times, group)) => Ok(Some((number(times)?, group, behind))),
            None => Ok(None),
        },
        None => Ok(None),
    }
}

/// What stands in braces at the front, and what stands behind them.
fn braces(notation: &str) -> Result<Option<(&str, &str)>, String> {
    match notation.strip_prefix('{') {
        Some(inside) => Ok(Some(inside.split_once('}').ok_or("a `{` without its `}`")?)),
        None => Ok(None),
    }
}

/// Text in double quotes.
pub fn quoted(notation: &str) -> Result<Vec<u8>, String> {
    let inside = notation
        .strip_prefix('"')
        .and_then(|rest| rest.strip_suffix('"'))
        .ok_or_else(|| format!("`{notation}` is not in quotes"))?;
    text(inside)
}

pub fn number<N: std::str::FromStr>(digits: &str) -> Result<N, String> {
    digits
        .parse()
        .map_err(|_| format!("`{digits}` is no number"))
}

/// The first word and what follows it, blanks between taken off.
pub fn word(line: &str) -> (&str, &str) {
    match line.split_once(' ') {
        Some((first, rest)) => (first, rest.trim_start()),
        None => (line, ""),
    }
}

#[cfg(test)]
mod tests {
    use super::*;

    #[test]
    fn text_knows_escapes_and_repeats() {
        assert_eq!(text(r#"a\"\\\010b{3}"#).unwrap(), b"a\"\\\nbbb");
        assert_eq!(text(r"\000{2}\255").unwrap(), b"\0\0\xFF");
        assert_eq!(text(r"\{1").unwrap(), b"{1");
        assert_eq!(text(r"x{2:a\\000}y").unwrap(), b"xa\\000a\\000y");
        assert_eq!(text("").unwrap(), b"");
    }

    #[test]
    fn what_is_no_text_is_told() {
        for wrong in [
            "\\", "\\1", "\\25", "\\256", "a{", "a{x}", "{2}", "{x:a}", "\u{e4}", "\t",
        ] {
            assert!(text(wrong).is_err(), "{wrong:?}");
        }
    }

    #[test]
    fn a_name_is_its_labels_and_a_zero() {
        assert_eq!(wire_name("*.a{2}.b").unwrap(), b"\x01*\x02aa\x01b\x00");
        assert_eq!(wire_name(r"a\.b").unwrap(), b"\x03a.b\x00");
        assert_eq!(wire_name(".").unwrap(), b"\x00");
        for wrong in ["", "a.", "a..b", "a{256}"] {
            assert!(wire_name(wrong).is_err(), "{wrong:?}");
        }
    }

    #[test]
    fn hex_is_by_octets() {
        assert_eq!(hex("0F 61{3}  ff").unwrap(), b"\x0Faaa\xFF");
        assert_eq!(hex("").unwrap(), b"");
        for wrong in ["0", "0F6", "0G", "00{2}3", "00{2"] {
            assert!(hex(wrong).is_err(), "{wrong:?}");
        }
    }

    #[test]
    fn hex_is_written_as_it_is_read() {
        assert_eq!(to_hex(b"\x03aaabbbb\xFF"), "03 61 61 61 62{4} FF");
        for octets in [
            &b""[..],
            b"\x00",
            b"aaaa",
            &[0xAB; 300],
            b"\x00\x00\x01\x01",
        ] {
            assert_eq!(hex(&to_hex(octets)).unwrap(), octets);
        }
    }
}
