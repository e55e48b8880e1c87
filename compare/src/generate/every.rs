//! All short inputs of some kinds, one after the other.

/// What a value, quoted or bare, is made of, and what near misses are made of.
const VALUE_ALPHABET: &[u8] = b"\"\\ a0256;";
/// What the fields before a value are made of.
const FIELD_ALPHABET: &[u8] = b"026a\t \"-";
/// What CAA data is made of.
const DATA_ALPHABET: &[u8] = b"\x00\x01\x02aZ_\"\xFF";
const DIGITS: &[u8] = b"0123456789";

/// Lines with a gap, which every octet is put into.
const LINES_WITH_GAP: [(&str, &str); 16] = [
    ("", " a b"),
    ("0", " a b"),
    ("0", "a b"),
    ("0 ", " b"),
    ("0 a", " b"),
    ("0 a", "b"),
    ("0 a ", ""),
    ("0 a ", "b"),
    ("0 a b", ""),
    ("0 a b", "c"),
    ("0 a \"", "\""),
    ("0 a \"b\"", ""),
    ("0 a \\", ""),
    ("0 a \"\\", "\""),
    ("0 a \\2", "5"),
    ("0 a \"\\25", "\""),
];

/// Data with a gap, which every octet is put into: flags, length of the tag, tag, value.
const DATA_WITH_GAP: [(&[u8], &[u8]); 6] = [
    (b"", b"\x01ab"),
    (b"\x00", b"ab"),
    (b"\x00\x01", b""),
    (b"\x00\x03", b"bc"),
    (b"\x00\x03ab", b"d"),
    (b"\x00\x01a", b"0"),
];

/// Every slice of octets of the alphabet, up to that length.
pub fn every_slice(alphabet: &[u8], up_to: usize) -> impl Iterator<Item = Vec<u8>> + '_ {
    (0..=up_to).flat_map(move |length| {
        (0..alphabet.len().pow(length as u32)).map(move |number| {
            let mut rest = number;
            let next_digit = |_| {
                let digit = rest % alphabet.len();
                rest /= alphabet.len();
                alphabet[digit]
            };
            (0..length).map(next_digit).collect()
        })
    })
}

/// CAA data: every octet in every part of it, and every slice of some octets.
pub fn every_short_data() -> impl Iterator<Item = Vec<u8>> {
    let with_gap = DATA_WITH_GAP.into_iter();
    with_gap
        .flat_map(|(before, behind)| filled(before, behind))
        .chain(every_slice(DATA_ALPHABET, 5))
}

/// Lines: every octet in every part of them, every number as flags and as an escape, and every slice
/// of some octets as a value and as a whole.
pub fn every_short_line() -> impl Iterator<Item = Vec<u8>> {
    let with_gap = LINES_WITH_GAP.into_iter();
    let numbers = || every_slice(DIGITS, 4);
    with_gap
        .flat_map(|(before, behind)| filled(before.as_bytes(), behind.as_bytes()))
        .chain(numbers().map(|flags| [&flags, &b" a b"[..]].concat()))
        .chain(numbers().map(|escape| [b"0 a \\", &escape[..]].concat()))
        .chain(numbers().map(|escape| [b"0 a \"\\", &escape[..], b"\""].concat()))
        .chain(every_slice(VALUE_ALPHABET, 5).map(|value| [b"0 a ", &value[..]].concat()))
        .chain(every_slice(FIELD_ALPHABET, 5))
}

/// The gap filled with each octet.
fn filled<'a>(before: &'a [u8], behind: &'a [u8]) -> impl Iterator<Item = Vec<u8>> + 'a {
    (0..=255).map(move |octet| [before, &[octet], behind].concat())
}

#[cfg(test)]
mod tests {
    use super::*;

    #[test]
    fn every_slice_comes_once() {
        let slices: Vec<Vec<u8>> = every_slice(b"ab", 2).collect();
        let expected: [&[u8]; 7] = [b"", b"a", b"b", b"aa", b"ba", b"ab", b"bb"];
        assert_eq!(slices, expected);
    }

    #[test]
    fn a_gap_takes_every_octet() {
        let all: Vec<Vec<u8>> = filled(b"x", b"y").collect();
        assert_eq!(all.len(), 256);
        assert_eq!(all[0], b"x\x00y");
        assert_eq!(all[255], b"x\xFFy");
    }
}
