//! Lines, and the CAA data that lines are written from.

use super::books::{FLAGS, KNOWN_TAGS, UNKNOWN_TAGS, WRONG_TAG_OCTETS};
use super::Generator;
use crate::limits::{DATA_OCTETS, LINE_OCTETS};

/// What a line is damaged with: octets that mean something in it, and their neighbours.
const LINE_ALPHABET: [u8; 24] = *b"012569aZ-_ \t\n\"\\;()\x00\x1F~\x7F\x80\xFF";
/// Good ones first, as in the next.
const FLAG_FIELDS: [&[u8]; 12] = [
    b"0", b"1", b"128", b"255", b"00", b"007", b"099", b"10", b"256", b"300", b"0000", b"",
];
const FIELD_BLANKS: [&[u8]; 5] = [b" ", b"\t", b"  ", b" \t ", b""];
/// Each is one octet of a value, quoted or bare.
const PIECES: [&[u8]; 20] = [
    b"a", b"Z", b"0", b"9", b"!", b"~", b"=", b"\\\"", b"\\\\", b"\\;", b"\\ ", b"\\(", b"\\a",
    b"\\000", b"\\031", b"\\032", b"\\034", b"\\127", b"\\199", b"\\255",
];
/// The same of a quoted value alone.
const QUOTED_PIECES: [&[u8]; 4] = [b" ", b";", b"(", b")"];
const WRONG_PIECES: [&[u8]; 12] = [
    b"\\256", b"\\300", b"\\25", b"\\2", b"\\", b"\"", b"\t", b"\x1F", b"\x7F", b"\xFF", b"\\\x7F",
    b"\\\t",
];
/// Octets that stand in a line as they are, with a backslash or by number, and those next to them.
const VALUE_OCTETS: [u8; 16] = *b"aZ09 !~\"\\\x00\x09\x1F\x7F\x80\xC8\xFF";

impl Generator {
    /// A line of any kind: good or nearly good, around its limit, or of data around its own.
    pub fn line(&mut self) -> Vec<u8> {
        match self.below(64) {
            0 | 1 => self.line_around_limit(),
            2..=4 => self.line_of_long_data(),
            5..=20 => {
                let line = self.short_line();
                self.damaged_with(line, |generator| generator.one_of(&LINE_ALPHABET))
            }
            21 => self.octets_of(&LINE_ALPHABET, 16),
            _ => self.short_line(),
        }
    }

    /// CAA data of any kind: good for a line, with a wrong tag, laid out wrongly, and each of these
    /// around its limit too.
    pub fn line_data(&mut self) -> Vec<u8> {
        let mut data = self.short_data();
        match self.below(32) {
            0..=3 => data = self.damaged(data),
            4 => data = self.octets_of(&[0, 1, 2, b'a'], 4),
            5 | 6 => {
                let tag_length = usize::from(data[1]);
                let place = 2 + self.below(tag_length);
                data[place] = self.one_of(&WRONG_TAG_OCTETS);
            }
            _ => {}
        }
        if self.once_in(20) {
            let octet = self.one_of(&VALUE_OCTETS);
            data.resize(DATA_OCTETS - 1 + self.below(4), octet);
        }
        data
    }

    fn short_line(&mut self) -> Vec<u8> {
        let mut line = self.near_front(&FLAG_FIELDS).to_vec();
        line.extend(self.near_front(&FIELD_BLANKS));
        line.extend(match self.below(32) {
            0 => vec![b'a'; 254 + self.below(3)],
            1 if self.once_in(4) => b"tb_s".to_vec(),
            1 => self.one_of(&UNKNOWN_TAGS).to_vec(),
            _ => self.known_tag(),
        });
        line.extend(self.near_front(&FIELD_BLANKS));
        line.extend(self.value_text());
        line
    }

    fn short_data(&mut self) -> Vec<u8> {
        let tag = match self.below(32) {
            0 => vec![b'Z'; 254 + self.below(2)],
            _ => self.known_tag(),
        };
        let flags = self.one_of(&FLAGS);
        let value = self.octets_of(&VALUE_OCTETS, 6);
        [&[flags, tag.len() as u8], &tag[..], &value].concat()
    }

    fn known_tag(&mut self) -> Vec<u8> {
        let tag = self.one_of(&KNOWN_TAGS);
        self.any_case(tag)
    }

    /// A value of a few pieces, rarely a wrong one among them.
    fn value_text(&mut self) -> Vec<u8> {
        let quoted = self.once_in(2);
        let mut value = Vec::new();
        for _ in 0..self.below(6) {
            value.extend(match self.below(32) {
                0 => self.one_of(&WRONG_PIECES),
                1..=8 if quoted => self.one_of(&QUOTED_PIECES),
                _ => self.one_of(&PIECES),
            });
        }
        if quoted {
            in_quotes(&value)
        } else {
            value
        }
    }

    /// Filled up with blanks.
    fn line_around_limit(&mut self) -> Vec<u8> {
        let octets = LINE_OCTETS - 1 + self.below(4);
        let value = self.value_text();
        let mut line = b"0 a".to_vec();
        line.resize(octets - value.len(), b' ');
        line.extend(value);
        line
    }

    /// A good line of data around its limit, or with a fault at the end.
    fn line_of_long_data(&mut self) -> Vec<u8> {
        let octets = DATA_OCTETS - 1 + self.below(4);
        let mut value = self.one_of(&PIECES).repeat(octets - b"\x00\x01a".len());
        if self.once_in(8) {
            value.extend(self.one_of(&WRONG_PIECES));
        }
        if self.once_in(2) {
            value = in_quotes(&value);
        }
        [b"0 a ", &value[..]].concat()
    }
}

fn in_quotes(value: &[u8]) -> Vec<u8> {
    [b"\"", value, b"\""].concat()
}
