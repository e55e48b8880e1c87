//! Octets for the readers, and pairs of texts.

use super::books::{KNOWN_TAGS, UNKNOWN_TAGS};
use super::Generator;

/// Octets that mean something in wire form, so that names and records come by chance.
const WIRE_ALPHABET: [u8; 12] = [0, 0, 0, 1, 1, 1, 2, b'a', b'-', b'*', 64, 0xC0];
/// Octets that mean something in a value, an issuer name or a tag.
const TEXT_ALPHABET: [u8; 12] = *b"aaZ0..-; \t=%";
/// Letters, the octets next to them, and those that a careless fold takes for them.
const FOLD_ALPHABET: [u8; 12] = *b"aAzZ@`[{-\x0D\xC1\xE1";

impl Generator {
    /// Octets of any kind: good for one of the readers, damaged, or without sense. Short but for a
    /// few.
    pub fn slice(&mut self) -> Vec<u8> {
        let octets = match self.below(20) {
            0 | 1 => self.request(),
            2 if self.once_in(2) => [self.alias(), self.alias()].concat(),
            2 => [self.owner(), self.owner()].concat(),
            3 => [self.buffer(2), self.name_around_limit(), self.buffer(2)].concat(),
            4 if self.once_in(4) => self.book_with_wrong_tag(),
            4 | 5 => [self.record(), self.record()].concat(),
            6 if self.once_in(4) => self.caa_data_with_wrong_tag(),
            6 => self.caa_data(),
            7 => {
                let tag = self.one_of(&UNKNOWN_TAGS);
                self.any_case(tag)
            }
            8 => {
                let tag = self.one_of(&KNOWN_TAGS);
                self.any_case(tag)
            }
            9..=11 => self.value(),
            12 => self.issuer(),
            13 => self.issuer_around_limit(),
            14 | 15 => self.octets_of(&WIRE_ALPHABET, 24),
            16 | 17 => self.octets_of(&TEXT_ALPHABET, 12),
            18 if self.once_in(8) => self.far(),
            _ => {
                let length = self.below(24);
                self.buffer(length)
            }
        };
        if self.once_in(3) {
            self.damaged(octets)
        } else {
            octets
        }
    }

    /// Two texts, often the same but for letter case, one octet or the end.
    pub fn pair(&mut self) -> (Vec<u8>, Vec<u8>) {
        let length = if self.once_in(16) { 300 } else { 8 };
        let one = self.octets_of(&FOLD_ALPHABET, length);
        let mut other = self.any_case(&one);
        match self.below(4) {
            0 => {
                for octet in &mut other {
                    octet.make_ascii_lowercase();
                }
            }
            1 if !other.is_empty() => {
                let place = self.below(other.len());
                other[place] ^= self.one_of(&[0x20, 0x01, 0x80]);
            }
            2 => other = self.damaged(other),
            _ => {}
        }
        if self.once_in(2) {
            (one, other)
        } else {
            (other, one)
        }
    }

    /// A record of some 65,536 octets, and names and records behind it at places that need 17 bits.
    fn far(&mut self) -> Vec<u8> {
        let padding = vec![0xFF; 65_535 - self.below(24)];
        let mut octets = self.record_of(vec![0], 16, 1, &padding);
        octets.extend(if self.once_in(2) {
            self.request()
        } else {
            self.record()
        });
        octets
    }
}
