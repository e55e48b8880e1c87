//! A CAA record's data as a line of text, and back (RFC 8659 section 4.1.1, as the requirements fix
//! it). What is made stands at the front of the lent buffer; a refusal changes nothing.

mod read;
mod write;

pub use read::read_line;
pub use write::write_line;

#[cfg(test)]
mod tests {
    use super::*;
    use crate::answer::Made;
    use crate::limits::{DATA_OCTETS, LINE_OCTETS};

    fn made(convert: fn(&[u8], &mut [u8]) -> Made, given: &[u8]) -> Vec<u8> {
        let mut buffer = vec![0; LINE_OCTETS];
        match convert(given, &mut buffer) {
            Made::Octets(octets) => buffer[..octets].to_vec(),
            Made::Refused(refusal) => panic!("{refusal}"),
        }
    }

    #[test]
    fn every_octet_of_a_value_comes_back() {
        for octet in 0..=255 {
            let data = [b"\x80\x03tbs", &[octet; 3][..]].concat();
            assert_eq!(made(read_line, &made(write_line, &data)), data);
        }
    }

    #[test]
    fn the_longest_data_makes_a_line_within_the_limit() {
        let mut data = b"\xFF\x01t".to_vec();
        data.resize(DATA_OCTETS, 0xFF);
        let line = made(write_line, &data);
        assert!(line.len() <= LINE_OCTETS);
        assert_eq!(made(read_line, &line), data);
    }
}
