//! CAA data as a line of text, and back.

use std::str;

use crate::foreign;
use crate::word::Word;
use crate::Refusal;

/// The most octets of CAA data. A buffer this long is always enough for [`read_line`].
pub const MAX_DATA_OCTETS: usize = 4_096;

/// The most octets of a line. A buffer this long is always enough for [`write_line`].
pub const MAX_LINE_OCTETS: usize = 16_384;

/// Writes CAA data (flags, tag length, tag, value) as a line of text. The tag is written in lower case.
///
/// The line is written to the start of `buffer`; the rest of the buffer is not changed.
///
/// # Errors
///
/// [`Refusal::LineTooLong`] for data over [`MAX_DATA_OCTETS`], [`Refusal::BadData`],
/// [`Refusal::NoRoom`]. Then nothing is written.
///
/// ```
/// let mut buffer = [0; splinepearl::MAX_LINE_OCTETS];
/// let line = splinepearl::write_line(b"\x00\x05ISSUEca1.example.net", &mut buffer);
/// assert_eq!(line, Ok(r#"0 issue "ca1.example.net""#));
/// ```
pub fn write_line<'a>(data: &[u8], buffer: &'a mut [u8]) -> Result<&'a str, Refusal> {
    let word = Word::unpacked(foreign::write_line(data, buffer));
    let line = made(word, buffer)?;
    str::from_utf8(line).map_err(|_| word.refusal())
}

/// Reads a line of text into CAA data; the tag keeps its letter case. No white space (space or tab) and
/// no line end may stand before or after the line.
///
/// The data is written to the start of `buffer`; the rest of the buffer is not changed.
///
/// # Errors
///
/// [`Refusal::LineTooLong`] for a line over [`MAX_LINE_OCTETS`] or data over [`MAX_DATA_OCTETS`],
/// [`Refusal::BadLine`], [`Refusal::NoRoom`]. Then nothing is written.
///
/// ```
/// let mut buffer = [0; splinepearl::MAX_DATA_OCTETS];
/// let data = splinepearl::read_line(br#"128 tbs "Unknown""#, &mut buffer);
/// assert_eq!(data, Ok(&b"\x80\x03tbsUnknown"[..]));
/// ```
pub fn read_line<'a>(line: &[u8], buffer: &'a mut [u8]) -> Result<&'a [u8], Refusal> {
    let word = Word::unpacked(foreign::read_line(line, buffer));
    made(word, buffer)
}

/// What was written to the start of the buffer.
fn made(word: Word, buffer: &[u8]) -> Result<&[u8], Refusal> {
    match word.number {
        0 => buffer.get(..word.a).ok_or(word.refusal()),
        _ => Err(word.refusal()),
    }
}

#[cfg(test)]
mod tests {
    use super::*;

    #[test]
    fn a_length_past_the_buffer_is_no_output() {
        let word = Word {
            number: 0,
            a: 3,
            b: 0,
            c: 0,
        };
        assert_eq!(made(word, b"abc"), Ok(&b"abc"[..]));
        assert_eq!(
            made(word, b"ab"),
            Err(Refusal::Unknown {
                number: 0,
                place: 3
            })
        );
    }
}
