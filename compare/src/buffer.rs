//! Buffers lent by the caller.

use crate::answer::Refusal;

/// Octets on both sides of a buffer that is lent for a trial, which have to stay as well.
pub const MARGIN: usize = 16;

/// Puts what was made at the front of the buffer, all of it or, where there is no room, nothing. The
/// rest of the buffer stays as it was.
pub fn put_at_front(made: &[u8], buffer: &mut [u8]) -> Result<(), Refusal> {
    let needed = made.len();
    let front = buffer
        .get_mut(..needed)
        .ok_or(Refusal::BufferTooShort { needed })?;
    front.copy_from_slice(made);
    Ok(())
}

#[cfg(test)]
mod tests {
    use super::*;

    #[test]
    fn all_or_nothing_and_the_rest_stays() {
        let mut buffer = *b"xxx";
        assert_eq!(put_at_front(b"ab", &mut buffer), Ok(()));
        assert_eq!(&buffer, b"abx");
        assert_eq!(
            put_at_front(b"cdef", &mut buffer),
            Err(Refusal::BufferTooShort { needed: 4 })
        );
        assert_eq!(&buffer, b"abx");
    }
}
