//! Buffers lent to both implementations, compared octet by octet.

use std::ops::Range;

use crate::buffer::MARGIN;
use crate::generate::Generator;

/// Two buffers with the same octets, one for each implementation.
pub struct TwoBuffers {
    ours: Vec<u8>,
    theirs: Vec<u8>,
    lent: Range<usize>,
}

impl TwoBuffers {
    pub fn new(buffer: &[u8], generator: &mut Generator) -> TwoBuffers {
        let margins = [generator.buffer(MARGIN), generator.buffer(MARGIN)];
        let octets = [&margins[0], buffer, &margins[1]].concat();
        TwoBuffers {
            ours: octets.clone(),
            theirs: octets,
            lent: MARGIN..MARGIN + buffer.len(),
        }
    }

    pub fn ours(&mut self) -> &mut [u8] {
        &mut self.ours[self.lent.clone()]
    }

    pub fn theirs(&mut self) -> &mut [u8] {
        &mut self.theirs[self.lent.clone()]
    }

    /// What they and we left at the first place where that differs, if any.
    pub fn difference(&self) -> Option<[String; 2]> {
        let place = (0..self.ours.len()).find(|&place| self.theirs[place] != self.ours[place])?;
        let where_it_is = if place < self.lent.start {
            format!("{} before the buffer", self.lent.start - place)
        } else if place < self.lent.end {
            format!("at {} of the buffer", place - self.lent.start)
        } else {
            format!("{} behind the buffer", place - self.lent.end)
        };
        let left = |octets: &[u8]| format!("; {:02X} {where_it_is}", octets[place]);
        Some([left(&self.theirs), left(&self.ours)])
    }
}

/// Buffer sizes on both sides of the one needed. What needs no room has none to fall short of, but
/// has to stay off an empty buffer.
pub fn sizes_to_try(needed: Option<usize>) -> Range<usize> {
    match needed {
        Some(needed) => needed.saturating_sub(1)..needed + 2,
        None => 0..1,
    }
}

#[cfg(test)]
mod tests {
    use super::*;

    #[test]
    fn every_octet_counts_on_and_around_the_buffer() {
        let mut generator = Generator::new(1);
        let mut buffers = TwoBuffers::new(b"abc", &mut generator);
        assert_eq!(buffers.difference(), None);
        buffers.ours()[2] = b'x';
        let [theirs, ours] = buffers.difference().unwrap();
        assert_eq!(theirs, "; 63 at 2 of the buffer");
        assert_eq!(ours, "; 78 at 2 of the buffer");
        buffers.theirs()[2] = b'x';
        assert_eq!(buffers.difference(), None);
        let last = buffers.theirs.len() - 1;
        for place in [0, last] {
            buffers.theirs[place] ^= 1;
            assert!(buffers.difference().is_some());
            buffers.theirs[place] ^= 1;
        }
    }

    #[test]
    fn sizes_are_one_less_enough_and_one_more() {
        assert_eq!(sizes_to_try(Some(7)), 6..9);
        assert_eq!(sizes_to_try(Some(0)), 0..2);
        assert_eq!(sizes_to_try(None), 0..1);
    }
}
