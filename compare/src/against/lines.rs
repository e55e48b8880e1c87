//! Writing and reading lines against ours: the answer and every octet of the buffer.

use super::buffer::{sizes_to_try, TwoBuffers};
use super::log::{Call, Differences, Tally};
use super::Part;
use crate::answer::{Made, Refusal};
use crate::calls::{told, Convert, Lines};
use crate::cases::Case;
use crate::generate::{every_short_data, every_short_line, Generator, Inputs};
use crate::limits::{DATA_OCTETS, LINE_OCTETS};
use crate::presentation::{read_line, write_line};

static WRITE: Call = Call {
    name: "write line",
    kinds: &[
        (0, "made"),
        (8, "refused 8"),
        (10, "refused 10"),
        (11, "refused 11"),
    ],
};

static READ: Call = Call {
    name: "read line",
    kinds: &[
        (0, "made"),
        (8, "refused 8"),
        (9, "refused 9"),
        (10, "refused 10 for the line"),
        (MADE_TOO_LONG, "refused 10 for the data"),
    ],
};
/// Refusal 10 of something that is not itself too long.
const MADE_TOO_LONG: u8 = 110;

pub struct LinesComparison {
    write: Conversion,
    read: Conversion,
    generator: Generator,
}

impl LinesComparison {
    pub fn new(theirs: Lines, seed: u64) -> LinesComparison {
        LinesComparison {
            write: Conversion {
                call: &WRITE,
                input: "data",
                longest: DATA_OCTETS,
                theirs: theirs.write,
                ours: write_line,
                tally: Tally::new(&WRITE),
            },
            read: Conversion {
                call: &READ,
                input: "line",
                longest: LINE_OCTETS,
                theirs: theirs.read,
                ours: read_line,
                tally: Tally::new(&READ),
            },
            generator: Generator::new(seed ^ 0x114E),
        }
    }
}

impl Part for LinesComparison {
    fn short_ones(&mut self, differences: &mut Differences) {
        for data in every_short_data() {
            self.write.compare(&data, &mut self.generator, differences);
        }
        for line in every_short_line() {
            if differences.are_enough() {
                return;
            }
            self.read.compare(&line, &mut self.generator, differences);
        }
    }

    fn stored(&mut self, case: &Case, differences: &mut Differences) {
        for data in case.data() {
            self.write.compare(data, &mut self.generator, differences);
        }
        for line in case.lines() {
            self.read.compare(line, &mut self.generator, differences);
        }
    }

    fn random(&mut self, _: &Inputs, differences: &mut Differences) {
        let data = self.generator.line_data();
        self.write.compare(&data, &mut self.generator, differences);
        let line = self.generator.line();
        self.read.compare(&line, &mut self.generator, differences);
    }

    fn into_tallies(self: Box<Self>) -> Vec<Tally> {
        vec![self.write.tally, self.read.tally]
    }
}

/// One of the two ways.
struct Conversion {
    call: &'static Call,
    input: &'static str,
    /// Octets that may be given.
    longest: usize,
    theirs: Convert,
    ours: fn(&[u8], &mut [u8]) -> Made,
    tally: Tally,
}

impl Conversion {
    /// Counts the answer for a buffer of any size; then the sizes around the one needed.
    fn compare(&mut self, given: &[u8], generator: &mut Generator, differences: &mut Differences) {
        let room = if generator.once_in(4) {
            generator.below(12)
        } else {
            // An octet of data takes up to four of the line, and the line some more.
            LINE_OCTETS.min(4 * given.len() + 8)
        };
        let answer = self.with_room(room, given, generator, differences);
        self.tally.count(self.kind(answer, given));
        for room in sizes_to_try(needed(answer)) {
            self.with_room(room, given, generator, differences);
        }
    }

    fn kind(&self, answer: Made, given: &[u8]) -> u8 {
        match answer {
            Made::Octets(_) => 0,
            Made::Refused(Refusal::LineOrDataTooLong) if given.len() <= self.longest => {
                MADE_TOO_LONG
            }
            Made::Refused(refusal) => refusal.number(),
        }
    }

    fn with_room(
        &self,
        room: usize,
        given: &[u8],
        generator: &mut Generator,
        differences: &mut Differences,
    ) -> Made {
        let buffer = generator.buffer(room);
        let mut buffers = TwoBuffers::new(&buffer, generator);
        let ours = (self.ours)(given, buffers.ours());
        let theirs = (self.theirs)(given, buffers.theirs());
        let left = buffers.difference();
        if theirs != Ok(ours) || left.is_some() {
            let inputs: [(&str, &[u8]); 2] = [(self.input, given), ("buffer", &buffer)];
            let [they_left, we_left] = left.unwrap_or_default();
            differences.tell(
                self.call,
                &inputs,
                format!("{}{they_left}", told(theirs)),
                format!("{ours}{we_left}"),
            );
        }
        ours
    }
}

/// The room that the answer needs, where it can need any.
fn needed(answer: Made) -> Option<usize> {
    match answer {
        Made::Octets(octets) => Some(octets),
        Made::Refused(Refusal::BufferTooShort { needed }) => Some(needed),
        Made::Refused(_) => None,
    }
}
