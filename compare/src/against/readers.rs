//! The readers against ours.

use super::log::{Call, Differences, Tally};
use super::Part;
use crate::cases::Case;
use crate::generate::{every_slice, Generator, Inputs};
use crate::readers::{AtPlace, OfOctets, Readers};
use crate::word::Word;

const FAULT_OR_GOOD: &[(u8, &str)] = &[(0, "fault"), (1, "good")];

/// In the order of [`of_octets`].
static OF_OCTETS: [Call; 3] = [
    Call {
        name: "property",
        kinds: FAULT_OR_GOOD,
    },
    Call {
        name: "tag",
        kinds: &[(0, "unknown"), (1, "issue"), (2, "issuewild"), (3, "iodef")],
    },
    Call {
        name: "value",
        kinds: &[(0, "malformed"), (1, "no name"), (2, "name")],
    },
];

/// In the order of [`at_place`].
static AT_PLACE: [Call; 3] = [
    Call {
        name: "name_end",
        kinds: FAULT_OR_GOOD,
    },
    Call {
        name: "requested_name",
        kinds: &[(0, "fault"), (1, "plain"), (2, "wildcard")],
    },
    Call {
        name: "record",
        kinds: FAULT_OR_GOOD,
    },
];

static SAME: Call = Call {
    name: "same",
    kinds: &[(0, "not the same"), (1, "the same")],
};

/// Slices up to so many octets are read at every place.
const SHORT: usize = 96;
/// Of longer ones, so many places at each end and anywhere.
const SOME_PLACES: usize = 48;

/// Every slice of these octets is tried, up to the length with them.
const EXHAUSTED: [(&[u8], usize); 2] = [(b"a-.; =%", 6), (b"\x00\x01\x02a-*@", 5)];

/// A CAA record of the root that is laid out rightly, with data too short for CAA data.
const WRONG_CAA_DATA: &[u8] = b"\x00\x01\x01\x00\x01\x00\x00\x00\x00\x00\x00";
/// The same with CAA data that is laid out rightly, but for the octet of its tag.
const WRONG_TAG: &[u8] = b"\x00\x01\x01\x00\x01\x00\x00\x00\x00\x00\x03\x00\x01_";
const WRONG_TAG_DATA: &[u8] = b"\x00\x01_";
/// An alias owned by the root that is laid out rightly, without data.
const WRONG_TARGET: &[u8] = b"\x00\x00\x05\x00\x01\x00\x00\x00\x00\x00\x00";

pub struct ReadersComparison {
    theirs: Readers,
    ours: Readers,
    remark: String,
    generator: Generator,
    of_octets: [Tally; 3],
    at_place: [Tally; 3],
    same: Tally,
}

impl ReadersComparison {
    pub fn new(theirs: Readers, seed: u64) -> ReadersComparison {
        // A book with wrong CAA data, a wrong tag or a wrong target is refused; whether the reader of
        // one record does that, that of CAA data or another is not in the requirements. What one does
        // here it has to do always.
        let caa_data_is_read = (theirs.record)(WRONG_CAA_DATA, 0) == Word::FAULT;
        let tag_is_read = (theirs.record)(WRONG_TAG, 0) == Word::FAULT;
        let target_is_read = (theirs.record)(WRONG_TARGET, 0) == Word::FAULT;
        let tag_is_read_in_data = (theirs.property)(WRONG_TAG_DATA) == Word::FAULT;
        let is = |fault: bool| if fault { "is" } else { "is not" };
        ReadersComparison {
            theirs,
            ours: Readers {
                record: Readers::own_record(caa_data_is_read, tag_is_read, target_is_read),
                property: match tag_is_read_in_data {
                    true => Readers::OWN_WITH_TAGS.property,
                    false => Readers::OWN.property,
                },
                ..Readers::OWN
            },
            remark: format!(
                "record: wrong CAA data {} a fault of the record, a wrong tag {} one, \
                 and {} one of the data, a wrong target {} one of the record",
                is(caa_data_is_read),
                is(tag_is_read),
                is(tag_is_read_in_data),
                is(target_is_read)
            ),
            generator: Generator::new(seed ^ 0x5EAD),
            of_octets: OF_OCTETS.each_ref().map(Tally::new),
            at_place: AT_PLACE.each_ref().map(Tally::new),
            same: Tally::new(&SAME),
        }
    }

    /// The readers of octets, and those of a place from 0 on to where each says that the next is.
    fn look(&mut self, octets: &[u8], differences: &mut Differences) {
        for reader in 0..OF_OCTETS.len() {
            self.of_octets(reader, octets, differences);
        }
        for reader in 0..AT_PLACE.len() {
            let mut at = 0;
            loop {
                let word = self.at_place(reader, octets, at, differences);
                if word == Word::FAULT {
                    break;
                }
                at = word.a as usize;
            }
        }
    }

    /// The same, and at every place; of long slices at some.
    fn look_closely(&mut self, octets: &[u8], differences: &mut Differences) {
        self.look(octets, differences);
        let mut places: Vec<usize> = if octets.len() <= SHORT {
            (1..octets.len()).collect()
        } else {
            let anywhere = (0..SOME_PLACES).map(|_| self.generator.below(octets.len()));
            (1..SOME_PLACES)
                .chain(anywhere)
                .chain(octets.len() - SOME_PLACES..octets.len())
                .collect()
        };
        // Behind the end, and where a place cut to fewer bits would be a good one.
        places.extend([octets.len(), octets.len() + 1, octets.len() + 256]);
        places.extend([
            65_536,
            1 << 24,
            u32::MAX as usize,
            usize::MAX - 1,
            usize::MAX,
        ]);
        for at in places {
            for reader in 0..AT_PLACE.len() {
                self.at_place(reader, octets, at, differences);
            }
        }
    }

    fn of_octets(&mut self, reader: usize, octets: &[u8], differences: &mut Differences) {
        let theirs = of_octets(&self.theirs)[reader](octets);
        let ours = of_octets(&self.ours)[reader](octets);
        self.of_octets[reader].count(ours.number);
        if theirs != ours {
            differences.tell(&OF_OCTETS[reader], &[("octets", octets)], theirs, ours);
        }
    }

    fn at_place(
        &mut self,
        reader: usize,
        octets: &[u8],
        at: usize,
        differences: &mut Differences,
    ) -> Word {
        let theirs = at_place(&self.theirs)[reader](octets, at);
        let ours = at_place(&self.ours)[reader](octets, at);
        self.at_place[reader].count(ours.number);
        if theirs != ours {
            let input = format!("octets, read at {at}");
            differences.tell(&AT_PLACE[reader], &[(&input, octets)], theirs, ours);
        }
        ours
    }

    fn same(&mut self, one: &[u8], other: &[u8], differences: &mut Differences) {
        let theirs = (self.theirs.same)(one, other);
        let ours = (self.ours.same)(one, other);
        self.same.count(ours.number);
        if theirs != ours {
            differences.tell(&SAME, &[("one", one), ("other", other)], theirs, ours);
        }
    }
}

impl Part for ReadersComparison {
    /// Every slice of up to two octets, every pair of octets, and every slice of some octets more.
    fn short_ones(&mut self, differences: &mut Differences) {
        let every_octet: Vec<u8> = (0..=255).collect();
        for octets in every_slice(&every_octet, 2) {
            if differences.are_enough() {
                return;
            }
            self.look(&octets, differences);
            if let [one, other] = octets[..] {
                self.same(&[one], &[other], differences);
            }
        }
        for (alphabet, up_to) in EXHAUSTED {
            for octets in every_slice(alphabet, up_to) {
                if differences.are_enough() {
                    return;
                }
                self.look(&octets, differences);
            }
        }
    }

    fn stored(&mut self, case: &Case, differences: &mut Differences) {
        self.look_closely(&case.request, differences);
        self.look_closely(&case.book, differences);
        let issuers = case.judged().map(|(issuer, _)| issuer);
        for octets in issuers.chain(case.values()) {
            self.look_closely(octets, differences);
        }
    }

    fn random(&mut self, inputs: &Inputs, differences: &mut Differences) {
        for octets in [&inputs.request, &inputs.issuer, &inputs.book] {
            self.look(octets, differences);
        }
        let octets = self.generator.slice();
        self.look_closely(&octets, differences);
        if octets.len() <= SHORT {
            // Behind each of these stands what belongs there, so that reading on would find it.
            for end in 0..octets.len() {
                self.look(&octets[..end], differences);
            }
        }
        let (one, other) = self.generator.pair();
        self.same(&one, &other, differences);
    }

    fn remark(&self) -> Option<String> {
        Some(self.remark.clone())
    }

    fn into_tallies(self: Box<Self>) -> Vec<Tally> {
        let Self {
            of_octets,
            at_place,
            same,
            ..
        } = *self;
        of_octets
            .into_iter()
            .chain(at_place)
            .chain([same])
            .collect()
    }
}

fn of_octets(readers: &Readers) -> [OfOctets; 3] {
    [readers.property, readers.tag, readers.value]
}

fn at_place(readers: &Readers) -> [AtPlace; 3] {
    [readers.name_end, readers.requested_name, readers.record]
}
