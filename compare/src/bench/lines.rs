//! Loads for lines: data as long as may be, to the shortest and to the longest line, and back.

use std::hint::black_box;

use super::measure::{measure, Measured, Plan, Sides};
use crate::calls::{Convert, Desk, Lines};
use crate::limits::{DATA_OCTETS, LINE_OCTETS};

pub struct Load {
    pub title: String,
    way: Way,
    given: Vec<u8>,
}

#[derive(Clone, Copy)]
enum Way {
    Write,
    Read,
}

impl Load {
    pub fn measure(&self, library: Lines) -> Result<Measured, String> {
        let (library, independent): (Convert, Convert) = match self.way {
            Way::Write => (library.write, Desk::OWN.lines.write),
            Way::Read => (library.read, Desk::OWN.lines.read),
        };
        let plan = Plan {
            load: self.title.clone(),
            room: LINE_OCTETS,
            calls: 1,
        };
        let sides = Sides {
            library: &|buffer| library(black_box(&self.given), buffer),
            independent: &|buffer| independent(black_box(&self.given), buffer),
            yardstick: None,
        };
        measure(plan, sides)
    }
}

/// The loads, the same in every run.
pub fn loads() -> Vec<Load> {
    let load = |title: &str, way, given| {
        let name = match way {
            Way::Write => "write line",
            Way::Read => "read line",
        };
        let title = format!("{name}: {DATA_OCTETS} octets of data, {title}");
        Load { title, way, given }
    };
    let plain = "plain text";
    let issue = b"\x00\x05issue";
    let text = b"a".repeat(DATA_OCTETS - issue.len());
    let escaped = "all escaped";
    let shortest = b"\xFF\x01t";
    let octets = DATA_OCTETS - shortest.len();
    vec![
        load(plain, Way::Write, [&issue[..], &text].concat()),
        load(plain, Way::Read, [b"0 issue \"", &text[..], b"\""].concat()),
        load(
            escaped,
            Way::Write,
            [&shortest[..], &b"\xFF".repeat(octets)].concat(),
        ),
        load(
            escaped,
            Way::Read,
            [b"255 t \"", &b"\\255".repeat(octets)[..], b"\""].concat(),
        ),
    ]
}

#[cfg(test)]
mod tests {
    use super::*;
    use crate::answer::Made;
    use crate::presentation::{read_line, write_line};

    #[test]
    fn each_pair_goes_there_and_back() {
        for pair in loads().chunks(2) {
            let [write, read] = pair else {
                panic!("a load by itself");
            };
            assert_eq!(write.given.len(), DATA_OCTETS);
            let mut buffer = vec![0; LINE_OCTETS];
            let line = read.given.len();
            assert_eq!(write_line(&write.given, &mut buffer), Made::Octets(line));
            assert_eq!(buffer[..line], read.given);
            let data = Made::Octets(DATA_OCTETS);
            assert_eq!(read_line(&read.given, &mut buffer), data);
            assert_eq!(buffer[..DATA_OCTETS], write.given);
        }
    }
}
