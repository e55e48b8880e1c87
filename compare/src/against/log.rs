//! How often each answer came, and what differs.

use std::fmt;

use crate::cases::to_hex;

/// A compared call, with the kinds of its answers: a number for each, and what it says.
pub struct Call {
    pub name: &'static str,
    pub kinds: &'static [(u8, &'static str)],
}

/// One call's answers, by kind.
pub struct Tally {
    call: &'static Call,
    times: [usize; 256],
}

impl Tally {
    pub fn new(call: &'static Call) -> Tally {
        Tally {
            call,
            times: [0; 256],
        }
    }

    pub fn count(&mut self, kind: u8) {
        self.times[usize::from(kind)] += 1;
    }

    /// The kinds that came fewer times than that.
    pub fn rarer_than(&self, times: usize) -> impl Iterator<Item = String> + '_ {
        self.kinds()
            .filter(move |(_, came)| *came < times)
            .map(move |(kind, came)| {
                let name = self.call.name;
                format!("too rare: {name} {kind}: {came} times of {times}")
            })
    }

    fn kinds(&self) -> impl Iterator<Item = (&'static str, usize)> + '_ {
        let kinds = self.call.kinds.iter();
        kinds.map(|&(kind, says)| (says, self.times[usize::from(kind)]))
    }
}

impl fmt::Display for Tally {
    fn fmt(&self, f: &mut fmt::Formatter<'_>) -> fmt::Result {
        let kinds: Vec<String> = self
            .kinds()
            .map(|(kind, came)| format!("{kind}: {came}"))
            .collect();
        write!(f, "{:<16}{}", self.call.name, kinds.join(", "))
    }
}

/// The differences found so far, each told in some lines.
pub struct Differences {
    pub told: Vec<String>,
    enough: usize,
}

impl Differences {
    /// None so far. Comparing stops at `enough` of them.
    pub fn up_to(enough: usize) -> Differences {
        Differences {
            told: Vec::new(),
            enough,
        }
    }

    pub fn are_enough(&self) -> bool {
        self.told.len() >= self.enough
    }

    /// Tells the inputs, in the hex of the case files, and both answers.
    pub fn tell(
        &mut self,
        call: &Call,
        inputs: &[(&str, &[u8])],
        theirs: impl fmt::Display,
        ours: impl fmt::Display,
    ) {
        if self.are_enough() {
            return;
        }
        let mut lines = format!("differs: {}\n", call.name);
        for (input, octets) in inputs {
            let (length, hex) = (octets.len(), to_hex(octets));
            lines.push_str(&format!("  {input} ({length}): {hex}\n"));
        }
        lines.push_str(&format!("  theirs: {theirs}\n  ours:   {ours}"));
        self.told.push(lines);
    }
}

#[cfg(test)]
mod tests {
    use super::*;

    #[test]
    fn what_came_too_seldom_is_told() {
        static CALL: Call = Call {
            name: "check",
            kinds: &[(0, "accepted"), (4, "refused 4")],
        };
        let mut tally = Tally::new(&CALL);
        for kind in [0, 4, 0] {
            tally.count(kind);
        }
        assert_eq!(tally.rarer_than(1).count(), 0);
        let told: Vec<String> = tally.rarer_than(2).collect();
        assert_eq!(told, ["too rare: check refused 4: 1 times of 2"]);
        assert_eq!(tally.rarer_than(3).count(), 2);
    }

    #[test]
    fn no_more_is_told_than_enough() {
        static CALL: Call = Call {
            name: "check",
            kinds: &[(0, "accepted")],
        };
        let mut differences = Differences::up_to(2);
        for theirs in 1..=3 {
            assert_eq!(differences.are_enough(), theirs == 3);
            differences.tell(&CALL, &[("request", b"\x01a\x00")], theirs, 0);
        }
        let told = |theirs| {
            format!("differs: check\n  request (3): 01 61 00\n  theirs: {theirs}\n  ours:   0")
        };
        assert_eq!(differences.told, [told(1), told(2)]);
    }
}
