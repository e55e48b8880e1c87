//! Random inputs from a seed, and all short ones of some kinds.

mod aliases;
mod applicants;
mod books;
mod deep;
mod every;
mod heights;
mod inputs;
mod lines;
mod names;
mod sessions;
mod slices;

pub use every::{every_short_data, every_short_line, every_slice};
pub use inputs::Inputs;
pub use names::name_of_octets;
pub use sessions::{CutAnswer, WholeBook, Written};

/// The xorshift64* generator: small, and the same on every machine.
pub struct Generator {
    state: u64,
}

impl Generator {
    /// Every seed gives a run of its own; only the state 0 would stand still.
    pub fn new(seed: u64) -> Generator {
        Generator {
            state: seed.wrapping_add(0x9E37_79B9_7F4A_7C15).max(1),
        }
    }

    fn next(&mut self) -> u64 {
        self.state ^= self.state >> 12;
        self.state ^= self.state << 25;
        self.state ^= self.state >> 27;
        self.state.wrapping_mul(0x2545_F491_4F6C_DD1D)
    }

    /// A number below `bound`.
    pub fn below(&mut self, bound: usize) -> usize {
        ((self.next() >> 32) as usize) % bound
    }

    /// True once in `times`, on average.
    pub fn once_in(&mut self, times: usize) -> bool {
        self.below(times) == 0
    }

    fn one_of<T: Copy>(&mut self, choices: &[T]) -> T {
        choices[self.below(choices.len())]
    }

    /// One of them, the first ones oftener, so that choices agree often.
    fn near_front<T: Copy>(&mut self, choices: &[T]) -> T {
        let bound = 1 + self.below(choices.len());
        choices[self.below(bound)]
    }

    fn octet(&mut self) -> u8 {
        self.below(256) as u8
    }

    /// At most so many octets of the alphabet.
    fn octets_of(&mut self, alphabet: &[u8], at_most: usize) -> Vec<u8> {
        let length = self.below(at_most + 1);
        (0..length).map(|_| self.one_of(alphabet)).collect()
    }

    /// A buffer of that length with anything in it.
    pub fn buffer(&mut self, length: usize) -> Vec<u8> {
        (0..length).map(|_| self.octet()).collect()
    }

    /// The same letters, each large or small.
    pub fn any_case(&mut self, text: &[u8]) -> Vec<u8> {
        text.iter()
            .map(|octet| match self.below(3) {
                0 => octet.to_ascii_uppercase(),
                _ => *octet,
            })
            .collect()
    }

    /// One or two octets changed, put in or taken out, or the end cut off.
    fn damaged(&mut self, octets: Vec<u8>) -> Vec<u8> {
        self.damaged_with(octets, Generator::octet)
    }

    /// The same with octets of one kind.
    fn damaged_with(
        &mut self,
        mut octets: Vec<u8>,
        new_octet: impl Fn(&mut Generator) -> u8,
    ) -> Vec<u8> {
        for _ in 0..1 + self.below(2) {
            let place = self.below(octets.len() + 1);
            let octet = new_octet(self);
            match self.below(4) {
                0 => octets.truncate(place),
                1 => octets.insert(place, octet),
                2 if place < octets.len() => octets[place] = octet,
                _ if place < octets.len() => {
                    octets.remove(place);
                }
                _ => octets.push(octet),
            }
        }
        octets
    }
}
