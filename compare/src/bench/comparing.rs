//! How long the library takes to compare two names, next to `eq_ignore_ascii_case` of Rust: names that
//! are the same, and names that differ in one letter or in their length. Nothing here says what is
//! fast enough.

use std::fmt;
use std::hint::black_box;
use std::time::{Duration, Instant};

use super::measure::Times;
use crate::generate::Generator;
use crate::limits::LABEL_OCTETS;
use crate::readers::Readers;
use crate::word::Word;

/// Octets of the names in wire form, the closing zero among them: short names, names on both sides of
/// 16 and 32 octets, and long ones. Two empty texts, which are no names, show what a call costs.
const LENGTHS: [usize; 15] = [0, 5, 8, 12, 15, 16, 17, 18, 31, 32, 33, 34, 240, 250, 254];

/// Comparisons that are timed together. So the microseconds of a run are the nanoseconds of one.
const COMPARISONS: usize = 1_000;

/// Each side runs at least so often on each pair, and on all pairs of one length at least so long.
const LEAST_RUNS: usize = 101;
const LEAST_TIME: Duration = Duration::from_millis(500);

/// How the second name of a pair differs from the first.
struct Pair {
    title: &'static str,
    names: [Vec<u8>; 2],
}

/// How long both sides take for one pair, in nanoseconds.
pub struct Compared {
    octets: usize,
    title: &'static str,
    runs: usize,
    library: Times,
    rust: Times,
    /// The library's times for the names of this length that are the same.
    same: Times,
}

/// The heading of the table whose rows [`Compared`] is shown as, in Markdown.
pub fn heading() -> &'static str {
    "\
| Octets | The second name | Runs | Library, ns | Rust, ns | Library / Rust | Library / library on the same name |
|---|---|---|---|---|---|---|"
}

impl fmt::Display for Compared {
    fn fmt(&self, f: &mut fmt::Formatter<'_>) -> fmt::Result {
        let Compared {
            octets,
            title,
            runs,
            library,
            rust,
            same,
        } = self;
        let (to_rust, to_same) = (library.over(rust), library.over(same));
        write!(
            f,
            "| {octets} | {title} | {runs} | {library} | {rust} | {to_rust} | {to_same} |"
        )
    }
}

/// A comparison of two texts that answers as [`Readers::same`] does. Each side has a type of its own, so
/// that its calls can be inlined where they are timed.
pub trait Same: Fn(&[u8], &[u8]) -> Word {}
impl<F: Fn(&[u8], &[u8]) -> Word> Same for F {}

/// Measures the library's comparison on the pairs of each length. Where answers differ nothing is
/// measured; how they differ is told.
pub fn run(library: impl Same, mut tell: impl FnMut(Compared)) -> Result<(), String> {
    let rust = Readers::OWN.same;
    let mut chance = Generator::new(1);
    let of_lengths = LENGTHS.map(|octets| (octets, pairs(octets, &mut chance)));
    for (octets, pairs) in &of_lengths {
        for Pair { title, names } in pairs {
            let [one, other] = names;
            let answers = (library(one, other), rust(one, other));
            if answers.0 != answers.1 {
                return Err(format!("{octets} octets, {title}: {answers:?}"));
            }
        }
    }
    for (octets, pairs) in of_lengths {
        for compared in measure(octets, &pairs, &library, &rust, &mut chance) {
            tell(compared);
        }
    }
    Ok(())
}

/// All pairs on both sides in turns, in an order that is left to chance each time.
fn measure(
    octets: usize,
    pairs: &[Pair],
    library: &impl Same,
    rust: &impl Same,
    chance: &mut Generator,
) -> Vec<Compared> {
    let mut times = vec![[Vec::new(), Vec::new()]; pairs.len()];
    let mut order: Vec<(usize, bool)> = (0..pairs.len())
        .flat_map(|pair| [(pair, false), (pair, true)])
        .collect();
    let start = Instant::now();
    while times[0][0].len() < LEAST_RUNS || start.elapsed() < LEAST_TIME {
        for place in 1..order.len() {
            order.swap(place, chance.below(place + 1));
        }
        for &(pair, is_rust) in &order {
            let names = &pairs[pair].names;
            let [of_library, of_rust] = &mut times[pair];
            if is_rust {
                of_rust.push(time(rust, names));
            } else {
                of_library.push(time(library, names));
            }
        }
    }

    let runs = times[0][0].len();
    let times: Vec<[Times; 2]> = times
        .into_iter()
        .map(|sides| sides.map(|times| Times::of(times, 1)))
        .collect();
    // The first pair is the name beside itself.
    let same = times[0][0];
    pairs
        .iter()
        .zip(times)
        .map(|(pair, [library, rust])| Compared {
            octets,
            title: pair.title,
            runs,
            library,
            rust,
            same,
        })
        .collect()
}

fn time(same: &impl Same, names: &[Vec<u8>; 2]) -> Duration {
    let names = [names[0].as_slice(), names[1].as_slice()];
    let start = Instant::now();
    for _ in 0..COMPARISONS {
        let [one, other] = black_box(&names);
        black_box(same(one, other).number);
    }
    start.elapsed()
}

/// A name of so many octets beside itself, itself in upper case, names that differ in one letter, and
/// a longer one.
fn pairs(octets: usize, chance: &mut Generator) -> Vec<Pair> {
    if octets == 0 {
        let names = [Vec::new(), Vec::new()];
        return vec![Pair {
            title: "the same",
            names,
        }];
    }
    let name = name(octets, chance);
    let with_other_letter = |place: usize| {
        let mut other = name.clone();
        other[place] = if other[place] == b'z' { b'a' } else { b'z' };
        other
    };
    let (first, last) = (1, octets - 2);
    [
        ("the same", name.clone()),
        ("in upper case", name.to_ascii_uppercase()),
        ("another last letter", with_other_letter(last)),
        ("another first letter", with_other_letter(first)),
        ("one octet longer", self::name(octets + 1, chance)),
    ]
    .map(|(title, other)| Pair {
        title,
        names: [name.clone(), other],
    })
    .into()
}

/// A good name of so many octets in wire form, at least 3, labels as long as may be.
fn name(octets: usize, chance: &mut Generator) -> Vec<u8> {
    let mut name = Vec::new();
    let mut left = octets - 1;
    while left > 0 {
        let longest = (left - 1).min(LABEL_OCTETS);
        // One octet alone is no label.
        let label = if left - 1 - longest == 1 {
            longest - 1
        } else {
            longest
        };
        name.push(label as u8);
        name.extend((0..label).map(|_| b'a' + chance.below(26) as u8));
        left -= 1 + label;
    }
    name.push(0);
    name
}

#[cfg(test)]
mod tests {
    use super::*;
    use crate::limits::NAME_OCTETS;
    use crate::name::read_name;

    #[test]
    fn pairs_are_good_names_of_their_length() {
        for octets in LENGTHS.into_iter().skip(1) {
            for Pair { title, names } in pairs(octets, &mut Generator::new(1)) {
                let longer = usize::from(title == "one octet longer");
                assert_eq!(names[0].len(), octets);
                assert_eq!(names[1].len(), octets + longer, "{title}");
                for name in &names {
                    let rest = read_name(name).map(|(_, rest)| rest.len());
                    assert_eq!(rest, Some(0), "{octets} octets, {title}");
                }
            }
        }
    }

    #[test]
    fn pairs_differ_as_their_titles_say() {
        for octets in LENGTHS.into_iter().skip(1) {
            for Pair { title, names } in pairs(octets, &mut Generator::new(1)) {
                let [one, other] = &names;
                let places: Vec<usize> = (0..octets)
                    .filter(|&place| !one[place].eq_ignore_ascii_case(&other[place]))
                    .collect();
                match title {
                    "the same" => assert_eq!(one, other),
                    "in upper case" => {
                        assert_ne!(one, other);
                        assert_eq!(places, []);
                    }
                    "another last letter" => assert_eq!(places, [octets - 2]),
                    "another first letter" => assert_eq!(places, [1]),
                    "one octet longer" => assert_eq!(one.len() + 1, other.len()),
                    _ => panic!("{title}"),
                }
            }
        }
    }

    #[test]
    fn names_of_every_length() {
        for octets in 3..=NAME_OCTETS {
            let name = name(octets, &mut Generator::new(1));
            assert_eq!(name.len(), octets);
            assert!(read_name(&name).is_some_and(|(_, rest)| rest.is_empty()));
        }
    }

    #[test]
    fn a_comparison_that_is_wrong_is_not_measured() {
        let mut rows = 0;
        let wrong = run(|_, _| Word::number(1), |_| rows += 1);
        assert_eq!(rows, 0);
        assert!(wrong.is_err_and(|why| why.starts_with("5 octets, another last letter: ")));
    }
}
