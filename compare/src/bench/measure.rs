//! How long one load takes each side, measured in turns.

use std::fmt;
use std::hint::black_box;
use std::time::{Duration, Instant};

use crate::calls::told;
use crate::generate::Generator;
use crate::word::Word;

/// Each side runs at least so often on each load, and all together at least so long for each side.
const LEAST_RUNS: usize = 11;
const LEAST_TIME: Duration = Duration::from_secs(1);

/// A load's call, as one side makes it. It takes the buffer.
pub type Call<'a, A> = &'a dyn Fn(&mut [u8]) -> Result<A, Word>;

/// The three programs that are measured.
pub struct Sides<'a, A> {
    pub library: Call<'a, A>,
    pub independent: Call<'a, A>,
    /// The yardstick has no lines.
    pub yardstick: Option<Call<'a, A>>,
}

impl<'a, A> Sides<'a, A> {
    fn named(&self) -> Vec<(&'static str, Call<'a, A>)> {
        let mut named = vec![("library", self.library), ("independent", self.independent)];
        named.extend(self.yardstick.map(|yardstick| ("yardstick", yardstick)));
        named
    }
}

/// What is measured, apart from the calls.
pub struct Plan {
    pub load: String,
    /// Octets of each side's own buffer.
    pub room: usize,
    /// Calls that are timed together. More than one where a call is hardly longer than a look at the
    /// clock.
    pub calls: usize,
}

/// Times of one call.
#[derive(Clone, Copy, Debug, PartialEq)]
pub struct Times {
    median: Duration,
    least: Duration,
}

pub struct Measured {
    load: String,
    answer: String,
    runs: usize,
    library: Times,
    independent: Times,
    yardstick: Option<Times>,
}

/// The heading of the table whose rows [`Measured`] is shown as, in Markdown.
pub fn heading() -> String {
    "\
| Load | Answer | Runs | Library, µs | Yardstick, µs | Independent, µs | Library / yardstick | Library / independent |
|---|---|---|---|---|---|---|---|"
        .to_string()
}

impl fmt::Display for Measured {
    fn fmt(&self, f: &mut fmt::Formatter<'_>) -> fmt::Result {
        let Measured {
            load,
            answer,
            runs,
            library,
            independent,
            yardstick,
        } = self;
        let (yardstick, to_yardstick) = match yardstick {
            Some(times) => (times.to_string(), library.over(times)),
            None => ("-".to_string(), "-".to_string()),
        };
        let to_independent = library.over(independent);
        write!(
            f,
            "| {load} | {answer} | {runs} | {library} | {yardstick} | {independent} | \
             {to_yardstick} | {to_independent} |"
        )
    }
}

impl Times {
    pub fn of(mut times: Vec<Duration>, calls: usize) -> Times {
        times.sort_unstable();
        let count = times.len();
        let median = (times[(count - 1) / 2] + times[count / 2]) / 2;
        Times {
            median: median / calls as u32,
            least: times[0] / calls as u32,
        }
    }

    /// The ratio of the medians, and that of the least times.
    pub fn over(&self, other: &Times) -> String {
        let [median, least] = self.ratios(other).map(rounded);
        format!("{median} ({least})")
    }

    /// The same as numbers.
    pub fn ratios(&self, other: &Times) -> [f64; 2] {
        [(self.median, other.median), (self.least, other.least)]
            .map(|(one, other)| one.as_secs_f64() / other.as_secs_f64())
    }

    pub fn median(&self) -> Duration {
        self.median
    }
}

/// In microseconds: the median, and the least time.
impl fmt::Display for Times {
    fn fmt(&self, f: &mut fmt::Formatter<'_>) -> fmt::Result {
        let microseconds = |time: Duration| rounded(time.as_secs_f64() * 1e6);
        let (median, least) = (microseconds(self.median), microseconds(self.least));
        write!(f, "{median} ({least})")
    }
}

/// With two digits that count, or as a whole number.
fn rounded(number: f64) -> String {
    match number {
        ..0.1 => format!("{number:.3}"),
        ..1.0 => format!("{number:.2}"),
        ..10.0 => format!("{number:.1}"),
        _ => format!("{number:.0}"),
    }
}

/// The library next to the yardstick alone.
pub struct Race {
    pub load: String,
    pub runs: usize,
    pub library: Times,
    pub yardstick: Times,
}

/// Measures all sides. The answers, and all octets of the buffers, are compared first.
pub fn measure<A: PartialEq + fmt::Display>(
    plan: Plan,
    sides: Sides<'_, A>,
) -> Result<Measured, String> {
    let answer = same_answer(&plan, &sides.named())?;
    let (library, independent) = (sides.library, sides.independent);
    let (runs, library, independent, yardstick) = match sides.yardstick {
        Some(yardstick) => {
            let (runs, [library, independent, yardstick]) =
                in_turns(&plan, [library, independent, yardstick]);
            (runs, library, independent, Some(yardstick))
        }
        None => {
            let (runs, [library, independent]) = in_turns(&plan, [library, independent]);
            (runs, library, independent, None)
        }
    };
    Ok(Measured {
        load: plan.load,
        answer,
        runs,
        library,
        independent,
        yardstick,
    })
}

/// Measures the library and the yardstick. The answers of all sides, and all octets of the buffers,
/// are compared first.
pub fn race<A: PartialEq + fmt::Display>(plan: Plan, sides: Sides<'_, A>) -> Result<Race, String> {
    same_answer(&plan, &sides.named())?;
    let Some(yardstick) = sides.yardstick else {
        return Err(format!("{}: no yardstick", plan.load));
    };
    let (runs, [library, yardstick]) = in_turns(&plan, [sides.library, yardstick]);
    Ok(Race {
        load: plan.load,
        runs,
        library,
        yardstick,
    })
}

/// How often each side ran, and how long it took. The sides run in turns, so that what else the
/// machine does hits all of them, in an order that is left to chance each time, or work that comes
/// back at even times could hit one of them alone.
fn in_turns<A, const N: usize>(plan: &Plan, sides: [Call<A>; N]) -> (usize, [Times; N]) {
    let mut buffers = [(); N].map(|()| vec![0u8; plan.room]);
    let mut times = [(); N].map(|()| Vec::new());
    let mut order: Vec<usize> = (0..N).collect();
    let mut chance = Generator::new(1);
    let start = Instant::now();
    while times[0].len() < LEAST_RUNS || start.elapsed() < LEAST_TIME * N as u32 {
        for place in 1..order.len() {
            order.swap(place, chance.below(place + 1));
        }
        for &side in &order {
            times[side].push(time(sides[side], plan.calls, &mut buffers[side]));
        }
    }
    let runs = times[0].len();
    (runs, times.map(|times| Times::of(times, plan.calls)))
}

/// What all sides answer, in words; else how they differ.
fn same_answer<A: PartialEq + fmt::Display>(
    plan: &Plan,
    sides: &[(&str, Call<A>)],
) -> Result<String, String> {
    let Plan { load, room, .. } = plan;
    let answers: Vec<(&str, String, Vec<u8>)> = sides
        .iter()
        .map(|(name, call)| {
            let mut buffer = vec![0; *room];
            let answer = told(call(&mut buffer));
            (*name, answer, buffer)
        })
        .collect();
    let (first, answer, buffer) = &answers[0];
    for (other, its_answer, its_buffer) in &answers[1..] {
        if its_answer != answer {
            return Err(format!("{load}: {first} {answer}, {other} {its_answer}"));
        }
        if its_buffer != buffer {
            return Err(format!("{load}: the buffers of {first} and {other}"));
        }
    }
    Ok(answer.clone())
}

/// The time of so many calls. The buffer is cleared before each; where calls are timed together, the
/// clearing is timed with them, on each side alike.
fn time<A>(call: Call<A>, calls: usize, buffer: &mut [u8]) -> Duration {
    buffer.fill(0);
    let start = Instant::now();
    black_box(call(black_box(buffer))).ok();
    for _ in 1..calls {
        buffer.fill(0);
        black_box(call(black_box(buffer))).ok();
    }
    start.elapsed()
}

#[cfg(test)]
mod tests {
    use super::*;
    use crate::answer::Made;

    fn difference(library: Call<Made>) -> String {
        let plan = Plan {
            load: "a load".to_string(),
            room: 1,
            calls: 1,
        };
        let sides = Sides {
            library,
            independent: &|_| Ok(Made::Octets(3)),
            yardstick: None,
        };
        match measure(plan, sides) {
            Ok(measured) => panic!("measured: {measured}"),
            Err(difference) => difference,
        }
    }

    #[test]
    fn calls_that_differ_are_not_measured() {
        assert_eq!(
            difference(&|_| Ok(Made::Octets(4))),
            "a load: library made 4 octets, independent made 3 octets"
        );
        assert_eq!(
            difference(&|_| Err(Word::number(99))),
            "a load: library no answer: number 99, a 0, b 0, c 0, independent made 3 octets"
        );
        assert_eq!(
            difference(&|buffer| {
                buffer[0] = 1;
                Ok(Made::Octets(3))
            }),
            "a load: the buffers of library and independent"
        );
    }

    #[test]
    fn a_yardstick_that_differs_is_not_measured() {
        let plan = Plan {
            load: "a load".to_string(),
            room: 0,
            calls: 1,
        };
        let right: Call<Made> = &|_| Ok(Made::Octets(3));
        let sides = Sides {
            library: right,
            independent: right,
            yardstick: Some(&|_| Ok(Made::Octets(4))),
        };
        assert_eq!(
            measure(plan, sides).err().unwrap(),
            "a load: library made 3 octets, yardstick made 4 octets"
        );
    }

    #[test]
    fn times_of_odd_and_even_counts() {
        let of = |times: &[u64], calls| {
            let times = times.iter().map(|&time| Duration::from_micros(time));
            let Times { median, least } = Times::of(times.collect(), calls);
            (median.as_micros(), least.as_micros())
        };
        assert_eq!(of(&[7], 1), (7, 7));
        assert_eq!(of(&[9, 1, 2], 1), (2, 1));
        assert_eq!(of(&[9, 1, 2, 4], 1), (3, 1));
        assert_eq!(of(&[90, 20, 40], 10), (4, 2));
    }

    #[test]
    fn ratios_are_of_medians_and_of_least_times() {
        let times = |median, least| Times {
            median: Duration::from_micros(median),
            least: Duration::from_micros(least),
        };
        assert_eq!(times(300, 100).over(&times(200, 50)), "1.5 (2.0)");
        assert_eq!(times(12, 1).over(&times(200, 50)), "0.060 (0.020)");
    }
}
