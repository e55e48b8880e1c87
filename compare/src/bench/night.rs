//! The night run: the library next to the yardstick on 200 names of three labels over a full book, in
//! five shapes, and on all other loads beside it. What a load is said to be is looked at before it is
//! measured. Nothing here says what is fast enough.

use std::collections::HashSet;
use std::iter;

use super::books::{ACCOUNT, METHOD};
use super::judge::{beside_night_run, night_run, Load};
use super::measure::Race;
use super::{list, yardstick};
use crate::against::Other;
use crate::answer::Answer;
use crate::applicant::Applicant;
use crate::book::RecordData;
use crate::calls::{told, Desk, Judge};
use crate::name::Name;
use crate::request::read_requested_name;
use crate::rule::{labels_taken_off, Records};
use crate::{read_book, read_request};

/// What the request for the night run says of its load.
const NAMES: usize = 200;
const LABELS: usize = 3;
const RECORDS: usize = 1_024;
const OCTETS_ABOVE: usize = 48_000;

/// An issuer that no load of the night run grants.
pub const OTHER_ISSUER: &[u8] = b"ca9.example.net";

/// What was seen of a load that is as it has to be.
#[derive(Debug, PartialEq, Eq)]
struct Seen {
    /// Owners of the book, each counted once.
    owners: usize,
    /// Labels taken off each name to reach its set.
    up: usize,
}

/// Measures the night run and all that stands beside it, and tells it in Markdown, line by line. Where
/// answers differ, or a load is not as it has to be, nothing more is measured, and the error says why.
pub fn run(library: &Other, mut tell: impl FnMut(String)) -> Result<(), String> {
    let (Some(judge), Some(list)) = (library.judge, library.permitted_issuers) else {
        return Err("the library has not both calls".to_string());
    };
    let loads = night_run();
    let seen: Vec<Seen> = loads
        .iter()
        .map(|load| look_at(load, judge))
        .collect::<Result<_, _>>()?;

    tell(
        "| 200 names of three labels, judged | Owners | Labels up | Runs | Library, µs | \
         Yardstick, µs | Speed: yardstick / library |\n|---|---|---|---|---|---|---|"
            .to_string(),
    );
    let mut races = Vec::new();
    for (load, Seen { owners, up }) in loads.iter().zip(seen) {
        let race = load.race(judge)?;
        let title = shape_of(&race.load);
        tell(format!("| {title} | {owners} | {up} | {}", figures(&race)));
        races.push(race);
    }
    if let Some((speed, shape)) = worst(&races) {
        tell(format!(
            "\nThe worst of the {}, by medians and by least times: **{speed}** ({shape}).\n",
            races.len()
        ));
    }

    tell(
        "| Beside it | Runs | Library, µs | Yardstick, µs | Speed: yardstick / library |\n\
         |---|---|---|---|---|"
            .to_string(),
    );
    let judged = beside_night_run();
    let listed = list::loads();
    let judged = judged.iter().map(|load| load.race(judge));
    let listed = listed.iter().map(|load| load.race(list));
    for race in judged.chain(listed) {
        let race = race?;
        tell(format!("| {} | {}", race.load, figures(&race)));
        races.push(race);
    }
    if let Some(Race { load, library, .. }) = longest(&races) {
        tell(format!(
            "\nThe library's longest call of all these: {library} µs ({load})."
        ));
    }
    Ok(())
}

fn figures(race: &Race) -> String {
    let Race {
        runs,
        library,
        yardstick,
        ..
    } = race;
    let speed = yardstick.over(library);
    format!("{runs} | {library} | {yardstick} | {speed} |")
}

/// A title without what all loads of the night run have in it.
fn shape_of(title: &str) -> &str {
    title.split_once(", ").map_or(title, |(_, shape)| shape)
}

/// The lowest speed, by medians or by least times, cut to two digits behind the point, and where it
/// was.
fn worst(races: &[Race]) -> Option<(String, &str)> {
    let speeds = races.iter().flat_map(|race| {
        let ratios = race.yardstick.ratios(&race.library);
        ratios.map(|ratio| (ratio, shape_of(&race.load)))
    });
    let (speed, shape) = speeds.min_by(|(one, _), (other, _)| one.total_cmp(other))?;
    Some((format!("{:.2}", (speed * 100.0).floor() / 100.0), shape))
}

/// By medians.
fn longest(races: &[Race]) -> Option<&Race> {
    races.iter().max_by_key(|race| race.library.median())
}

/// Whether a load is what the night run asks for: so many names of so many labels, no two the same, so
/// many records, all of them CAA records, in so many octets. Each name by itself is restricted, and
/// granted to the load's issuer, by all three programs.
fn look_at(load: &Load, library: Judge) -> Result<Seen, String> {
    let title = &load.title;
    let wrong = |what: String| Err(format!("{title}: {what}"));
    let names = read_request(&load.request).map_err(|refusal| format!("{title}: {refusal}"))?;
    let different: HashSet<Vec<u8>> = names.iter().map(|name| spelled(name.fqdn)).collect();
    if names.len() != NAMES || different.len() != NAMES {
        return wrong(format!(
            "{} names, {} different",
            names.len(),
            different.len()
        ));
    }
    if let Some(name) = names.iter().find(|n| n.fqdn.labels().count() != LABELS) {
        return wrong(format!("a name of {} labels", name.fqdn.labels().count()));
    }
    let book = read_book(&load.book).map_err(|refusal| format!("{title}: {refusal}"))?;
    let is_caa = |data: &RecordData| matches!(data, RecordData::Caa(_));
    let caa = book.iter().filter(|record| is_caa(&record.data)).count();
    if book.len() != RECORDS || caa != RECORDS || load.book.len() <= OCTETS_ABOVE {
        let octets = load.book.len();
        return wrong(format!(
            "{} records, {caa} of them CAA records, in {octets} octets",
            book.len()
        ));
    }
    let owners: HashSet<Vec<u8>> = book.iter().map(|record| spelled(record.owner)).collect();

    let records = Records::of(&book, Applicant::SOMEONE);
    let up: HashSet<Option<usize>> = names
        .iter()
        .map(|name| labels_taken_off(&records, name))
        .collect();
    let &[Some(up)] = up.iter().copied().collect::<Vec<_>>().as_slice() else {
        return wrong(format!("sets at different heights: {up:?}"));
    };

    for name in names_of(&load.request) {
        is_restricted_and_granted(load, name, up, library)?;
    }
    Ok(Seen {
        owners: owners.len(),
        up,
    })
}

/// The octets of each name of an accepted request.
pub fn names_of(request: &[u8]) -> impl Iterator<Item = &[u8]> {
    let mut rest = request;
    iter::from_fn(move || {
        let (_, behind) = read_requested_name(rest)?;
        let name = &rest[..rest.len() - behind.len()];
        rest = behind;
        Some(name)
    })
}

/// The one name alone, judged for the load's issuer and for another one. Its set stands so many labels
/// up.
fn is_restricted_and_granted(
    load: &Load,
    name: &[u8],
    up: usize,
    library: Judge,
) -> Result<(), String> {
    let judges: [(&str, Judge); 3] = [
        ("library", library),
        ("independent", Desk::OWN.judge),
        ("yardstick", |request, issuer, account, method, book| {
            Ok(yardstick::judge(request, issuer, account, method, book))
        }),
    ];
    for (side, judge) in judges {
        let granted = judge(name, &load.issuer, ACCOUNT, METHOD, &load.book);
        let other = judge(name, OTHER_ISSUER, ACCOUNT, METHOD, &load.book);
        let is_as_said = match (granted, other) {
            (Ok(Answer::Permitted), Ok(Answer::NotGranted { up: told, .. })) => told == up,
            _ => false,
        };
        if !is_as_said {
            return Err(format!(
                "{}: a name is not restricted and granted, by the {side}: {}, for another issuer {}",
                load.title,
                told(granted),
                told(other)
            ));
        }
    }
    Ok(())
}

/// The labels in lower case, each with a zero octet behind it.
fn spelled(name: Name) -> Vec<u8> {
    name.labels()
        .flat_map(|label| [label.to_ascii_lowercase(), vec![0]].concat())
        .collect()
}

#[cfg(test)]
mod tests {
    use std::time::Duration;

    use super::super::books::{book_of, caa, issue, wire};
    use super::super::measure::Times;
    use super::super::shapes::GRANTED;
    use super::*;
    use crate::judge::judge;

    const OWN: Judge =
        |request, issuer, account, method, book| Ok(judge(request, issuer, account, method, book));

    #[test]
    fn the_five_loads_are_what_is_asked_for() {
        let seen: Vec<Seen> = night_run()
            .iter()
            .map(|load| look_at(load, OWN).unwrap())
            .collect();
        let as_said = |owners, up| Seen { owners, up };
        assert_eq!(
            seen,
            [
                as_said(1_024, 0),
                as_said(1_024, 0),
                as_said(1_024, 1),
                as_said(1_024, 2),
                as_said(1_024, 2)
            ]
        );
    }

    /// The first load with a part of it changed.
    fn why_not(change: impl Fn(&mut Load)) -> String {
        let mut load = night_run().remove(0);
        change(&mut load);
        look_at(&load, OWN).unwrap_err()
    }

    #[test]
    fn a_load_that_is_not_as_said_is_found_out() {
        let x = wire("w.h0000.at");
        let one_less = why_not(|load| load.request.truncate(199 * x.len()));
        assert!(one_less.ends_with("199 names, 199 different"), "{one_less}");
        let same = why_not(|load| load.request = x.repeat(200));
        assert!(same.ends_with("200 names, 1 different"), "{same}");
        let deeper = why_not(|load| load.request[1] = b'*');
        assert!(deeper.ends_with("a name of 2 labels"), "{deeper}");
        let short = why_not(|load| load.book.truncate(49_152 - 48));
        assert!(short.contains("1023 records"), "{short}");
        let text = why_not(|load| load.book[x.len() + 1] = 16);
        assert!(text.contains("1023 of them CAA records"), "{text}");
        let small = why_not(|load| load.book = book_of(|_| caa(&x, &issue(GRANTED))));
        assert!(small.ends_with("in 36864 octets"), "{small}");
        let free = why_not(|load| load.request[x.len() + 1] = b'q');
        assert!(free.contains("different heights"), "{free}");
        let nobody = why_not(|load| load.issuer = b"ca2.net".to_vec());
        assert!(nobody.contains("not restricted and granted"), "{nobody}");
    }

    #[test]
    fn the_worst_is_told_and_never_rounded_up() {
        let race = |load: &str, library: [u64; 2], yardstick: [u64; 2]| {
            let times = |[median, least]: [u64; 2]| {
                let times = [least, median, median];
                Times::of(times.map(Duration::from_micros).to_vec(), 1)
            };
            Race {
                load: load.to_string(),
                runs: 3,
                library: times(library),
                yardstick: times(yardstick),
            }
        };
        let races = [
            race("judge: 200 names, one", [100, 50], [300, 200]),
            race("judge: 200 names, two", [110, 100], [330, 299]),
        ];
        assert_eq!(worst(&races), Some(("2.99".to_string(), "two")));
        assert_eq!(longest(&races).unwrap().load, "judge: 200 names, two");
        assert_eq!(worst(&[]), None);
    }
}
