//! Judges one name by one lookup after the other. The lookups are answered from a file of text, such as
//! examples/session/zone.txt, which says what its lines mean.
//!
//!     SPLINEPEARL_LIBS="$PWD/target/staticlib" \
//!         cargo run --manifest-path bindings/rust/Cargo.toml --example session -- \
//!         examples/session/zone.txt www.example.com ca1.example.net

use std::env;
use std::fs;
use std::io::{self, Write};
use std::process::ExitCode;

use splinepearl::{read_line, Refusal, Session, Verdict, MAX_DATA_OCTETS};

const USAGE: &str = "\
usage: session FILE NAME ISSUER [ACCOUNT METHOD]

Judges NAME, or *.NAME, for ISSUER by the records of FILE, one lookup after the other. Prints each
question with its answer, then the verdict.

Exit status: 0 permitted; 1 not permitted; 2 anything else: refused, a lookup that failed, an answer
that isn't known, a file that can't be read, output that can't be written, wrong use.
";

const PERMITTED: u8 = 0;
const NOT_PERMITTED: u8 = 1;
const NOTHING_DECIDED: u8 = 2;

const TYPE_CNAME: u16 = 5;
const TYPE_CAA: u16 = 257;

fn main() -> ExitCode {
    let arguments: Vec<String> = env::args().skip(1).collect();
    let words: Vec<&str> = arguments.iter().map(String::as_str).collect();
    let (text, status) = match words[..] {
        ["--help" | "-h"] => (USAGE.to_owned(), PERMITTED),
        [file, name, issuer] if !file.starts_with('-') => {
            judged(file, name, issuer, "none", "none")
        }
        [file, name, issuer, account, method] if !file.starts_with('-') => {
            judged(file, name, issuer, account, method)
        }
        _ => {
            eprint!("{USAGE}");
            return ExitCode::from(NOTHING_DECIDED);
        }
    };
    let mut output = io::stdout();
    let written = output
        .write_all(text.as_bytes())
        .and_then(|()| output.flush());
    if let Err(why) = written {
        eprintln!("session: the answer could not be written: {why}");
        return ExitCode::from(NOTHING_DECIDED);
    }
    ExitCode::from(status)
}

/// The lines to print, and the exit status.
fn judged(file: &str, name: &str, issuer: &str, account: &str, method: &str) -> (String, u8) {
    let zone = match fs::read_to_string(file)
        .map_err(|why| why.to_string())
        .and_then(|text| Zone::read(&text))
    {
        Ok(zone) => zone,
        Err(why) => {
            eprintln!("session: {file}: {why}");
            return (String::new(), NOTHING_DECIDED);
        }
    };
    let mut lines = String::new();
    let request = wire_name(name).unwrap_or_default();
    let verdict = ask(&zone, &mut lines, || {
        Session::open(
            &request,
            issuer.as_bytes(),
            account.as_bytes(),
            method.as_bytes(),
        )
    });
    let (line, status) = match verdict {
        Ok(Some(verdict)) => in_words(verdict),
        Ok(None) => ("nothing decided: no verdict".to_owned(), NOTHING_DECIDED),
        Err(refusal) => (refusal.to_string(), NOTHING_DECIDED),
    };
    lines.push_str(&line);
    lines.push('\n');
    (lines, status)
}

/// Asks until the session has ended.
fn ask(
    zone: &Zone,
    lines: &mut String,
    open: impl FnOnce() -> Result<Session, Refusal>,
) -> Result<Option<Verdict>, Refusal> {
    let mut session = open()?;
    while let Some(name) = session.asked() {
        lines.push_str(&format!("look up {}: ", dotted(name)));
        match zone.look_up(name) {
            Some(records) => {
                let plural = if records.len() == 1 { "" } else { "s" };
                lines.push_str(&format!("{} record{plural}\n", records.len()));
                session.answer(&records.concat())?;
            }
            None => {
                lines.push_str("failed\n");
                session.fail()?;
            }
        }
    }
    Ok(session.verdict())
}

fn in_words(verdict: Verdict) -> (String, u8) {
    let (why, up) = match verdict {
        Verdict::Permitted => return ("permitted".to_owned(), PERMITTED),
        Verdict::LookupFailed => {
            return (
                "nothing decided: a lookup failed".to_owned(),
                NOTHING_DECIDED,
            )
        }
        Verdict::UnknownCritical { record, up } => (
            format!("record {record} of the last answer is critical and not known"),
            up,
        ),
        Verdict::NotGranted { record, up } => (
            format!("restricted by record {record} of the last answer"),
            up,
        ),
        Verdict::TooManyAliases { record, up } => (
            format!("too many aliases from record {record} of the last answer on"),
            up,
        ),
    };
    let line = format!("not permitted: {why}; labels taken off: {up}");
    (line, NOT_PERMITTED)
}

/// What the lookups find.
struct Zone {
    entries: Vec<Entry>,
}

struct Entry {
    owner: Vec<u8>,
    /// `None` where the lookup fails.
    record: Option<Record>,
}

struct Record {
    octets: Vec<u8>,
    /// Where it is an alias.
    target: Option<Vec<u8>>,
}

impl Zone {
    /// One record or remark for each line; an error names the line.
    fn read(text: &str) -> Result<Zone, String> {
        let mut entries = Vec::new();
        for (number, line) in text.lines().enumerate() {
            if line.is_empty() || line.starts_with('#') {
                continue;
            }
            let entry = read_entry(line).ok_or(format!("line {}: no record", number + 1))?;
            entries.push(entry);
        }
        Ok(Zone { entries })
    }

    /// All records of the name, and those of the names that its aliases lead to, each once; `None` if the
    /// lookup fails.
    fn look_up(&self, name: &[u8]) -> Option<Vec<&[u8]>> {
        let mut records = Vec::new();
        let mut names = vec![name];
        let mut looked_at = 0;
        while let Some(&owner) = names.get(looked_at) {
            looked_at += 1;
            let is_owner = |entry: &&Entry| entry.owner.eq_ignore_ascii_case(owner);
            for entry in self.entries.iter().filter(is_owner) {
                let record = entry.record.as_ref()?;
                records.push(&record.octets[..]);
                if let Some(target) = &record.target {
                    if !names.iter().any(|name| name.eq_ignore_ascii_case(target)) {
                        names.push(target);
                    }
                }
            }
        }
        Some(records)
    }
}

fn read_entry(line: &str) -> Option<Entry> {
    let (owner, rest) = line.split_once(' ')?;
    let (kind, rest) = rest
        .trim_start()
        .split_once(' ')
        .unwrap_or((rest.trim(), ""));
    let owner = wire_name(owner)?;
    let (rtype, data) = match (kind, rest.trim()) {
        ("FAILS", "") => {
            return Some(Entry {
                owner,
                record: None,
            })
        }
        ("CNAME", target) => (TYPE_CNAME, wire_name(target)?),
        ("CAA", line) => {
            let mut data = [0; MAX_DATA_OCTETS];
            let data = read_line(line.as_bytes(), &mut data).ok()?;
            (TYPE_CAA, data.to_vec())
        }
        _ => return None,
    };
    // Class 1, and a time to live of 0.
    let mut octets = owner.clone();
    octets.extend(rtype.to_be_bytes());
    octets.extend([0, 1, 0, 0, 0, 0]);
    octets.extend(u16::try_from(data.len()).ok()?.to_be_bytes());
    octets.extend(&data);
    let target = (rtype == TYPE_CNAME).then_some(data);
    Some(Entry {
        owner,
        record: Some(Record { octets, target }),
    })
}

/// A name in wire form from its dotted form. Which names are valid is for the library.
fn wire_name(text: &str) -> Option<Vec<u8>> {
    let mut wire = Vec::new();
    for label in text.split('.').filter(|label| !label.is_empty()) {
        let length = u8::try_from(label.len())
            .ok()
            .filter(|&length| length < 64)?;
        wire.push(length);
        wire.extend(label.bytes());
    }
    wire.push(0);
    Some(wire)
}

/// The dotted form of a name that is asked for, which has letters, digits and hyphens alone.
fn dotted(name: &[u8]) -> String {
    let mut labels = Vec::new();
    let mut rest = name;
    while let Some((&length, behind)) = rest.split_first() {
        let length = usize::from(length).min(behind.len());
        if length == 0 {
            break;
        }
        let (label, behind) = behind.split_at(length);
        labels.push(String::from_utf8_lossy(label).into_owned());
        rest = behind;
    }
    labels.join(".")
}
