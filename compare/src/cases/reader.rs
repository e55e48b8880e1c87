//! Reads case files.

use super::check::{Asker, Check};
use super::notation::{hex, number, quoted, text, wire_name, word};
use super::session::Step;

/// Inputs and what has to be answered for them.
pub struct Case {
    pub title: String,
    pub request: Vec<u8>,
    pub book: Vec<u8>,
    /// For the checks that are read next.
    asker: Asker,
    pub(super) checks: Vec<Check>,
    /// What is done with the case's session, in order.
    pub steps: Vec<Step>,
}

impl Case {
    /// The issuer names that are judged, with whom they are judged for.
    pub fn judged(&self) -> impl Iterator<Item = (&[u8], &Asker)> {
        self.checks.iter().filter_map(|check| match check {
            Check::Judge { issuer, asker, .. } => Some((issuer.as_slice(), asker)),
            _ => None,
        })
    }

    /// Whom judging or listing is asked for, each once.
    pub fn askers(&self) -> Vec<&Asker> {
        let mut askers = Vec::new();
        for check in &self.checks {
            if let Check::Judge { asker, .. } | Check::Permitted { asker, .. } = check {
                if !askers.contains(&asker) {
                    askers.push(asker);
                }
            }
        }
        askers
    }

    /// The property values that are read by themselves.
    pub fn values(&self) -> impl Iterator<Item = &[u8]> {
        self.checks.iter().filter_map(|check| match check {
            Check::Value { octets, .. } => Some(octets.as_slice()),
            _ => None,
        })
    }

    /// The CAA data that is written as lines.
    pub fn data(&self) -> impl Iterator<Item = &[u8]> {
        self.checks.iter().filter_map(|check| match check {
            Check::Write { data, .. } => Some(data.as_slice()),
            _ => None,
        })
    }

    /// The lines that are read.
    pub fn lines(&self) -> impl Iterator<Item = &[u8]> {
        self.checks.iter().filter_map(|check| match check {
            Check::Read { line, .. } => Some(line.as_slice()),
            _ => None,
        })
    }
}

/// Reads the cases of one file; an error names the file and line.
pub fn read_cases(file: &str, contents: &str) -> Result<Vec<Case>, String> {
    let mut cases: Vec<Case> = Vec::new();
    for (index, line) in contents.lines().enumerate() {
        let line = line.trim();
        if line.is_empty() || line.starts_with('#') {
            continue;
        }
        read_line(&mut cases, line).map_err(|why| format!("{file}:{}: {why}", index + 1))?;
    }
    let asks_nothing = |case: &&Case| case.checks.is_empty() && case.steps.is_empty();
    match cases.iter().find(asks_nothing) {
        Some(case) => Err(format!("{file}: case `{}` asks nothing", case.title)),
        None => Ok(cases),
    }
}

fn read_line(cases: &mut Vec<Case>, line: &str) -> Result<(), String> {
    let (directive, rest) = word(line);
    if directive == "case" {
        cases.push(Case {
            title: rest.to_string(),
            request: Vec::new(),
            book: Vec::new(),
            asker: Asker::default(),
            checks: Vec::new(),
            steps: Vec::new(),
        });
        return Ok(());
    }
    let case = cases.last_mut().ok_or("no `case` before this line")?;
    if directive == "repeat" {
        let (times, rest) = word(rest);
        let (directive, rest) = word(rest);
        for _ in 0..number(times)? {
            read_directive(case, directive, rest)?;
        }
        return Ok(());
    }
    read_directive(case, directive, rest)
}

fn read_directive(case: &mut Case, directive: &str, rest: &str) -> Result<(), String> {
    match directive {
        "request" => case.request.extend(wire_name(rest)?),
        "request-hex" => case.request.extend(hex(rest)?),
        "record" => case.book.extend(record(rest)?),
        "book-hex" => case.book.extend(hex(rest)?),
        "account" => case.asker.account = text(rest)?,
        "method" => case.asker.method = text(rest)?,
        _ => {
            let (request, book) = (&mut case.request, &mut case.book);
            if let Some(step) = Step::read(directive, rest, request, book, &case.asker) {
                case.steps.push(step?);
                return Ok(());
            }
            let check = Check::read(directive, rest, &case.asker)
                .ok_or_else(|| format!("`{directive}` is no directive"))?;
            case.checks.push(check?);
        }
    }
    Ok(())
}

/// A resource record: `OWNER CAA FLAGS TAG "VALUE"`, `OWNER CNAME TARGET` or `OWNER CLASSn TYPEn HEX`.
/// The time to live means nothing; it is one with odd octets, so that a wrong field shows.
fn record(notation: &str) -> Result<Vec<u8>, String> {
    const TIME_TO_LIVE: [u8; 4] = [0x01, 0x01, 0x00, 0x01];
    let (owner, rest) = word(notation);
    let (kind, rest) = word(rest);
    let (class, rtype, rdata) = if kind == "CAA" {
        (1, 257, caa_data(rest)?)
    } else if kind == "CNAME" {
        (1, 5, wire_name(rest)?)
    } else {
        let (rtype, rdata) = word(rest);
        let class = kind.strip_prefix("CLASS").ok_or("no CLASS")?;
        let rtype = rtype.strip_prefix("TYPE").ok_or("no TYPE")?;
        (number(class)?, number(rtype)?, hex(rdata)?)
    };
    let mut octets = wire_name(owner)?;
    octets.extend(two_octets(rtype)?);
    octets.extend(two_octets(class)?);
    octets.extend(TIME_TO_LIVE);
    octets.extend(two_octets(rdata.len())?);
    octets.extend(rdata);
    Ok(octets)
}

fn caa_data(notation: &str) -> Result<Vec<u8>, String> {
    let (flags, rest) = word(notation);
    let (tag, value) = word(rest);
    let flags: u8 = flags.parse().map_err(|_| format!("flags `{flags}`"))?;
    let tag = text(tag)?;
    let tag_length = u8::try_from(tag.len()).map_err(|_| "a tag over 255 octets")?;
    Ok([vec![flags, tag_length], tag, quoted(value)?].concat())
}

fn two_octets(number: usize) -> Result<[u8; 2], String> {
    let number = u16::try_from(number).map_err(|_| format!("{number} is over two octets"))?;
    Ok(number.to_be_bytes())
}

#[cfg(test)]
mod tests {
    use super::super::session::SessionCall;
    use super::*;

    #[test]
    fn a_record_is_laid_out_as_rfc_1035_says() {
        assert_eq!(
            record(r#"a CAA 128 tbs "\010""#).unwrap(),
            b"\x01a\x00\x01\x01\x00\x01\x01\x01\x00\x01\x00\x06\x80\x03tbs\n"
        );
        assert_eq!(
            record("a CNAME b.c").unwrap(),
            b"\x01a\x00\x00\x05\x00\x01\x01\x01\x00\x01\x00\x05\x01b\x01c\x00"
        );
        assert_eq!(
            record(". CLASS3 TYPE16 00 01").unwrap(),
            b"\x00\x00\x10\x00\x03\x01\x01\x00\x01\x00\x02\x00\x01"
        );
    }

    #[test]
    fn mistakes_are_told_with_their_line() {
        for wrong in [
            "judge a => verdict 0",
            "case x",
            "case x\nfrown",
            "case x\njudge a",
            "case x\nrequest a..b\njudge a => verdict 0",
            "case x\nrecord a CAA 256 issue \"\"\njudge a => verdict 0",
            "case x\npermitted room => anyone",
            "case x\npermitted frown => anyone",
            "case x\npermitted => list-hex 1 3 01 61",
            "case x\nvalue ; => no name",
            "case x\nwrite room 9 \\0 => refused 11 at 0",
            "case x\nread 0 a b => data \\256",
            "case x\nstate",
            "case x\nfail x => verdict 23",
            "case x\nopen x => asks a",
            "case x\nopen x => asks a at b",
            "case x\nset frown 1",
            "case x\nset phase -1",
            "case x\nset name-frown 1",
            "case x\nset account a{257}",
            "case x\nnumbers => phase 1 up 0",
        ] {
            let mistake = read_cases("f", wrong).err().expect(wrong);
            assert!(mistake.starts_with("f:"), "{mistake}");
        }
    }

    #[test]
    fn account_and_method_are_those_of_the_lines_below() {
        let cases = read_cases(
            "f",
            "case x\njudge a => ?\naccount b\\032\npermitted => ?\njudge c => ?\nmethod\njudge d => ?\n\
             case y\njudge e => ?",
        )
        .unwrap();
        let asker = |account: &[u8], method: &[u8]| Asker {
            account: account.to_vec(),
            method: method.to_vec(),
        };
        let good = Asker::default();
        let other = asker(b"b ", &good.method);
        let without = asker(b"b ", b"");
        let judged: Vec<_> = cases[0].judged().collect();
        assert!(judged == [(&b"a"[..], &good), (b"c", &other), (b"d", &without)]);
        assert!(cases[0].askers() == [&good, &other, &without]);
        assert!(cases[1].askers() == [&good]);
    }

    #[test]
    fn an_opening_takes_the_names_above_it_and_an_answer_the_records() {
        let cases = read_cases(
            "f",
            "case x\nrequest a\nbook-hex 01\nopen x => ?\nbook-hex 02\nanswer => ?\nrequest b\n\
             book-hex 03\nanswer => ?\nrequest c\nopen => ?\nanswer => ?",
        )
        .unwrap();
        let mut given: Vec<&[u8]> = Vec::new();
        for step in &cases[0].steps {
            match step {
                Step::Call {
                    call: SessionCall::Open { request, .. },
                    ..
                } => given.push(request),
                Step::Call {
                    call: SessionCall::Answer { book },
                    ..
                } => given.push(book),
                _ => panic!("another step"),
            }
        }
        assert_eq!(
            given,
            [
                &b"\x01a\x00"[..],
                b"\x01\x02",
                b"\x03",
                b"\x01b\x00\x01c\x00",
                b""
            ]
        );
    }

    #[test]
    fn repeats_are_written_out() {
        let cases = read_cases(
            "f",
            "case x\nrepeat 2 request a\nrepeat 3 book-hex 00 01{2}\njudge a => ?",
        )
        .unwrap();
        assert_eq!(cases[0].request, b"\x01a\x00\x01a\x00");
        assert_eq!(cases[0].book, [0, 1, 1, 0, 1, 1, 0, 1, 1]);
    }
}
