//! The lines of a case that are about a session: what is done with it, in order, and what has to come of
//! that.

use super::check::Asker;
use super::notation::{hex, number, text, wire_name, word};
use crate::answer::{Answer, Reply};
use crate::calls::{told, Sessions};
use crate::session::{Session, Text, ASKING, DECIDED, SESSION_OCTETS};
use crate::word::Word;

/// One line.
pub enum Step {
    Call {
        call: SessionCall,
        expected: Expected,
    },
    Write(Write),
    /// Phase, labels taken off, verdict and record, as they are kept.
    Numbers([usize; 4]),
}

/// A call on the session, with what it is given.
pub enum SessionCall {
    Open {
        request: Vec<u8>,
        issuer: Vec<u8>,
        asker: Asker,
    },
    Answer {
        book: Vec<u8>,
    },
    Fail,
    State,
}

/// What a call has to answer.
pub enum Expected {
    /// This name, in wire form, at this offset of the kept name.
    Asks { name: Vec<u8>, offset: usize },
    /// Anything else, in words.
    InWords(String),
}

/// Octets that somebody else writes to the session between two calls.
pub enum Write {
    Zeros,
    Number(NumberField, usize),
    Length(TextField, usize),
    /// The text from the front on, and its length.
    Text(TextField, Vec<u8>),
}

#[derive(Clone, Copy)]
pub enum NumberField {
    Phase,
    Up,
    Verdict,
    Record,
}

#[derive(Clone, Copy)]
pub enum TextField {
    Name,
    Issuer,
    Account,
    Method,
}

impl Step {
    /// What the case holds so far is what the line is given: an opening takes its names, an answer its
    /// records, and the next begins without. `None` when the directive is none of a session's.
    pub(super) fn read(
        directive: &str,
        rest: &str,
        request: &mut Vec<u8>,
        book: &mut Vec<u8>,
        asker: &Asker,
    ) -> Option<Result<Step, String>> {
        let step = match directive {
            "set" => Write::read(rest).map(Step::Write),
            "numbers" => numbers(rest),
            "open" | "answer" | "fail" | "state" => match rest.rsplit_once("=>") {
                None => Err("no `=>`".to_string()),
                Some((given, expected)) => {
                    let call = match directive {
                        "open" => text(given.trim()).map(|issuer| SessionCall::Open {
                            request: std::mem::take(request),
                            issuer,
                            asker: asker.clone(),
                        }),
                        _ if !given.trim().is_empty() => Err(format!("`{given}` before `=>`")),
                        "answer" => Ok(SessionCall::Answer {
                            book: std::mem::take(book),
                        }),
                        "fail" => Ok(SessionCall::Fail),
                        _ => Ok(SessionCall::State),
                    };
                    call.and_then(|call| {
                        let expected = Expected::read(expected.trim())?;
                        Ok(Step::Call { call, expected })
                    })
                }
            },
            _ => return None,
        };
        Some(step)
    }
}

impl Expected {
    fn read(expected: &str) -> Result<Expected, String> {
        let ("asks", rest) = word(expected) else {
            return Ok(Expected::InWords(expected.to_string()));
        };
        let (name, offset) = rest.rsplit_once(" at ").ok_or("no ` at `")?;
        Ok(Expected::Asks {
            name: wire_name(name.trim())?,
            offset: number(offset)?,
        })
    }

    fn shown(&self) -> String {
        match self {
            Expected::Asks { name, offset } => asks(name, *offset),
            Expected::InWords(words) => words.clone(),
        }
    }
}

/// The same words for what is expected and for what came.
fn asks(name: &[u8], offset: usize) -> String {
    format!("asks {} at {offset}", name.escape_ascii())
}

fn shown(reply: Result<Reply, Word>, session: &Session) -> String {
    match reply {
        Ok(reply @ Reply::Asks { offset, .. }) => match session.asked(reply) {
            Some(name) => asks(name, offset),
            None => format!("{reply}, which are not kept"),
        },
        _ => told(reply),
    }
}

fn numbers(rest: &str) -> Result<Step, String> {
    let words: Vec<&str> = rest.split_whitespace().collect();
    let ["=>", "phase", phase, "up", up, "verdict", verdict, "record", record] = words[..] else {
        return Err(format!(
            "`{rest}` is not `=> phase P up U verdict V record R`"
        ));
    };
    Ok(Step::Numbers([
        number(phase)?,
        number(up)?,
        number(verdict)?,
        number(record)?,
    ]))
}

impl Write {
    fn read(rest: &str) -> Result<Write, String> {
        let (field, value) = word(rest);
        let number_field = |field| Ok(Write::Number(field, number(value)?));
        match field {
            "zeros" if value.is_empty() => return Ok(Write::Zeros),
            "phase" => return number_field(NumberField::Phase),
            "up" => return number_field(NumberField::Up),
            "verdict" => return number_field(NumberField::Verdict),
            "record" => return number_field(NumberField::Record),
            _ => {}
        }
        let (field, kind) = field.split_once('-').unwrap_or((field, ""));
        let field = match field {
            "name" => TextField::Name,
            "issuer" => TextField::Issuer,
            "account" => TextField::Account,
            "method" => TextField::Method,
            _ => return Err(format!("`{field}` is no field of a session")),
        };
        let octets = match (field, kind) {
            (_, "length") => return Ok(Write::Length(field, number(value)?)),
            (_, "hex") => hex(value)?,
            (TextField::Name, "") => wire_name(value)?,
            (_, "") => text(value)?,
            _ => return Err(format!("`{kind}` is nothing of a text")),
        };
        match Text::of(&octets) {
            Some(_) => Ok(Write::Text(field, octets)),
            None => Err("the session has no room for that".to_string()),
        }
    }

    pub fn to(&self, session: &mut Session) {
        match self {
            Write::Zeros => *session = Session::ENDED,
            Write::Number(field, number) => {
                *match field {
                    NumberField::Phase => &mut session.phase,
                    NumberField::Up => &mut session.up,
                    NumberField::Verdict => &mut session.verdict,
                    NumberField::Record => &mut session.rr,
                } = *number;
            }
            Write::Length(field, length) => field.of(session).length = *length,
            Write::Text(field, octets) => {
                let text = field.of(session);
                text.length = octets.len();
                text.octets[..octets.len()].copy_from_slice(octets);
            }
        }
    }
}

impl TextField {
    fn of(self, session: &mut Session) -> &mut Text {
        match self {
            TextField::Name => &mut session.name,
            TextField::Issuer => &mut session.issuer,
            TextField::Account => &mut session.account,
            TextField::Method => &mut session.method,
        }
    }
}

impl SessionCall {
    pub fn name(&self) -> &'static str {
        match self {
            SessionCall::Open { .. } => "open",
            SessionCall::Answer { .. } => "answer",
            SessionCall::Fail => "fail",
            SessionCall::State => "state",
        }
    }

    pub fn make(&self, sessions: &Sessions, session: &mut Session) -> Result<Reply, Word> {
        match self {
            SessionCall::Open {
                request,
                issuer,
                asker,
            } => {
                let Asker { account, method } = asker;
                (sessions.open)(session, request, issuer, account, method)
            }
            SessionCall::Answer { book } => (sessions.answer)(session, book),
            SessionCall::Fail => (sessions.fail)(session),
            SessionCall::State => (sessions.state)(session),
        }
    }

    /// What the session has to hold after the call, with this reply, which is the right one. `None` where
    /// the call can't give it.
    fn leaves(&self, before: &Session, reply: Reply) -> Option<Session> {
        let mut after = *before;
        match (self, reply) {
            (SessionCall::Open { .. }, _) if reply.is_refusal() => after = Session::ENDED,
            (
                SessionCall::Open {
                    request,
                    issuer,
                    asker,
                },
                _,
            ) => {
                after = Session {
                    phase: ASKING,
                    name: Text::of(request)?,
                    issuer: Text::of(issuer)?,
                    account: Text::of(&asker.account)?,
                    method: Text::of(&asker.method)?,
                    ..Session::ENDED
                };
            }
            (SessionCall::State, _) => {}
            _ if reply.is_refusal() => {}
            (_, Reply::Asks { .. }) => after.up += 1,
            (_, Reply::NoVerdict) => return None,
            (_, Reply::LookupFailed) => {
                (after.phase, after.verdict, after.rr) = (DECIDED, 23, 0);
            }
            (_, Reply::Judged(verdict)) => {
                after.phase = DECIDED;
                (after.verdict, after.rr) = match verdict {
                    Answer::UnknownCritical { record, .. } => (20, record),
                    Answer::NotGranted { record, .. } => (21, record),
                    Answer::TooManyAliases { record, .. } => (22, record),
                    Answer::Permitted | Answer::Refused(_) => (0, 0),
                };
            }
        }
        Some(after)
    }
}

/// The memory that a session begins with; the two masks agree in no octet.
pub fn memory(mask: u8) -> Session {
    let octets: Vec<u8> = (0..SESSION_OCTETS)
        .map(|place| place as u8 ^ mask)
        .collect();
    Session::from_octets(&octets)
}

/// Tries the steps on two fillings of the memory. After each call every octet is looked at.
pub(super) fn try_steps(sessions: &Sessions, steps: &[Step]) -> Result<(), String> {
    for mask in [0x00, 0xFF] {
        let mut session = memory(mask);
        for (number, step) in steps.iter().enumerate() {
            try_step(sessions, &mut session, step)
                .map_err(|why| format!("line {} of the session: {why}", number + 1))?;
        }
    }
    Ok(())
}

fn try_step(sessions: &Sessions, session: &mut Session, step: &Step) -> Result<(), String> {
    match step {
        Step::Write(write) => write.to(session),
        Step::Numbers(expected) => {
            let kept = [session.phase, session.up, session.verdict, session.rr];
            if kept != *expected {
                return Err(format!("numbers: expected {expected:?}, got {kept:?}"));
            }
        }
        Step::Call { call, expected } => {
            let before = *session;
            let reply = call.make(sessions, session);
            let what = call.name();
            let (expected, came) = (expected.shown(), shown(reply, session));
            if expected != came {
                return Err(format!("{what}: expected {expected}, got {came}"));
            }
            let left = reply.ok().and_then(|reply| call.leaves(&before, reply));
            let Some(left) = left else {
                return Err(format!("{what}: can't answer {came}"));
            };
            let (wanted, got) = (left.octets(), session.octets());
            if let Some(place) = (0..wanted.len()).find(|&place| wanted[place] != got[place]) {
                let (wanted, got) = (wanted[place], got[place]);
                return Err(format!(
                    "{what}: expected {wanted:02X} at {place} of the session, got {got:02X}"
                ));
            }
        }
    }
    Ok(())
}
