//! The calls on a session against ours: the reply and every octet of the session, after each call.

use super::aliases::{count_aliases, OF_SESSIONS};
use super::log::{Call, Differences, Tally};
use super::Part;
use crate::answer::{Answer, Refusal, Reply};
use crate::calls::{told, Desk, Sessions};
use crate::cases::{memory, Asker, Case, SessionCall, Step};
use crate::generate::{CutAnswer, Generator, Inputs, WholeBook, Written};
use crate::judge::judge;
use crate::limits::REQUEST_OCTETS;
use crate::request::read_requested_name;
use crate::session::Session;
use crate::{read_book, read_request};

static OPEN: Call = Call {
    name: "session open",
    kinds: &[
        (40, "asks"),
        (1, "refused 1"),
        (2, "refused 2 at 0"),
        (SECOND_NAME, "refused 2 at 1"),
        (4, "refused 4"),
        (15, "refused 15"),
    ],
};
const SECOND_NAME: u8 = 102;

static ANSWER: Call = Call {
    name: "session answer",
    kinds: &[
        (40, "asks"),
        (0, "verdict 0"),
        (20, "verdict 20"),
        (21, "verdict 21"),
        (22, "verdict 22"),
        (14, "refused 14"),
        (BAD_BOOK_AT_END, "refused 14, a bad book"),
        (5, "refused 5"),
        (6, "refused 6"),
        (7, "refused 7"),
        (12, "refused 12"),
    ],
};
const BAD_BOOK_AT_END: u8 = 114;

static FAIL: Call = Call {
    name: "session fail",
    kinds: &[(23, "verdict 23"), (14, "refused 14")],
};

static STATE: Call = Call {
    name: "session state",
    kinds: &[
        (40, "asks"),
        (0, "verdict 0"),
        (20, "verdict 20"),
        (21, "verdict 21"),
        (22, "verdict 22"),
        (23, "verdict 23"),
        (41, "no verdict"),
    ],
};

/// Runs whose answers are cut from one whole book, by the verdict on that.
static WHOLE: Call = Call {
    name: "session, whole",
    kinds: &[
        (0, "verdict 0"),
        (20, "verdict 20"),
        (21, "verdict 21"),
        (22, "verdict 22"),
        (UP, "up 0"),
        (UP + 1, "up 1"),
        (UP + 2, "up 2"),
        (UP + 3, "up 3 and more"),
        (STAR, "star"),
        (AT_THE_TOP, "no set at all"),
        (BEHIND_REFUSED, "behind a refused book"),
    ],
};
const UP: u8 = 100;
const STAR: u8 = 110;
const AT_THE_TOP: u8 = 111;
const BEHIND_REFUSED: u8 = 112;

/// Sessions that were written to between two calls, by what was: those that still tell something, and
/// those that have ended without a verdict.
static WRITTEN: Call = Call {
    name: "session, memory",
    kinds: &[
        (ENDED, "any octets, ended"),
        (1, "one octet"),
        (ENDED + 1, "ended"),
        (2, "phase"),
        (ENDED + 2, "ended"),
        (3, "place"),
        (ENDED + 3, "ended"),
        (4, "verdict"),
        (ENDED + 4, "ended"),
        (5, "length"),
        (ENDED + 5, "ended"),
        (6, "name"),
        (ENDED + 6, "ended"),
        (7, "issuer"),
        (ENDED + 7, "ended"),
        (8, "account"),
        (ENDED + 8, "ended"),
        (9, "method"),
        (ENDED + 9, "ended"),
    ],
};
const ENDED: u8 = 100;

pub struct SessionComparison {
    theirs: Sessions,
    generator: Generator,
    /// What the run before left, so that sessions are opened anew too.
    left: Session,
    open: Tally,
    answer: Tally,
    fail: Tally,
    state: Tally,
    whole: Tally,
    aliases: Tally,
    written: Tally,
}

impl SessionComparison {
    pub fn new(theirs: Sessions, seed: u64) -> SessionComparison {
        SessionComparison {
            theirs,
            generator: Generator::new(seed ^ 0x5E55),
            left: memory(0xFF),
            open: Tally::new(&OPEN),
            answer: Tally::new(&ANSWER),
            fail: Tally::new(&FAIL),
            state: Tally::new(&STATE),
            whole: Tally::new(&WHOLE),
            aliases: Tally::new(&OF_SESSIONS),
            written: Tally::new(&WRITTEN),
        }
    }

    /// One call on two copies of the session, which is ours after that.
    fn make(
        &mut self,
        call: &SessionCall,
        session: &mut Session,
        differences: &mut Differences,
    ) -> Reply {
        let before = *session;
        let mut other = before;
        let ours = match call.make(&Desk::OWN.sessions, session) {
            Ok(reply) => reply,
            Err(word) => unreachable!("no answer of ours: {word}"),
        };
        let theirs = call.make(&self.theirs, &mut other);
        self.count(call, ours);
        if theirs != Ok(ours) || other != *session {
            let octets = before.octets();
            let mut inputs: Vec<(&str, &[u8])> = vec![("session", &octets)];
            match call {
                SessionCall::Open {
                    request,
                    issuer,
                    asker,
                } => inputs.extend([
                    ("request", &request[..]),
                    ("issuer", issuer),
                    ("account", &asker.account),
                    ("method", &asker.method),
                ]),
                SessionCall::Answer { book } => inputs.push(("book", book)),
                SessionCall::Fail | SessionCall::State => {}
            }
            let [they_left, we_left] = difference(&other, session);
            differences.tell(
                called(call),
                &inputs,
                format!("{}{they_left}", told(theirs)),
                format!("{ours}{we_left}"),
            );
        }
        ours
    }

    fn count(&mut self, call: &SessionCall, reply: Reply) {
        match call {
            SessionCall::Open { .. } => self.open.count(match reply {
                Reply::Judged(Answer::Refused(Refusal::BadRequestedName { name: 1 })) => {
                    SECOND_NAME
                }
                _ => kind(reply),
            }),
            SessionCall::Answer { book } => self.answer.count(match kind(reply) {
                14 if read_book(book).is_err() => BAD_BOOK_AT_END,
                kind => kind,
            }),
            SessionCall::Fail => self.fail.count(kind(reply)),
            SessionCall::State => self.state.count(kind(reply)),
        }
    }

    /// Answers that are cut from one whole book, until a verdict stands. Refused books come between.
    fn run_by_whole_book(
        &mut self,
        inputs: &Inputs,
        session: &mut Session,
        mut reply: Reply,
        differences: &mut Differences,
    ) {
        let Inputs {
            issuer,
            account,
            method,
            book,
            ..
        } = inputs;
        let Some(request) = session.name.kept().map(<[u8]>::to_vec) else {
            return;
        };
        let Some((requested, _)) = read_requested_name(&request) else {
            return;
        };
        let whole = WholeBook::of(book);
        let (mut accepted, mut behind_refused, mut last) = (0, false, Vec::new());
        while let Some(asked) = session.asked(reply).map(<[u8]>::to_vec) {
            if self.generator.once_in(8) {
                let book = self.generator.refused_book();
                self.make(&SessionCall::Answer { book }, session, differences);
                behind_refused = true;
            }
            if self.generator.once_in(4) {
                self.make(&SessionCall::State, session, differences);
            }
            let CutAnswer { book, numbers } = self.generator.answer_for(&asked, &whole);
            last = numbers;
            reply = self.make(&SessionCall::Answer { book }, session, differences);
            accepted += 1;
            if differences.are_enough() {
                return;
            }
        }
        // The verdict is that on the whole book, but for the record's number.
        let verdict = judge(&request, issuer, account, method, book);
        let by_whole_book = |[name, record, up]: [usize; 3]| {
            let number = last.get(record).copied().flatten();
            [name, number.unwrap_or(usize::MAX), up]
        };
        let as_whole = match reply {
            Reply::Judged(answer) => answer.with(by_whole_book) == verdict,
            _ => false,
        };
        let labels = requested.fqdn.labels().count();
        if !as_whole || accepted > labels {
            let inputs = [
                ("request", &request[..]),
                ("issuer", issuer),
                ("account", account),
                ("method", method),
                ("book", book),
            ];
            let run = format!("{reply} after {accepted} answers");
            let whole = format!("{verdict} on the whole book, of {labels} labels");
            differences.tell(&WHOLE, &inputs, run, whole);
        }
        self.count_run(verdict, session.up, requested.wildcard, behind_refused);
        count_aliases(&mut self.aliases, &request, book);
        if accepted == labels && verdict == Answer::Permitted {
            self.whole.count(AT_THE_TOP);
        }
    }

    fn count_run(&mut self, verdict: Answer, up: usize, star: bool, behind_refused: bool) {
        self.whole.count(kind(Reply::Judged(verdict)));
        if verdict != Answer::Permitted {
            self.whole.count(UP + up.min(3) as u8);
            if star {
                self.whole.count(STAR);
            }
            if behind_refused {
                self.whole.count(BEHIND_REFUSED);
            }
        }
    }

    /// A whole book of chains, for the issuer name, account and method of an opening that was accepted. Most
    /// other books have no alias of the names that are asked for.
    fn run_through_aliases(&mut self, inputs: &Inputs, differences: &mut Differences) {
        let (request, book) = self.generator.good_request_and_book_of_aliases();
        let inputs = Inputs {
            request,
            book,
            ..inputs.clone()
        };
        let mut session = self.left;
        let open = self.opening(&inputs);
        let reply = self.make(&open, &mut session, differences);
        if !reply.is_refusal() {
            self.run_by_whole_book(&inputs, &mut session, reply, differences);
        }
    }

    /// Any books, and failures.
    fn run_by_any_answers(
        &mut self,
        inputs: &Inputs,
        session: &mut Session,
        differences: &mut Differences,
    ) {
        for number in 0..1 + self.generator.below(4) {
            let call = match self.generator.below(8) {
                _ if number == 0 => SessionCall::Answer {
                    book: inputs.book.clone(),
                },
                0 => SessionCall::Fail,
                1 => SessionCall::State,
                2 => SessionCall::Answer {
                    book: self.generator.refused_book(),
                },
                3 | 4 => SessionCall::Answer { book: Vec::new() },
                _ => SessionCall::Answer {
                    book: self.generator.book(),
                },
            };
            self.make(&call, session, differences);
        }
    }

    /// Some calls more, whether or not the session has ended.
    fn some_calls(&mut self, session: &mut Session, differences: &mut Differences) {
        for _ in 0..2 + self.generator.below(3) {
            let call = match self.generator.below(8) {
                0..=2 => SessionCall::State,
                3 => SessionCall::Fail,
                4 | 5 => SessionCall::Answer {
                    book: self.generator.refused_book(),
                },
                _ => SessionCall::Answer {
                    book: self.generator.book(),
                },
            };
            self.make(&call, session, differences);
        }
    }

    /// A session that somebody else has written to.
    fn run_on_written(&mut self, session: Session, differences: &mut Differences) {
        let (mut session, written) = self.generator.written_session(session);
        let ended = match self.make(&SessionCall::State, &mut session, differences) {
            Reply::NoVerdict => ENDED,
            _ => 0,
        };
        self.written.count(ended + number_of(written));
        self.some_calls(&mut session, differences);
    }
}

impl Part for SessionComparison {
    fn stored(&mut self, case: &Case, differences: &mut Differences) {
        let mut session = memory(0x00);
        for step in &case.steps {
            match step {
                Step::Call { call, .. } => {
                    self.make(call, &mut session, differences);
                }
                Step::Write(write) => write.to(&mut session),
                Step::Numbers(_) => {}
            }
        }
    }

    fn random(&mut self, inputs: &Inputs, differences: &mut Differences) {
        let mut session = match self.generator.below(3) {
            0 => memory(0x00),
            1 => memory(0xFF),
            _ => self.left,
        };
        let open = self.opening(inputs);
        let reply = self.make(&open, &mut session, differences);
        let opened = session;
        if reply.is_refusal() {
            self.some_calls(&mut session, differences);
            return;
        }
        if read_book(&inputs.book).is_ok() && !self.generator.once_in(3) {
            self.run_by_whole_book(inputs, &mut session, reply, differences);
        } else {
            self.run_by_any_answers(inputs, &mut session, differences);
        }
        // Once it has ended it stays as it is, whatever comes.
        self.some_calls(&mut session, differences);
        for good in [opened, session] {
            self.run_on_written(good, differences);
        }
        if self.generator.once_in(8) {
            self.run_through_aliases(inputs, differences);
        }
        self.left = session;
    }

    fn into_tallies(self: Box<Self>) -> Vec<Tally> {
        vec![
            self.open,
            self.answer,
            self.fail,
            self.state,
            self.whole,
            self.aliases,
            self.written,
        ]
    }
}

impl SessionComparison {
    fn opening(&mut self, inputs: &Inputs) -> SessionCall {
        SessionCall::Open {
            request: self.opened_with(&inputs.request),
            issuer: inputs.issuer.clone(),
            asker: Asker {
                account: inputs.account.clone(),
                method: inputs.method.clone(),
            },
        }
    }

    /// Mostly one name of the request, else all of it.
    fn opened_with(&mut self, request: &[u8]) -> Vec<u8> {
        if request.len() > REQUEST_OCTETS || self.generator.once_in(6) {
            return request.to_vec();
        }
        let names = match read_request(request) {
            Ok(names) => names.len(),
            Err(_) => 1,
        };
        let skipped = self.generator.below(names.min(8));
        let mut rest = request;
        for _ in 0..skipped {
            match read_requested_name(rest) {
                Some((_, behind)) => rest = behind,
                None => break,
            }
        }
        match read_requested_name(rest) {
            Some((_, behind)) => rest[..rest.len() - behind.len()].to_vec(),
            None => request.to_vec(),
        }
    }
}

fn called(call: &SessionCall) -> &'static Call {
    match call {
        SessionCall::Open { .. } => &OPEN,
        SessionCall::Answer { .. } => &ANSWER,
        SessionCall::Fail => &FAIL,
        SessionCall::State => &STATE,
    }
}

fn number_of(written: Written) -> u8 {
    match written {
        Written::AnyOctets => 0,
        Written::OneOctet => 1,
        Written::Phase => 2,
        Written::Place => 3,
        Written::Verdict => 4,
        Written::Length => 5,
        Written::Name => 6,
        Written::Issuer => 7,
        Written::Account => 8,
        Written::Method => 9,
    }
}

fn kind(reply: Reply) -> u8 {
    match reply {
        Reply::Asks { .. } => 40,
        Reply::LookupFailed => 23,
        Reply::NoVerdict => 41,
        Reply::Judged(Answer::Permitted) => 0,
        Reply::Judged(Answer::UnknownCritical { .. }) => 20,
        Reply::Judged(Answer::NotGranted { .. }) => 21,
        Reply::Judged(Answer::TooManyAliases { .. }) => 22,
        Reply::Judged(Answer::Refused(refusal)) => refusal.number(),
    }
}

/// Where the two sessions first differ, and what stands there.
fn difference(theirs: &Session, ours: &Session) -> [String; 2] {
    let (theirs, ours) = (theirs.octets(), ours.octets());
    match (0..ours.len()).find(|&place| theirs[place] != ours[place]) {
        Some(place) => {
            [theirs, ours].map(|octets| format!(", leaves {:02X} at {place}", octets[place]))
        }
        None => Default::default(),
    }
}
