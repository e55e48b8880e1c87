//! The judge against ours.

use super::aliases::{self, count_aliases};
use super::heights::{self, count_in_vain, count_verdict};
use super::limits::{self, count_limits};
use super::log::{Call, Differences, Tally};
use super::parameters::{self, count_parameters};
use super::up::{self, count_up, ToldUp};
use super::Part;
use crate::answer::Answer;
use crate::calls::{told, Judge};
use crate::cases::{Asker, Case};
use crate::generate::Inputs;
use crate::judge::judge;

static JUDGE: Call = Call {
    name: "judge",
    kinds: &[
        (0, "verdict 0"),
        (20, "verdict 20"),
        (21, "verdict 21"),
        (22, "verdict 22"),
        (1, "refused 1"),
        (2, "refused 2"),
        (3, "refused 3"),
        (4, "refused 4"),
        (15, "refused 15"),
        (5, "refused 5"),
        (6, "refused 6"),
        (7, "refused 7"),
        (12, "refused 12"),
    ],
};

pub struct JudgeComparison {
    theirs: Judge,
    tally: Tally,
    /// Of the generated cases alone, like the limits.
    heights: Tally,
    up: Tally,
    limits: Tally,
    parameters: Tally,
    aliases: Tally,
}

impl JudgeComparison {
    pub fn new(theirs: Judge) -> JudgeComparison {
        JudgeComparison {
            theirs,
            tally: Tally::new(&JUDGE),
            heights: Tally::new(&heights::OF_VERDICTS),
            up: Tally::new(&up::OF_VERDICTS),
            limits: Tally::new(&limits::OF_VERDICTS),
            parameters: Tally::new(&parameters::OF_VERDICTS),
            aliases: Tally::new(&aliases::OF_VERDICTS),
        }
    }

    fn compare(
        &mut self,
        request: &[u8],
        issuer: &[u8],
        account: &[u8],
        method: &[u8],
        book: &[u8],
        differences: &mut Differences,
    ) -> Answer {
        let ours = judge(request, issuer, account, method, book);
        let theirs = (self.theirs)(request, issuer, account, method, book);
        self.tally.count(kind(ours));
        if theirs != Ok(ours) {
            let inputs = [
                ("request", request),
                ("issuer", issuer),
                ("account", account),
                ("method", method),
                ("book", book),
            ];
            differences.tell(&JUDGE, &inputs, told(theirs), ours);
        }
        ours
    }
}

impl Part for JudgeComparison {
    fn stored(&mut self, case: &Case, differences: &mut Differences) {
        for (issuer, Asker { account, method }) in case.judged() {
            let (request, book) = (&case.request, &case.book);
            self.compare(request, issuer, account, method, book, differences);
        }
    }

    fn random(&mut self, inputs: &Inputs, differences: &mut Differences) {
        let Inputs {
            request,
            issuer,
            account,
            method,
            book,
            ..
        } = inputs;
        let answer = self.compare(request, issuer, account, method, book, differences);
        if !matches!(answer, Answer::Refused(_)) {
            count_limits(&mut self.limits, request, book);
            count_parameters(&mut self.parameters, inputs, Some(issuer));
            count_aliases(&mut self.aliases, request, book);
        }
        match answer {
            Answer::Permitted => count_in_vain(&mut self.heights, request, book),
            Answer::UnknownCritical { name, up, .. }
            | Answer::NotGranted { name, up, .. }
            | Answer::TooManyAliases { name, up, .. } => {
                count_verdict(&mut self.heights, up);
                let told = ToldUp {
                    verdict: kind(answer),
                    name,
                    up,
                };
                count_up(&mut self.up, request, book, told);
            }
            Answer::Refused(_) => {}
        }
    }

    fn into_tallies(self: Box<Self>) -> Vec<Tally> {
        vec![
            self.tally,
            self.heights,
            self.up,
            self.limits,
            self.parameters,
            self.aliases,
        ]
    }
}

fn kind(answer: Answer) -> u8 {
    match answer {
        Answer::Permitted => 0,
        Answer::UnknownCritical { .. } => 20,
        Answer::NotGranted { .. } => 21,
        Answer::TooManyAliases { .. } => 22,
        Answer::Refused(refusal) => refusal.number(),
    }
}
