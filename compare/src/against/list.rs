//! Who may issue against ours: the answer and every octet of the buffer.

use super::aliases::{self, count_aliases};
use super::buffer::{sizes_to_try, TwoBuffers};
use super::heights::{self, count_in_vain, count_of_restricted};
use super::limits::{self, count_limits};
use super::log::{Call, Differences, Tally};
use super::parameters::{self, count_parameters};
use super::Part;
use crate::answer::{Permitted, Refusal};
use crate::calls::{told, PermittedIssuers};
use crate::cases::{Asker, Case};
use crate::generate::{Generator, Inputs};
use crate::permitted::permitted_issuers;

static LIST: Call = Call {
    name: "list",
    kinds: &[
        (ANYONE, "anyone"),
        (LIST_OF_NONE, "list of 0"),
        (LIST_OF_NONE + 1, "list of 1"),
        (LIST_OF_NONE + 2, "list of 2"),
        (LIST_OF_NONE + 3, "list of 3 to 255"),
        (LIST_OF_NONE + 4, "list of 256 and more"),
        (1, "refused 1"),
        (2, "refused 2"),
        (3, "refused 3"),
        (15, "refused 15"),
        (5, "refused 5"),
        (6, "refused 6"),
        (7, "refused 7"),
        (12, "refused 12"),
        (8, "refused 8"),
    ],
};
const ANYONE: u8 = 30;
const LIST_OF_NONE: u8 = 31;

pub struct ListComparison {
    theirs: PermittedIssuers,
    generator: Generator,
    tally: Tally,
    /// Of the generated cases alone, like the limits.
    heights: Tally,
    limits: Tally,
    parameters: Tally,
    aliases: Tally,
}

/// What is asked, but for the buffer.
#[derive(Clone, Copy)]
struct Question<'a> {
    request: &'a [u8],
    account: &'a [u8],
    method: &'a [u8],
    book: &'a [u8],
}

impl ListComparison {
    pub fn new(theirs: PermittedIssuers, seed: u64) -> ListComparison {
        ListComparison {
            theirs,
            generator: Generator::new(!seed),
            tally: Tally::new(&LIST),
            heights: Tally::new(&heights::OF_LISTS),
            limits: Tally::new(&limits::OF_LISTS),
            parameters: Tally::new(&parameters::OF_LISTS),
            aliases: Tally::new(&aliases::OF_LISTS),
        }
    }

    /// Counts the answer for the buffer given; then tries the sizes around the one needed.
    fn compare(
        &mut self,
        question: Question,
        buffer: &[u8],
        differences: &mut Differences,
    ) -> Permitted {
        let answer = self.with_buffer(question, buffer, differences);
        self.tally.count(kind(answer));
        for size in sizes_to_try(needed(answer)) {
            let buffer = self.generator.buffer(size);
            self.with_buffer(question, &buffer, differences);
        }
        answer
    }

    fn with_buffer(
        &mut self,
        question: Question,
        buffer: &[u8],
        differences: &mut Differences,
    ) -> Permitted {
        let Question {
            request,
            account,
            method,
            book,
        } = question;
        let mut buffers = TwoBuffers::new(buffer, &mut self.generator);
        let ours = permitted_issuers(request, account, method, book, buffers.ours());
        let theirs = (self.theirs)(request, account, method, book, buffers.theirs());
        let left = buffers.difference();
        if theirs != Ok(ours) || left.is_some() {
            let inputs = [
                ("request", request),
                ("account", account),
                ("method", method),
                ("book", book),
                ("buffer", buffer),
            ];
            let [they_left, we_left] = left.unwrap_or_default();
            differences.tell(
                &LIST,
                &inputs,
                format!("{}{they_left}", told(theirs)),
                format!("{ours}{we_left}"),
            );
        }
        ours
    }
}

impl Part for ListComparison {
    fn stored(&mut self, case: &Case, differences: &mut Differences) {
        for Asker { account, method } in case.askers() {
            let question = Question {
                request: &case.request,
                account,
                method,
                book: &case.book,
            };
            let buffer = self.generator.buffer(case.book.len());
            self.compare(question, &buffer, differences);
        }
    }

    fn random(&mut self, inputs: &Inputs, differences: &mut Differences) {
        let Inputs {
            request,
            account,
            method,
            book,
            buffer,
            ..
        } = inputs;
        let question = Question {
            request,
            account,
            method,
            book,
        };
        let answer = self.compare(question, buffer, differences);
        if !matches!(answer, Permitted::Refused(_)) {
            count_limits(&mut self.limits, request, book);
            count_parameters(&mut self.parameters, inputs, None);
            count_aliases(&mut self.aliases, request, book);
        }
        match answer {
            Permitted::Anyone => count_in_vain(&mut self.heights, request, book),
            Permitted::List { .. } => count_of_restricted(&mut self.heights, request, book),
            Permitted::Refused(_) => {}
        }
    }

    fn into_tallies(self: Box<Self>) -> Vec<Tally> {
        vec![
            self.tally,
            self.heights,
            self.limits,
            self.parameters,
            self.aliases,
        ]
    }
}

/// The room that the answer needs, where it can need any.
fn needed(answer: Permitted) -> Option<usize> {
    match answer {
        Permitted::List { octets, .. } => Some(octets),
        Permitted::Refused(Refusal::BufferTooShort { needed }) => Some(needed),
        Permitted::Anyone | Permitted::Refused(_) => None,
    }
}

fn kind(answer: Permitted) -> u8 {
    match answer {
        Permitted::Anyone => ANYONE,
        Permitted::List { count, .. } => {
            LIST_OF_NONE
                + match count {
                    0..3 => count as u8,
                    3..256 => 3,
                    _ => 4,
                }
        }
        Permitted::Refused(refusal) => refusal.number(),
    }
}
