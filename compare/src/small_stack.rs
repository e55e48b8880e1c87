//! Calls made on a thread with a small stack, so that a call that needs more ends the run.

use std::sync::mpsc::{sync_channel, SyncSender};
use std::thread;

use crate::buffer::MARGIN;
use crate::session::Session;

/// What a call has for itself, the frames of the thread included.
pub const STACK_OCTETS: usize = 64 * 1024;

type Job = Box<dyn FnOnce() + Send>;

/// One thread that makes the calls of another, one after the other.
struct Worker {
    jobs: SyncSender<Job>,
}

thread_local! {
    static WORKER: Worker = Worker::start();
}

impl Worker {
    /// The thread ends when its caller does.
    fn start() -> Worker {
        let (jobs, to_do) = sync_channel::<Job>(1);
        thread::Builder::new()
            .name("small stack".to_string())
            .stack_size(STACK_OCTETS)
            .spawn(move || to_do.into_iter().for_each(|job| job()))
            .expect("a thread with a small stack can be started");
        Worker { jobs }
    }

    fn answer<A: Send + 'static>(&self, call: impl FnOnce() -> A + Send + 'static) -> A {
        let (tell, told) = sync_channel(1);
        let job = move || {
            // Who asked waits for the answer.
            let _ = tell.send(call());
        };
        let sent = self.jobs.send(Box::new(job)).is_ok();
        let answer = told.recv();
        match (sent, answer) {
            (true, Ok(answer)) => answer,
            _ => panic!("the thread with the small stack has ended"),
        }
    }
}

/// Makes the call on a thread with a stack of [`STACK_OCTETS`] and waits for its answer. The thread
/// is the same for all calls of one caller. What the call needs goes with it; inputs are copied.
pub fn on_small_stack<A: Send + 'static>(call: impl FnOnce() -> A + Send + 'static) -> A {
    WORKER.with(|worker| worker.answer(call))
}

/// The same for a call with a buffer. The buffer's octets are copied there and back, with octets on
/// both sides of them that have to stay.
pub fn on_small_stack_with_buffer<A: Send + 'static>(
    buffer: &mut [u8],
    call: impl FnOnce(&mut [u8]) -> A + Send + 'static,
) -> A {
    let margins: [u8; 2 * MARGIN] = std::array::from_fn(|place| 0xA5 ^ place as u8);
    let (before, behind) = margins.split_at(MARGIN);
    let mut octets = [before, buffer, behind].concat();
    let lent = MARGIN..MARGIN + buffer.len();
    let (answer, octets) = on_small_stack({
        let lent = lent.clone();
        move || {
            let answer = call(&mut octets[lent]);
            (answer, octets)
        }
    });
    let stays = octets.starts_with(before) && octets.ends_with(behind);
    assert!(stays, "a call wrote beside its buffer");
    buffer.copy_from_slice(&octets[lent]);
    answer
}

/// A session with octets right before and behind it.
#[derive(Clone)]
#[repr(C)]
struct Guarded {
    before: [u8; MARGIN],
    session: Session,
    behind: [u8; MARGIN],
}

/// The same for a call with a session.
pub fn on_small_stack_with_session<A: Send + 'static>(
    session: &mut Session,
    call: impl FnOnce(&mut Session) -> A + Send + 'static,
) -> A {
    let (before, behind) = ([0xA5; MARGIN], [0x5A; MARGIN]);
    // In the heap, so that the small stack is the call's alone.
    let mut guarded = Box::new(Guarded {
        before,
        session: *session,
        behind,
    });
    let (answer, guarded) = on_small_stack(move || {
        let answer = call(&mut guarded.session);
        (answer, guarded)
    });
    let stays = guarded.before == before && guarded.behind == behind;
    assert!(stays, "a call wrote beside its session");
    *session = guarded.session;
    answer
}

#[cfg(test)]
mod tests {
    use super::*;

    #[test]
    fn calls_are_made_on_one_other_thread() {
        let first = on_small_stack(|| thread::current().id());
        assert_eq!(on_small_stack(|| thread::current().id()), first);
        assert_ne!(thread::current().id(), first);
    }

    #[test]
    fn what_is_written_to_a_buffer_comes_back() {
        let mut buffer = *b"abc";
        let answer = on_small_stack_with_buffer(&mut buffer, |buffer| {
            assert_eq!(buffer, b"abc");
            buffer[1] = b'x';
            buffer.len()
        });
        assert_eq!((answer, &buffer), (3, b"axc"));
    }

    #[test]
    fn what_is_written_to_a_session_comes_back() {
        let mut session = Session::ENDED;
        session.up = 7;
        let answer = on_small_stack_with_session(&mut session, |session| {
            session.rr = 9;
            session.up
        });
        assert_eq!((answer, session.up, session.rr), (7, 7, 9));
    }
}
