//! The proved library, through the C functions of its archives. What isn't linked by a feature is
//! `None`.

// Only here: a foreign function is unsafe to call. Each `const u8` pointer and the length behind it
// are those of a live slice that is only read, the `mut u8` pointer and its length those of a buffer
// lent by `&mut`, and no function keeps a pointer after it answers. A session is lent by `&mut`, or by `&`
// where it is only read, has the layout of the C header, and any octets are a session.
#![allow(unsafe_code)]

use crate::against::Other;
use crate::calls::{Judge, Lines, PermittedIssuers, Sessions};
use crate::readers::Readers;
use crate::session::Session;
use crate::small_stack::{on_small_stack, on_small_stack_with_buffer, on_small_stack_with_session};
#[cfg(any(
    feature = "readers",
    feature = "judge",
    feature = "lines",
    feature = "session"
))]
use crate::word::Word;

/// What this build is linked with.
pub const LINKED: Other = Other {
    readers: READERS,
    judge: JUDGE,
    permitted_issuers: PERMITTED_ISSUERS,
    lines: LINES,
    sessions: SESSIONS,
};

/// The same, each call but the readers made on a small stack.
pub const ON_SMALL_STACK: Other = Other {
    readers: READERS,
    judge: JUDGE_ON_SMALL_STACK,
    permitted_issuers: PERMITTED_ISSUERS_ON_SMALL_STACK,
    lines: LINES_ON_SMALL_STACK,
    sessions: SESSIONS_ON_SMALL_STACK,
};

#[allow(dead_code)] // What no feature links is never called.
extern "C" {
    // libtest_readers.a or libreaders.a
    fn readers_answer(
        number: usize,
        octets: *const u8,
        length: usize,
        other: *const u8,
        other_length: usize,
        at: usize,
    ) -> u64;

    // libsplinepearl.a
    fn caa_judge_for(
        request: *const u8,
        request_length: usize,
        issuer: *const u8,
        issuer_length: usize,
        account: *const u8,
        account_length: usize,
        method: *const u8,
        method_length: usize,
        book: *const u8,
        book_length: usize,
    ) -> u64;
    fn caa_permitted_issuers_for(
        request: *const u8,
        request_length: usize,
        account: *const u8,
        account_length: usize,
        method: *const u8,
        method_length: usize,
        book: *const u8,
        book_length: usize,
        buffer: *mut u8,
        buffer_length: usize,
    ) -> u64;
    fn caa_write_line(
        data: *const u8,
        data_length: usize,
        buffer: *mut u8,
        buffer_length: usize,
    ) -> u64;
    fn caa_read_line(
        line: *const u8,
        line_length: usize,
        buffer: *mut u8,
        buffer_length: usize,
    ) -> u64;
    fn caa_session_open(
        session: *mut Session,
        request: *const u8,
        request_length: usize,
        issuer: *const u8,
        issuer_length: usize,
        account: *const u8,
        account_length: usize,
        method: *const u8,
        method_length: usize,
    ) -> u64;
    fn caa_session_answer(session: *mut Session, book: *const u8, book_length: usize) -> u64;
    fn caa_session_fail(session: *mut Session) -> u64;
    fn caa_session_state(session: *const Session) -> u64;
}

#[cfg(feature = "readers")]
const READERS: Option<Readers> = Some(Readers {
    same: |s, t| reader(1, s, t, 0),
    name_end: |s, at| reader(2, s, b"", at),
    requested_name: |s, at| reader(3, s, b"", at),
    property: |s| reader(4, s, b"", 0),
    tag: |s| reader(5, s, b"", 0),
    record: |s, at| reader(6, s, b"", at),
    value: |s| reader(7, s, b"", 0),
});
#[cfg(not(feature = "readers"))]
const READERS: Option<Readers> = None;

/// What the reader of a number answers.
#[cfg(feature = "readers")]
fn reader(number: usize, octets: &[u8], other: &[u8], at: usize) -> Word {
    let (octets, length) = (octets.as_ptr(), octets.len());
    let (other, other_length) = (other.as_ptr(), other.len());
    Word::unpacked(unsafe { readers_answer(number, octets, length, other, other_length, at) })
}

#[cfg(feature = "judge")]
const JUDGE: Option<Judge> = Some(|request, issuer, account, method, book| {
    let word = unsafe {
        caa_judge_for(
            request.as_ptr(),
            request.len(),
            issuer.as_ptr(),
            issuer.len(),
            account.as_ptr(),
            account.len(),
            method.as_ptr(),
            method.len(),
            book.as_ptr(),
            book.len(),
        )
    };
    Word::unpacked(word).judged()
});
#[cfg(not(feature = "judge"))]
const JUDGE: Option<Judge> = None;

#[cfg(feature = "list")]
const PERMITTED_ISSUERS: Option<PermittedIssuers> =
    Some(|request, account, method, book, buffer| {
        let word = unsafe {
            caa_permitted_issuers_for(
                request.as_ptr(),
                request.len(),
                account.as_ptr(),
                account.len(),
                method.as_ptr(),
                method.len(),
                book.as_ptr(),
                book.len(),
                buffer.as_mut_ptr(),
                buffer.len(),
            )
        };
        Word::unpacked(word).permitted()
    });
#[cfg(not(feature = "list"))]
const PERMITTED_ISSUERS: Option<PermittedIssuers> = None;

#[cfg(feature = "lines")]
const LINES: Option<Lines> = Some(Lines {
    write: |data, buffer| {
        let (room, length) = (buffer.as_mut_ptr(), buffer.len());
        let word = unsafe { caa_write_line(data.as_ptr(), data.len(), room, length) };
        Word::unpacked(word).made()
    },
    read: |line, buffer| {
        let (room, length) = (buffer.as_mut_ptr(), buffer.len());
        let word = unsafe { caa_read_line(line.as_ptr(), line.len(), room, length) };
        Word::unpacked(word).made()
    },
});
#[cfg(not(feature = "lines"))]
const LINES: Option<Lines> = None;

#[cfg(feature = "session")]
const SESSIONS: Option<Sessions> = Some(Sessions {
    open: |session, request, issuer, account, method| {
        let word = unsafe {
            caa_session_open(
                session,
                request.as_ptr(),
                request.len(),
                issuer.as_ptr(),
                issuer.len(),
                account.as_ptr(),
                account.len(),
                method.as_ptr(),
                method.len(),
            )
        };
        Word::unpacked(word).replied()
    },
    answer: |session, book| {
        let word = unsafe { caa_session_answer(session, book.as_ptr(), book.len()) };
        Word::unpacked(word).replied()
    },
    fail: |session| Word::unpacked(unsafe { caa_session_fail(session) }).replied(),
    state: |session| Word::unpacked(unsafe { caa_session_state(session) }).replied(),
});
#[cfg(not(feature = "session"))]
const SESSIONS: Option<Sessions> = None;

/// A call on copies of its inputs, on a small stack. `None` where it isn't linked.
const JUDGE_ON_SMALL_STACK: Option<Judge> = match JUDGE {
    Some(_) => Some(|request, issuer, account, method, book| {
        let inputs = [request, issuer, account, method, book].map(<[u8]>::to_vec);
        on_small_stack(move || {
            let [request, issuer, account, method, book] = &inputs;
            (linked(JUDGE))(request, issuer, account, method, book)
        })
    }),
    None => None,
};

const PERMITTED_ISSUERS_ON_SMALL_STACK: Option<PermittedIssuers> = match PERMITTED_ISSUERS {
    Some(_) => Some(|request, account, method, book, buffer| {
        let inputs = [request, account, method, book].map(<[u8]>::to_vec);
        on_small_stack_with_buffer(buffer, move |buffer| {
            let [request, account, method, book] = &inputs;
            (linked(PERMITTED_ISSUERS))(request, account, method, book, buffer)
        })
    }),
    None => None,
};

const LINES_ON_SMALL_STACK: Option<Lines> = match LINES {
    Some(_) => Some(Lines {
        write: |data, buffer| {
            let data = data.to_vec();
            on_small_stack_with_buffer(buffer, move |buffer| (linked(LINES).write)(&data, buffer))
        },
        read: |line, buffer| {
            let line = line.to_vec();
            on_small_stack_with_buffer(buffer, move |buffer| (linked(LINES).read)(&line, buffer))
        },
    }),
    None => None,
};

const SESSIONS_ON_SMALL_STACK: Option<Sessions> = match SESSIONS {
    Some(_) => Some(Sessions {
        open: |session, request, issuer, account, method| {
            let inputs = [request, issuer, account, method].map(<[u8]>::to_vec);
            on_small_stack_with_session(session, move |session| {
                let [request, issuer, account, method] = &inputs;
                (linked(SESSIONS).open)(session, request, issuer, account, method)
            })
        },
        answer: |session, book| {
            let book = book.to_vec();
            on_small_stack_with_session(session, move |session| {
                (linked(SESSIONS).answer)(session, &book)
            })
        },
        fail: |session| {
            on_small_stack_with_session(session, |session| (linked(SESSIONS).fail)(session))
        },
        state: |session| {
            let mut copy = *session;
            let reply =
                on_small_stack_with_session(&mut copy, |session| (linked(SESSIONS).state)(session));
            assert!(
                copy == *session,
                "a call wrote to a session that it only reads"
            );
            reply
        },
    }),
    None => None,
};

/// What is asked for only where it is linked.
const fn linked<C: Copy>(call: Option<C>) -> C {
    match call {
        Some(call) => call,
        None => panic!("the call is not linked"),
    }
}
