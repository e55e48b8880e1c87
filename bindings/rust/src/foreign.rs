//! The calls of libsplinepearl.a (include/splinepearl.h). All unsafe code of this crate is here.

// The caller's duties (include/splinepearl.h), and why these functions fulfil them for all arguments:
// - A pointer is valid for its length and never null, even if the length is 0: it comes from a slice.
// - The session is a whole one, aligned as it has to be: it is a `Kept`, which has the header's layout. Any
//   octets may be in it.
// - The buffer and the session overlap no input: each is borrowed by `&mut`, or by `&` where a call only
//   reads it.
// - Until the call returns nobody writes to an input or touches the buffer or the session: all are borrowed
//   for the call, and the library keeps no pointer.
// - Between two calls nobody writes to a session: only this crate has it, and `Session::from_octets` says
//   what it means to make one from octets.
// The stack is left to the program that uses this crate.
#![allow(unsafe_code)]

use std::mem::{offset_of, size_of};

/// What a session keeps: `caa_session` of the header.
#[derive(Clone, PartialEq, Eq)]
#[repr(C)]
pub struct Kept {
    pub phase: usize,
    pub up: usize,
    pub verdict: usize,
    pub rr: usize,
    pub name: Text,
    pub issuer: Text,
    pub account: Text,
    pub method: Text,
}

/// A kept text: `struct caa_text` of the header.
#[derive(Clone, PartialEq, Eq)]
#[repr(C)]
pub struct Text {
    pub length: usize,
    pub octets: [u8; TEXT_ROOM],
}

pub const TEXT_ROOM: usize = 256;

// No compiler compares the two declarations, so the layout stands here in numbers, as in the test of the
// header.
const _: () = {
    assert!(size_of::<Kept>() == 1_088);
    assert!(offset_of!(Kept, phase) == 0);
    assert!(offset_of!(Kept, up) == 8);
    assert!(offset_of!(Kept, verdict) == 16);
    assert!(offset_of!(Kept, rr) == 24);
    assert!(offset_of!(Kept, name) == 32);
    assert!(offset_of!(Kept, issuer) == 296);
    assert!(offset_of!(Kept, account) == 560);
    assert!(offset_of!(Kept, method) == 824);
    assert!(size_of::<Text>() == 264);
    assert!(offset_of!(Text, octets) == 8);
};

extern "C" {
    fn caa_judge_for(
        request: *const u8,
        request_len: usize,
        issuer: *const u8,
        issuer_len: usize,
        account: *const u8,
        account_len: usize,
        method: *const u8,
        method_len: usize,
        book: *const u8,
        book_len: usize,
    ) -> u64;
    fn caa_permitted_issuers_for(
        request: *const u8,
        request_len: usize,
        account: *const u8,
        account_len: usize,
        method: *const u8,
        method_len: usize,
        book: *const u8,
        book_len: usize,
        buffer: *mut u8,
        buffer_len: usize,
    ) -> u64;
    fn caa_write_line(data: *const u8, data_len: usize, buffer: *mut u8, buffer_len: usize) -> u64;
    fn caa_read_line(line: *const u8, line_len: usize, buffer: *mut u8, buffer_len: usize) -> u64;
    fn caa_session_open(
        session: *mut Kept,
        request: *const u8,
        request_len: usize,
        issuer: *const u8,
        issuer_len: usize,
        account: *const u8,
        account_len: usize,
        method: *const u8,
        method_len: usize,
    ) -> u64;
    fn caa_session_answer(session: *mut Kept, book: *const u8, book_len: usize) -> u64;
    fn caa_session_fail(session: *mut Kept) -> u64;
    fn caa_session_state(session: *const Kept) -> u64;
}

pub fn judge(request: &[u8], issuer: &[u8], account: &[u8], method: &[u8], book: &[u8]) -> u64 {
    // SAFETY: five live slices, only read; see above.
    unsafe {
        caa_judge_for(
            request.as_ptr(),
            request.len(),
            issuer.as_ptr(),
            issuer.len(),
            account.as_ptr(),
            account.len(),
            method.as_ptr(),
            method.len(),
            book.as_ptr(),
            book.len(),
        )
    }
}

pub fn permitted_issuers(
    request: &[u8],
    account: &[u8],
    method: &[u8],
    book: &[u8],
    buffer: &mut [u8],
) -> u64 {
    // SAFETY: four live slices, only read, and a buffer borrowed by `&mut`; see above.
    unsafe {
        caa_permitted_issuers_for(
            request.as_ptr(),
            request.len(),
            account.as_ptr(),
            account.len(),
            method.as_ptr(),
            method.len(),
            book.as_ptr(),
            book.len(),
            buffer.as_mut_ptr(),
            buffer.len(),
        )
    }
}

pub fn write_line(data: &[u8], buffer: &mut [u8]) -> u64 {
    // SAFETY: a live slice, only read, and a buffer borrowed by `&mut`; see above.
    unsafe { caa_write_line(data.as_ptr(), data.len(), buffer.as_mut_ptr(), buffer.len()) }
}

pub fn read_line(line: &[u8], buffer: &mut [u8]) -> u64 {
    // SAFETY: a live slice, only read, and a buffer borrowed by `&mut`; see above.
    unsafe { caa_read_line(line.as_ptr(), line.len(), buffer.as_mut_ptr(), buffer.len()) }
}

pub fn session_open(
    session: &mut Kept,
    request: &[u8],
    issuer: &[u8],
    account: &[u8],
    method: &[u8],
) -> u64 {
    // SAFETY: a session borrowed by `&mut`, and four live slices, only read; see above.
    unsafe {
        caa_session_open(
            session,
            request.as_ptr(),
            request.len(),
            issuer.as_ptr(),
            issuer.len(),
            account.as_ptr(),
            account.len(),
            method.as_ptr(),
            method.len(),
        )
    }
}

pub fn session_answer(session: &mut Kept, book: &[u8]) -> u64 {
    // SAFETY: a session borrowed by `&mut`, and a live slice, only read; see above.
    unsafe { caa_session_answer(session, book.as_ptr(), book.len()) }
}

pub fn session_fail(session: &mut Kept) -> u64 {
    // SAFETY: a session borrowed by `&mut`; see above.
    unsafe { caa_session_fail(session) }
}

pub fn session_state(session: &Kept) -> u64 {
    // SAFETY: a session borrowed by `&`, which the call only reads; see above.
    unsafe { caa_session_state(session) }
}
