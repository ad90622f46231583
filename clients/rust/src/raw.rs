//! The calls of the library. All that is unsafe stands here.
//!
//! What each block relies on: a handle is a struct of a `bool` and a pointer, which the library alone reads and writes;
//! it begins as zeros; it serves one call at a time, which `&mut self` gives; and it may go to another thread, since
//! `Send` is proved of the library's own type for it.
#![allow(unsafe_code)]

use crate::answers::Answer;
use crate::errors::Error;
use std::ffi::c_void;
use std::{ptr, slice};

const DONE: i32 = 0;
const MEMORY: i32 = 2;
const LIMITS: i32 = 3;
const NO_TITLE: i32 = 16;
const NO_CALL: i32 = 17;
const TOO_LONG: i32 = 18;
const FOREIGN: i32 = 19;
const NOTHING: i32 = 21;
const READ: i32 = 22;
const APPEND: i32 = 23;
const REPLY: i32 = 24;
const REFUSED: i32 = 25;
const ENDED: i32 = 26;
const STOPPED: i32 = 27;

// `camp`, `camp_view` and `camp_member` of camp.h, which have the same members.
#[repr(C)]
struct Handle {
    is_open: bool,
    at: *mut c_void,
}

impl Handle {
    fn closed() -> Handle {
        Handle {
            is_open: false,
            at: ptr::null_mut(),
        }
    }
}

extern "C" {
    fn camp_open(repository: *mut Handle) -> i32;
    fn camp_open_with(repository: *mut Handle, catches: usize, branches: usize) -> i32;
    fn camp_ask(repository: *mut Handle, text: *const u8, length: usize) -> i32;
    fn camp_executed(repository: *mut Handle) -> usize;
    fn camp_answer_bytes(repository: *mut Handle, length: *mut usize) -> *const u8;
    fn camp_close(repository: *mut Handle);
    fn camp_look(repository: *mut Handle, view: *mut Handle) -> i32;
    fn camp_view_ask(view: *mut Handle, text: *const u8, length: usize) -> i32;
    fn camp_view_answer_bytes(view: *mut Handle, length: *mut usize) -> *const u8;
    fn camp_view_again(view: *mut Handle, other: *mut Handle) -> i32;
    fn camp_view_close(view: *mut Handle);
    fn camp_member_open(
        member: *mut Handle,
        high: u64,
        low: u64,
        title: *const u8,
        length: usize,
    ) -> i32;
    fn camp_member_ask(
        member: *mut Handle,
        request: u64,
        text: *const u8,
        length: usize,
        at_least: u64,
    ) -> i32;
    fn camp_member_want(member: *mut Handle) -> i32;
    fn camp_member_found(member: *mut Handle, index: usize, text: *const u8, length: usize) -> i32;
    fn camp_member_refused(member: *mut Handle) -> i32;
    fn camp_member_ended(member: *mut Handle, index: usize) -> i32;
    fn camp_member_answer(member: *mut Handle) -> i32;
    fn camp_member_number(member: *mut Handle) -> u64;
    fn camp_member_text_length(member: *mut Handle) -> usize;
    fn camp_member_text(member: *mut Handle, buffer: *mut u8, length: usize) -> usize;
    fn camp_member_index(member: *mut Handle) -> usize;
    fn camp_member_accepted(member: *mut Handle) -> u64;
    fn camp_member_look(member: *mut Handle, view: *mut Handle) -> i32;
    fn camp_member_close(member: *mut Handle);
}

// A copy of an answer that the library lends: so many bytes at a pointer, or none.
//
// # Safety
//
// At the pointer there are that many bytes, which nobody writes meanwhile; it is null only if there are none.
unsafe fn copied(at: *const u8, length: usize) -> Option<Vec<u8>> {
    let mut answer = Vec::new();
    answer.try_reserve_exact(length).ok()?;
    if length > 0 {
        // SAFETY: as the caller says.
        answer.extend_from_slice(unsafe { slice::from_raw_parts(at, length) });
    }
    Some(answer)
}

// What a code means if nothing has changed at each other than `DONE`. A handle of these types is open as long as it lives, has
// its own kind, and is opened once, so the codes 1, 4 and 5 do not come.
fn done(code: i32) -> Result<(), Error> {
    match code {
        DONE => Ok(()),
        code => Err(unexpected(code)),
    }
}

// The error of a code that is not expected, unless memory ran out.
fn unexpected(code: i32) -> Error {
    match code {
        MEMORY => Error::OutOfMemory,
        _ => Error::Unexpected(Answer::new(format!("code {code}").into_bytes())),
    }
}

/// A repository that is open.
pub(crate) struct RawRepository(Handle);

impl RawRepository {
    pub(crate) fn open() -> Result<RawRepository, Error> {
        let mut handle = Handle::closed();
        // SAFETY: the handle is closed, and lives through the call.
        done(unsafe { camp_open(&mut handle) })?;
        Ok(RawRepository(handle))
    }

    // A repository with these limits; none where one of them is out of range.
    pub(crate) fn open_with(
        catches: usize,
        branches: usize,
    ) -> Result<Option<RawRepository>, Error> {
        let mut handle = Handle::closed();
        // SAFETY: the handle is closed, and lives through the call.
        match unsafe { camp_open_with(&mut handle, catches, branches) } {
            LIMITS => Ok(None),
            code => done(code).map(|()| Some(RawRepository(handle))),
        }
    }

    // How many commands of the last text were executed.
    pub(crate) fn executed(&mut self) -> usize {
        // SAFETY: `&mut self` makes it the only call.
        unsafe { camp_executed(&mut self.0) }
    }

    // Why there is no answer to the last text if memory ran out for it.
    fn out_of_memory(&mut self) -> Error {
        match self.executed() {
            0 => Error::OutOfMemory,
            executed => Error::OutcomeUnknown { executed },
        }
    }

    // The answer to a text. If memory runs out, only its first commands were executed.
    pub(crate) fn ask(&mut self, text: &[u8]) -> Result<Vec<u8>, Error> {
        // SAFETY: pointer and length are those of a slice; `&mut self` makes it the only call.
        let code = unsafe { camp_ask(&mut self.0, text.as_ptr(), text.len()) };
        if code == MEMORY {
            return Err(self.out_of_memory());
        }
        done(code)?;
        let mut length = 0;
        // SAFETY: `&mut self` makes it the only call.
        let at = unsafe { camp_answer_bytes(&mut self.0, &mut length) };
        // SAFETY: the library lends its answer until the next call, and `&mut self` makes that come later.
        let answer = unsafe { copied(at, length) };
        answer.ok_or_else(|| self.out_of_memory())
    }

    pub(crate) fn look(&mut self) -> Result<RawView, Error> {
        let mut view = Handle::closed();
        // SAFETY: the view is closed, and both live through the call; `&mut self` makes it the only call.
        done(unsafe { camp_look(&mut self.0, &mut view) })?;
        Ok(RawView(view))
    }
}

impl Drop for RawRepository {
    fn drop(&mut self) {
        // SAFETY: nobody uses the handle behind this.
        unsafe { camp_close(&mut self.0) }
    }
}

/// A view that is open.
pub(crate) struct RawView(Handle);

impl RawView {
    // The answer to a text, which changes nothing.
    pub(crate) fn ask(&mut self, text: &[u8]) -> Result<Vec<u8>, Error> {
        // SAFETY: pointer and length are those of a slice; `&mut self` makes it the only call.
        done(unsafe { camp_view_ask(&mut self.0, text.as_ptr(), text.len()) })?;
        let mut length = 0;
        // SAFETY: `&mut self` makes it the only call.
        let at = unsafe { camp_view_answer_bytes(&mut self.0, &mut length) };
        // SAFETY: the library lends its answer until the next call, and `&mut self` makes that come later.
        unsafe { copied(at, length) }.ok_or(Error::OutOfMemory)
    }

    pub(crate) fn again(&mut self) -> Result<RawView, Error> {
        let mut other = Handle::closed();
        // SAFETY: the other view is closed, and both live through the call; `&mut self` makes it the only call.
        done(unsafe { camp_view_again(&mut self.0, &mut other) })?;
        Ok(RawView(other))
    }
}

impl Drop for RawView {
    fn drop(&mut self) {
        // SAFETY: nobody uses the handle behind this.
        unsafe { camp_view_close(&mut self.0) }
    }
}

/// What a member wants of its log.
pub(crate) enum Want {
    Nothing,
    /// To read it from the member's index on.
    Read,
    /// To append this text under the member's seat and this number, once.
    Append(u64, Vec<u8>),
}

/// Why a request gets no reply.
#[derive(Clone, Copy, Debug, PartialEq, Eq)]
pub(crate) enum NoReply {
    Refused,
    Ended,
    Stopped,
}

/// How a call is queued.
#[derive(Clone, Copy, Debug, PartialEq, Eq)]
pub(crate) enum Queued {
    Waits,
    NoCall,
    TooLong,
}

/// A member of a log that is open.
pub(crate) struct RawMember(Handle);

impl RawMember {
    // A member of a seat over the log with this title; none if it is no title.
    pub(crate) fn open(seat: u128, title: &[u8]) -> Result<Option<RawMember>, Error> {
        let (mut handle, high, low) = (Handle::closed(), (seat >> 64) as u64, seat as u64);
        // SAFETY: the handle is closed, and lives through the call; pointer and length are those of a slice.
        match unsafe { camp_member_open(&mut handle, high, low, title.as_ptr(), title.len()) } {
            NO_TITLE => Ok(None),
            code => done(code).map(|()| Some(RawMember(handle))),
        }
    }

    // Queues the call of a text, to be answered at as many accepted calls or more.
    pub(crate) fn ask(
        &mut self,
        request: u64,
        text: &[u8],
        at_least: u64,
    ) -> Result<Queued, Error> {
        // SAFETY: pointer and length are those of a slice; `&mut self` makes it the only call.
        match unsafe { camp_member_ask(&mut self.0, request, text.as_ptr(), text.len(), at_least) }
        {
            NO_CALL => Ok(Queued::NoCall),
            TOO_LONG => Ok(Queued::TooLong),
            code => done(code).map(|()| Queued::Waits),
        }
    }

    pub(crate) fn want(&mut self) -> Result<Want, Error> {
        // SAFETY: `&mut self` makes it the only call.
        match unsafe { camp_member_want(&mut self.0) } {
            NOTHING => Ok(Want::Nothing),
            READ => Ok(Want::Read),
            APPEND => Ok(Want::Append(self.number(), self.text()?)),
            code => Err(unexpected(code)),
        }
    }

    // Gives the member the text at an index of the log. False if it stops the member.
    pub(crate) fn found(&mut self, index: usize, text: &[u8]) -> Result<bool, Error> {
        // SAFETY: pointer and length are those of a slice; `&mut self` makes it the only call.
        match unsafe { camp_member_found(&mut self.0, index, text.as_ptr(), text.len()) } {
            FOREIGN => Ok(false),
            code => done(code).map(|()| true),
        }
    }

    pub(crate) fn refused(&mut self) -> Result<(), Error> {
        // SAFETY: `&mut self` makes it the only call.
        done(unsafe { camp_member_refused(&mut self.0) })
    }

    pub(crate) fn ended(&mut self, index: usize) -> Result<(), Error> {
        // SAFETY: `&mut self` makes it the only call.
        done(unsafe { camp_member_ended(&mut self.0, index) })
    }

    // The next answer, if there is one: the number of its request, and the reply.
    pub(crate) fn answer(&mut self) -> Result<Option<(u64, Result<Vec<u8>, NoReply>)>, Error> {
        // SAFETY: `&mut self` makes it the only call.
        let answer = match unsafe { camp_member_answer(&mut self.0) } {
            NOTHING => return Ok(None),
            REPLY => Ok(self.text()?),
            REFUSED => Err(NoReply::Refused),
            ENDED => Err(NoReply::Ended),
            STOPPED => Err(NoReply::Stopped),
            code => return Err(unexpected(code)),
        };
        Ok(Some((self.number(), answer)))
    }

    fn number(&mut self) -> u64 {
        // SAFETY: `&mut self` makes it the only call.
        unsafe { camp_member_number(&mut self.0) }
    }

    fn text(&mut self) -> Result<Vec<u8>, Error> {
        // SAFETY: `&mut self` makes it the only call.
        let length = unsafe { camp_member_text_length(&mut self.0) };
        let mut text = Vec::new();
        text.try_reserve_exact(length)
            .map_err(|_| Error::OutOfMemory)?;
        text.resize(length, 0);
        // SAFETY: pointer and length are those of a slice; `&mut self` makes it the only call.
        unsafe { camp_member_text(&mut self.0, text.as_mut_ptr(), length) };
        Ok(text)
    }

    pub(crate) fn index(&mut self) -> usize {
        // SAFETY: `&mut self` makes it the only call.
        unsafe { camp_member_index(&mut self.0) }
    }

    pub(crate) fn accepted(&mut self) -> u64 {
        // SAFETY: `&mut self` makes it the only call.
        unsafe { camp_member_accepted(&mut self.0) }
    }

    pub(crate) fn look(&mut self) -> Result<RawView, Error> {
        let mut view = Handle::closed();
        // SAFETY: the view is closed, and both live through the call; `&mut self` makes it the only call.
        done(unsafe { camp_member_look(&mut self.0, &mut view) })?;
        Ok(RawView(view))
    }
}

impl Drop for RawMember {
    fn drop(&mut self) {
        // SAFETY: nobody uses the handle behind this.
        unsafe { camp_member_close(&mut self.0) }
    }
}

// SAFETY: `Send` is proved of what the handle stands for, and each call takes it alone.
unsafe impl Send for RawRepository {}

// SAFETY: as above.
unsafe impl Send for RawMember {}

// SAFETY: as above. A view shares with its repository and with other views only what no call writes, but for counts,
// which are atomic.
unsafe impl Send for RawView {}
