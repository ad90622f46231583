//! Statements over a file, by SQLite's C library.
//!
//! What each block relies on: the connection is open as long as its value lives, and `&mut self` makes each call the only one;
//! a statement ends before its connection, and what is bound to it lives until it is unbound.
#![allow(unsafe_code)]

use crate::errors::LogError;
use crate::shared::PAUSE;
use std::collections::HashMap;
use std::ffi::{c_char, c_int, c_void, CStr, CString};
use std::time::Instant;
use std::{ptr, slice, thread};

/// The codes of a statement that has ended, and of some errors: the disk is full, the text is too large, the file is
/// read-only, a row is there already.
pub(crate) const DONE: c_int = 101;
pub(crate) const FULL: c_int = 13;
pub(crate) const TOO_BIG: c_int = 18;
pub(crate) const READ_ONLY: c_int = 8;
pub(crate) const CONSTRAINT: c_int = 19;
const ROW: c_int = 100;
// Milliseconds to wait while another process writes.
const BUSY: c_int = 500;

type Pointer = *mut c_void;

#[link(name = "sqlite3")]
extern "C" {
    fn sqlite3_open(path: *const c_char, base: *mut Pointer) -> c_int;
    fn sqlite3_close(base: Pointer) -> c_int;
    fn sqlite3_busy_timeout(base: Pointer, milliseconds: c_int) -> c_int;
    fn sqlite3_errmsg(base: Pointer) -> *const c_char;
    fn sqlite3_prepare_v2(_: Pointer, _: *const u8, _: c_int, _: *mut Pointer, _: Pointer)
        -> c_int;
    fn sqlite3_bind_text(_: Pointer, at: c_int, _: *const u8, _: c_int, free: Pointer) -> c_int;
    fn sqlite3_bind_blob(_: Pointer, at: c_int, _: *const u8, _: c_int, free: Pointer) -> c_int;
    fn sqlite3_bind_int64(made: Pointer, at: c_int, number: i64) -> c_int;
    fn sqlite3_step(made: Pointer) -> c_int;
    fn sqlite3_column_int64(made: Pointer, column: c_int) -> i64;
    fn sqlite3_column_blob(made: Pointer, column: c_int) -> *const u8;
    fn sqlite3_column_bytes(made: Pointer, column: c_int) -> c_int;
    fn sqlite3_reset(made: Pointer) -> c_int;
    fn sqlite3_clear_bindings(made: Pointer) -> c_int;
    fn sqlite3_finalize(made: Pointer) -> c_int;
}

/// A connection to a file, and the statements that were made for it.
pub(crate) struct Sqlite(Pointer, HashMap<&'static str, Pointer>);

impl Sqlite {
    // A connection to a file, which is made if it does not exist; or why there is none.
    pub(crate) fn open(path: &str) -> Result<Sqlite, String> {
        let path = CString::new(path).map_err(|error| error.to_string())?;
        let mut base = Sqlite(ptr::null_mut(), HashMap::new());
        // SAFETY: the path ends in a zero; the connection is closed when its value is dropped.
        if unsafe { sqlite3_open(path.as_ptr(), &mut base.0) } != 0 {
            return Err(base.message());
        }
        // SAFETY: the connection is open.
        unsafe { sqlite3_busy_timeout(base.0, BUSY) };
        Ok(base)
    }

    // Runs a statement, which ends in a zero, with `?1`, `?2` and `?3`. Returns its last code, and of each row an index and a text.
    pub(crate) fn run(
        &mut self,
        sql: &'static str,
        tag: &str,
        text: &[u8],
        index: usize,
    ) -> (c_int, Vec<(usize, Vec<u8>)>) {
        let (mut rows, none) = (Vec::new(), ptr::null_mut());
        let made = match self.made(sql) {
            Ok(made) => made,
            Err(code) => return (code, rows),
        };
        // SAFETY: what is bound lives until it is unbound here; a column that has bytes is copied before the next step.
        unsafe {
            sqlite3_bind_text(made, 1, tag.as_ptr(), tag.len() as c_int, none);
            sqlite3_bind_blob(made, 2, text.as_ptr(), text.len() as c_int, none);
            sqlite3_bind_int64(made, 3, index as i64);
            let mut code = sqlite3_step(made);
            while code == ROW {
                let (at, length) = (sqlite3_column_blob(made, 1), sqlite3_column_bytes(made, 1));
                let text = if length > 0 {
                    slice::from_raw_parts(at, length as usize)
                } else {
                    &[]
                };
                rows.push((sqlite3_column_int64(made, 0) as usize, text.to_vec()));
                code = sqlite3_step(made);
            }
            sqlite3_reset(made);
            sqlite3_clear_bindings(made);
            (code, rows)
        }
    }

    // The statement of a text, which is made once; or the code that says why it can't be made now.
    fn made(&mut self, sql: &'static str) -> Result<Pointer, c_int> {
        if let Some(made) = self.1.get(sql) {
            return Ok(*made);
        }
        let mut made = ptr::null_mut();
        // SAFETY: the text ends in a zero.
        match unsafe { sqlite3_prepare_v2(self.0, sql.as_ptr(), -1, &mut made, ptr::null_mut()) } {
            0 => {
                self.1.insert(sql, made);
                Ok(made)
            }
            code => Err(code),
        }
    }

    // Waits a little before the file is asked again that another process holds; an error once the time is over.
    pub(crate) fn wait(&mut self, end: Instant) -> Result<(), LogError> {
        if Instant::now() > end {
            return Err(LogError::Away(self.message()));
        }
        thread::sleep(PAUSE);
        Ok(())
    }

    // What SQLite says of the last error.
    pub(crate) fn message(&mut self) -> String {
        // SAFETY: the message is copied before the next call.
        unsafe { CStr::from_ptr(sqlite3_errmsg(self.0)) }
            .to_string_lossy()
            .into_owned()
    }
}

impl Drop for Sqlite {
    fn drop(&mut self) {
        for made in self.1.values() {
            // SAFETY: nobody uses the statement after this.
            unsafe { sqlite3_finalize(*made) };
        }
        // SAFETY: nobody uses the connection after this; null is allowed.
        unsafe { sqlite3_close(self.0) };
    }
}

// SAFETY: SQLite's library is made for threads, and `&mut self` makes each call the only one.
unsafe impl Send for Sqlite {}
