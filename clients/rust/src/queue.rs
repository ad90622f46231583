//! A file that the processes lock that wait to write to another one.
//!
//! What each block relies on: the file is open as long as its value lives.
#![allow(unsafe_code)]

use std::ffi::c_int;
use std::fs::{File, OpenOptions};
use std::os::fd::AsRawFd;
use std::thread;
use std::time::{Duration, Instant};

/// What `flock` is asked: to lock a file unless another process has it locked, and to unlock it.
const LOCK: c_int = 2 | 4;
const UNLOCK: c_int = 8;

/// The time after which it goes on without its turn: a process that was stopped in its own stops nobody.
const PATIENCE: Duration = Duration::from_millis(500);
const PAUSE: Duration = Duration::from_millis(1);

extern "C" {
    fn flock(file: c_int, asked: c_int) -> c_int;
}

/// The queue of those that write, one of which is the next. There is none where the file can't be made.
pub(crate) struct Queue(Option<File>);

impl Queue {
    pub(crate) fn open(path: &str) -> Queue {
        Queue(
            File::open(path)
                .or_else(|_| OpenOptions::new().append(true).create(true).open(path))
                .ok(),
        )
    }

    // Does work once no other process is the next one: else one that has just written would be the first again.
    pub(crate) fn run<T>(&self, work: impl FnOnce() -> T) -> T {
        let Some(file) = &self.0 else {
            return work();
        };
        let end = Instant::now() + PATIENCE;
        // SAFETY: the file is open.
        while unsafe { flock(file.as_raw_fd(), LOCK) } != 0 && Instant::now() < end {
            thread::sleep(PAUSE);
        }
        let found = work();
        // SAFETY: the file is open.
        unsafe { flock(file.as_raw_fd(), UNLOCK) };
        found
    }
}
