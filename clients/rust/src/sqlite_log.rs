use crate::checksums::{sealed, unsealed};
use crate::errors::LogError;
use crate::queue::Queue;
use crate::shared::{patience, Appended, Log};
use crate::sqlite::{Sqlite, CONSTRAINT, DONE, FULL, READ_ONLY, TOO_BIG};
use std::ffi::c_int;
use std::path::Path;
use std::time::Instant;

const OTHERS: &str =
    "SELECT 0, name FROM sqlite_master WHERE type = 'table' AND name <> 'entries'\0";
const OPEN: [&str; 3] = [
    "PRAGMA journal_mode = WAL\0",
    "PRAGMA synchronous = FULL\0",
    "CREATE TABLE IF NOT EXISTS entries (at INTEGER PRIMARY KEY, tag TEXT UNIQUE NOT NULL, text BLOB NOT NULL)\0",
];
const BEGIN: &str = "BEGIN IMMEDIATE\0";
const ROLLBACK: &str = "ROLLBACK\0";
const COMMIT: &str = "COMMIT\0";
const LAST: &str = "SELECT at, substr(CAST(text AS BLOB), -8) FROM entries WHERE at < ?3 ORDER BY at DESC LIMIT 1\0";
const APPEND: &str = "INSERT INTO entries VALUES (?3, ?1, ?2)\0";
const HAS: &str = "SELECT at, text FROM entries WHERE tag = ?1\0";
const READ: &str =
    "SELECT at, text FROM entries WHERE at >= ?3 AND typeof(text) = 'blob' ORDER BY at LIMIT 256\0";

/// A log in a table of a SQLite file, for the processes of one machine: that of `SqliteLog` of camp for Python. Each entry is
/// on the disk before it counts. Those who append take turns by the file `PATH-queue`.
// Last is the index of the entry that was just written, and the end of that before it, until the log is read.
pub struct SqliteLog(Sqlite, Queue, Option<(usize, Vec<u8>)>);

impl SqliteLog {
    /// The log in a file, which is made if it does not exist.
    pub fn open(path: impl AsRef<Path>) -> Result<SqliteLog, LogError> {
        let path = path.as_ref().to_string_lossy();
        let mut base = Sqlite::open(&path).map_err(LogError::NoLog)?;
        match base.run(OTHERS, "", b"", 0) {
            (DONE, others) if others.is_empty() => (),
            (DONE, _) => return Err(LogError::NoLog("a file of another program".to_owned())),
            _ => return Err(LogError::NoLog(base.message())),
        }
        let end = Instant::now() + patience();
        for sql in OPEN {
            while base.run(sql, "", b"", 0).0 != DONE {
                base.wait(end)?;
            }
        }
        let mut log = SqliteLog(base, Queue::open(&format!("{path}-queue")), None);
        while log.read(0)?.is_empty() {
            match log.append("log", b"camp log 1\n") {
                Appended::Done => break,
                Appended::Unknown => log.0.wait(end)?,
                Appended::Refused => return Err(LogError::Away(log.0.message())),
            }
        }
        Ok(log)
    }

    // Appends in a transaction, and returns the code of its last statement: that is `DONE`, or what was written is rolled back.
    fn write(&mut self, tag: &str, text: &[u8]) -> c_int {
        let SqliteLog(base, queue, written) = self;
        let begun = queue.run(|| base.run(BEGIN, "", b"", 0).0);
        if begun != DONE {
            return begun;
        }
        let (mut code, mut last) = base.run(LAST, "", b"", i64::MAX as usize);
        let (at, before) = last.pop().map_or((0, vec![]), |(at, end)| (at + 1, end));
        let stored = sealed(text, &before);
        for sql in [APPEND, COMMIT] {
            if code == DONE {
                code = base.run(sql, tag, &stored, at).0;
            }
        }
        if code == DONE {
            *written = Some((at, before));
        } else {
            base.run(ROLLBACK, "", b"", 0);
        }
        code
    }
}

impl Log for SqliteLog {
    fn append(&mut self, tag: &str, text: &[u8]) -> Appended {
        match self.write(tag, text) {
            DONE | CONSTRAINT => Appended::Done,
            // What was written of it is rolled back, unless the log has it.
            FULL | TOO_BIG | READ_ONLY if self.0.run(HAS, tag, b"", 0) == (DONE, vec![]) => {
                Appended::Refused
            }
            _ => Appended::Unknown,
        }
    }

    fn read(&mut self, index: usize) -> Result<Vec<Vec<u8>>, LogError> {
        let (code, mut last) = match self.2.take() {
            // Whoever has just written there has read what is before.
            Some((at, before)) if at == index => (DONE, vec![(at, before)]),
            _ => self.0.run(LAST, "", b"", index),
        };
        let (end, rows) = self.0.run(READ, "", b"", index);
        if (code, end) != (DONE, DONE) {
            return Err(LogError::Away(self.0.message()));
        }
        let mut before = last.pop().map_or(vec![], |row| row.1);
        let mut entries = Vec::new();
        for (at, (found, stored)) in (index..).zip(rows) {
            match unsealed(&stored, &before) {
                Some(text) if found == at => entries.push(text),
                _ if entries.is_empty() => return Err(LogError::Stopped(index)),
                _ => break,
            }
            before = stored;
        }
        Ok(entries)
    }
}
