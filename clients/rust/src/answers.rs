use crate::errors::{Error, Fault, Refusal, Refused};
use crate::names::Line;
use std::fmt;

/// The text that answers what was asked.
#[derive(Clone, PartialEq, Eq)]
pub struct Answer(Vec<u8>);

impl Answer {
    pub(crate) fn new(bytes: Vec<u8>) -> Answer {
        Answer(bytes)
    }

    /// The bytes of the text.
    pub fn as_bytes(&self) -> &[u8] {
        &self.0
    }

    /// The lines of the text, without their line feeds.
    pub fn lines(&self) -> impl Iterator<Item = &[u8]> {
        Lines(&self.0)
    }

    // The first line.
    pub(crate) fn first_line(&self) -> &[u8] {
        Lines(&self.0).next().unwrap_or(b"")
    }

    // What a function reads of the lines after the first, which has to be this word and a number. The function gets the
    // number, and has to take all lines; anything else is unexpected.
    pub(crate) fn read<'a, T>(
        &'a self,
        word: &str,
        read: impl FnOnce(u64, &mut Lines<'a>) -> Option<T>,
    ) -> Result<T, Error> {
        let mut lines = Lines(&self.0);
        let result = match lines.words().as_deref() {
            Some([said, count]) if *said == word.as_bytes() => {
                number(count).and_then(|count| read(count, &mut lines))
            }
            _ => None,
        };
        match result {
            Some(result) if lines.0.is_empty() => Ok(result),
            _ => Err(self.unexpected()),
        }
    }

    pub(crate) fn unexpected(&self) -> Error {
        Error::Unexpected(self.clone())
    }

    // The error that the first line says, if it says that the command was not done.
    pub(crate) fn failure(&self, why: impl FnOnce() -> String) -> Option<Error> {
        let first = self.first_line();
        let error = match words(first)[0] {
            b"memory" => return Some(Error::OutOfMemory),
            b"refused" => Refusal::read(first).map(|refusal| {
                let why = why();
                Error::Refused(Refused { refusal, why })
            }),
            b"fault" => Fault::read(first, why()).map(Error::Fault),
            _ => return None,
        };
        Some(error.unwrap_or_else(|| self.unexpected()))
    }
}

impl fmt::Display for Answer {
    fn fmt(&self, f: &mut fmt::Formatter<'_>) -> fmt::Result {
        f.write_str(&String::from_utf8_lossy(&self.0))
    }
}

impl fmt::Debug for Answer {
    fn fmt(&self, f: &mut fmt::Formatter<'_>) -> fmt::Result {
        fmt::Debug::fmt(&String::from_utf8_lossy(&self.0), f)
    }
}

// The lines of an answer that are not read yet.
pub(crate) struct Lines<'a>(pub(crate) &'a [u8]);

impl<'a> Iterator for Lines<'a> {
    type Item = &'a [u8];

    fn next(&mut self) -> Option<&'a [u8]> {
        if self.0.is_empty() {
            return None;
        }
        let end = self.0.iter().position(|byte| *byte == b'\n');
        let line = &self.0[..end.unwrap_or(self.0.len())];
        self.0 = end.map_or(&[], |end| &self.0[end + 1..]);
        Some(line)
    }
}

impl<'a> Lines<'a> {
    // The words of the next line.
    pub(crate) fn words(&mut self) -> Option<Vec<&'a [u8]>> {
        self.next().map(words)
    }

    // So many lines, each after a sign, which is taken off.
    pub(crate) fn signed(&mut self, count: u64, sign: &[u8]) -> Option<Vec<Line>> {
        (0..count)
            .map(|_| Line::new(self.next()?.strip_prefix(sign)?).ok())
            .collect()
    }
}

// The words of a line.
pub(crate) fn words(line: &[u8]) -> Vec<&[u8]> {
    line.split(|byte| *byte == b' ').collect()
}

// A number in decimal.
pub(crate) fn number(word: &[u8]) -> Option<u64> {
    std::str::from_utf8(word).ok()?.parse().ok()
}
