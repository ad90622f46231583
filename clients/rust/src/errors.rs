use crate::answers::{number, words, Answer};
use crate::names::{read_name, Malformed, Name};
use std::fmt;

/// Why something that was asked was not done. Nothing has changed then, but for [`Error::OutcomeUnknown`].
#[derive(Clone, Debug, PartialEq, Eq)]
#[non_exhaustive]
pub enum Error {
    /// Memory ran out. Nothing has changed, and the same can be asked again.
    OutOfMemory,
    /// Memory ran out before the answer was whole. Exactly the first commands of the text were executed.
    OutcomeUnknown {
        /// How many these are; blank lines and comments count.
        executed: usize,
    },
    /// The repository refuses the call.
    Refused(Refused),
    /// The text is no command.
    Fault(Fault),
    /// A text is no name, path or line; nothing was asked.
    Malformed(Malformed),
    /// The log of a shared repository does not take the call, or cannot be read.
    Log(LogError),
    /// The library answers in a form that this crate does not know.
    Unexpected(Answer),
}

impl Error {
    /// The refusal, if that is what it is.
    pub fn refusal(&self) -> Option<&Refusal> {
        match self {
            Error::Refused(refused) => Some(&refused.refusal),
            _ => None,
        }
    }
}

impl fmt::Display for Error {
    fn fmt(&self, f: &mut fmt::Formatter<'_>) -> fmt::Result {
        match self {
            Error::OutOfMemory => f.write_str("out of memory"),
            Error::OutcomeUnknown { executed } => write!(
                f,
                "out of memory before the answer was whole: {executed} commands were executed"
            ),
            Error::Refused(refused) => write!(f, "refused: {}", refused.refusal),
            Error::Fault(fault) => write!(f, "{fault}"),
            Error::Malformed(malformed) => write!(f, "{malformed}"),
            Error::Log(error) => write!(f, "{error}"),
            Error::Unexpected(answer) => write!(f, "unexpected answer: {answer}"),
        }
    }
}

impl std::error::Error for Error {}

/// What is wrong with the log of a shared repository.
#[derive(Clone, Debug, PartialEq, Eq)]
pub enum LogError {
    /// The log does not answer. Nothing is done, unless a call was on its way: see [`LogError::Unknown`].
    Away(String),
    /// The log does not answer after a call was sent to it: the call may be done, or may still come to be.
    Unknown,
    /// The log refuses the entry: its disk is full, or the entry is too large. Nothing is done.
    Refused,
    /// At this index of the log is no entry of a member, or one of another process with this seat. Questions are answered
    /// at the calls before it.
    Stopped(usize),
    /// The first entry is no title of a log of camp, or the file is of another program.
    NoLog(String),
}

impl fmt::Display for LogError {
    fn fmt(&self, f: &mut fmt::Formatter<'_>) -> fmt::Result {
        match self {
            LogError::Away(why) => write!(f, "the log does not answer: {why}"),
            LogError::Unknown => {
                f.write_str("the log does not answer: the call may be done, or may still come to be")
            }
            LogError::Refused => f.write_str(
                "the log refuses the entry: its disk or its space is full, or the entry is too large",
            ),
            LogError::Stopped(index) => {
                write!(f, "a foreign entry, or one of another process with this seat, at entry {index} of the log")
            }
            LogError::NoLog(why) => write!(f, "no log of camp: {why}"),
        }
    }
}

impl From<LogError> for Error {
    fn from(error: LogError) -> Error {
        Error::Log(error)
    }
}

impl From<Malformed> for Error {
    fn from(malformed: Malformed) -> Error {
        Error::Malformed(malformed)
    }
}

/// A refusal and its cause.
#[derive(Clone, Debug, PartialEq, Eq)]
pub struct Refused {
    /// What is refused.
    pub refusal: Refusal,
    /// The cause in words: the lines that the command `why` answers. Empty for a view and for `what_if`.
    pub why: String,
}

/// What is wrong with a text that was asked.
#[derive(Clone, Debug, PartialEq, Eq)]
pub struct Fault {
    /// The line, counted from 1.
    pub line: u64,
    /// What is wrong there, as `unknown command`.
    pub kind: String,
    /// The cause in words, as of [`Refused`].
    pub why: String,
}

impl Fault {
    // The fault that a line says.
    pub(crate) fn read(line: &[u8], why: String) -> Option<Fault> {
        match words(line).as_slice() {
            [b"fault", at, kind @ ..] if !kind.is_empty() => Some(Fault {
                line: number(at)?,
                kind: String::from_utf8_lossy(&kind.join(&b' ')).into_owned(),
                why,
            }),
            _ => None,
        }
    }
}

impl fmt::Display for Fault {
    fn fmt(&self, f: &mut fmt::Formatter<'_>) -> fmt::Result {
        write!(f, "line {}: {}", self.line, self.kind)
    }
}

/// Why the repository refuses a call, by the core's names.
#[derive(Clone, Debug, PartialEq, Eq)]
#[non_exhaustive]
pub enum Refusal {
    /// There is no branch of this name.
    NoBranch(Name),
    /// There is a branch of this name already.
    BranchExists(Name),
    /// Some branch has a patch of this name.
    PatchExists(Name),
    /// The branch has no patch of this name.
    NoPatch(Name),
    /// The branch has all that would be pulled.
    NothingToDo,
    /// A limit of the repository would be passed.
    TooLarge,
    /// A change does not apply to the files as they are.
    DoesNotApply,
    /// A patch depends on another one, and only one of the two was named.
    Depends {
        /// The patch.
        patch: Name,
        /// What it depends on.
        on: Name,
    },
    /// Both branches have this patch, but one can't bring it before what only that branch has, or their forms differ.
    Diverged(Name),
    /// Two patches do not merge.
    NoMerge {
        /// The patch of the branch that pulls.
        left: Name,
        /// The patch of the other.
        right: Name,
    },
    /// A branch does not pull from itself.
    SameBranch(Name),
}

impl Refusal {
    /// The number of the refusal, as in `refused 4`.
    pub fn number(&self) -> u8 {
        match self {
            Refusal::NoBranch(_) => 4,
            Refusal::BranchExists(_) => 5,
            Refusal::PatchExists(_) => 6,
            Refusal::NoPatch(_) => 7,
            Refusal::NothingToDo => 8,
            Refusal::TooLarge => 9,
            Refusal::DoesNotApply => 10,
            Refusal::Depends { .. } => 11,
            Refusal::Diverged(_) => 12,
            Refusal::NoMerge { .. } => 13,
            Refusal::SameBranch(_) => 14,
        }
    }

    // The refusal that a line says.
    pub(crate) fn read(line: &[u8]) -> Option<Refusal> {
        let refusal = match words(line).as_slice() {
            [b"refused", b"4", branch] => Refusal::NoBranch(read_name(branch)?),
            [b"refused", b"5", branch] => Refusal::BranchExists(read_name(branch)?),
            [b"refused", b"6", patch] => Refusal::PatchExists(read_name(patch)?),
            [b"refused", b"7", patch] => Refusal::NoPatch(read_name(patch)?),
            [b"refused", b"8"] => Refusal::NothingToDo,
            [b"refused", b"9"] => Refusal::TooLarge,
            [b"refused", b"10"] => Refusal::DoesNotApply,
            [b"refused", b"11", patch, on] => Refusal::Depends {
                patch: read_name(patch)?,
                on: read_name(on)?,
            },
            [b"refused", b"12", patch] => Refusal::Diverged(read_name(patch)?),
            [b"refused", b"13", left, right] => Refusal::NoMerge {
                left: read_name(left)?,
                right: read_name(right)?,
            },
            [b"refused", b"14", branch] => Refusal::SameBranch(read_name(branch)?),
            _ => return None,
        };
        Some(refusal)
    }
}

impl fmt::Display for Refusal {
    fn fmt(&self, f: &mut fmt::Formatter<'_>) -> fmt::Result {
        match self {
            Refusal::NoBranch(branch) => write!(f, "there is no branch {branch}"),
            Refusal::BranchExists(branch) => write!(f, "there is a branch {branch}"),
            Refusal::PatchExists(patch) => write!(f, "some branch has a patch {patch}"),
            Refusal::NoPatch(patch) => write!(f, "the branch has no patch {patch}"),
            Refusal::NothingToDo => f.write_str("the branch has all that would be pulled"),
            Refusal::TooLarge => f.write_str("a limit would be exceeded"),
            Refusal::DoesNotApply => f.write_str("the change does not apply"),
            Refusal::Depends { patch, on } => write!(f, "{patch} depends on {on}"),
            Refusal::Diverged(patch) => write!(f, "the branches have diverged at {patch}"),
            Refusal::NoMerge { left, right } => write!(f, "{left} and {right} do not merge"),
            Refusal::SameBranch(branch) => write!(f, "{branch} does not pull from itself"),
        }
    }
}

#[cfg(test)]
mod tests {
    use super::*;

    #[test]
    fn each_refusal_has_a_line_of_its_own() {
        for number in 0..=20 {
            let lines =
                ["", " a", " a b", " a b c"].map(|names| format!("refused {number}{names}"));
            let read: Vec<Refusal> = lines
                .iter()
                .filter_map(|line| Refusal::read(line.as_bytes()))
                .collect();
            let count = usize::from((4..=14).contains(&number));
            assert_eq!(read.len(), count, "{number}");
            assert!(read.iter().all(|refusal| refusal.number() == number));
        }
        let names = ["a", "b"].map(|name| Name::new(name).unwrap());
        let [left, right] = names.clone();
        assert_eq!(
            Refusal::read(b"refused 13 a b"),
            Some(Refusal::NoMerge { left, right })
        );
        let [patch, on] = names;
        assert_eq!(
            Refusal::read(b"refused 11 a b"),
            Some(Refusal::Depends { patch, on })
        );
        assert_eq!(Refusal::read(b"refused 4 A"), None);
    }
}
