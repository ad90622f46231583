//! camp, embedded: a shared repository of named patches, over a library whose exports are proved.
//!
//! A [`Repository`] holds branches of patches. It is asked commands as text ([`Questions::ask`]), or by its methods:
//!
//! ```
//! use camp::{Change, Name, Questions, Repository};
//!
//! # fn main() -> Result<(), camp::Error> {
//! let main = Name::new("main")?;
//! let mut repository = Repository::new()?;
//! repository.record(&main, &Name::new("start")?, &[Change::add("notes")?])?;
//! repository.record(&main, &Name::new("hello")?, &[Change::edit("notes", 1, &[], &["hello"])?])?;
//! assert_eq!(repository.tree(&main)?.to_string(), "notes\n  hello\n");
//! # Ok(())
//! # }
//! ```
//!
//! A [`View`] shows a repository as it was at one moment. It may go to another thread, and answers questions while the
//! repository goes on. A [`Shared`] repository is one that many processes share over a [`Log`]. What is not done is an [`Error`]: a [`Refusal`] has the core's name, and its cause beside it.
#![deny(unsafe_code, missing_docs)]

mod answers;
mod changes;
#[cfg(feature = "sqlite")]
mod checksums;
mod conflicts;
mod errors;
mod names;
mod questions;
#[cfg(feature = "sqlite")]
mod queue;
mod raw;
mod repository;
mod results;
mod shared;
#[cfg(feature = "sqlite")]
mod sqlite;
#[cfg(feature = "sqlite")]
mod sqlite_log;
mod trees;

pub use answers::Answer;
pub use changes::Change;
pub use conflicts::{Conflict, Hunk, HunkSide, Part};
pub use errors::{Error, Fault, LogError, Refusal, Refused};
pub use names::{FilePath, Line, Malformed, Name};
pub use questions::{Questions, WhatIf};
pub use repository::{Repository, View};
pub use results::{AcceptedCall, AnnotatedLine, Outcome, Shown};
pub use shared::{patience, Appended, Log, Shared};
#[cfg(feature = "sqlite")]
pub use sqlite_log::SqliteLog;
pub use trees::Tree;
