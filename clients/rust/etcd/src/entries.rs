//! What is known of the entries of a log.

use camp::LogError;
use serde_json::Value;
use std::sync::{Condvar, Mutex, MutexGuard};
use std::time::Duration;

use crate::gateway::number;

/// The most entries that are read at a time.
const SOME: usize = 1024;

/// Entries up to a revision of etcd; what comes after a changed or removed one is not read.
#[derive(Default)]
pub(crate) struct State {
    pub(crate) entries: Vec<Vec<u8>>,
    pub(crate) revision: u64,
    pub(crate) is_damaged: bool,
}

impl State {
    // Some entries from an index on. `Stopped` is at the first that was changed or removed.
    pub(crate) fn read(&self, index: usize) -> Result<Vec<Vec<u8>>, LogError> {
        let end = self.entries.len().min(index.saturating_add(SOME));
        match self.entries.get(index..end) {
            Some(entries) if !entries.is_empty() => Ok(entries.to_vec()),
            _ if self.is_damaged => Err(LogError::Stopped(self.entries.len())),
            _ => Ok(Vec::new()),
        }
    }

    // Takes what happened to a key: each entry is written once. Of another key the revision alone counts.
    pub(crate) fn take(&mut self, event: &Value, other: &str) {
        let kv = &event["kv"];
        if self.is_damaged {
            return;
        }
        self.revision = number(&kv["mod_revision"]);
        if kv["key"] == other {
            return;
        }
        // A field that is not there has the type's first value: a put.
        if event["type"].is_null() && is_first(kv) {
            self.entries.push(value(kv));
        } else {
            self.is_damaged = true;
        }
    }

    // Takes all entries as they are now, of which so many were counted.
    pub(crate) fn take_all(&mut self, kvs: &[Value], counted: u64, revision: u64) {
        let entries: Vec<_> = kvs.iter().map(value).collect();
        if entries.len() as u64 != counted
            || !entries.starts_with(&self.entries)
            || !kvs.iter().all(is_first)
        {
            self.is_damaged = true;
        } else {
            (self.entries, self.revision) = (entries, revision);
        }
    }
}

fn is_first(kv: &Value) -> bool {
    number(&kv["version"]) == 1
}

fn value(kv: &Value) -> Vec<u8> {
    base64::decode(kv["value"].as_str().unwrap_or("")).unwrap_or_default()
}

/// The entries that a thread follows.
#[derive(Default)]
pub(crate) struct Entries {
    state: Mutex<State>,
    changed: Condvar,
}

impl Entries {
    pub(crate) fn lock(&self) -> MutexGuard<'_, State> {
        self.state.lock().expect("no thread panics meanwhile")
    }

    pub(crate) fn change(&self, change: impl FnOnce(&mut State)) {
        change(&mut self.lock());
        self.changed.notify_all();
    }

    // Waits until they are as they have to be, or one was changed or removed.
    pub(crate) fn wait(
        &self,
        patience: Duration,
        is_awaited: impl Fn(&State) -> bool,
    ) -> Result<MutexGuard<'_, State>, LogError> {
        let (state, timeout) = self
            .changed
            .wait_timeout_while(self.lock(), patience, |it| {
                !it.is_damaged && !is_awaited(it)
            })
            .expect("no thread panics meanwhile");
        if timeout.timed_out() {
            let why = "etcd does not send the entries of the log";
            return Err(LogError::Away(why.to_owned()));
        }
        Ok(state)
    }
}
