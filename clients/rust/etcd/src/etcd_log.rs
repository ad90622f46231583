//! A log in etcd.

use camp::{patience, Appended, Log, LogError};
use serde_json::json;
use std::sync::Arc;
use std::time::{Duration, Instant};

use crate::entries::Entries;
use crate::follower::follow;
use crate::gateway::{number, Gateway};

/// The time that an endpoint has for an answer before another one is asked.
const TIMEOUT: Duration = Duration::from_millis(500);

/// What etcd says of an entry that it did not take, and never will.
const REFUSALS: [&str; 3] = ["too large", "larger than max", "space exceeded"];

/// Entries under one prefix of etcd 3.4 or later, a key for each tag, in the order of their revisions: the log that `EtcdLog`
/// of camp for Python has. Each append writes a key that counts them, so a removed one shows. They come by a watch, and
/// after all that was done to them before comes a key that who opens the log writes.
pub struct EtcdLog {
    gateway: Gateway,
    entries: Arc<Entries>,
    // The last revision that this process has made.
    revision: u64,
}

impl EtcdLog {
    /// The log under a prefix, which begins where there is none. An endpoint is `HOST:PORT`.
    pub fn open(endpoints: &[impl AsRef<str>], prefix: &str) -> Result<EtcdLog, LogError> {
        let mut log = EtcdLog {
            gateway: Gateway::new(endpoints, prefix, TIMEOUT),
            entries: Arc::default(),
            revision: 0,
        };
        log.write_title()?;
        let opened = json!({"key": log.gateway.key("opened"), "value": ""});
        // Where etcd is full, or is read-only, the log can be read all the same.
        if let Ok(put) = log.gateway.ask("kv/put", &opened) {
            log.revision = number(&put["header"]["revision"]);
        }
        follow(&log.gateway, &log.entries).map_err(|error| LogError::Away(error.to_string()))?;
        Ok(log)
    }

    fn write_title(&mut self) -> Result<(), LogError> {
        let end = Instant::now() + patience();
        while self.count()? == 0 {
            let why = match self.append("log", b"camp log 1\n") {
                Appended::Refused => "its space is full, or it is read-only",
                _ if Instant::now() > end => "it does not answer",
                _ => continue,
            };
            let why = format!("etcd does not take the title of the log: {why}");
            return Err(LogError::Away(why));
        }
        Ok(())
    }

    // How many entries were ever written.
    fn count(&mut self) -> Result<usize, LogError> {
        let count = json!({"key": self.gateway.key("count")});
        let found = self.gateway.ask("kv/range", &count)?;
        Ok(number(&found["kvs"][0]["version"]) as usize)
    }

    // False if etcd has nothing under a key, for certain.
    fn may_have(&mut self, key: &str) -> bool {
        let asked = json!({"key": key, "count_only": true});
        let found = self.gateway.ask("kv/range", &asked);
        found.map_or(true, |it| number(&it["count"]) > 0)
    }
}

impl Log for EtcdLog {
    fn append(&mut self, tag: &str, text: &[u8]) -> Appended {
        let key = self.gateway.key(&format!("entries/{tag}"));
        let free =
            json!({"key": key, "target": "CREATE", "result": "EQUAL", "create_revision": "0"});
        let entry = json!({"key": key, "value": base64::encode(text)});
        let count = json!({"key": self.gateway.key("count"), "value": ""});
        let puts = [entry, count].map(|it| json!({"request_put": it}));
        let asked = json!({"compare": [free], "success": puts});
        match self.gateway.post_once("kv/txn", &asked) {
            Ok(found) => {
                if found["succeeded"] == true {
                    self.revision = number(&found["header"]["revision"]);
                }
                Appended::Done
            }
            Err(why) if REFUSALS.iter().any(|it| why.contains(it)) && !self.may_have(&key) => {
                Appended::Refused
            }
            Err(_) => {
                self.gateway.take_next();
                Appended::Unknown
            }
        }
    }

    fn read(&mut self, index: usize) -> Result<Vec<Vec<u8>>, LogError> {
        let known = self
            .entries
            .wait(patience(), |it| it.revision >= self.revision)?
            .read(index)?;
        if !known.is_empty() {
            return Ok(known);
        }
        let counted = self.count()?;
        if counted < index {
            return Err(LogError::Stopped(counted));
        }
        self.entries
            .wait(patience(), |it| it.entries.len() >= counted)?
            .read(index)
    }
}
