//! The thread that reads the entries of a log as they come.

use camp::LogError;
use serde_json::{json, Value};
use std::io::{self, BufRead, BufReader};
use std::sync::{Arc, Weak};
use std::thread;
use std::time::Duration;

use crate::entries::Entries;
use crate::gateway::{number, Gateway};

/// The time after which an endpoint that sends nothing is left, and that of an answer with all entries.
const SILENCE: Duration = Duration::from_secs(2);
const LONG: Duration = Duration::from_secs(30);

/// Starts a thread that watches the entries as long as the log is there.
pub(crate) fn follow(gateway: &Gateway, entries: &Arc<Entries>) -> io::Result<()> {
    let follower = Follower {
        gateway: gateway.with_timeout(SILENCE),
        entries: Arc::downgrade(entries),
    };
    thread::Builder::new().spawn(|| follower.run()).map(drop)
}

struct Follower {
    gateway: Gateway,
    entries: Weak<Entries>,
}

impl Follower {
    // Watches the entries, from the first one that is not known.
    fn run(mut self) {
        while let Some(revision) = self.next_revision() {
            let watch = json!({"create_request": {
                "key": self.gateway.key("entries/"),
                "range_end": self.gateway.key("opened0"),
                "start_revision": revision.to_string(),
            }});
            if let Ok(response) = self.gateway.post("watch", &watch) {
                for line in BufReader::new(response.into_reader()).lines() {
                    if !line.is_ok_and(|it| self.take(&it)) {
                        break;
                    }
                }
            }
            self.gateway.take_next();
        }
    }

    // None where nobody has the entries, or no more of them are read.
    fn next_revision(&self) -> Option<u64> {
        let entries = self.entries.upgrade()?;
        let state = entries.lock();
        (!state.is_damaged).then(|| state.revision + 1)
    }

    // Takes a line of the watch. Returns whether it goes on.
    fn take(&mut self, line: &str) -> bool {
        let Ok(response) = serde_json::from_str::<Value>(line) else {
            return false;
        };
        let response = &response["result"];
        if response.get("compact_revision").is_some() && self.load().is_err() {
            return false;
        }
        let Some(entries) = self.entries.upgrade() else {
            return false;
        };
        let opened = self.gateway.key("opened");
        entries.change(|state| {
            for event in response["events"].as_array().into_iter().flatten() {
                state.take(event, &opened);
            }
        });
        response["canceled"] != true && self.next_revision().is_some()
    }

    // Reads all entries, where etcd no longer knows how they came.
    fn load(&self) -> Result<(), LogError> {
        let mut gateway = self.gateway.with_timeout(LONG);
        let entries = json!({
            "key": gateway.key("entries/"),
            "range_end": gateway.key("entries0"),
            "sort_target": "CREATE",
            "sort_order": "ASCEND",
        });
        let count = json!({"key": gateway.key("count")});
        let both = [entries, count].map(|it| json!({"request_range": it}));
        let found = gateway.ask("kv/txn", &json!({"success": both}))?;
        let [kvs, counts] = [0, 1].map(|at| &found["responses"][at]["response_range"]["kvs"]);
        if let Some(entries) = self.entries.upgrade() {
            let kvs = kvs.as_array().map_or(&[][..], Vec::as_slice);
            let revision = number(&found["header"]["revision"]);
            entries.change(|state| state.take_all(kvs, number(&counts[0]["version"]), revision));
        }
        Ok(())
    }
}
