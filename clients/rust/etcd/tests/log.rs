//! A log over real members of etcd, whose endpoints CAMP_ETCD names, as `clients/etcd start` prints them.

use camp::{Appended, Change, Error, Log, LogError, Name, Questions, Shared};
use camp_etcd::EtcdLog;
use serde_json::{json, Value};
use std::env;
use std::sync::atomic::{AtomicU32, Ordering};
use std::sync::{Mutex, MutexGuard, PoisonError};
use std::time::{SystemTime, UNIX_EPOCH};

const TITLE: &[u8] = b"camp log 1\n";

fn endpoints() -> Vec<String> {
    let endpoints = env::var("CAMP_ETCD").expect("CAMP_ETCD names endpoints of etcd");
    endpoints.split(',').map(str::to_owned).collect()
}

// A prefix that no other test has, nor another run of this one.
fn prefix() -> String {
    static NEXT: AtomicU32 = AtomicU32::new(0);
    let (number, now) = (NEXT.fetch_add(1, Ordering::Relaxed), SystemTime::now());
    let nanoseconds = now.duration_since(UNIX_EPOCH).unwrap().as_nanos();
    format!("tests/{nanoseconds}-{number}")
}

fn open(prefix: &str) -> EtcdLog {
    EtcdLog::open(&endpoints(), prefix).unwrap()
}

fn share(prefix: &str) -> Shared<EtcdLog> {
    Shared::open(open(prefix)).unwrap()
}

// Appends an entry. On a machine with other work an answer may come too late.
fn append(log: &mut EtcdLog, tag: &str, text: &[u8]) -> Appended {
    for _ in 0..100 {
        match log.append(tag, text) {
            Appended::Unknown => (),
            outcome => return outcome,
        }
    }
    Appended::Unknown
}

// What another program asks of etcd.
fn ask(path: &str, asked: Value) -> Value {
    let url = format!("http://{}/v3/{path}", endpoints()[0]);
    let response = ureq::post(&url).send_string(&asked.to_string()).unwrap();
    serde_json::from_reader(response.into_reader()).unwrap()
}

// What it does to a key of a log.
fn change(path: &str, prefix: &str, key: &str) -> Value {
    let (key, value) = (format!("{prefix}/{key}"), "something else\n");
    let mut asked = json!({"key": base64::encode(key)});
    if path == "kv/put" {
        asked["value"] = base64::encode(value).into();
    }
    ask(path, asked)
}

// Etcd forgets how the keys came to be as they are, those of other tests too.
fn compact(prefix: &str) {
    let put = change("kv/put", prefix, "other");
    let revision = put["header"]["revision"].clone();
    ask(
        "kv/compaction",
        json!({"revision": revision, "physical": true}),
    );
}

fn alone() -> MutexGuard<'static, ()> {
    static ALONE: Mutex<()> = Mutex::new(());
    ALONE.lock().unwrap_or_else(PoisonError::into_inner)
}

fn name(text: &str) -> Name {
    Name::new(text).unwrap()
}

#[test]
fn a_tag_is_appended_once() {
    let prefix = prefix();
    let (mut ann, mut ben) = (open(&prefix), open(&prefix));
    assert_eq!(append(&mut ann, "s/1", b"one"), Appended::Done);
    assert_eq!(append(&mut ben, "s/1", b"other"), Appended::Done);
    assert_eq!(append(&mut ben, "s/2", b""), Appended::Done);
    for log in [&mut ann, &mut ben, &mut open(&prefix)] {
        assert_eq!(
            log.read(0),
            Ok(vec![TITLE.to_vec(), b"one".to_vec(), vec![]])
        );
        assert_eq!(log.read(2), Ok(vec![vec![]]));
        assert_eq!(log.read(3), Ok(vec![]));
    }
}

#[test]
fn what_is_too_large_is_refused() {
    let mut log = open(&prefix());
    assert_eq!(
        append(&mut log, "s/1", &[b'x'; 3_000_000]),
        Appended::Refused
    );
    assert_eq!(log.read(1), Ok(vec![]));
    assert_eq!(append(&mut log, "s/2", &[b'x'; 300_000]), Appended::Done);
    assert_eq!(log.read(1), Ok(vec![vec![b'x'; 300_000]]));
}

#[test]
fn what_was_changed_or_removed_shows() {
    let _alone = alone();
    for path in ["kv/put", "kv/deleterange"] {
        for is_compacted in [false, true] {
            let prefix = prefix();
            let mut early = open(&prefix);
            for tag in ["s/1", "s/2", "s/3"] {
                assert_eq!(append(&mut early, tag, tag.as_bytes()), Appended::Done);
            }
            assert_eq!(early.read(1).unwrap().len(), 3);
            change(path, &prefix, "entries/s/2");
            if is_compacted {
                compact(&prefix);
            }
            let mut late = open(&prefix);
            let known = late.read(0).map_or(0, |it| it.len());
            // Where etcd has forgotten how they came, even before this test, none of them can be read.
            assert!(known == 0 || known == 4 && !is_compacted);
            assert_eq!(late.read(known), Err(LogError::Stopped(known)));
            // It has seen the change once it has seen another one after it.
            assert_eq!(append(&mut early, "s/4", b""), Appended::Done);
            assert_eq!(early.read(4), Err(LogError::Stopped(4)));
        }
    }
}

#[test]
fn a_log_is_read_whole_where_etcd_has_forgotten_how_it_came() {
    let _alone = alone();
    let prefix = prefix();
    let mut log = open(&prefix);
    for number in 0..1100 {
        let tag = format!("s/{number}");
        assert_eq!(append(&mut log, &tag, tag.as_bytes()), Appended::Done);
    }
    compact(&prefix);
    let mut late = open(&prefix);
    let first = late.read(0).unwrap();
    assert_eq!((first.len(), &*first[1]), (1024, &b"s/0"[..]));
    let second = late.read(1024).unwrap();
    assert_eq!((second.len(), &*second[76]), (77, &b"s/1099"[..]));
    assert_eq!(late.read(1101), Ok(vec![]));
}

#[test]
fn a_log_that_is_none_or_is_away_has_an_error() {
    let _alone = alone();
    let prefix = prefix();
    change("kv/put", &prefix, "entries/notes");
    change("kv/put", &prefix, "count");
    let foreign = Shared::open(open(&prefix)).err();
    assert!(matches!(foreign, Some(Error::Log(LogError::NoLog(_)))));
    let away = EtcdLog::open(&["127.0.0.1:1"], &prefix).err();
    assert!(matches!(away, Some(LogError::Away(_))));
    assert!(EtcdLog::open(&[""; 0], &prefix).is_err());
    // Another endpoint answers.
    let mut some = vec!["127.0.0.1:1".to_owned()];
    some.extend(endpoints());
    let mut log = EtcdLog::open(&some, &prefix).unwrap();
    assert_eq!(append(&mut log, "s/1", b""), Appended::Done);
}

#[test]
fn members_have_one_history() {
    let _alone = alone();
    let prefix = prefix();
    let (main, other, mut members) = (name("main"), name("other"), vec![]);
    let mut ann = share(&prefix);
    assert_eq!(ann.branch(&other, &main), Ok(1));
    for member in 0..4 {
        let mut shared = share(&prefix);
        let main = main.clone();
        members.push(std::thread::spawn(move || {
            let record = |at| {
                let text = format!("p{member}-{at}");
                shared.record(&main, &name(&text), &[Change::add(text.as_str()).unwrap()])
            };
            (0..10).map(record).collect::<Result<Vec<_>, _>>().unwrap()
        }));
    }
    let mut numbers: Vec<_> = members
        .into_iter()
        .flat_map(|it| it.join().unwrap())
        .collect();
    numbers.sort_unstable();
    assert_eq!(numbers, (2..42).collect::<Vec<_>>());
    assert_eq!(ann.sync(), Ok(41));
    assert_eq!(ann.names(&main).unwrap().len(), 40);
    let refused = ann.record(&main, &name("p0-0"), &[Change::add("f").unwrap()]);
    assert!(refused.unwrap_err().refusal().is_some());
    change("kv/put", &prefix, "entries/other");
    let stopped = Err(Error::Log(LogError::Stopped(42)));
    assert_eq!(ann.branch(&name("more"), &main), stopped);
    assert_eq!(ann.sync(), stopped);
    assert_eq!(ann.branches(), Ok(vec![main, other]));
}
