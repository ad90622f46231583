//! A member of a log, at `sqlite:PATH` or `etcd:HOST:PORT[,HOST:PORT ..]/PREFIX`. The arguments are the address, a name, how many
//! calls, and how many at a time. It prints the seconds until it has read the log and answered a question; asks the calls once
//! it reads a line; and prints when it began, when it ended, and the seconds of each time.

use camp::{Error, Log, Name, Questions, Shared, SqliteLog};
use camp_etcd::EtcdLog;
use std::env;
use std::time::{Instant, SystemTime, UNIX_EPOCH};

fn main() -> Result<(), Error> {
    let words: Vec<String> = env::args().skip(1).collect();
    let [address, name, calls, batch] = words.as_slice() else {
        panic!("wanted: ADDRESS NAME CALLS BATCH");
    };
    let calls: usize = calls.parse().expect("a number");
    let calls: Vec<String> = (0..calls)
        .map(|at| format!("record main {name}-{at} add {name}-{at}\n"))
        .collect();
    let batch = batch.parse().expect("a number");
    if let Some(path) = address.strip_prefix("sqlite:") {
        return ask_all(SqliteLog::open(path)?, &calls, batch);
    }
    let (endpoints, prefix) = address
        .strip_prefix("etcd:")
        .and_then(|it| it.split_once('/'))
        .expect("an address");
    let endpoints: Vec<&str> = endpoints.split(',').collect();
    ask_all(EtcdLog::open(&endpoints, prefix)?, &calls, batch)
}

fn ask_all(log: impl Log, calls: &[String], batch: usize) -> Result<(), Error> {
    let before = Instant::now();
    let mut shared = Shared::open(log)?;
    shared.names(&Name::new("main")?)?;
    println!("{:.3}", before.elapsed().as_secs_f64());
    std::io::stdin()
        .read_line(&mut String::new())
        .expect("a line");
    let (began, mut seconds) = (now(), Vec::new());
    for some in calls.chunks(batch) {
        let before = Instant::now();
        for answer in shared.write_all(some)? {
            let answer = answer?;
            assert!(answer.lines().all(|it| it.starts_with(b"ok")), "{answer:?}");
        }
        seconds.push(before.elapsed().as_secs_f64());
    }
    println!("[{began}, {}, {seconds:?}]", now());
    Ok(())
}

fn now() -> f64 {
    let since = SystemTime::now().duration_since(UNIX_EPOCH);
    since.expect("a time after 1970").as_secs_f64()
}
