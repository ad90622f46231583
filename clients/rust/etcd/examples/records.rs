//! Records patches over a log in etcd. The arguments are its endpoints, the prefix, a name, and how many patches; prints what is read in the end.

use camp::{Change, Error, Name, Questions, Shared};
use camp_etcd::EtcdLog;
use std::env;

fn main() -> Result<(), Error> {
    let words: Vec<String> = env::args().skip(1).collect();
    let [endpoints, prefix, name, count] = words.as_slice() else {
        panic!("wanted: HOST:PORT[,HOST:PORT ..] PREFIX NAME COUNT");
    };
    let endpoints: Vec<&str> = endpoints.split(',').collect();
    let mut shared = Shared::open(EtcdLog::open(&endpoints, prefix)?)?;
    let main = Name::new("main")?;
    for at in 0..count.parse().expect("a number") {
        let patch = format!("{name}-{at}");
        match shared.record(&main, &Name::new(&patch)?, &[Change::add(&patch)?]) {
            Ok(number) => println!("{patch} {number}"),
            Err(error) => println!("{patch}: {error}"),
        }
    }
    println!("{} patches", shared.names(&main)?.len());
    Ok(())
}
