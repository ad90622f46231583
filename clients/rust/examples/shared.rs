//! Two members share a history over a log in a SQLite file, whose path is the argument; each reads what the other wrote.

use camp::{Change, Error, Name, Questions, Refusal, Shared, SqliteLog};

fn main() -> Result<(), Error> {
    let path = std::env::args().nth(1).unwrap_or("notes.db".to_owned());
    let (main, other) = (Name::new("main")?, Name::new("other")?);
    let mut ann = Shared::open(SqliteLog::open(&path)?)?;
    let mut ben = Shared::open(SqliteLog::open(&path)?)?;
    let start = [
        Change::add("notes")?,
        Change::edit("notes", 1, &[], &["one"])?,
    ];
    println!(
        "ann: ok {}",
        ann.record(&main, &Name::new("start")?, &start)?
    );
    println!("ann: ok {}", ann.branch(&other, &main)?);

    println!("ben has read {} calls", ben.sync()?);
    let first = Change::edit("notes", 1, &["one"], &["first"])?;
    println!(
        "ben: ok {}",
        ben.record(&main, &Name::new("first")?, &[first])?
    );
    // Each call is decided where it stands in the log: there the line is another one.
    let second = Change::edit("notes", 1, &["one"], &["second"])?;
    match ann.record(&main, &Name::new("second")?, &[second.clone()]) {
        Err(error) if error.refusal() == Some(&Refusal::DoesNotApply) => println!("ann: {error}"),
        answer => println!("ann: {answer:?}"),
    }
    println!(
        "ann: ok {}",
        ann.record(&other, &Name::new("second")?, &[second])?
    );
    println!("ben has read {} calls", ben.sync()?);
    println!("ben: ok {}", ben.pull(&other, &main)?);
    ann.sync()?;
    for conflict in ann.open(&main)? {
        println!("in conflict: {} and {}", conflict.left, conflict.right);
    }
    Ok(())
}
