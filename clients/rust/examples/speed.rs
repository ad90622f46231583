//! How many small commands a second.

use camp::{Change, Error, Name, Questions, Repository};
use std::time::Instant;

fn main() -> Result<(), Error> {
    let count = std::env::args()
        .nth(1)
        .and_then(|word| word.parse().ok())
        .unwrap_or(1_000_000);
    let main = Name::new("main")?;
    let mut repository = Repository::new()?;
    repository.record(&main, &Name::new("start")?, &[Change::add("notes")?])?;
    let start = Instant::now();
    for _ in 0..count {
        repository.ask("names main\n")?;
    }
    println!(
        "ask of names {:15.0} a second",
        count as f64 / start.elapsed().as_secs_f64()
    );
    let start = Instant::now();
    for _ in 0..count {
        repository.names(&main)?;
    }
    println!(
        "names {:22.0} a second",
        count as f64 / start.elapsed().as_secs_f64()
    );
    Ok(())
}
