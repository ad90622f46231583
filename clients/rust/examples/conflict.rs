//! A conflict: two branches edit one line, and one pulls the other. Its sides are shown, one is taken, and a view keeps
//! what was there before.

use camp::{Change, Error, FilePath, Name, Part, Questions, Refusal, Repository};

fn main() -> Result<(), Error> {
    let (main, other) = (Name::new("main")?, Name::new("other")?);
    let (english, german) = (Name::new("english")?, Name::new("german")?);
    let notes = FilePath::new("notes")?;
    let edit = |old: &[&str], new: &[&str]| Change::edit("notes", 1, old, new);

    let mut repository = Repository::new()?;
    let start = [Change::add("notes")?, edit(&[], &["one"])?];
    repository.record(&main, &Name::new("start")?, &start)?;
    repository.branch(&other, &main)?;
    repository.record(&main, &english, &[edit(&["one"], &["first"])?])?;
    repository.record(&other, &german, &[edit(&["one"], &["erstens"])?])?;

    let mut before = repository.view()?;
    repository.pull(&other, &main)?;
    for conflict in repository.open(&main)? {
        println!("in conflict: {} and {}", conflict.left, conflict.right);
    }
    for part in repository.marks(&main, &notes)?.unwrap_or_default() {
        if let Part::Hunk(hunk) = part {
            for side in hunk.sides {
                println!("{} says {:?}", side.name, side.lines);
            }
        }
    }
    let side = repository.side(&main, &german)?;
    repository.record(&main, &Name::new("decided")?, &side)?;
    println!("unresolved: {}", repository.open(&main)?.len());
    print!("now: {}", repository.tree(&main)?);
    print!("before the pull: {}", before.tree(&main)?);

    match repository.obliterate(&main, std::slice::from_ref(&german)) {
        Err(error) => match error.refusal() {
            Some(Refusal::Depends { patch, on }) => println!("{patch} depends on {on}"),
            _ => return Err(error),
        },
        Ok(number) => println!("ok {number}"),
    }
    let held = repository.held(&main, &[german])?;
    println!("to be taken out with it: {held:?}");
    Ok(())
}
