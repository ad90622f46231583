//! A repository, two patches, and what is asked of them.

use camp::{Change, Error, FilePath, Name, Questions, Repository};

fn main() -> Result<(), Error> {
    let (main, start, hello) = (Name::new("main")?, Name::new("start")?, Name::new("hello")?);
    let mut repository = Repository::new()?;
    repository.record(&main, &start, &[Change::add("notes")?])?;
    let edit = Change::edit("notes", 1, &[], &["hello"])?;
    repository.record(&main, &hello, &[edit])?;

    print!("{}", repository.tree(&main)?);
    let lines = repository.annotate(&main, &FilePath::new("notes")?)?;
    for annotated in lines.unwrap_or_default() {
        println!("{} put {} there", annotated.name, annotated.line);
    }
    println!(
        "{} patches go with start",
        repository.held(&main, &[start])?.len()
    );
    print!("{}", repository.ask("needs main hello\n")?);
    Ok(())
}
