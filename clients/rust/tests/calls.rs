//! Each question and each refusal: the table of calls in clients/tests/calls, on repositories and views. Repositories whose
//! calls record texts are passed over, since this crate has no such call.

use camp::{
    Change, Conflict, Error, FilePath, Line, Malformed, Name, Outcome, Part, Questions, Repository,
    Tree,
};

struct Call {
    words: Vec<String>,
    wanted: Vec<String>,
}

// The repositories of the table, by their names, each with its calls.
fn tables() -> Vec<(String, Vec<Call>)> {
    let path = concat!(env!("CARGO_MANIFEST_DIR"), "/../tests/calls");
    let mut found: Vec<(String, Vec<Call>)> = Vec::new();
    for line in std::fs::read_to_string(path).unwrap().lines() {
        if let Some(name) = line.strip_prefix("== ") {
            found.push((name.to_owned(), Vec::new()));
        } else if let Some((_, calls)) = found.last_mut() {
            if let Some(words) = line.strip_prefix("> ") {
                let words = words.split(' ').map(str::to_owned).collect();
                calls.push(Call {
                    words,
                    wanted: Vec::new(),
                });
            } else if !line.is_empty() {
                calls.last_mut().unwrap().wanted.push(line.to_owned());
            }
        }
    }
    found.retain(|(_, calls)| calls.iter().all(|call| call.words[0] != "record_text"));
    found
}

// The arguments that words stand for.
struct Words<'a>(&'a [String]);

impl Words<'_> {
    fn name(&self, at: usize) -> Result<Name, Malformed> {
        Name::new(&self.0[at])
    }

    fn path(&self, at: usize) -> Result<FilePath, Malformed> {
        FilePath::new(&self.0[at])
    }

    fn names(&self, at: usize) -> Result<Vec<Name>, Malformed> {
        let names = self.0[at].split(',').filter(|name| *name != "-");
        names.map(Name::new).collect()
    }

    fn changes(&self, from: usize) -> Result<Vec<Change>, Malformed> {
        self.0[from..].iter().map(|word| change(word)).collect()
    }
}

fn change(word: &str) -> Result<Change, Malformed> {
    let lines = |text: &str| -> Vec<String> {
        let lines = text.split('|').filter(|_| !text.is_empty());
        lines.map(str::to_owned).collect()
    };
    let edit = |path: &str, line: &str, old: Vec<String>, new: Vec<String>| {
        let line = line.parse().unwrap();
        let texts = |lines: &[String]| {
            lines
                .iter()
                .map(|line| Line::new(line.as_str()))
                .collect::<Result<Vec<Line>, Malformed>>()
        };
        Ok(Change::Edit {
            path: FilePath::new(path)?,
            line,
            old: texts(&old)?,
            new: texts(&new)?,
        })
    };
    match word.split(':').collect::<Vec<_>>().as_slice() {
        ["add", path] => Change::add(path),
        ["remove", path] => Change::remove(path),
        ["fill", path, count] => {
            let new = vec!["x".to_owned(); count.parse().unwrap()];
            edit(path, "1", Vec::new(), new)
        }
        ["edit", path, line, old, new] => edit(path, line, lines(old), lines(new)),
        _ => panic!("{word}"),
    }
}

// The lines of a table that results stand as.
type Shown = Vec<String>;

fn number(number: u64) -> Shown {
    vec![number.to_string()]
}

fn or_dash(lines: Shown) -> Shown {
    if lines.is_empty() {
        vec!["-".to_owned()]
    } else {
        lines
    }
}

fn spaced(items: impl Iterator<Item = String>) -> Shown {
    or_dash(
        Some(items.collect::<Vec<_>>().join(" "))
            .filter(|line| !line.is_empty())
            .into_iter()
            .collect(),
    )
}

fn names(names: Vec<Name>) -> Shown {
    spaced(names.iter().map(Name::to_string))
}

fn conflicts(conflicts: &[Conflict]) -> Shown {
    spaced(
        conflicts
            .iter()
            .map(|it| format!("{}/{}", it.left, it.right)),
    )
}

fn joined(lines: &[Line]) -> String {
    lines
        .iter()
        .map(Line::to_string)
        .collect::<Vec<_>>()
        .join("|")
}

fn tree(tree: &Tree) -> Shown {
    or_dash(
        tree.files
            .iter()
            .map(|(path, lines)| format!("{path}={}", joined(lines)))
            .collect(),
    )
}

fn changes(changes: &[Change]) -> Shown {
    let shown = |change: &Change| match change {
        Change::Add(path) => format!("add:{path}"),
        Change::Remove(path) => format!("remove:{path}"),
        Change::Edit {
            path,
            line,
            old,
            new,
        } => format!("edit:{path}:{line}:{}:{}", joined(old), joined(new)),
    };
    or_dash(changes.iter().map(shown).collect())
}

fn file<T>(found: Option<T>, shown: impl FnOnce(T) -> Shown) -> Shown {
    found.map_or_else(|| vec!["none".to_owned()], shown)
}

fn part(part: &Part) -> String {
    match part {
        Part::Line(line) => format!("={line}"),
        Part::Hunk(hunk) => {
            let sides = hunk
                .sides
                .iter()
                .map(|side| format!(";{}:{}", side.name, joined(&side.lines)));
            format!("{{{}{}}}", joined(&hunk.lines), sides.collect::<String>())
        }
    }
}

fn graph(text: &str) -> Shown {
    let patch = |line: &str| match line
        .strip_prefix("  \"")?
        .split('"')
        .collect::<Vec<_>>()
        .as_slice()
    {
        [name, _] => Some(format!(" {name}")),
        _ => None,
    };
    let first = text.lines().next().unwrap_or("");
    vec![format!(
        "{first}{}",
        text.lines().filter_map(patch).collect::<String>()
    )]
}

fn outcome(outcome: Outcome) -> Shown {
    [
        number(outcome.number),
        conflicts(&outcome.conflicts),
        conflicts(&outcome.opened),
        conflicts(&outcome.resolved),
        tree(&outcome.tree),
    ]
    .concat()
}

// The result of a question, or None where the word is that of none.
fn question(
    asked: &mut impl Questions,
    method: &str,
    words: &Words,
) -> Result<Option<Shown>, Error> {
    let one = || words.name(0);
    Ok(Some(match method {
        "branches" => names(asked.branches()?),
        "names" => names(asked.names(&one()?)?),
        "tree" => tree(&asked.tree(&one()?)?),
        "conflicts" => conflicts(&asked.conflicts(&one()?)?),
        "open" => conflicts(&asked.open(&one()?)?),
        "needs" => names(asked.needs(&one()?, &words.names(1)?)?),
        "held" => names(asked.held(&one()?, &words.names(1)?)?),
        "missing" => names(asked.missing(&one()?, &words.name(1)?)?),
        "along" => names(asked.along(&one()?, &words.name(1)?, &words.names(2)?)?),
        "graph" => graph(&asked.graph(&one()?, &words.names(1)?)?),
        "side" => changes(&asked.side(&one()?, &words.name(1)?)?),
        "file" => file(asked.file(&one()?, &words.path(1)?)?, |lines| {
            vec![format!("={}", joined(&lines))]
        }),
        "marks" => file(asked.marks(&one()?, &words.path(1)?)?, |parts| {
            parts.iter().map(part).collect()
        }),
        "annotate" => file(asked.annotate(&one()?, &words.path(1)?)?, |lines| {
            lines
                .iter()
                .map(|it| format!("{}={}", it.name, it.line))
                .collect()
        }),
        "show" => {
            let shown = asked.show(&one()?, &words.name(1)?)?;
            [shown.catches, changes(&shown.changes)].concat()
        }
        "whatif" => outcome(what_if(asked, &words.0[0], &Words(&words.0[1..]))?),
        _ => return Ok(None),
    }))
}

fn what_if(asked: &mut impl Questions, method: &str, words: &Words) -> Result<Outcome, Error> {
    let first = words.name(0)?;
    match method {
        "branch" => asked.what_if().branch(&first, &words.name(1)?),
        "record" => asked
            .what_if()
            .record(&first, &words.name(1)?, &words.changes(2)?),
        "pull" if words.0[2] == "all" => asked.what_if().pull(&first, &words.name(1)?),
        "pull" => asked
            .what_if()
            .pull_some(&first, &words.name(1)?, &words.names(2)?),
        "obliterate" => asked.what_if().obliterate(&first, &words.names(1)?),
        _ => panic!("{method}"),
    }
}

fn call(repository: &mut Repository, method: &str, words: &Words) -> Result<Shown, Error> {
    let one = || words.name(0);
    match method {
        "branch" => repository.branch(&one()?, &words.name(1)?).map(number),
        "record" => repository
            .record(&one()?, &words.name(1)?, &words.changes(2)?)
            .map(number),
        "pull" if words.0[2] == "all" => repository.pull(&one()?, &words.name(1)?).map(number),
        "pull" => repository
            .pull_some(&one()?, &words.name(1)?, &words.names(2)?)
            .map(number),
        "obliterate" => repository.obliterate(&one()?, &words.names(1)?).map(number),
        "keep" => Ok(String::from_utf8(repository.keep()?)
            .unwrap()
            .lines()
            .map(str::to_owned)
            .collect()),
        "history" => {
            let calls = repository.history()?;
            Ok(or_dash(
                calls
                    .iter()
                    .map(|it| format!("{} {} {}", it.number, it.seat, it.command))
                    .collect(),
            ))
        }
        _ => panic!("{method}"),
    }
}

// The line of an error, and its cause. A text that is no name or path is told before anything is asked.
fn error(error: Error) -> (String, String) {
    match error {
        Error::Refused(refused) => {
            let shown = format!("{:?}", refused.refusal);
            let name = shown.split(['(', ' ']).next().unwrap();
            let names = shown
                .split('"')
                .skip(1)
                .step_by(2)
                .map(|name| format!(" {name}"));
            (
                format!("! {name}{}", names.collect::<String>()),
                refused.why,
            )
        }
        Error::Fault(fault) => (format!("! Fault {} {}", fault.line, fault.kind), fault.why),
        Error::Malformed(malformed) => {
            (format!("! Fault 1 bad {}", malformed.wanted), String::new())
        }
        other => panic!("{other:?}"),
    }
}

#[test]
fn each_call_has_its_result() {
    let mut count = 0;
    for (table, calls) in tables() {
        let mut repository = Repository::new().unwrap();
        for Call { words, wanted } in calls {
            let (method, rest) = (words[0].as_str(), Words(&words[1..]));
            let what = format!("{table}: {}", words.join(" "));
            let found = question(&mut repository, method, &rest).transpose();
            let on_view = found.as_ref().and_then(|_| {
                let mut view = repository.view().unwrap();
                question(&mut view, method, &rest).transpose()
            });
            count += 1 + usize::from(on_view.is_some());
            let found = found.unwrap_or_else(|| call(&mut repository, method, &rest));
            for (found, is_view) in [Some((found, false)), on_view.map(|found| (found, true))]
                .into_iter()
                .flatten()
            {
                match found {
                    Ok(lines) => assert_eq!(lines, wanted, "{what}"),
                    Err(found) => {
                        let (line, why) = error(found);
                        assert_eq!(vec![line.clone()], wanted, "{what}");
                        let has_cause = !is_view
                            && method != "whatif"
                            && rest.0.last().unwrap() != "-"
                            && !line.starts_with("! Fault 1 bad ");
                        assert!(!has_cause || !why.is_empty(), "{what}");
                    }
                }
            }
        }
    }
    assert!(count > 150, "{count}");
}
