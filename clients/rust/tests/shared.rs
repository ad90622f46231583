//! Members over a log in memory: lost and doubled entries, an entry that is refused, a foreign one, and a log that is away.

use camp::{Appended, Change, Error, Log, LogError, Name, Questions, Refusal, Shared};
use std::sync::{Arc, Mutex};

// Entries with their tags, and what the log does with the next appends.
#[derive(Default)]
struct Entries {
    entries: Vec<(String, Vec<u8>)>,
    fates: Vec<Fate>,
}

#[derive(Clone, Copy)]
enum Fate {
    // It never comes, and nobody is told.
    Lost,
    // It comes, and nobody is told.
    Unanswered,
    // It comes twice.
    Doubled,
    Refused,
}

#[derive(Clone, Default)]
struct Memory(Arc<Mutex<Entries>>);

impl Memory {
    fn new() -> Memory {
        let log = Memory::default();
        log.write("log", b"camp log 1\n");
        log
    }

    fn write(&self, tag: &str, text: &[u8]) {
        let entry = (tag.to_owned(), text.to_vec());
        self.0.lock().unwrap().entries.push(entry);
    }

    // The fates of the next appends, the last one first.
    fn next(&self, fates: &[Fate]) {
        self.0.lock().unwrap().fates = fates.to_vec();
    }

    fn len(&self) -> usize {
        self.0.lock().unwrap().entries.len()
    }
}

impl Log for Memory {
    fn append(&mut self, tag: &str, text: &[u8]) -> Appended {
        let fate = self.0.lock().unwrap().fates.pop();
        let is_there = self.0.lock().unwrap().entries.iter().any(|it| it.0 == tag);
        match fate {
            Some(Fate::Lost) => return Appended::Unknown,
            Some(Fate::Refused) => return Appended::Refused,
            Some(Fate::Doubled) => self.write("", text),
            _ => (),
        }
        if !is_there {
            self.write(tag, text);
        }
        match fate {
            Some(Fate::Unanswered) => Appended::Unknown,
            _ => Appended::Done,
        }
    }

    fn read(&mut self, index: usize) -> Result<Vec<Vec<u8>>, LogError> {
        let found = self.0.lock().unwrap();
        Ok(found.entries[index..]
            .iter()
            .map(|it| it.1.clone())
            .collect())
    }
}

fn name(text: &str) -> Name {
    Name::new(text).unwrap()
}

fn add(path: &str) -> Vec<Change> {
    vec![Change::add(path).unwrap()]
}

#[test]
fn members_have_one_history() {
    let log = Memory::new();
    let mut ann = Shared::open(log.clone()).unwrap();
    let mut ben = Shared::open(log.clone()).unwrap();
    let (main, other) = (name("main"), name("other"));
    assert_eq!(ann.record(&main, &name("start"), &add("f")), Ok(1));
    assert_eq!(ben.branch(&other, &main), Ok(2));
    assert_eq!(ben.record(&other, &name("g"), &add("g")), Ok(3));
    assert_eq!(ann.sync(), Ok(3));
    assert_eq!(ann.pull_some(&other, &main, &[name("g")]), Ok(4));
    assert_eq!(ben.sync(), Ok(4));
    assert_eq!(ben.names(&main), Ok(vec![name("start"), name("g")]));
    assert_eq!(ann.obliterate(&main, &[name("g")]), Ok(5));
    let refused = ben.record(&main, &name("start"), &add("h")).unwrap_err();
    assert_eq!(
        refused.refusal(),
        Some(&Refusal::PatchExists(name("start")))
    );
    assert_eq!(ben.names(&main), Ok(vec![name("start")]));
    let mut view = ann.view().unwrap();
    assert_eq!(ann.record(&main, &name("late"), &add("late")), Ok(6));
    assert_eq!(view.names(&main), Ok(vec![name("start")]));
}

#[test]
fn a_call_stands_once_whatever_was_lost() {
    let log = Memory::new();
    let mut ann = Shared::open(log.clone()).unwrap();
    let mut ben = Shared::open(log.clone()).unwrap();
    for (number, fates) in [
        vec![Fate::Unanswered, Fate::Lost, Fate::Lost],
        vec![Fate::Doubled],
        vec![Fate::Doubled, Fate::Unanswered],
    ]
    .into_iter()
    .enumerate()
    {
        log.next(&fates);
        let patch = format!("p{number}");
        let accepted = ann.record(&name("main"), &name(&patch), &add(&patch));
        assert_eq!(accepted, Ok(number as u64 + 1));
        assert_eq!(ben.sync(), Ok(number as u64 + 1));
    }
    assert!(log.len() > 4);
}

#[test]
fn several_calls_go_into_one_entry() {
    let log = Memory::new();
    let mut ann = Shared::open(log.clone()).unwrap();
    let calls = ["branch a main", "branch a main", "no call", "branch b a"];
    let calls = calls.map(|it| format!("{it}\n"));
    let mut answers = ann.write_all(&calls).unwrap();
    assert_eq!(log.len(), 2);
    assert!(matches!(answers.remove(2), Err(Error::Fault { .. })));
    let answers: Vec<_> = answers.into_iter().map(|it| it.unwrap()).collect();
    let texts: Vec<_> = answers.iter().map(|it| it.as_bytes()).collect();
    assert_eq!(texts, [&b"ok 1\n"[..], b"refused 5 a\n", b"ok 2\n"]);
    log.next(&[Fate::Refused]);
    let refused = ann.write_all(&["branch c main\n"]).unwrap();
    assert_eq!(refused, [Err(Error::Log(LogError::Refused))]);
    assert_eq!(ann.sync(), Ok(2));
}

#[test]
fn what_the_log_refuses_is_not_done() {
    let log = Memory::new();
    let mut ann = Shared::open(log.clone()).unwrap();
    log.next(&[Fate::Refused]);
    let refused = ann.branch(&name("other"), &name("main"));
    assert_eq!(refused, Err(Error::Log(LogError::Refused)));
    assert_eq!(ann.branch(&name("other"), &name("main")), Ok(1));
    let line = "x".repeat(100);
    let lines = vec![line.as_str(); 20_000];
    let huge = [
        Change::add("f").unwrap(),
        Change::edit("f", 1, &[], &lines).unwrap(),
    ];
    let refused = ann.record(&name("main"), &name("huge"), &huge);
    assert_eq!(refused, Err(Error::Log(LogError::Refused)));
}

#[test]
fn a_member_stops_at_a_foreign_entry() {
    let log = Memory::new();
    let mut ann = Shared::open(log.clone()).unwrap();
    assert_eq!(ann.branch(&name("other"), &name("main")), Ok(1));
    log.write("", b"something else\n");
    let stopped = Error::Log(LogError::Stopped(2));
    assert_eq!(ann.sync(), Err(stopped.clone()));
    assert_eq!(ann.branch(&name("more"), &name("main")), Err(stopped));
    assert_eq!(ann.branches(), Ok(vec![name("main"), name("other")]));
    let log = Memory::default();
    log.write("log", b"camp log 2\n");
    assert!(matches!(
        Shared::open(log),
        Err(Error::Log(LogError::NoLog(_)))
    ));
}
