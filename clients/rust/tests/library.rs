//! The crate over the library: values, texts, errors, views and threads. calls.rs has the table of calls.

use camp::{
    Change, Conflict, Error, Fault, FilePath, Hunk, HunkSide, Line, Name, Part, Questions, Refusal,
    Repository, View,
};
use std::thread;

fn name(text: &str) -> Name {
    Name::new(text).unwrap()
}

fn path(text: &str) -> FilePath {
    FilePath::new(text).unwrap()
}

fn lines(texts: &[&str]) -> Vec<Line> {
    texts.iter().map(|text| Line::new(*text).unwrap()).collect()
}

fn edit(old: &[&str], new: &[&str]) -> Change {
    Change::edit("f", 1, old, new).unwrap()
}

// main has f with the line `one`, which main's `english` and other's `german` replace.
fn two_branches() -> Repository {
    let (main, other) = (name("main"), name("other"));
    let mut repository = Repository::new().unwrap();
    let start = [Change::add("f").unwrap(), edit(&[], &["one"])];
    assert_eq!(repository.record(&main, &name("start"), &start), Ok(1));
    assert_eq!(repository.branch(&other, &main), Ok(2));
    let (english, german) = (edit(&["one"], &["first"]), edit(&["one"], &["erstens"]));
    assert_eq!(
        repository.record(&main, &name("english"), &[english]),
        Ok(3)
    );
    assert_eq!(repository.record(&other, &name("german"), &[german]), Ok(4));
    repository
}

#[test]
fn executed_commands_are_counted() {
    let mut repository = Repository::new().unwrap();
    let text = "record main a add f\n# why\n\nnames main";
    for (text, count) in [("", 0), ("names main\n", 1), (text, 4), ("", 0)] {
        repository.ask(text).unwrap();
        assert_eq!(repository.executed(), count);
    }
}

#[test]
fn a_conflict_is_seen_and_resolved() {
    let (main, english, german) = (name("main"), name("english"), name("german"));
    let mut repository = two_branches();
    let mut before = repository.view().unwrap();
    assert_eq!(repository.pull(&name("other"), &main), Ok(5));
    let conflict = Conflict {
        left: english.clone(),
        right: german.clone(),
    };
    assert_eq!(repository.open(&main), Ok(vec![conflict]));
    let sides = vec![
        HunkSide {
            name: english,
            lines: lines(&["first"]),
        },
        HunkSide {
            name: german.clone(),
            lines: lines(&["erstens"]),
        },
    ];
    let hunk = Hunk {
        lines: lines(&["one"]),
        sides,
    };
    assert_eq!(
        repository.view().unwrap().marks(&main, &path("f")),
        Ok(Some(vec![Part::Hunk(hunk)]))
    );
    let side = repository.side(&main, &german).unwrap();
    assert_eq!(side, [edit(&["one"], &["erstens"])]);
    assert_eq!(repository.record(&main, &name("decided"), &side), Ok(6));
    assert_eq!(repository.open(&main), Ok(vec![]));
    assert_eq!(
        repository.tree(&main).unwrap().lines("f"),
        Some(&lines(&["erstens"])[..])
    );
    assert_eq!(before.file(&main, &path("f")), Ok(Some(lines(&["first"]))));
}

#[test]
fn a_refusal_has_its_names_and_its_cause() {
    let mut repository = two_branches();
    let error = repository
        .obliterate(&name("main"), &[name("start")])
        .unwrap_err();
    let depends = Refusal::Depends {
        patch: name("english"),
        on: name("start"),
    };
    assert_eq!(error.refusal(), Some(&depends));
    assert_eq!(error.to_string(), "refused: english depends on start");
    let Error::Refused(refused) = error else {
        panic!()
    };
    assert!(
        refused
            .why
            .starts_with("refused 11 english start\n>obliterate main start\n"),
        "{}",
        refused.why
    );
    let error = repository
        .view()
        .unwrap()
        .needs(&name("main"), &[name("german")])
        .unwrap_err();
    let Error::Refused(refused) = error else {
        panic!()
    };
    assert_eq!(
        (refused.refusal, refused.why.as_str()),
        (Refusal::NoPatch(name("german")), "")
    );
    assert_eq!(repository.names(&name("main")).unwrap().len(), 2);
}

#[test]
fn texts_are_asked_and_answered() {
    let mut repository = Repository::new().unwrap();
    let answer = repository
        .ask("names main\nwhat\nrecord main a edit f 1\n+x\n")
        .unwrap();
    assert_eq!(
        answer.as_bytes(),
        b"names 0\nfault 2 unknown command\nfault 3 edit not ended\n"
    );
    assert_eq!(answer.lines().count(), 3);
    assert_eq!(repository.ask("").unwrap().lines().count(), 0);
    let error = repository
        .record(&name("main"), &name("a"), &[])
        .unwrap_err();
    let Error::Fault(Fault { line, kind, why }) = error else {
        panic!()
    };
    assert_eq!((line, kind.as_str()), (2, "bad group"));
    assert!(why.starts_with("fault 2 bad group\n"), "{why}");
    let bytes = repository
        .ask(b"record main a group\nadd f\nedit f 1\n+\xff\x00\r\nend\ndone\n")
        .unwrap();
    assert_eq!(bytes.as_bytes(), b"ok 1\n");
    let line = Line::new(&b"\xff\x00\r"[..]).unwrap();
    assert_eq!(
        repository.file(&name("main"), &path("f")),
        Ok(Some(vec![line]))
    );
}

#[test]
fn a_script_keeps_a_repository() {
    let mut repository = two_branches();
    repository.pull(&name("other"), &name("main")).unwrap();
    let kept = repository.keep().unwrap();
    let mut again = Repository::load(&kept).unwrap();
    assert_eq!(again.keep().unwrap(), kept);
    assert_eq!(again.open(&name("main")), repository.open(&name("main")));
    let refused = Repository::load("branch a none\n").err().unwrap();
    assert_eq!(refused.refusal(), Some(&Refusal::NoBranch(name("none"))));
    assert!(matches!(Repository::load("what\n"), Err(Error::Fault(_))));
    assert!(matches!(
        Repository::load("branches\n"),
        Err(Error::Unexpected(_))
    ));
}

#[test]
fn words_are_checked() {
    let long = "x".repeat(41);
    for text in ["", "-a", "A", "a b", "a\n", "ä", &long] {
        assert!(Name::new(text).is_err(), "{text}");
    }
    assert!(Name::new(&long[1..]).is_ok() && Name::new("0-").is_ok());
    for text in ["", "/a", "a/", "a//b", ".", "a/../b", "a b", "a\n", "ä"] {
        assert!(Change::add(text).is_err(), "{text}");
    }
    assert!(Change::add("a/b.c/..d").is_ok());
    assert!(Line::new("a\nb").is_err() && Line::new("x".repeat(4097)).is_err());
    assert!(Line::new("x".repeat(4096)).is_ok());
}

#[test]
fn views_go_to_threads() {
    fn is_send<T: Send>() {}
    is_send::<Repository>();
    is_send::<View>();
    let mut repository = Repository::new().unwrap();
    let mut readers = Vec::new();
    for count in 0..20 {
        let mut view = repository.view().unwrap();
        readers.push(thread::spawn(move || {
            let mut again = view.again().unwrap();
            for _ in 0..50 {
                assert_eq!(view.names(&name("main")).unwrap().len(), count);
                assert_eq!(again.tree(&name("main")).unwrap().files.len(), count);
            }
            let answer = view.ask("record main x add x\n").unwrap();
            assert_eq!(answer.as_bytes(), b"fault 1 not asked of a view\n");
        }));
        let (patch, file) = (name(&format!("p{count}")), format!("f{count}"));
        repository
            .record(&name("main"), &patch, &[Change::add(&file).unwrap()])
            .unwrap();
    }
    for reader in readers {
        reader.join().unwrap();
    }
    thread::spawn(move || assert_eq!(repository.names(&name("main")).unwrap().len(), 20))
        .join()
        .unwrap();
}
