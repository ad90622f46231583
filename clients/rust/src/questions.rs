use crate::answers::{Answer, Lines};
use crate::changes::{record_command, Change};
use crate::conflicts::{Conflict, Part};
use crate::errors::{Error, Refusal, Refused};
use crate::names::{read_name, FilePath, Line, Name};
use crate::results::{AnnotatedLine, Outcome, Shown};
use crate::trees::Tree;

/// What a repository and a view have in common: questions. A branch that does not exist is [`Refusal::NoBranch`], a patch
/// that its branch lacks [`Refusal::NoPatch`]. A question about a file that does not exist is answered by `None`.
pub trait Questions: Sized {
    /// Runs the commands of a text, which is a conversation of its own. The answer has the response to each, one after the
    /// other; a refusal or a fault is a response as any other.
    fn ask(&mut self, text: impl AsRef<[u8]>) -> Result<Answer, Error>;

    /// Why a command was refused or has a fault, after it was asked; empty where the library does not say that.
    #[doc(hidden)]
    fn cause(&mut self, _command: &[u8]) -> String {
        String::new()
    }

    /// The files of a branch.
    fn tree(&mut self, branch: &Name) -> Result<Tree, Error> {
        run(self, format!("tree {branch}\n"))?.read("tree", Tree::read)
    }

    /// The patches of a branch, in its order.
    fn names(&mut self, branch: &Name) -> Result<Vec<Name>, Error> {
        names(self, "names", &[branch], &[])
    }

    /// The pairs of patches of a branch that are in conflict, unresolved or resolved.
    fn conflicts(&mut self, branch: &Name) -> Result<Vec<Conflict>, Error> {
        run(self, format!("conflicts {branch}\n"))?.read("conflicts", Conflict::read_some)
    }

    /// The pairs in conflict that are unresolved.
    fn open(&mut self, branch: &Name) -> Result<Vec<Conflict>, Error> {
        run(self, format!("open {branch}\n"))?.read("open", Conflict::read_some)
    }

    /// The branches, in the order in which they were made.
    fn branches(&mut self) -> Result<Vec<Name>, Error> {
        names(self, "branches", &[], &[])
    }

    /// The lines of a file.
    fn file(&mut self, branch: &Name, path: &FilePath) -> Result<Option<Vec<Line>>, Error> {
        of_file(self, "file", branch, path, |count, lines| {
            lines.signed(count, b"=")
        })
    }

    /// The lines of a file, and the patch that put each there.
    fn annotate(
        &mut self,
        branch: &Name,
        path: &FilePath,
    ) -> Result<Option<Vec<AnnotatedLine>>, Error> {
        of_file(self, "annotate", branch, path, |_, lines| {
            lines.map(AnnotatedLine::read).collect()
        })
    }

    /// A file with its unresolved sides: lines, and hunks where sides differ.
    fn marks(&mut self, branch: &Name, path: &FilePath) -> Result<Option<Vec<Part>>, Error> {
        of_file(self, "marks", branch, path, |_, lines| {
            Part::read_all(lines)
        })
    }

    /// Patches of a branch and all that they depend on there, in its order.
    fn needs(&mut self, branch: &Name, patches: &[Name]) -> Result<Vec<Name>, Error> {
        names(self, "needs", &[branch], patches)
    }

    /// Patches of a branch and all that depends on them there, which has to be obliterated with them.
    fn held(&mut self, branch: &Name, patches: &[Name]) -> Result<Vec<Name>, Error> {
        names(self, "held", &[branch], patches)
    }

    /// The patches that one branch has and another lacks.
    fn missing(&mut self, from: &Name, to: &Name) -> Result<Vec<Name>, Error> {
        names(self, "missing", &[from, to], &[])
    }

    /// What a pull of these patches has to list, in the order of the branch that they come from.
    fn along(&mut self, from: &Name, to: &Name, patches: &[Name]) -> Result<Vec<Name>, Error> {
        names(self, "along", &[from, to], patches)
    }

    /// A patch as it stands in a branch. One in conflict changes what it takes back, or nothing; see
    /// [`side`](Questions::side).
    fn show(&mut self, branch: &Name, name: &Name) -> Result<Shown, Error> {
        run(self, format!("show {branch} {name}\n"))?.read("show", |_, lines| Shown::read(lines))
    }

    /// What a patch in conflict would change at the end of the branch. A record of these changes, 1 to 64, takes its side.
    fn side(&mut self, branch: &Name, name: &Name) -> Result<Vec<Change>, Error> {
        run(self, format!("side {branch} {name}\n"))?
            .read("side", |_, lines| Change::read_all(lines))
    }

    /// How the patches of a branch depend on each other, as DOT for Graphviz; with names, these, what they need and what
    /// needs them.
    fn graph(&mut self, branch: &Name, patches: &[Name]) -> Result<String, Error> {
        run(self, command("graph", &[branch], patches))?.read("graph", |_, lines| {
            let text = String::from_utf8(lines.0.to_vec()).ok();
            lines.by_ref().for_each(drop);
            text
        })
    }

    /// What calls would do: `repository.what_if().pull(&ben, &main)`.
    fn what_if(&mut self) -> WhatIf<'_, Self> {
        WhatIf(self)
    }
}

/// The calls that write, asked as questions: nothing changes, and a refusal is that of the call itself, without its cause.
pub struct WhatIf<'a, Q: Questions>(&'a mut Q);

impl<Q: Questions> WhatIf<'_, Q> {
    /// What [`Repository::branch`](crate::Repository::branch) would do.
    pub fn branch(&mut self, new: &Name, from: &Name) -> Result<Outcome, Error> {
        self.run(command("branch", &[new, from], &[]).as_bytes())
    }

    /// What [`Repository::record`](crate::Repository::record) would do.
    pub fn record(
        &mut self,
        branch: &Name,
        name: &Name,
        changes: &[Change],
    ) -> Result<Outcome, Error> {
        self.run(&record_command(branch, name, changes))
    }

    /// What [`Repository::pull`](crate::Repository::pull) would do.
    pub fn pull(&mut self, from: &Name, to: &Name) -> Result<Outcome, Error> {
        self.run(command("pull", &[from, to], &[]).as_bytes())
    }

    /// What [`Repository::pull_some`](crate::Repository::pull_some) would do.
    pub fn pull_some(
        &mut self,
        from: &Name,
        to: &Name,
        patches: &[Name],
    ) -> Result<Outcome, Error> {
        let text = pull_some_command(self.0, from, to, patches)?;
        self.run(text.as_bytes())
    }

    /// What [`Repository::obliterate`](crate::Repository::obliterate) would do.
    pub fn obliterate(&mut self, branch: &Name, patches: &[Name]) -> Result<Outcome, Error> {
        self.run(command("obliterate", &[branch], patches).as_bytes())
    }

    fn run(&mut self, text: &[u8]) -> Result<Outcome, Error> {
        let answer = run(self.0, [b"whatif ", text].concat())?;
        let inner = answer.read("whatif", |_, lines| {
            let inner = Answer::new(lines.0.to_vec());
            lines.by_ref().for_each(drop);
            Some(inner)
        })?;
        if let Some(error) = inner.failure(String::new) {
            return Err(error);
        }
        let mut lines = Lines(inner.as_bytes());
        Outcome::read(&mut lines).ok_or_else(|| inner.unexpected())
    }
}

// The response to one command, unless that was not done.
pub(crate) fn run<Q: Questions>(asked: &mut Q, text: impl AsRef<[u8]>) -> Result<Answer, Error> {
    let answer = asked.ask(&text)?;
    match answer.failure(|| asked.cause(text.as_ref())) {
        None => Ok(answer),
        Some(error) => Err(error),
    }
}

// A question about branches and patches that is answered by names.
fn names<Q: Questions>(
    asked: &mut Q,
    word: &str,
    branches: &[&Name],
    patches: &[Name],
) -> Result<Vec<Name>, Error> {
    run(asked, command(word, branches, patches))?
        .read(word, |_, lines| lines.map(read_name).collect())
}

// A question about a file, which may not exist.
fn of_file<Q: Questions, T>(
    asked: &mut Q,
    word: &str,
    branch: &Name,
    path: &FilePath,
    read: impl FnOnce(u64, &mut Lines) -> Option<T>,
) -> Result<Option<T>, Error> {
    let answer = run(asked, format!("{word} {branch} {path}\n"))?;
    if answer.as_bytes() == b"no file\n" {
        return Ok(None);
    }
    answer.read(word, read).map(Some)
}

// The command that pulls some patches. One that lists none would pull all, so it is refused here, once both branches are
// known to exist.
pub(crate) fn pull_some_command<Q: Questions>(
    asked: &mut Q,
    from: &Name,
    to: &Name,
    patches: &[Name],
) -> Result<String, Error> {
    if patches.is_empty() {
        asked.missing(from, to)?;
        return Err(Error::Refused(Refused {
            refusal: Refusal::NothingToDo,
            why: String::new(),
        }));
    }
    Ok(command("pull", &[from, to], patches))
}

// A command of branches and patches.
pub(crate) fn command(word: &str, branches: &[&Name], patches: &[Name]) -> String {
    let mut text = word.to_owned();
    for name in branches.iter().copied().chain(patches) {
        text.push(' ');
        text.push_str(name.as_str());
    }
    text.push('\n');
    text
}
