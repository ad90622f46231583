use crate::answers::Answer;
use crate::changes::{record_command, Change};
use crate::errors::Error;
use crate::names::{Malformed, Name};
use crate::questions::{command, pull_some_command, run, Questions};
use crate::raw::{RawRepository, RawView};
use crate::results::AcceptedCall;

/// A repository of named patches. A method that writes returns the number of the call among all that were accepted, counted
/// from 1.
pub struct Repository(RawRepository);

impl Repository {
    /// A new repository: one branch, `main`, without patches.
    pub fn new() -> Result<Repository, Error> {
        Ok(Repository(RawRepository::open()?))
    }

    /// A new repository whose branches have at most `catches` changes, 1 to 16,777,216, and that has at most `branches`
    /// branches, 1 to 65,536; [`Repository::new`] allows 4,096 and 256.
    pub fn with_limits(catches: usize, branches: usize) -> Result<Repository, Error> {
        match RawRepository::open_with(catches, branches)? {
            Some(repository) => Ok(Repository(repository)),
            None => Err(Malformed::new("limit", format!("{catches} {branches}").as_bytes()).into()),
        }
    }

    /// A new repository in which a script is run, as [`keep`](Repository::keep) writes it. Each command has to be accepted.
    pub fn load(script: impl AsRef<[u8]>) -> Result<Repository, Error> {
        let mut repository = Repository::new()?;
        let answer = repository.ask(script)?;
        let mut others = answer.lines().filter(|line| !line.starts_with(b"ok "));
        match others.next().map(|line| Answer::new(line.to_vec())) {
            None => Ok(repository),
            Some(line) => Err(line
                .failure(String::new)
                .unwrap_or_else(|| line.unexpected())),
        }
    }

    /// Makes a branch that is a copy of another.
    pub fn branch(&mut self, new: &Name, from: &Name) -> Result<u64, Error> {
        self.write(command("branch", &[new, from], &[]).as_bytes())
    }

    /// Records a patch of 1 to 64 changes, each of which applies to what those before it leave.
    pub fn record(&mut self, branch: &Name, name: &Name, changes: &[Change]) -> Result<u64, Error> {
        self.write(&record_command(branch, name, changes))
    }

    /// Brings all patches that `to` lacks and `from` has.
    pub fn pull(&mut self, from: &Name, to: &Name) -> Result<u64, Error> {
        self.write(command("pull", &[from, to], &[]).as_bytes())
    }

    /// Brings these patches. An empty list is [`Refusal::NothingToDo`](crate::Refusal::NothingToDo).
    pub fn pull_some(&mut self, from: &Name, to: &Name, patches: &[Name]) -> Result<u64, Error> {
        let text = pull_some_command(self, from, to, patches)?;
        self.write(text.as_bytes())
    }

    /// Takes patches out of a branch.
    pub fn obliterate(&mut self, branch: &Name, patches: &[Name]) -> Result<u64, Error> {
        self.write(command("obliterate", &[branch], patches).as_bytes())
    }

    /// A view of the repository as it is now. That takes a count, however large the repository is.
    pub fn view(&mut self) -> Result<View, Error> {
        Ok(View(self.0.look()?))
    }

    /// The accepted calls, in their order.
    pub fn history(&mut self) -> Result<Vec<AcceptedCall>, Error> {
        run(self, "history\n")?.read("history", |_, lines| {
            lines.map(AcceptedCall::read).collect()
        })
    }

    /// A script that gives the repository back, by [`load`](Repository::load).
    pub fn keep(&mut self) -> Result<Vec<u8>, Error> {
        run(self, "keep\n")?.read("keep", |_, lines| {
            let script = lines.0.to_vec();
            lines.by_ref().for_each(drop);
            Some(script)
        })
    }

    /// How many commands of the last text were executed; blank lines and comments count.
    pub fn executed(&mut self) -> usize {
        self.0.executed()
    }

    fn write(&mut self, text: &[u8]) -> Result<u64, Error> {
        run(self, text)?.read("ok", |number, _| Some(number))
    }
}

impl Questions for Repository {
    fn ask(&mut self, text: impl AsRef<[u8]>) -> Result<Answer, Error> {
        self.0.ask(text.as_ref()).map(Answer::new)
    }

    // Asks the command, which changed nothing, once more together with `why`.
    fn cause(&mut self, command: &[u8]) -> String {
        let Ok(answer) = self.ask([command, b"why\n"].concat()) else {
            return String::new();
        };
        let text = answer.to_string();
        let cause = text
            .split_once("\nwhy ")
            .and_then(|(_, rest)| rest.split_once('\n'));
        cause.map_or_else(String::new, |(_, lines)| lines.to_owned())
    }
}

/// A repository as it was at one moment. It is asked questions alone, on any thread, while the repository goes on.
pub struct View(RawView);

impl View {
    pub(crate) fn of(raw: RawView) -> View {
        View(raw)
    }

    /// One more view of the same.
    pub fn again(&mut self) -> Result<View, Error> {
        Ok(View(self.0.again()?))
    }
}

impl Questions for View {
    fn ask(&mut self, text: impl AsRef<[u8]>) -> Result<Answer, Error> {
        self.0.ask(text.as_ref()).map(Answer::new)
    }
}
