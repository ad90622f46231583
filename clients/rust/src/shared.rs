use crate::answers::Answer;
use crate::changes::{record_command, Change};
use crate::errors::{Error, LogError};
use crate::names::Name;
use crate::questions::{command, pull_some_command, run, Questions};
use crate::raw::{NoReply, Queued, RawMember, Want};
use crate::repository::View;
use std::io::Read;
use std::thread;
use std::time::{Duration, Instant};

/// How long a [`Shared`] repository waits for its log: as many seconds as CAMP_PATIENCE says, or 5.
pub fn patience() -> Duration {
    let said = std::env::var("CAMP_PATIENCE").ok();
    let seconds = said.and_then(|it| it.parse::<f64>().ok()).unwrap_or(5.0);
    Duration::try_from_secs_f64(seconds.min(1e9)).unwrap_or(Duration::from_secs(5))
}

/// The pause before a log that did not answer is asked again.
pub(crate) const PAUSE: Duration = Duration::from_millis(5);

/// What is known of an append.
#[derive(Clone, Copy, Debug, PartialEq, Eq)]
pub enum Appended {
    /// The log has an entry under the tag.
    Done,
    /// The log took nothing, and never will.
    Refused,
    /// It may have taken the entry: it is asked again under the same tag.
    Unknown,
}

/// A log that many processes share: its tags are unique, its order is the engine's, and nothing is ever removed. Entry 0 is
/// the title, `camp log 1` and a line feed, which a log writes where it is empty.
pub trait Log {
    /// Appends an entry under a tag, once.
    fn append(&mut self, tag: &str, text: &[u8]) -> Appended;

    /// The entries from an index on, some at a time; none if the log ends there.
    fn read(&mut self, index: usize) -> Result<Vec<Vec<u8>>, LogError>;
}

/// A repository that processes share over a log. Questions are answered at what was read: [`sync`](Shared::sync) reads all
/// that the log has. A method that writes returns the number of the call once its entry was read back from the log, where
/// every process decides it alike.
pub struct Shared<L: Log> {
    log: L,
    seat: u128,
    member: RawMember,
    requests: u64,
    stopped: Option<usize>,
}

impl<L: Log> Shared<L> {
    /// A repository over a log, at all that the log has.
    pub fn open(mut log: L) -> Result<Shared<L>, Error> {
        let seat = draw_seat().map_err(|error| LogError::Away(error.to_string()))?;
        let title = log.read(0)?.into_iter().next().unwrap_or_default();
        let member = RawMember::open(seat, &title)?
            .ok_or_else(|| LogError::NoLog("its first entry is no title".to_owned()))?;
        let mut shared = Shared {
            log,
            seat,
            member,
            requests: 0,
            stopped: None,
        };
        shared.sync()?;
        Ok(shared)
    }

    /// Reads all that the log has now, and returns the number of calls that were accepted in it.
    pub fn sync(&mut self) -> Result<u64, Error> {
        while self.read_some()? > 0 {}
        Ok(self.member.accepted())
    }

    /// A view of the repository after what was read.
    pub fn view(&mut self) -> Result<View, Error> {
        Ok(View::of(self.member.look()?))
    }

    /// Makes a branch that is a copy of another.
    pub fn branch(&mut self, new: &Name, from: &Name) -> Result<u64, Error> {
        self.write(command("branch", &[new, from], &[]).as_bytes())
    }

    /// Records a patch of 1 to 64 changes, each of which applies to what those before it leave.
    pub fn record(&mut self, branch: &Name, name: &Name, changes: &[Change]) -> Result<u64, Error> {
        self.write(&record_command(branch, name, changes))
    }

    /// Brings all patches that `to` lacks and `from` has.
    pub fn pull(&mut self, from: &Name, to: &Name) -> Result<u64, Error> {
        self.write(command("pull", &[from, to], &[]).as_bytes())
    }

    /// Brings these patches.
    pub fn pull_some(&mut self, from: &Name, to: &Name, patches: &[Name]) -> Result<u64, Error> {
        let text = pull_some_command(self, from, to, patches)?;
        self.write(text.as_bytes())
    }

    /// Takes patches out of a branch.
    pub fn obliterate(&mut self, branch: &Name, patches: &[Name]) -> Result<u64, Error> {
        self.write(command("obliterate", &[branch], patches).as_bytes())
    }

    /// Asks calls, each a command in canonical form, in as few entries as they fit in. Returns the answer of each; a refusal is
    /// an answer as any other.
    pub fn write_all(
        &mut self,
        calls: &[impl AsRef<[u8]>],
    ) -> Result<Vec<Result<Answer, Error>>, Error> {
        let mut failed = Vec::new();
        for (at, call) in calls.iter().enumerate() {
            if let Err(error) = self.queue(call.as_ref()) {
                failed.push((at, Err(error)));
            }
        }
        let mut answers = self.await_answers(calls.len() - failed.len())?;
        for (at, error) in failed {
            answers.insert(at, error);
        }
        Ok(answers)
    }

    // Asks a command that writes, and waits until its entry stands in the log.
    fn write(&mut self, text: &[u8]) -> Result<u64, Error> {
        self.queue(text)?;
        let answer = self.await_answers(1)?.remove(0)?;
        match answer.failure(String::new) {
            None => answer.read("ok", |number, _| Some(number)),
            Some(error) => Err(error),
        }
    }

    fn queue(&mut self, text: &[u8]) -> Result<(), Error> {
        match self.member.ask(self.requests + 1, text, 0)? {
            Queued::Waits => self.requests += 1,
            Queued::TooLong => return Err(LogError::Refused.into()),
            // It is no call: a question of what it would do says why.
            Queued::NoCall => {
                return Err(run(self, [b"whatif ", text].concat())?.unexpected());
            }
        }
        Ok(())
    }

    // The answers to the last requests, so many. Those to earlier ones, for which nobody waits any more, are dropped.
    fn await_answers(&mut self, count: usize) -> Result<Vec<Result<Answer, Error>>, Error> {
        let (mut answers, mut end) = (Vec::with_capacity(count), Instant::now() + patience());
        let before = self.requests - count as u64;
        while answers.len() < count {
            let is_sent = self.take_step()?;
            while let Some((request, answer)) = self.member.answer()? {
                end = Instant::now() + patience();
                if request > before {
                    let answer = answer.map(Answer::new);
                    answers.push(answer.map_err(|why| self.without_reply(why)));
                }
            }
            if Instant::now() > end {
                let why = "no entry came in time".to_owned();
                return Err(if is_sent {
                    LogError::Unknown
                } else {
                    LogError::Away(why)
                }
                .into());
            }
        }
        Ok(answers)
    }

    // One exchange with the log. Returns whether an entry is under way. A log that does not answer is asked again after a pause.
    fn take_step(&mut self) -> Result<bool, Error> {
        let mut is_sent = false;
        if let Want::Append(number, text) = self.member.want()? {
            is_sent = true;
            if self
                .log
                .append(&format!("{:032x}/{number}", self.seat), &text)
                == Appended::Refused
            {
                self.member.refused()?;
                return Ok(false);
            }
        }
        match self.read_some() {
            Ok(0) | Err(Error::Log(LogError::Away(_))) => thread::sleep(PAUSE),
            Ok(_) => (),
            // The member has stopped, and answers so.
            Err(Error::Log(LogError::Stopped(at))) if self.stopped == Some(at) => (),
            Err(error) => return Err(error),
        }
        Ok(is_sent)
    }

    // Reads some entries, and returns how many. At the end of the log a request that waits for more gets no reply.
    fn read_some(&mut self) -> Result<usize, Error> {
        if let Some(index) = self.stopped {
            return Err(LogError::Stopped(index).into());
        }
        let index = self.member.index();
        let entries = self.log.read(index)?;
        for (at, text) in (index..).zip(&entries) {
            if !self.member.found(at, text)? {
                self.stopped = Some(at);
                self.member.want()?;
                return Err(LogError::Stopped(at).into());
            }
        }
        if entries.is_empty() {
            self.member.ended(index)?;
        }
        Ok(entries.len())
    }

    fn without_reply(&self, why: NoReply) -> Error {
        match (why, self.stopped) {
            (NoReply::Stopped, Some(index)) => LogError::Stopped(index).into(),
            _ => LogError::Refused.into(),
        }
    }
}

impl<L: Log> Questions for Shared<L> {
    fn ask(&mut self, text: impl AsRef<[u8]>) -> Result<Answer, Error> {
        self.view()?.ask(text)
    }
}

// 128 random bits.
fn draw_seat() -> std::io::Result<u128> {
    let mut bytes = [0; 16];
    std::fs::File::open("/dev/urandom")?.read_exact(&mut bytes)?;
    Ok(u128::from_ne_bytes(bytes))
}
