use std::ffi::OsStr;
use std::fmt;
use std::io::BufRead;
use std::os::unix::process::ExitStatusExt;
use std::path::PathBuf;
use std::process::{Command, ExitStatus};
use std::time::Duration;

use crate::child::Program;
use crate::culprit::{self, Culprit};
#[cfg(feature = "embedded")]
use crate::embedded::Embedded;
use crate::json::Value;
use crate::meant::meant;
use crate::reply::{self, Packages};
use crate::service::{Service, PATIENCE};
use crate::{Pairs, Refusal, Reply, Request, Resolve, Selected};

pub(crate) const DIED: &str = "the program ended";

/// How a session is begun.
#[derive(Clone, Debug)]
pub struct Options {
    /// How many threads of the program resolve requests, 1 to 64. A session in this process takes no other number than 1.
    pub workers: u8,
    /// How many conflicts the search of each request may meet that names no budget of its own; any number where it is none. A session
    /// in this process takes none.
    pub budget: Option<u32>,
    /// The journal that the session goes on with, made where it is not there: it has each accepted command before the call
    /// that made it returns. With it nothing is loaded or saved.
    pub journal: Option<PathBuf>,
    /// The journal to begin with.
    pub load: Option<PathBuf>,
    /// Where the journal is saved once the session is closed.
    pub save: Option<PathBuf>,
}

impl Default for Options {
    fn default() -> Options {
        Options { workers: 1, budget: None, journal: None, load: None, save: None }
    }
}

/// Why a call has no answer.
#[derive(Clone, Debug, PartialEq, Eq)]
pub enum Error {
    /// The line was refused at this revision, and changed nothing. The culprit is the text that it was refused for, where it was for
    /// one and the call asked a single line.
    Refused { refusal: Refusal, revision: u64, culprit: Option<Culprit> },
    /// The session has ended, or was never begun, and answers no more.
    Ended(Ended),
    /// A line with a line feed in it is not sent.
    LineFeed,
}

/// How a session ended.
#[derive(Clone, Debug, PartialEq, Eq)]
pub struct Ended {
    pub fault: String,
    /// The program's, and none where it was never started, or where there is no program.
    pub status: Option<ExitStatus>,
    /// The end of what the program said on standard error.
    pub told: String,
}

impl Ended {
    pub(crate) fn of(fault: &str) -> Ended {
        Ended { fault: fault.to_string(), status: None, told: String::new() }
    }
}

impl From<Ended> for Error {
    fn from(ended: Ended) -> Error {
        Error::Ended(ended)
    }
}

impl fmt::Display for Error {
    fn fmt(&self, out: &mut fmt::Formatter<'_>) -> fmt::Result {
        match self {
            Error::Refused { refusal, revision, culprit: None } => write!(out, "refused: {}, at revision {revision}", refusal.name()),
            Error::Refused { refusal, revision, culprit: Some(culprit) } => {
                write!(out, "refused: {}: {culprit}, at revision {revision}", refusal.name())
            }
            Error::LineFeed => write!(out, "a line has no line feed in it"),
            Error::Ended(Ended { fault, status, told }) => {
                write!(out, "{fault}")?;
                match status.map(|it| (it.code(), it.signal())) {
                    Some((Some(code), _)) => write!(out, " with status {code}")?,
                    Some((_, Some(signal))) => write!(out, " by signal {signal}")?,
                    _ => {}
                }
                write!(out, "{}{told}", if told.is_empty() { "" } else { ": " })
            }
        }
    }
}

impl std::error::Error for Error {}

/// The replies to lines, in order: fewer than there are lines where no more come, and then what is at fault.
pub(crate) type Replies = (Vec<Result<Reply, Error>>, String);

/// Who answers the lines of a session.
pub(crate) trait Way {
    /// Has this many lines answered.
    fn exchange(&mut self, lines: &[u8], count: usize) -> Replies;
    /// Ends what answers no more, and tells how.
    fn fail(&mut self, fault: &str) -> Ended;
    /// Ends, within so long, once the journal is whole.
    fn close(&mut self, limit: Option<Duration>) -> Result<(), Ended>;
    /// Ends at once.
    fn kill(&mut self);
    /// The number of the process that answers, or 0.
    fn id(&self) -> u32;
    /// What is asked in this process, where something is.
    #[cfg(feature = "embedded")]
    fn embedded(&self) -> Option<&Embedded> {
        None
    }
}

/// A session, with a program of its own, in this process or with a service. One that is dropped is closed, and how that ended isn't told.
pub struct Registry {
    way: Box<dyn Way + Send>,
    /// How it ended, where it has.
    ended: Option<Ended>,
    is_closed: bool,
}

impl Registry {
    /// Starts the program, and waits until it has begun with its journal.
    pub fn open(program: impl AsRef<OsStr>, options: &Options) -> Result<Registry, Error> {
        let mut command = Command::new(program);
        command.args(["serve", "--workers", &options.workers.to_string()]);
        if let Some(budget) = options.budget {
            command.args(["--budget", &budget.to_string()]);
        }
        for (option, path) in [("--journal", &options.journal), ("--load", &options.load), ("--save", &options.save)] {
            if let Some(path) = path {
                command.arg(option).arg(path);
            }
        }
        Registry::start(command)
    }

    /// Starts a command that answers as the program does.
    pub fn start(command: Command) -> Result<Registry, Error> {
        let mut registry = Registry::of(Program::start(command)?);
        registry.ask(Request::Resolve(Resolve::default()))?; // so a journal that can't be gone on with is told here
        Ok(registry)
    }

    /// Begins a session in this process, which starts no other one. Lines are answered one after another, by the thread that asks.
    #[cfg(feature = "embedded")]
    pub fn embedded(options: &Options) -> Result<Registry, Error> {
        Ok(Registry::of(Embedded::open(options)?))
    }

    /// Begins a session with a service, `registry serve`, at the path of its socket or at HOST:PORT. The service has a journal of its
    /// own, and goes on once the session is closed.
    ///
    /// Where the service is begun again, the session connects again, for ten seconds at most. What has no reply is asked again; of a
    /// command it is looked up first, in the journal that the service tells, whether it was carried out since the last reply.
    pub fn connect(address: impl AsRef<OsStr>) -> Result<Registry, Error> {
        Registry::connect_within(address, PATIENCE)
    }

    /// The same with another time than ten seconds for the service to be there: as the session begins, and each time that the connection
    /// has ended.
    pub fn connect_within(address: impl AsRef<OsStr>, patience: Duration) -> Result<Registry, Error> {
        Ok(Registry::of(Service::open(address.as_ref(), patience)?))
    }

    pub(crate) fn of(way: impl Way + Send + 'static) -> Registry {
        Registry { way: Box::new(way), ended: None, is_closed: false }
    }

    /// Publishes a version; answers the revision.
    pub fn publish(&mut self, name: &str, version: &str, needs: Pairs<'_>) -> Result<u64, Error> {
        self.command(Request::Publish { name, version, needs })
    }

    pub fn yank(&mut self, name: &str, version: &str) -> Result<u64, Error> {
        self.command(Request::Yank { name, version })
    }

    pub fn unyank(&mut self, name: &str, version: &str) -> Result<u64, Error> {
        self.command(Request::Unyank { name, version })
    }

    /// Versions that fit together, or that there are none.
    pub fn resolve(&mut self, asked: Resolve<'_>) -> Result<Selected, Error> {
        match self.ask(Request::Resolve(asked))? {
            Reply::Resolved { selected, .. } => Ok(selected),
            other => Err(self.stray(&other)),
        }
    }

    /// Whether the derivation of a refusal follows.
    pub fn check(&mut self, needs: Pairs<'_>, lock: Pairs<'_>, derivation: &Value) -> Result<bool, Error> {
        match self.ask(Request::Check { needs, lock, derivation })? {
            Reply::Verdict { follows, .. } => Ok(follows),
            other => Err(self.stray(&other)),
        }
    }

    pub fn list(&mut self) -> Result<Packages, Error> {
        match self.ask(Request::List)? {
            Reply::Listing { packages, .. } => Ok(packages),
            other => Err(self.stray(&other)),
        }
    }

    /// Sends one line and waits for its reply. Where it is refused for one of its texts, the program is asked about each alone.
    pub fn ask(&mut self, request: Request<'_>) -> Result<Reply, Error> {
        let mut answer = self.many(&[request])?.swap_remove(0);
        if let Err(Error::Refused { refusal, culprit, .. }) = &mut answer {
            *culprit = culprit::shown(&request, *refusal).or_else(|| self.bad_text(&request, *refusal));
        }
        answer
    }

    /// The first text of a request that is refused alone as the request was, and what was probably meant, where that isn't refused.
    fn bad_text(&mut self, request: &Request<'_>, refused: Refusal) -> Option<Culprit> {
        let suspects = culprit::suspects(request, refused);
        let texts: Vec<_> = suspects.iter().map(|it| it.text.as_str()).collect();
        let place = self.refused_alone(&texts, refused)?.into_iter().position(|it| it)?;
        let meant = meant(texts[place], refused);
        let is_bad = meant.as_ref().and_then(|it| self.refused_alone(&[it.as_str()], refused)).map_or(true, |it| it[0]);
        Some(Culprit { meant: meant.filter(|_| !is_bad), ..suspects[place].clone() })
    }

    /// Of each text whether it is refused so where it is asked about alone.
    fn refused_alone(&mut self, texts: &[&str], refused: Refusal) -> Option<Vec<bool>> {
        let pairs: Vec<_> = texts.iter().map(|it| culprit::alone(it, refused)).collect();
        let questions: Vec<_> = pairs.iter().map(|it| culprit::question(it, refused)).collect();
        let answers = self.many(&questions).ok()?;
        let is_it = |answer: &Result<Reply, Error>| matches!(answer, Err(Error::Refused { refusal, .. }) if *refusal == refused);
        Some(answers.iter().map(is_it).collect())
    }

    /// Sends lines without waiting between them; answers what each is answered, in order. Where the program ends on the way,
    /// those without a reply tell so. `LineFeed`, and nothing is sent, where one of them has a line feed in it.
    pub fn many(&mut self, requests: &[Request<'_>]) -> Result<Vec<Result<Reply, Error>>, Error> {
        let mut lines = Vec::new();
        for request in requests {
            request.write(&mut lines).ok_or(Error::LineFeed)?;
        }
        if let Some(ended) = &self.ended {
            return Ok(vec![Err(Error::Ended(ended.clone())); requests.len()]);
        }
        let (mut replies, fault) = self.way.exchange(&lines, requests.len());
        if replies.len() < requests.len() {
            let ended = self.fail(&fault);
            replies.resize(requests.len(), Err(Error::Ended(ended)));
        }
        Ok(replies)
    }

    /// Ends the session, and waits until the journal is whole.
    pub fn close(self) -> Result<(), Error> {
        self.close_in(None)
    }

    /// The same within so long: a program that has not ended by then is killed, and that is told.
    pub fn close_within(self, limit: Duration) -> Result<(), Error> {
        self.close_in(Some(limit))
    }

    fn close_in(mut self, limit: Option<Duration>) -> Result<(), Error> {
        self.is_closed = true;
        match self.ended.take() {
            Some(ended) => Err(Error::Ended(ended)),
            None => Ok(self.way.close(limit)?),
        }
    }

    /// Ends the session at once: nothing is saved. A journal has all that was told as accepted.
    pub fn kill(mut self) {
        self.is_closed = true;
        if self.ended.is_none() {
            self.way.kill();
        }
    }

    /// The number of the process that answers: the program's, or this one's; 0 where that is a service, which has several.
    pub fn id(&self) -> u32 {
        self.way.id()
    }

    /// What is asked in this process, as long as the session goes on.
    #[cfg(feature = "embedded")]
    pub(crate) fn embedded_way(&self) -> Result<&Embedded, Ended> {
        match &self.ended {
            Some(ended) => Err(ended.clone()),
            None => self.way.embedded().ok_or_else(|| Ended::of("the session is not in this process")),
        }
    }

    fn command(&mut self, request: Request<'_>) -> Result<u64, Error> {
        match self.ask(request)? {
            Reply::Accepted { revision } => Ok(revision),
            other => Err(self.stray(&other)),
        }
    }

    /// A reply of another kind than the line asked for.
    fn stray(&mut self, reply: &Reply) -> Error {
        Error::Ended(self.fail(&format!("the program answered otherwise than it was asked: {reply:?}")))
    }

    /// Ends a session that answers no more. How it ended is told once, and kept.
    fn fail(&mut self, fault: &str) -> Ended {
        let way = &mut self.way;
        self.ended.get_or_insert_with(|| way.fail(fault)).clone()
    }
}

impl Drop for Registry {
    fn drop(&mut self) {
        if !self.is_closed && self.ended.is_none() {
            self.way.close(None).ok(); // who drops it isn't told
        }
    }
}

/// Replies, and the line behind them that is none, without its end, where there is one.
pub(crate) type Read = (Vec<Result<Reply, Error>>, Option<Vec<u8>>);

/// The replies of so many lines; fewer where no more come, or what is no reply.
pub(crate) fn read_some(output: &mut impl BufRead, count: usize) -> Read {
    let mut replies = Vec::with_capacity(count);
    let mut line = Vec::new();
    while replies.len() < count {
        line.clear();
        output.read_until(b'\n', &mut line).ok(); // what can't be read is not there
        if line.pop() != Some(b'\n') {
            break;
        }
        let Some(read) = reply::read(&line) else { return (replies, Some(line)) };
        replies.push(read.map_err(|(refusal, revision)| Error::Refused { refusal, revision, culprit: None }));
    }
    (replies, None)
}

/// The same, and what is at fault where they are fewer.
pub(crate) fn read_replies(output: &mut impl BufRead, count: usize) -> Replies {
    let (replies, other) = read_some(output, count);
    (replies, other.map_or(DIED.to_string(), |line| no_reply(&line)))
}

pub(crate) fn no_reply(line: &[u8]) -> String {
    format!("the program wrote no reply: {}", String::from_utf8_lossy(&line[..line.len().min(200)]))
}
