use std::ffi::{OsStr, OsString};
use std::path::Path;
use std::str::from_utf8;
use std::thread;
use std::time::{Duration, Instant};

use crate::connection::{commands, Connection, FENCE, GREETING, UNAVAILABLE};
use crate::json::Value;
use crate::session::{no_reply, Ended, Error, Replies, Way};
use crate::Reply;

/// How long a service may take to be there again unless its client says otherwise, and the pause between two tries.
pub(crate) const PATIENCE: Duration = Duration::from_secs(10);
const PAUSE: Duration = Duration::from_millis(100);

const UNKNOWN: &str = "can't be asked any more: whether a command that has no reply stands, `list` tells in another session";

/// A line, and what it is answered once it is.
struct Asked<'a> {
    line: &'a [u8],
    answer: Option<Result<Reply, Error>>,
}

impl Asked<'_> {
    /// Whether it was perhaps carried out, though it has no reply.
    fn is_open_command(&self) -> bool {
        self.answer.is_none() && !changes_nothing(self.line)
    }
}

/// A session with a service, by a connection that is made again where it ends.
pub(crate) struct Service {
    address: OsString,
    connection: Connection,
    /// That was told last.
    revision: u64,
    patience: Duration,
}

impl Service {
    pub(crate) fn open(address: &OsStr, patience: Duration) -> Result<Service, Ended> {
        match Connection::open(address, GREETING, Instant::now() + patience) {
            Ok((connection, revision)) => Ok(Service { address: address.to_os_string(), connection, revision, patience }),
            Err(fault) => Err(Ended::of(&format!("the service at {} can't be reached: {fault}", Path::new(address).display()))),
        }
    }

    /// Asks what has no reply; tells whether a reply came, and the line that is none, where there is one.
    fn ask(&mut self, asked: &mut [Asked<'_>]) -> (bool, Option<Vec<u8>>) {
        let open: Vec<&mut Asked<'_>> = asked.iter_mut().filter(|it| it.answer.is_none()).collect();
        let text: Vec<u8> = open.iter().flat_map(|it| it.line).copied().collect();
        let (answers, other) = self.connection.ask(&text, open.len());
        let is_answered = !answers.is_empty();
        for (it, answer) in open.into_iter().zip(answers) {
            self.revision = revision_of(&answer).unwrap_or(self.revision);
            it.answer = Some(answer);
        }
        (is_answered, other)
    }

    /// Connects again, unless that takes longer. Of commands that this connection was asked and that have no reply it is looked up
    /// whether they were carried out: once the service has ended the connection, and so has none of them under way.
    fn connect_until(&mut self, limit: Instant, asked: &mut [Asked<'_>]) -> bool {
        let is_open = asked.iter().any(Asked::is_open_command);
        if !self.connection.has_ended(limit) && is_open {
            return false;
        }
        self.connection.shut();
        while Instant::now() < limit {
            thread::sleep(PAUSE);
            let Ok((connection, _)) = Connection::open(&self.address, if is_open { FENCE } else { GREETING }, limit) else { continue };
            if is_open {
                let Ok(commands) = commands(&self.address, limit) else { continue };
                self.settle(asked, &commands);
            }
            self.connection = connection;
            return true;
        }
        false
    }

    /// Answers the commands that were carried out, each by its revision: after what was told last, and in their order.
    fn settle(&mut self, asked: &mut [Asked<'_>], commands: &[String]) {
        for it in asked.iter_mut().filter(|it| it.answer.is_none()) {
            let (Some(line), Some(later)) = (journal_line(it.line), commands.get(self.revision as usize..)) else { continue };
            if let Some(place) = later.iter().position(|it| *it == line) {
                self.revision += place as u64 + 1;
                it.answer = Some(Ok(Reply::Accepted { revision: self.revision }));
            }
        }
    }

    fn told(&self, what: &str) -> String {
        format!("the service at {} {what}", Path::new(&self.address).display())
    }
}

impl Way for Service {
    /// What has no reply is asked again where the connection ends; a command unless it was carried out.
    fn exchange(&mut self, lines: &[u8], _: usize) -> Replies {
        let mut asked: Vec<Asked<'_>> = lines.split_inclusive(|byte| *byte == b'\n').map(|line| Asked { line, answer: None }).collect();
        let mut limit = None;
        while has_open(&asked) {
            // by a connection that ended while nothing was asked, nothing is sent
            let is_sent = self.connection.is_quiet();
            if is_sent {
                let (is_answered, other) = self.ask(&mut asked);
                limit = limit.filter(|_| !is_answered);
                if let Some(line) = other.filter(|it| !it.starts_with(UNAVAILABLE)) {
                    return (first_answers(asked), no_reply(&line));
                }
                if !has_open(&asked) {
                    break;
                }
            }
            let limit = *limit.get_or_insert_with(|| Instant::now() + self.patience);
            if !self.connect_until(limit, if is_sent { &mut asked } else { &mut [] }) {
                let why = if asked.iter().any(Asked::is_open_command) { UNKNOWN } else { "can't be asked any more" };
                return (first_answers(asked), self.told(why));
            }
        }
        (first_answers(asked), String::new())
    }

    fn fail(&mut self, fault: &str) -> Ended {
        self.kill();
        Ended::of(fault)
    }

    /// Between two calls no line waits, and what was told as accepted stands in the service's journal.
    fn close(&mut self, _: Option<Duration>) -> Result<(), Ended> {
        self.kill();
        Ok(())
    }

    fn kill(&mut self) {
        self.connection.shut();
    }

    fn id(&self) -> u32 {
        0
    }
}

fn has_open(asked: &[Asked<'_>]) -> bool {
    asked.iter().any(|it| it.answer.is_none())
}

/// The answers up to the first line that has none.
fn first_answers(asked: Vec<Asked<'_>>) -> Vec<Result<Reply, Error>> {
    asked.into_iter().map_while(|it| it.answer).collect()
}

fn revision_of(answer: &Result<Reply, Error>) -> Option<u64> {
    match answer {
        Ok(reply) => Some(reply.revision()),
        Err(Error::Refused { revision, .. }) => Some(*revision),
        Err(_) => None,
    }
}

/// What a line says, where that can be read.
fn read(line: &[u8]) -> Option<Value> {
    Value::read(from_utf8(line).ok()?)
}

/// Whether a line asks for what may be asked twice.
fn changes_nothing(line: &[u8]) -> bool {
    matches!(read(line).as_ref().and_then(|it| it.last("op")?.as_text()), Some("resolve" | "check" | "list"))
}

/// A line as a journal has it, where it is a command.
fn journal_line(line: &[u8]) -> Option<String> {
    let said = read(line)?;
    let members: &[&str] = match said.last("op")?.as_text()? {
        "publish" => &["name", "needs", "op", "version"],
        "yank" | "unyank" => &["name", "op", "version"],
        _ => return None,
    };
    let members = members.iter().map(|name| Some((name.to_string(), said.last(name)?.clone()))).collect::<Option<_>>()?;
    let mut told = String::new();
    Value::Object(members).write(&mut told);
    Some(told)
}

#[cfg(test)]
mod tests {
    use super::{changes_nothing, journal_line};

    #[test]
    fn commands_are_told_as_a_journal_has_them() {
        let publish = r#"{"name":"a","needs":[["b","^1"],["a-b","*"]],"op":"publish","version":"1.0.0"}"#;
        let yank = r#"{"name":"a","op":"yank","version":"1.0.0"}"#;
        for (line, told) in [
            (publish, Some(publish)),
            (r#"{"op":"publish","name":"a","version":"1.0.0","needs":[["b","^1"],["a-b","*"]]}"#, Some(publish)),
            (" { \"op\" : \"yank\", \"version\":\"1.0.0\" ,\"name\":\"\\u0061\" }\r\n", Some(yank)),
            // the last member of a name counts
            (r#"{"op":"list","op":"yank","name":"b","version":"1.0.0","name":"a"}"#, Some(yank)),
            (r#"{"op":"publish","name":"a","version":"1.0.0"}"#, None),
            (r#"{"op":"list"}"#, None),
            ("{}", None),
            ("", None),
        ] {
            assert_eq!(journal_line(line.as_bytes()).as_deref(), told, "{line}");
        }
    }

    #[test]
    fn what_may_be_asked_twice() {
        for (line, may_be) in [
            ("{\"op\":\"list\"}\n", true),
            (r#"{"op":"resolve","needs":[]}"#, true),
            (r#"{"needs":[],"op":"check","derivation":[]}"#, true),
            (r#"{"op":"list","op":"yank","name":"a","version":"1.0.0"}"#, false),
            (r#"{"op":"yank","name":"a","version":"1.0.0"}"#, false),
            ("{}", false),
            ("no line", false),
        ] {
            assert_eq!(changes_nothing(line.as_bytes()), may_be, "{line}");
        }
    }
}
