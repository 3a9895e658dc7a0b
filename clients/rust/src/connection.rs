use std::ffi::OsStr;
use std::io::{self, BufRead, BufReader, ErrorKind, Read as _, Write};
use std::net::{Shutdown, TcpStream, ToSocketAddrs};
use std::os::unix::io::OwnedFd;
use std::os::unix::net::UnixStream;
use std::thread;
use std::time::{Duration, Instant};

use crate::reply;
use crate::session::{read_some, Read};

/// So many bytes a socket that holds none takes without waiting.
const AT_ONCE: usize = 512;
/// The least time to wait, since none at all would mean to wait for ever.
const LEAST: Duration = Duration::from_millis(1);

/// How a refusal of the service's own begins: it could not ask a program, or has as many clients as may be.
pub(crate) const UNAVAILABLE: &[u8] = b"{\"error\":503,";

/// The reply to this one tells the revision.
pub(crate) const GREETING: &[u8] = b"{\"op\":\"resolve\",\"needs\":[]}\n";
/// The program that keeps the journal refuses this one, once all commands that came before are in the journal.
pub(crate) const FENCE: &[u8] = b"{}\n";

/// A connection to a service.
pub(crate) struct Connection {
    input: UnixStream,
    output: BufReader<UnixStream>,
}

impl Connection {
    /// Connects to a path, or to HOST:PORT, and has one line answered; tells the revision of its reply.
    pub(crate) fn open(address: &OsStr, line: &[u8], limit: Instant) -> io::Result<(Connection, u64)> {
        let input = connected(address, limit)?;
        let output = BufReader::new(input.try_clone()?);
        let mut connection = Connection { input, output };
        let mut told = Vec::new();
        connection.wait_until(limit)?;
        // one that lets its client go at once may have told why
        connection.input.write_all(line).or_else(|it| if it.kind() == ErrorKind::BrokenPipe { Ok(()) } else { Err(it) })?;
        connection.output.read_until(b'\n', &mut told)?;
        let revision = revision_of(&told)?;
        connection.input.set_read_timeout(None)?;
        Ok((connection, revision))
    }

    /// Has a read, and a write, wait no longer than until then.
    fn wait_until(&self, limit: Instant) -> io::Result<()> {
        let left = limit.saturating_duration_since(Instant::now()).max(LEAST);
        self.input.set_read_timeout(Some(left))
    }

    /// Whether the connection stands, while nothing is asked.
    pub(crate) fn is_quiet(&mut self) -> bool {
        let waits = self.input.set_nonblocking(true).is_ok() && matches!(self.output.fill_buf(), Err(it) if it.kind() == ErrorKind::WouldBlock);
        self.input.set_nonblocking(false).is_ok() && waits
    }

    /// Has lines answered.
    pub(crate) fn ask(&mut self, lines: &[u8], count: usize) -> Read {
        let mut input = &self.input;
        // a connection that has ended is told by the replies that lack, so a write that fails tells nothing
        if lines.len() <= AT_ONCE {
            input.write_all(lines).ok();
            return read_some(&mut self.output, count);
        }
        thread::scope(|scope| {
            scope.spawn(move || input.write_all(lines).ok());
            let read = read_some(&mut self.output, count);
            if read.0.len() < count {
                self.input.shutdown(Shutdown::Write).ok(); // so what is still written to it ends
            }
            read
        })
    }

    /// Waits until the service has ended the connection, after which no line of it is carried out; tells whether it did in time.
    pub(crate) fn has_ended(&mut self, limit: Instant) -> bool {
        self.input.shutdown(Shutdown::Write).ok(); // it may have ended
        loop {
            self.wait_until(limit).ok();
            match self.output.fill_buf().map(<[u8]>::len) {
                Ok(0) => return true,
                Ok(count) => self.output.consume(count),
                Err(it) if it.kind() == ErrorKind::Interrupted => {}
                Err(it) => return !matches!(it.kind(), ErrorKind::WouldBlock | ErrorKind::TimedOut),
            }
        }
    }

    pub(crate) fn shut(&mut self) {
        self.input.shutdown(Shutdown::Both).ok(); // it may have ended
    }
}

/// The commands of the journal that a service keeps, each as a line of the journal's file, in order: it tells them over HTTP.
pub(crate) fn commands(address: &OsStr, limit: Instant) -> io::Result<Vec<String>> {
    let mut connection = connected(address, limit)?;
    connection.set_read_timeout(Some(limit.saturating_duration_since(Instant::now()).max(LEAST)))?;
    connection.write_all(b"GET /journal HTTP/1.0\r\n\r\n")?;
    let mut told = String::new();
    connection.read_to_string(&mut told)?;
    commands_of(&told).ok_or_else(|| io::Error::new(ErrorKind::Other, "the service does not tell its journal now"))
}

fn commands_of(told: &str) -> Option<Vec<String>> {
    let (head, text) = told.split_once("\r\n\r\n")?;
    let lines: Vec<&str> = text.strip_suffix('\n')?.split('\n').collect();
    let (end, lines) = lines.get(1..)?.split_last()?;
    let is_whole = head.lines().next()?.contains(" 200 ") && *end == format!("end {}", lines.len());
    let is_command = |it: &&&str| !it.ends_with("\"op\":\"learn\"}");
    is_whole.then(|| lines.iter().filter(is_command).map(|it| it.to_string()).collect())
}

/// A connected socket. What it is used for from then on is the same for paths and ports.
fn connected(address: &OsStr, limit: Instant) -> io::Result<UnixStream> {
    match address.to_str() {
        Some(text) if has_port(text) => {
            let mut fault = io::Error::new(ErrorKind::NotFound, "no such host");
            for it in text.to_socket_addrs()? {
                match TcpStream::connect_timeout(&it, limit.saturating_duration_since(Instant::now()).max(LEAST)) {
                    Ok(stream) => {
                        stream.set_nodelay(true)?; // a line is not held back until the one before is known to have come
                        return Ok(OwnedFd::from(stream).into());
                    }
                    Err(it) => fault = it,
                }
            }
            Err(fault)
        }
        _ => UnixStream::connect(address),
    }
}

fn has_port(address: &str) -> bool {
    let is_port = |it: &str| !it.is_empty() && it.bytes().all(|byte| byte.is_ascii_digit());
    !address.contains('/') && address.rsplit_once(':').map_or(false, |(_, port)| is_port(port))
}

/// The revision of a reply, unless it tells that the service can't be asked now.
fn revision_of(told: &[u8]) -> io::Result<u64> {
    let fault = |why: &str| Err(io::Error::new(ErrorKind::Other, why.to_string()));
    match told.strip_suffix(b"\n").and_then(reply::read) {
        Some(Ok(reply)) => Ok(reply.revision()),
        Some(Err((_, revision))) => Ok(revision),
        None if told.windows(14).any(|it| it == b"TooManyClients") => fault("it has as many clients as may be"),
        None if told.starts_with(UNAVAILABLE) => fault("it is not available"),
        None => fault("it has ended, or is no service"),
    }
}

#[cfg(test)]
mod tests {
    use super::commands_of;

    #[test]
    fn a_journal_is_told() {
        let (publish, yank) = (r#"{"name":"a","needs":[],"op":"publish","version":"1.0.0"}"#, r#"{"name":"a","op":"yank","version":"1.0.0"}"#);
        let learnt = r#"{"derivation":[],"op":"learn"}"#;
        for (told, commands) in [
            (format!("HTTP/1.1 200 OK\r\nConnection: close\r\n\r\nregistry-journal 1\n{publish}\n{yank}\nend 2\n"), Some(vec![publish, yank])),
            (format!("HTTP/1.1 200 OK\r\n\r\nregistry-journal 2\n{publish}\n{learnt}\n{yank}\nend 3\n"), Some(vec![publish, yank])),
            ("HTTP/1.1 200 OK\r\n\r\nregistry-journal 1\nend 0\n".to_string(), Some(vec![])),
            // cut off, or not told
            (format!("HTTP/1.1 200 OK\r\n\r\nregistry-journal 1\n{publish}\n{yank}\n"), None),
            (format!("HTTP/1.1 200 OK\r\n\r\nregistry-journal 1\n{publish}\nend 2\n"), None),
            (format!("HTTP/1.1 200 OK\r\n\r\nregistry-journal 1\n{publish}\nend 1"), None),
            ("HTTP/1.1 200 OK\r\n\r\n".to_string(), None),
            ("HTTP/1.1 503 Service Unavailable\r\n\r\nregistry-journal 1\nend 0\n".to_string(), None),
            (String::new(), None),
        ] {
            assert_eq!(commands_of(&told), commands.map(|it| it.iter().map(|it| it.to_string()).collect::<Vec<_>>()), "{told}");
        }
    }
}
