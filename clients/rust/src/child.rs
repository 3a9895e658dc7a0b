use std::io::{self, BufReader, Read, Write};
use std::os::raw::{c_int, c_short, c_ulong};
use std::os::unix::io::AsRawFd;
use std::os::unix::process::CommandExt;
use std::process::{Child, ChildStderr, ChildStdin, ChildStdout, Command, Stdio};
use std::sync::mpsc::{channel, Receiver, Sender};
use std::thread;
use std::time::{Duration, Instant};

use crate::session::{read_replies, Ended, Error, Replies, Way, DIED};

/// How many bytes of standard error are kept, the last ones.
const MOST_TOLD: usize = 4096;
/// How long a program that answers no more has to end by itself, and then the end of standard error to come.
const WAITED: Duration = Duration::from_millis(500);
const TOO_MANY: &str = "the program wrote more replies than it was asked for";
const SIGKILL: c_int = 9;

/// So many bytes a pipe takes without waiting where it can be written: POSIX has no `PIPE_BUF` below that.
const AT_ONCE: usize = 512;
const POLLOUT: c_short = 4;

#[repr(C)]
struct PollFd {
    file: c_int,
    asked: c_short,
    told: c_short,
}

extern "C" {
    fn poll(files: *mut PollFd, count: c_ulong, milliseconds: c_int) -> c_int;
    fn kill(process: c_int, signal: c_int) -> c_int;
    #[cfg(target_os = "linux")]
    fn prctl(option: c_int, ...) -> c_int;
}

/// A program of its own, asked over pipes.
pub(crate) struct Program {
    child: Child,
    /// None once it is closed.
    input: Option<ChildStdin>,
    output: BufReader<ChildStdout>,
    /// The last bytes of standard error, once it has ended.
    told: Receiver<Vec<u8>>,
    /// The thread that started the program ends once this is dropped.
    _holds_thread: Sender<()>,
}

impl Program {
    /// Starts a command that answers as the program does.
    pub(crate) fn start(mut command: Command) -> Result<Program, Error> {
        // in a group of its own: a key that interrupts this program leaves it to end with its input, and to save
        command.process_group(0).stdin(Stdio::piped()).stdout(Stdio::piped()).stderr(Stdio::piped());
        end_with_thread(&mut command);
        let (_holds_thread, held) = channel();
        let (mut child, told) = spawn(command, held).map_err(|it| Ended::of(&format!("the program can't be started: {it}")))?;
        let (input, output) = (child.stdin.take(), child.stdout.take().expect("it is piped"));
        Ok(Program { child, input, output: BufReader::new(output), told, _holds_thread })
    }

    /// Closes the input, lets the program end by itself, and tells how it did.
    fn finish(&mut self) -> Result<(), Ended> {
        drop(self.input.take());
        let mut more = Vec::new();
        self.output.read_to_end(&mut more).ok(); // what can't be read is not there
        let ended = self.end(if more.is_empty() { DIED } else { TOO_MANY });
        match ended.status {
            Some(status) if status.success() && more.is_empty() => Ok(()),
            _ => Err(ended),
        }
    }

    /// Waits for the end, and tells how it was.
    fn end(&mut self, fault: &str) -> Ended {
        drop(self.input.take());
        let status = self.child.wait().ok();
        let told = self.told.recv_timeout(WAITED).unwrap_or_default();
        Ended { status, told: String::from_utf8_lossy(&told).trim().to_string(), ..Ended::of(fault) }
    }

    /// Ends the program, with what it may have started, unless it ends by itself in time; tells whether that was needed.
    fn stop(&mut self, limit: Duration) -> bool {
        let begun = Instant::now();
        while begun.elapsed() < limit && matches!(self.child.try_wait(), Ok(None)) {
            thread::sleep(Duration::from_millis(2));
        }
        let runs = matches!(self.child.try_wait(), Ok(None));
        if runs {
            unsafe { kill(-(self.child.id() as c_int), SIGKILL) };
        }
        runs
    }
}

impl Way for Program {
    fn exchange(&mut self, lines: &[u8], count: usize) -> Replies {
        let Some(mut input) = self.input.take() else { return (Vec::new(), DIED.to_string()) };
        // a program that has ended is told by the replies that lack, so a write that fails tells nothing
        if lines.len() <= AT_ONCE && can_be_written(&input) {
            input.write_all(lines).ok();
            self.input = Some(input);
            return read_replies(&mut self.output, count);
        }
        thread::scope(|scope| {
            let writes = scope.spawn(move || {
                input.write_all(lines).and_then(|()| input.flush()).ok();
                input
            });
            let read = read_replies(&mut self.output, count);
            if read.0.len() < count {
                self.stop(WAITED); // so what is still written to it ends
            }
            self.input = writes.join().ok();
            read
        })
    }

    fn fail(&mut self, fault: &str) -> Ended {
        self.stop(WAITED);
        self.end(fault)
    }

    fn close(&mut self, limit: Option<Duration>) -> Result<(), Ended> {
        drop(self.input.take());
        match limit {
            Some(limit) if self.stop(limit) => {
                let seconds = limit.as_secs_f32();
                Err(self.end(&format!("the program was killed, since it had not ended {seconds} seconds after the session was closed")))
            }
            _ => self.finish(),
        }
    }

    fn kill(&mut self) {
        self.stop(Duration::ZERO);
        self.end(DIED);
    }

    fn id(&self) -> u32 {
        self.child.id()
    }
}

fn can_be_written(input: &ChildStdin) -> bool {
    let mut file = PollFd { file: input.as_raw_fd(), asked: POLLOUT, told: 0 };
    unsafe { poll(&mut file, 1, 0) == 1 && file.told == POLLOUT }
}

/// Has the system end the program with the thread that starts it, whichever way that ends, and amid a search.
#[cfg(target_os = "linux")]
fn end_with_thread(command: &mut Command) {
    const PR_SET_PDEATHSIG: c_int = 1;
    // between fork and exec this asks the system, and takes neither memory nor a lock
    let ask = || match unsafe { prctl(PR_SET_PDEATHSIG, SIGKILL) } {
        0 => Ok(()),
        _ => Err(io::Error::last_os_error()),
    };
    unsafe { command.pre_exec(ask) };
}

#[cfg(not(target_os = "linux"))]
fn end_with_thread(_: &mut Command) {}

/// Starts the program in a thread of its own, which lasts as long as the session, since the program ends with it. It hears what the
/// program says on standard error, and sends the last bytes once that has ended.
fn spawn(mut command: Command, held: Receiver<()>) -> io::Result<(Child, Receiver<Vec<u8>>)> {
    let (begins, begun) = channel();
    let (tells, told) = channel();
    thread::spawn(move || {
        let mut child = command.spawn();
        let said = child.as_mut().ok().and_then(|it| it.stderr.take());
        begins.send(child).ok(); // the session waits for it
        if let Some(said) = said {
            tells.send(hear(said)).ok(); // the session may be gone
            held.recv().ok(); // it never sends, and is dropped at its end
        }
    });
    begun.recv().unwrap_or_else(|_| Err(io::ErrorKind::Other.into())).map(|child| (child, told))
}

/// The last bytes of standard error, once it has ended.
fn hear(mut said: ChildStderr) -> Vec<u8> {
    let (mut kept, mut piece) = (Vec::new(), [0; MOST_TOLD]);
    while let Ok(count @ 1..) = said.read(&mut piece) {
        kept.extend_from_slice(&piece[..count]);
        kept.drain(..kept.len().saturating_sub(MOST_TOLD));
    }
    kept
}
