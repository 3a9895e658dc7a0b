use std::ffi::CString;
use std::os::raw::{c_char, c_int, c_void};
use std::os::unix::ffi::OsStrExt;
use std::path::Path;
use std::process;
use std::ptr::null;
use std::time::Duration;

use crate::session::{read_replies, Ended, Options, Replies, Way};

/// How many bytes of replies are taken at once.
const ROOM: usize = 65_536;
/// How many bytes of what is the matter are told, with the 0 behind them.
const WORDS: usize = 4096;
const OK: c_int = 0;
const NO_MEMORY: c_int = 2;
/// How many seats a journal may have.
const MOST_SEATS: usize = 64;

/// Where a seat answered.
#[repr(C)]
#[derive(Default)]
struct Stamp {
    place: u32,
    seat: u32,
}

// The calls of registryd.h that are used here. Each answers `OK` where all is well.
extern "C" {
    fn registryd_open_embedded(load: *const c_char, save: *const c_char, session: *mut u64, words: *mut c_char, room: usize) -> c_int;
    fn registryd_open_embedded_journal(journal: *const c_char, session: *mut u64, words: *mut c_char, room: usize) -> c_int;
    fn registryd_open_seats(load: *const c_char, entries: usize, seats: *mut u64, count: usize, words: *mut c_char, room: usize) -> c_int;
    fn registryd_open_seats_journal(journal: *const c_char, entries: usize, seats: *mut u64, count: usize, words: *mut c_char, room: usize) -> c_int;
    fn registryd_journal(seat: u64, room: *mut c_char, size: usize, length: *mut usize) -> c_int;
    fn registryd_stamp(line: *const c_char, length: usize, stamp: *mut Stamp) -> c_int;
    fn registryd_ask(
        session: u64,
        lines: *const c_void,
        length: usize,
        bytes: *mut c_void,
        room: usize,
        taken: *mut usize,
        left: *mut usize,
    ) -> c_int;
    fn registryd_take(session: u64, bytes: *mut c_void, room: usize, taken: *mut usize, left: *mut usize) -> c_int;
    fn registryd_error(session: u64, words: *mut c_char, room: usize) -> c_int;
    fn registryd_save(session: u64) -> c_int;
    fn registryd_close(session: u64) -> c_int;
}

/// A session in this process, by its number.
pub(crate) struct Embedded {
    session: u64,
    /// Where replies are taken to.
    bytes: Vec<u8>,
    /// The last replies.
    told: Vec<u8>,
}

/// Opens so many seats of one journal, which is kept in a file, or begins with that of another one, or with none.
pub(crate) fn open_seats(count: usize, keep: Option<&Path>, load: Option<&Path>, entries: usize) -> Result<Vec<Embedded>, Ended> {
    let (keep, load) = (text(&keep)?, text(&load)?);
    let mut sessions = [0; MOST_SEATS];
    let seats = sessions.as_mut_ptr();
    // the text ends with a 0 and outlives the call, which refuses to open more seats than there is room for
    told(|words, room| unsafe {
        match keep {
            Some(_) => registryd_open_seats_journal(at(&keep), entries, seats, count, words, room),
            None => registryd_open_seats(at(&load), entries, seats, count, words, room),
        }
    })?;
    Ok(sessions[..count].iter().map(|it| Embedded::of(*it)).collect())
}

impl Embedded {
    pub(crate) fn open(options: &Options) -> Result<Embedded, Ended> {
        let (journal, load, save) = (text(&options.journal)?, text(&options.load)?, text(&options.save)?);
        if options.workers != 1 {
            return Err(Ended::of("a session in this process has no workers"));
        }
        if options.budget.is_some() {
            return Err(Ended::of("a session in this process has no budget: each request may have one"));
        }
        if journal.is_some() && (load.is_some() || save.is_some()) {
            return Err(Ended::of("a session that goes on with a journal loads and saves none"));
        }
        let mut session = 0;
        // each text ends with a 0 and outlives the call, which keeps none
        told(|words, room| unsafe {
            match journal {
                Some(_) => registryd_open_embedded_journal(at(&journal), &mut session, words, room),
                None => registryd_open_embedded(at(&load), at(&save), &mut session, words, room),
            }
        })?;
        Ok(Embedded::of(session))
    }

    fn of(session: u64) -> Embedded {
        Embedded { session, bytes: vec![0; ROOM], told: Vec::new() }
    }

    /// How many entries of the journal a seat had read when it answered last; 0 where it has not.
    pub(crate) fn place(&self) -> u32 {
        let mut stamp = Stamp::default();
        let line = self.told.strip_suffix(b"\n").and_then(|it| it.rsplit(|byte| *byte == b'\n').next());
        if let Some(line) = line {
            // the length is that of the slice
            unsafe { registryd_stamp(line.as_ptr().cast(), line.len(), &mut stamp) };
        }
        stamp.place
    }

    /// The journal that a seat has seen.
    pub(crate) fn journal(&self) -> Result<String, Ended> {
        let (mut text, mut length) = (Vec::<u8>::new(), 0);
        loop {
            // the length is that of the slice
            let answer = unsafe { registryd_journal(self.session, text.as_mut_ptr().cast(), text.len(), &mut length) };
            if answer != NO_MEMORY || length == 0 {
                self.check(answer)?;
                text.truncate(length);
                return String::from_utf8(text).map_err(|_| Ended::of("the journal is no text"));
            }
            // others may enter more before it is copied
            text.resize(2 * length, 0);
        }
    }

    /// Tells of a call that didn't answer `OK`.
    fn check(&self, answer: c_int) -> Result<(), Ended> {
        told(|words, room| {
            if answer != OK {
                unsafe { registryd_error(self.session, words, room) };
            }
            answer
        })
    }
}

impl Way for Embedded {
    fn exchange(&mut self, lines: &[u8], count: usize) -> Replies {
        let (mut taken, mut left) = (0, 0);
        let bytes = self.bytes.as_mut_ptr().cast();
        // the lengths are those of the slices
        let answer = unsafe { registryd_ask(self.session, lines.as_ptr().cast(), lines.len(), bytes, ROOM, &mut taken, &mut left) };
        let is_done = self.check(answer);
        let mut text = self.bytes[..taken].to_vec();
        // of lines that failed, those before may have their replies
        let mut is_more = left > 0 || is_done.is_err();
        while is_more {
            (taken, left) = (0, 0);
            unsafe { registryd_take(self.session, self.bytes.as_mut_ptr().cast(), ROOM, &mut taken, &mut left) };
            text.extend_from_slice(&self.bytes[..taken]);
            is_more = left > 0;
        }
        let (replies, fault) = read_replies(&mut &text[..], count);
        self.told = text;
        (replies, is_done.map_or_else(|it| it.fault, |()| fault))
    }

    fn fail(&mut self, fault: &str) -> Ended {
        self.kill();
        Ended::of(fault)
    }

    /// Between two calls nothing runs that would have to be waited for.
    fn close(&mut self, _: Option<Duration>) -> Result<(), Ended> {
        let answer = unsafe { registryd_save(self.session) };
        let saved = self.check(answer);
        self.kill();
        saved
    }

    fn kill(&mut self) {
        unsafe { registryd_close(self.session) };
    }

    fn id(&self) -> u32 {
        process::id()
    }

    fn embedded(&self) -> Option<&Embedded> {
        Some(self)
    }
}

fn at(text: &Option<CString>) -> *const c_char {
    text.as_ref().map_or(null(), |it| it.as_ptr())
}

/// A path as the library takes it.
fn text(path: &Option<impl AsRef<Path>>) -> Result<Option<CString>, Ended> {
    let text = path.as_ref().map(|it| CString::new(it.as_ref().as_os_str().as_bytes()));
    text.transpose().map_err(|_| Ended::of("a path has a 0 in it"))
}

/// Makes a call that tells in words, in so much room, what is the matter where it doesn't answer `OK`.
fn told(call: impl FnOnce(*mut c_char, usize) -> c_int) -> Result<(), Ended> {
    let mut words = [0u8; WORDS];
    let answer = call(words.as_mut_ptr().cast(), WORDS);
    if answer == OK {
        return Ok(());
    }
    let length = words.iter().position(|it| *it == 0).unwrap_or(0);
    let told = String::from_utf8_lossy(&words[..length]);
    Err(if told.is_empty() { Ended::of(&format!("the library answered {answer}")) } else { Ended::of(&told) })
}
