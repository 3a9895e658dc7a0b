//! As example_child.c, in Rust, through a safe wrapper. Words: the program, and the journal's file.
use std::env;
use std::ffi::{CString, c_char, c_int, c_uint, c_void};
use std::process::ExitCode;

const LINES: &str = r#"{"op":"publish","name":"log","version":"1.3.0","needs":[]}
{"op":"publish","name":"app","version":"1.0.0","needs":[["log","^1.2"]]}
{"op":"resolve","needs":[["app","^1"]]}
"#;

#[link(name = "registryd", kind = "static")]
extern "C" {
    fn registryd_open_journal(
        program: *const c_char,
        workers: c_uint,
        journal: *const c_char,
        session: *mut u64,
    ) -> c_int;
    fn registryd_feed(session: u64, bytes: *const c_void, length: usize) -> c_int;
    fn registryd_take(
        session: u64,
        bytes: *mut c_void,
        room: usize,
        length: *mut usize,
        left: *mut usize,
    ) -> c_int;
    fn registryd_save(session: u64) -> c_int;
    fn registryd_close(session: u64) -> c_int;
}

struct Session(u64);

fn done(answer: c_int) -> Result<(), c_int> {
    if answer == 0 { Ok(()) } else { Err(answer) }
}

impl Session {
    fn open(program: &str, journal: &str) -> Result<Session, c_int> {
        let (program, journal) = (CString::new(program).unwrap(), CString::new(journal).unwrap());
        let mut session = 0;
        // Both texts end with a 0 and outlive the call, which keeps neither.
        done(unsafe { registryd_open_journal(program.as_ptr(), 1, journal.as_ptr(), &mut session) })?;
        Ok(Session(session))
    }

    fn feed(&self, lines: &str) -> Result<(), c_int> {
        done(unsafe { registryd_feed(self.0, lines.as_ptr().cast(), lines.len()) })
    }

    fn replies(&self) -> Result<String, c_int> {
        let (mut all, mut piece, mut length, mut left) = (Vec::new(), [0u8; 4096], 0, 1);
        while left > 0 {
            let room = piece.len();
            done(unsafe { registryd_take(self.0, piece.as_mut_ptr().cast(), room, &mut length, &mut left) })?;
            all.extend_from_slice(&piece[..length]);
        }
        Ok(String::from_utf8(all).unwrap())
    }

    fn save(&self) -> Result<(), c_int> {
        done(unsafe { registryd_save(self.0) })
    }
}

impl Drop for Session {
    fn drop(&mut self) {
        unsafe { registryd_close(self.0) };
    }
}

fn resolve(program: &str, journal: &str) -> Result<(), c_int> {
    let session = Session::open(program, journal)?;
    session.feed(LINES)?;
    print!("{}", session.replies()?);
    session.save()
}

fn main() -> ExitCode {
    let words: Vec<String> = env::args().collect();
    match resolve(&words[1], &words[2]) {
        Ok(()) => ExitCode::SUCCESS,
        Err(answer) => ExitCode::from(answer as u8),
    }
}
