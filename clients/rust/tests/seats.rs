//! Seats: what threads may do with them, a full journal, seats that are closed, and a journal at fault. Threads that publish, yank and
//! resolve at once are judged by tests/program/test_client_rust.py.
#![cfg(feature = "embedded")]

mod common;

use std::fs;
use std::path::Path;
use std::thread;

use common::{file, needs, told};
use registryd::{kept_seats, seats, Error, Options, Refusal, Registry, Request, Seat, Selected};

const fn is_send<T: Send>() {}
const _: () = is_send::<Seat>();

/// Of a type that is `Sync` the compiler can't tell which of the two is meant.
trait IsNotSync<Which> {
    fn compiles() {}
}
impl<T> IsNotSync<()> for T {}
impl<T: Sync> IsNotSync<u8> for T {}
const _: fn() = <Seat as IsNotSync<_>>::compiles;

const FULL: &str = r#"registry-journal 2
{"name":"a","needs":[],"op":"publish","version":"1.0.0"}
{"name":"b","needs":[["a","^1"]],"op":"publish","version":"1.0.0"}
end 2
"#;

fn refusal<T: std::fmt::Debug>(answer: Result<T, Error>) -> (Refusal, u64) {
    match answer {
        Err(Error::Refused { refusal, revision, .. }) => (refusal, revision),
        other => panic!("it is not refused: {other:?}"),
    }
}

fn open(count: usize, load: Option<&Path>, entries: usize) -> Result<usize, Error> {
    seats(count, load, entries).map(|it| it.len())
}

#[test]
fn a_journal_that_is_full() {
    let mut all = seats(2, None, 2).unwrap();
    assert_eq!(all[0].publish("a", "1.0.0", &[]), Ok(1));
    assert_eq!(all[1].publish("b", "1.0.0", &[("a", "^1")]), Ok(2));
    let both = ["a", "b"].map(|name| (name.to_string(), "1.0.0".to_string())).to_vec();
    for seat in &mut all {
        assert_eq!(refusal(seat.publish("c", "1.0.0", &[])), (Refusal::JournalFull, 2));
        assert_eq!(seat.resolve(needs(&[("b", "*")])), Ok(Selected::Versions(both.clone())));
        assert_eq!((seat.journal(), seat.place()), (Ok(FULL.to_string()), 2));
    }
    // with more room it goes on
    let path = file("full.journal");
    fs::write(&path, FULL).unwrap();
    assert_eq!(seats(1, Some(&path), 3).unwrap()[0].yank("a", "1.0.0"), Ok(3));
    let words = told(open(1, Some(&path), 1));
    assert!(words.starts_with(&format!("journal {}: ", path.display())), "{words}");
}

#[test]
fn a_journal_that_is_kept() {
    let path = file("kept.journal");
    let mut all = kept_seats(2, &path, 65_536).unwrap();
    assert_eq!(all[0].publish("a", "1.0.0", &[]), Ok(1));
    assert_eq!(all[1].publish("b", "1.0.0", &[("a", "^1")]), Ok(2));
    let (whole, begun) = (FULL.to_string(), FULL.replace("end 2\n", ""));
    assert_eq!((fs::read_to_string(&path).unwrap(), all[0].journal()), (begun.clone(), Ok(whole)));
    let words = told(kept_seats(1, &path, 65_536).map(|it| it.len()));
    assert_eq!(words, format!("journal {}: in use by another session", path.display()));
    assert_eq!(all.remove(0).close(), Ok(()));
    assert_eq!(fs::read_to_string(&path).unwrap(), begun);
    drop(all);
    assert_eq!(fs::read_to_string(&path).unwrap(), FULL);
    // it is gone on with, and what the file does not get is not told
    let mut all = kept_seats(2, &path, 65_536).unwrap();
    assert_eq!((all[1].yank("a", "1.0.0"), all[0].place()), (Ok(3), 0));
    fs::remove_file(&path).unwrap();
    let words = format!("journal {}: changed by another program, and not gone on with", path.display());
    for seat in &mut all {
        assert_eq!(told(seat.unyank("a", "1.0.0")), words);
    }
    assert_eq!(told(all.remove(1).close()), words);
}

#[test]
fn seats_are_closed_one_by_one() {
    let mut all = seats(3, None, 65_536).unwrap();
    assert_eq!(all.iter().map(Seat::number).collect::<Vec<_>>(), [1, 2, 3]);
    let mut first = all.remove(0);
    assert_eq!((first.place(), first.publish("a", "1.0.0", &[]), first.place()), (0, Ok(1), 1));
    assert_eq!(first.close(), Ok(()));
    // one goes to a thread, and is closed with it
    let mut second = all.remove(0);
    assert_eq!(thread::spawn(move || second.publish("b", "1.0.0", &[])).join().unwrap(), Ok(2));
    assert_eq!((all[0].publish("c", "1.0.0", &[]), all[0].place()), (Ok(3), 3));
    // what is closed leaves its place to others
    for _ in 0..8 {
        assert_eq!(open(32, None, 1), Ok(32));
    }
}

#[test]
fn a_journal_at_fault_is_told_as_by_a_session() {
    let path = file("fault.journal");
    for text in [None, Some(&FULL[..FULL.len() - 2])] {
        text.iter().for_each(|it| fs::write(&path, it).unwrap());
        let session = Registry::embedded(&Options { load: Some(path.clone()), ..Options::default() });
        let words = told(open(2, Some(&path), 65_536));
        assert!(words.contains(path.to_str().unwrap()), "{words}");
        assert_eq!(words, told(session.map(|_| ())));
    }
}

#[test]
fn what_cannot_be_asked_for() {
    for (count, entries) in [(0, 1), (65, 1), (usize::MAX, 1), (1, 0), (1, 65_537)] {
        assert_eq!(told(open(count, None, entries)), "an argument is none that the call takes");
    }
    assert_eq!(told(open(1, Some("a\0b".as_ref()), 1)), "a path has a 0 in it");
}

#[test]
fn several_replies_at_once_and_a_long_journal() {
    let mut seat = seats(1, None, 65_536).unwrap().remove(0);
    let versions: Vec<_> = (0..2000).map(|it| format!("{it}.0.0")).collect();
    let lines: Vec<_> = versions.iter().map(|version| Request::Publish { name: "a", version, needs: &[] }).collect();
    assert!(seat.many(&lines).unwrap().iter().all(Result::is_ok));
    assert_eq!(seat.place(), 2000);
    let line = |version| format!("{{\"name\":\"a\",\"needs\":[],\"op\":\"publish\",\"version\":\"{version}\"}}\n");
    let text: String = versions.iter().map(line).collect();
    assert_eq!(seat.journal(), Ok(format!("registry-journal 2\n{text}end 2000\n")));
}
