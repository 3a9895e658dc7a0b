//! What concerns sessions in this process alone. One test asks for as many as there may be, so the others of this file wait for it.
#![cfg(feature = "embedded")]

mod common;

use std::sync::{Mutex, MutexGuard};
use std::thread;
use std::time::Duration;

use common::{file, newest_of_two, selected_of_two, told};
use registryd::{Options, Registry};

static ONE_AT_A_TIME: Mutex<()> = Mutex::new(());

fn alone() -> MutexGuard<'static, ()> {
    ONE_AT_A_TIME.lock().unwrap_or_else(|it| it.into_inner())
}

fn open() -> Registry {
    Registry::embedded(&Options::default()).unwrap()
}

#[test]
fn sessions_of_one_process() {
    let _alone = alone();
    let mut opened: Vec<Registry> = (0..64).map(|_| open()).collect();
    assert_eq!(told(Registry::embedded(&Options::default()).map(|_| ())), "as many sessions are open as may be at once");
    assert_eq!((opened[0].publish("a", "1.0.0", &[]), opened[63].publish("b", "1.0.0", &[])), (Ok(1), Ok(1)));
    assert_eq!(opened[63].list(), Ok(vec![("b".to_string(), vec![("1.0.0".to_string(), false)])]));
    assert_eq!(opened[0].id(), std::process::id());
    // one that is dropped leaves its place to another
    opened.pop();
    opened.push(open());
}

#[test]
fn the_newest_selection() {
    let _alone = alone();
    let begun = |journal| Registry::embedded(&Options { journal, ..Options::default() }).unwrap();
    assert_eq!(selected_of_two(&mut begun(None)), newest_of_two());
    let path = file("selected.journal");
    assert_eq!(selected_of_two(&mut begun(Some(path.clone()))), newest_of_two());
    assert!(path.exists());
}

#[test]
fn what_cannot_be_asked_for() {
    let _alone = alone();
    let path = file("never.journal");
    let refused = |options: Options| told(Registry::embedded(&options).map(|_| ()));
    assert_eq!(refused(Options { workers: 2, ..Options::default() }), "a session in this process has no workers");
    for (load, save) in [(Some(path.clone()), None), (None, Some(path.clone()))] {
        let options = Options { journal: Some(path.clone()), load, save, ..Options::default() };
        assert_eq!(refused(options), "a session that goes on with a journal loads and saves none");
    }
    assert_eq!(refused(Options { journal: Some("a\0b".into()), ..Options::default() }), "a path has a 0 in it");
    assert!(!path.exists());
}

#[test]
fn a_session_goes_to_another_thread() {
    let _alone = alone();
    let mut registry = thread::spawn(open).join().unwrap();
    assert_eq!(registry.publish("a", "1.0.0", &[]), Ok(1));
    assert_eq!(registry.close_within(Duration::ZERO), Ok(()));
}
