//! The client against programs that end, close or write what is no reply, and what becomes of the program where this process, or the
//! session, ends.

mod common;

use std::fs;
use std::io::{BufRead, BufReader};
use std::process::{Command, Stdio};
use std::thread;
use std::time::{Duration, Instant};

use common::{file, needs, newest_of_two, pigeons, program, selected_of_two, signal, told, SOON};
use registryd::{Error, Options, Refusal, Registry, Reply, Request, Resolve, Selected};

fn open() -> Registry {
    Registry::open(program(), &Options::default()).unwrap()
}

/// A session with a shell that has answered the first line.
fn other(script: &str) -> Registry {
    let mut command = Command::new("sh");
    command.args(["-c", &format!("read -r line; echo '{{\"revision\":0,\"selected\":[]}}'; {script}")]);
    Registry::start(command).unwrap()
}

#[test]
fn a_program_that_is_killed() {
    let mut registry = open();
    let status = Command::new("kill").args(["-9", &registry.id().to_string()]).stdout(Stdio::null()).status().unwrap();
    assert!(status.success());
    assert_eq!(told(registry.list()), "the program ended by signal 9");
    assert_eq!(told(registry.publish("a", "1.0.0", &[])), "the program ended by signal 9");
    assert_eq!(told(registry.close()), "the program ended by signal 9");
}

#[test]
fn a_program_that_ends_while_lines_wait() {
    let mut registry = other("read -r line; echo '{\"ok\":true,\"revision\":1}'; echo told >&2; exit 3");
    let lines = vec![Request::Publish { name: "a", version: "1.0.0", needs: &[] }; 10_000];
    let mut answers = registry.many(&lines).unwrap().into_iter();
    assert_eq!(answers.next(), Some(Ok(Reply::Accepted { revision: 1 })));
    assert_eq!(answers.len(), 9_999);
    answers.for_each(|answer| assert_eq!(told(answer), "the program ended with status 3: told"));
    assert_eq!(told(registry.close()), "the program ended with status 3: told");
}

#[test]
fn a_program_that_writes_what_is_no_reply() {
    // and reads no more, so that writing would wait
    let lines = vec![Request::List; 100_000];
    for text in ["no reply", "{}", "{\"revision\":1,\"selected\":1}", "{\"ok\":true,\"revision\":1}", ""] {
        let mut registry = other(&format!("echo '{text}'; exec sleep 100"));
        let answer = if text.contains("true") { registry.list().map(|_| ()) } else { registry.many(&lines).unwrap().swap_remove(0).map(|_| ()) };
        assert!(told(answer).starts_with("the program "), "{text}");
        assert!(told(registry.close()).ends_with(" by signal 9"), "{text}");
    }
}

#[test]
fn a_program_that_closes_its_output_or_writes_too_much() {
    let mut registry = other("printf '{\"ok\":true,\"rev'; exec >&-; exec sleep 100");
    assert_eq!(told(registry.list()), "the program ended by signal 9");
    let registry = other("echo '{\"ok\":true,\"revision\":1}'; cat > /dev/null");
    assert_eq!(told(registry.close()), "the program wrote more replies than it was asked for with status 0");
}

#[test]
fn a_program_that_cannot_be_started() {
    let none = file("none");
    assert!(told(Registry::open(none, &Options::default()).map(|_| ())).starts_with("the program can't be started: "));
    let workers = Options { workers: 0, ..Options::default() };
    let answer = told(Registry::open(program(), &workers).map(|_| ()));
    assert!(answer.contains(" with status 2: error: invalid value '0' for '--workers <N>'"), "{answer}");
    assert!(answer.ends_with("\nregistryd: bad words"), "{answer}");
}

#[test]
fn a_budget_of_requests_that_name_none() {
    let (unmet, spent) = (Ok(Selected::Nothing(None)), Err(Error::Refused { refusal: Refusal::BudgetSpent, revision: 0, culprit: None }));
    let of_its_own = Resolve { budget: Some(1), ..needs(&[("zed", "*")]) };
    for (budget, answer) in [(None, &unmet), (Some(0), &spent), (Some(u32::MAX), &unmet)] {
        let mut registry = Registry::open(program(), &Options { budget, ..Options::default() }).unwrap();
        assert_eq!(registry.resolve(needs(&[("zed", "*")])), *answer);
        assert_eq!(registry.resolve(of_its_own), unmet);
        assert_eq!(registry.close(), Ok(()));
    }
}

#[test]
fn the_newest_selection() {
    for budget in [None, Some(1_000)] {
        let options = Options { budget, ..Options::default() };
        assert_eq!(selected_of_two(&mut Registry::open(program(), &options).unwrap()), newest_of_two());
    }
}

#[test]
fn a_session_is_closed_in_time_where_the_program_is_stopped() {
    let registry = open();
    signal(registry.id(), "STOP");
    let begun = Instant::now();
    let fault = "the program was killed, since it had not ended 0.5 seconds after the session was closed by signal 9";
    assert_eq!(told(registry.close_within(Duration::from_millis(500))), fault);
    assert!(begun.elapsed() < SOON);
}

#[test]
fn a_session_that_is_closed_in_time() {
    let path = file("in-time.journal");
    let mut registry = Registry::open(program(), &Options { save: Some(path.clone()), ..Options::default() }).unwrap();
    assert_eq!(registry.publish("a", "1.0.0", &[]), Ok(1));
    assert_eq!(registry.close_within(Duration::from_secs(30)), Ok(()));
    assert!(path.exists());
}

#[test]
fn a_program_that_does_not_end_is_killed() {
    let registry = open();
    let stopped = Command::new("kill").args(["-STOP", &registry.id().to_string()]).status().unwrap();
    assert!(stopped.success());
    let begun = Instant::now();
    let ended = told(registry.close_within(Duration::from_millis(100)));
    assert_eq!(ended, "the program was killed, since it had not ended 0.1 seconds after the session was closed by signal 9");
    assert!(begun.elapsed() < SOON);
}

#[test]
fn a_session_that_goes_to_another_thread() {
    // the thread that began it has ended
    let mut registry = thread::spawn(open).join().unwrap();
    thread::sleep(Duration::from_millis(100));
    assert_eq!(registry.publish("a", "1.0.0", &[]), Ok(1));
    assert_eq!(registry.close(), Ok(()));
}

/// Whether a process is there and has not ended.
fn runs(process: &str) -> bool {
    let told = fs::read_to_string(format!("/proc/{process}/stat")).unwrap_or_default();
    !told.is_empty() && !told.rsplit(')').next().unwrap().trim_start().starts_with('Z')
}

#[test]
fn no_program_outlives_a_parent_that_is_killed() {
    // this test calls itself, in a process that is killed amid a search which outlasts it
    if std::env::var_os("SEARCHES").is_some() {
        search();
    }
    let this = std::env::current_exe().unwrap();
    let words = ["--exact", "no_program_outlives_a_parent_that_is_killed", "--nocapture"];
    let mut parent = Command::new(this).args(words).env("SEARCHES", "1").stdout(Stdio::piped()).spawn().unwrap();
    let mut lines = BufReader::new(parent.stdout.take().unwrap()).lines();
    let told = lines.find_map(|line| line.unwrap().rsplit_once("searching: ").map(|(_, number)| number.to_string())).unwrap();
    thread::sleep(Duration::from_millis(100));
    assert!(runs(&told));
    parent.kill().unwrap();
    parent.wait().unwrap();
    let begun = Instant::now();
    while runs(&told) && begun.elapsed() < Duration::from_secs(20) {
        thread::sleep(Duration::from_millis(10));
    }
    assert!(!runs(&told));
}

/// Asks for pigeons with one hole too few, and tells the number of the program.
fn search() -> ! {
    let mut registry = open();
    let names = pigeons(&mut registry);
    println!("searching: {}", registry.id());
    let all: Vec<(&str, &str)> = names.iter().map(|name| (name.as_str(), "*")).collect();
    panic!("it has ended: {:?}", registry.resolve(needs(&all)));
}
