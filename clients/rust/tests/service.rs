//! What concerns sessions with a service: several at once, one that ends meanwhile, wrong addresses, and searches that it ends.

mod common;

use std::fs;
use std::io::{BufRead, BufReader, Write};
use std::os::unix::net::UnixListener;
use std::path::PathBuf;
use std::sync::{Arc, Mutex};
use std::thread;
use std::time::{Duration, Instant};

use common::{folder, needs, pigeons, signal, told, without_culprit, Service, PIGEONS, SOON};
use registryd::{Error, Refusal, Registry, Reply, Request, Resolve, Selected};

fn connect(service: &Service) -> Registry {
    Registry::connect(&service.socket).unwrap()
}

/// One that waits as long as a service takes to begin on a busy machine.
fn connect_patiently(service: &Service) -> Registry {
    Registry::connect_within(&service.socket, Duration::from_secs(60)).unwrap()
}

fn versions(pairs: &[(&str, &str)]) -> Selected {
    Selected::Versions(pairs.iter().map(|(name, version)| (name.to_string(), version.to_string())).collect())
}

#[test]
fn sessions_see_each_other_and_the_service_goes_on() {
    let service = Service::begin(&[]);
    let (mut one, mut other) = (connect(&service), connect(&service));
    assert_eq!((one.publish("log", "1.0.0", &[]), other.publish("log", "1.1.0", &[])), (Ok(1), Ok(2)));
    assert_eq!(one.resolve(needs(&[("log", "*")])), Ok(versions(&[("log", "1.1.0")])));
    assert_eq!(
        one.publish("log", "1.1.0", &[]).map_err(without_culprit),
        Err(Error::Refused { refusal: Refusal::AlreadyPublished, revision: 2, culprit: None })
    );
    assert_eq!((one.id(), one.close(), other.close_within(Duration::ZERO)), (0, Ok(()), Ok(())));
    let mut registry = connect(&service);
    assert_eq!(registry.publish("log", "1.2.0", &[]), Ok(3));
    registry.kill();
    assert_eq!(service.journal().lines().count(), 4);
}

#[test]
fn a_port() {
    let service = Service::begin(&["--port", "0"]);
    let port = service.told.rsplit_once(':').unwrap().1.split(' ').next().unwrap();
    for host in ["127.0.0.1", "localhost"] {
        let mut registry = Registry::connect(format!("{host}:{port}")).unwrap();
        assert_eq!(registry.resolve(Resolve::default()), Ok(versions(&[])));
    }
}

#[test]
fn wrong_addresses() {
    for (address, why) in [
        ("no/such/socket", "No such file or directory (os error 2)"),
        ("no/such/socket:1", "No such file or directory (os error 2)"),
        ("none:", "No such file or directory (os error 2)"),
        ("127.0.0.1:1", "Connection refused (os error 111)"),
        ("127.0.0.1:65537", "invalid port value"),
    ] {
        assert_eq!(told(Registry::connect(address).map(|_| ())), format!("the service at {address} can't be reached: {why}"));
    }
}

#[test]
fn a_search_that_the_service_ends() {
    let service = Service::begin(&["--seconds", "2"]);
    let mut registry = connect(&service);
    let names = pigeons(&mut registry);
    let all: Vec<(&str, &str)> = names.iter().map(|name| (name.as_str(), "*")).collect();
    let revision = (2 * PIGEONS * (PIGEONS - 1)) as u64;
    assert_eq!(registry.resolve(needs(&all)), Err(Error::Refused { refusal: Refusal::BudgetSpent, revision, culprit: None }));
    assert_eq!(registry.resolve(needs(&[("hole-1", "=0.0.0")])), Ok(versions(&[("hole-1", "0.0.0")])));
}

#[test]
fn a_service_that_is_begun_again_between_two_calls() {
    let mut service = Service::begin(&[]);
    let mut registry = connect_patiently(&service);
    assert_eq!(registry.publish("log", "1.0.0", &[]), Ok(1));
    service.end();
    service.begin_again();
    // nothing was sent to the one that ended, so commands too are sent to the next
    assert_eq!(registry.publish("log", "1.1.0", &[]), Ok(2));
    assert_eq!(registry.close(), Ok(()));
}

#[test]
fn requests_are_asked_again_of_a_service_that_is_begun_again() {
    let mut service = Service::begin(&[]);
    let mut registry = connect_patiently(&service);
    let names = pigeons(&mut registry);
    let asking = thread::spawn(move || {
        let all: Vec<(&str, &str)> = names.iter().map(|name| (name.as_str(), "*")).collect();
        let hard = Resolve { budget: Some(100_000_000), ..needs(&all) };
        let answers = registry.many(&[Request::Resolve(needs(&[("hole-1", "=0.0.0")])), Request::Resolve(hard), Request::List]).unwrap();
        (answers, registry.close())
    });
    thread::sleep(Duration::from_millis(500));
    service.end();
    service.words = vec!["--seconds".to_string(), "2".to_string()];
    service.begin_again();
    let (answers, closed) = asking.join().unwrap();
    let revision = (2 * PIGEONS * (PIGEONS - 1)) as u64;
    assert_eq!(answers[0], Ok(Reply::Resolved { revision, selected: versions(&[("hole-1", "0.0.0")]) }));
    assert_eq!(answers[1], Err(Error::Refused { refusal: Refusal::BudgetSpent, revision, culprit: None }));
    assert!(matches!(answers[2], Ok(Reply::Listing { .. })), "{:?}", answers[2]);
    assert_eq!(closed, Ok(()));
}

const PUBLISHED: &str = r#"{"name":"log","needs":[],"op":"publish","version":"1.0.0"}"#;
const YANKED: &str = r#"{"name":"log","op":"yank","version":"1.0.0"}"#;
const UNYANKED: &str = r#"{"name":"log","op":"unyank","version":"1.0.0"}"#;
const YANK: Request = Request::Yank { name: "log", version: "1.0.0" };
const UNYANK: Request = Request::Unyank { name: "log", version: "1.0.0" };
const GREETING: &str = r#"{"op":"resolve","needs":[]}"#;
const FENCE: &str = "{}";
const UNAVAILABLE: &str = "{\"error\":503,\"name\":\"Unavailable\",\"revision\":1}\n";
const SELECTED: &str = "{\"revision\":1,\"selected\":[]}\n";

/// What stands for a service.
struct Scripted {
    socket: PathBuf,
    /// What each connection was asked, its first line among it.
    asked: Arc<Mutex<Vec<Vec<String>>>>,
}

/// Answers the first line of each connection by the revision 1 and then, once so many more have come, by the next of these texts, and
/// closes it. Then there is no service any more. Over HTTP it tells the journal of these commands.
fn scripted(commands: &[&str], texts: &'static [(usize, &'static str)]) -> Scripted {
    let folder = folder();
    let (socket, asked) = (folder.join("socket"), Arc::new(Mutex::new(Vec::new())));
    let listener = UnixListener::bind(&socket).unwrap();
    let lines: String = commands.iter().map(|it| format!("{it}\n")).collect();
    let journal = format!("HTTP/1.1 200 OK\r\n\r\nregistry-journal 1\n{lines}end {}\n", commands.len());
    let (noted, next) = (asked.clone(), Arc::new(Mutex::new(texts.iter())));
    thread::spawn(move || loop {
        let (mut client, _) = listener.accept().unwrap();
        let (journal, noted, next, folder) = (journal.clone(), noted.clone(), next.clone(), folder.clone());
        thread::spawn(move || {
            let mut lines = BufReader::new(client.try_clone().unwrap()).lines();
            let first = lines.next().unwrap().unwrap();
            if first.starts_with("GET ") {
                return client.write_all(journal.as_bytes()).unwrap();
            }
            let Some((count, text)) = next.lock().unwrap().next() else { return };
            client.write_all(SELECTED.as_bytes()).unwrap();
            let asked: Vec<String> = [first].into_iter().chain(lines.take(*count).map_while(Result::ok)).collect();
            noted.lock().unwrap().push(asked);
            if next.lock().unwrap().len() == 0 {
                fs::remove_dir_all(folder).unwrap();
            }
            client.write_all(text.as_bytes()).unwrap();
        });
    });
    Scripted { socket, asked }
}

#[test]
fn requests_that_have_no_reply() {
    let service = scripted(&[], &[(1, ""), (1, "{\"revision\":7,\"sel"), (1, UNAVAILABLE), (1, SELECTED), (1, "no reply\n")]);
    let mut registry = Registry::connect(&service.socket).unwrap();
    assert_eq!(registry.resolve(Resolve::default()), Ok(versions(&[])));
    let fault = "the program wrote no reply: no reply";
    assert_eq!((told(registry.list()), told(registry.list()), told(registry.close())), (fault.to_string(), fault.to_string(), fault.to_string()));
    // nothing had to be looked up
    assert!(service.asked.lock().unwrap().iter().all(|lines| lines[0] == GREETING));
}

#[test]
fn commands_that_have_no_reply_are_looked_up_in_their_order() {
    let [yank, unyank, list] =
        [r#"{"op":"yank","name":"log","version":"1.0.0"}"#, r#"{"op":"unyank","name":"log","version":"1.0.0"}"#, r#"{"op":"list"}"#];
    let listed = Reply::Listing { revision: 4, packages: vec![("log".to_string(), vec![("1.0.0".to_string(), true)])] };
    let accepted = |revision| Ok(Reply::Accepted { revision });
    const LAST: &str = "{\"ok\":true,\"revision\":4}\n{\"packages\":[[\"log\",[[\"1.0.0\",true]]]],\"revision\":4}\n";
    for texts in [
        &[(4, ""), (2, LAST)],
        &[(4, UNAVAILABLE), (2, LAST)],
        &[(4, "{\"ok\":true,\"rev"), (2, LAST)],
        &[(4, "{\"ok\":true,\"revision\":2}\n"), (2, LAST)],
    ] {
        let service = scripted(&[PUBLISHED, YANKED, UNYANKED], texts);
        let mut registry = Registry::connect(&service.socket).unwrap();
        // the first two were carried out
        let answers = registry.many(&[YANK, UNYANK, YANK, Request::List]).unwrap();
        assert_eq!(answers, [accepted(2), accepted(3), accepted(4), Ok(listed.clone())]);
        assert_eq!(*service.asked.lock().unwrap(), [vec![GREETING, yank, unyank, yank, list], vec![FENCE, yank, list]]);
    }
}

#[test]
fn what_a_service_refuses_is_not_asked_again() {
    const FAULT: &str = "{\"error\":503,\"name\":\"DiskFault\",\"reason\":\"the journal can't be written\",\"revision\":1}\n";
    let service = scripted(&[], &[(1, FAULT), (1, SELECTED)]);
    let mut registry = Registry::connect(&service.socket).unwrap();
    assert_eq!(registry.publish("log", "1.0.0", &[]), Err(Error::Refused { refusal: Refusal::DiskFault, revision: 1, culprit: None }));
    assert_eq!(registry.resolve(Resolve::default()), Ok(versions(&[])));
    assert_eq!(service.asked.lock().unwrap().iter().map(Vec::len).collect::<Vec<_>>(), [2, 2]);
}

#[test]
fn what_stood_when_it_connected_is_no_answer() {
    let service = scripted(&[PUBLISHED], &[(1, ""), (1, "{\"error\":7,\"name\":\"AlreadyPublished\",\"revision\":1}\n")]);
    let mut registry = Registry::connect(&service.socket).unwrap();
    assert_eq!(
        registry.publish("log", "1.0.0", &[]).map_err(without_culprit),
        Err(Error::Refused { refusal: Refusal::AlreadyPublished, revision: 1, culprit: None })
    );
    assert_eq!(service.asked.lock().unwrap().len(), 2);
}

#[test]
fn commands_of_which_nothing_is_told() {
    let service = scripted(&[PUBLISHED], &[(2, "")]);
    let mut registry = Registry::connect_within(&service.socket, Duration::from_secs(3)).unwrap();
    let end = "whether a command that has no reply stands, `list` tells in another session";
    let fault = format!("the service at {} can't be asked any more: {end}", service.socket.display());
    let answers = registry.many(&[Request::List, YANK]).unwrap();
    answers.into_iter().for_each(|answer| assert_eq!(told(answer), fault));
    assert_eq!((told(registry.list()), told(registry.close())), (fault.clone(), fault));
}

#[test]
fn commands_of_a_service_that_is_killed_and_begun_again() {
    let mut service = Service::begin(&[]);
    let mut registry = connect_patiently(&service);
    let asking = thread::spawn(move || {
        let mut told = Vec::new();
        for minor in (0..300).step_by(3) {
            let versions: Vec<String> = (minor..minor + 3).map(|it| format!("1.{it}.0")).collect();
            let publications = versions.iter().map(|version| Request::Publish { name: "log", version, needs: &[] });
            let requests: Vec<Request> = publications.chain([Request::Resolve(needs(&[("log", "*")]))]).collect();
            told.push(registry.many(&requests).unwrap());
            thread::sleep(Duration::from_millis(10));
        }
        told
    });
    for _ in 0..3 {
        thread::sleep(Duration::from_millis(300));
        service.end();
        service.begin_again();
    }
    for (minor, answers) in (0..300).step_by(3).zip(asking.join().unwrap()) {
        let selected = versions(&[("log", &format!("1.{}.0", minor + 2))]);
        let wanted: Vec<_> = (minor + 1..minor + 4).map(|revision| Ok(Reply::Accepted { revision })).collect();
        assert_eq!((&answers[..3], &answers[3]), (&wanted[..], &Ok(Reply::Resolved { revision: minor + 3, selected })));
    }
    // each once
    assert_eq!(service.journal().lines().filter(|line| line.contains("publish")).count(), 300);
}

#[test]
fn a_client_too_many() {
    let service = Service::begin(&["--clients", "1"]);
    let _one = connect(&service);
    let why = format!("the service at {} can't be reached: it has as many clients as may be", service.socket.display());
    assert_eq!(told(Registry::connect(&service.socket).map(|_| ())), why);
}

#[test]
fn a_session_is_closed_in_time_where_the_service_is_stopped() {
    let service = Service::begin(&[]);
    let (one, other, dropped) = (connect(&service), connect(&service), connect(&service));
    signal(service.id(), "STOP");
    let begun = Instant::now();
    assert_eq!((one.close_within(Duration::from_millis(500)), other.close()), (Ok(()), Ok(())));
    drop(dropped);
    assert!(begun.elapsed() < SOON);
    signal(service.id(), "CONT");
}

#[test]
fn a_service_that_stays_away() {
    let service = scripted(&[], &[(1, "")]);
    let mut registry = Registry::connect(&service.socket).unwrap();
    let begun = Instant::now();
    assert_eq!(told(registry.list()), format!("the service at {} can't be asked any more", service.socket.display()));
    assert!((10..20).contains(&begun.elapsed().as_secs()), "{:?}", begun.elapsed());
}
