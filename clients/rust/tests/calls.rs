//! What each session does, with the program, with a service and, with the feature `embedded`, in this process. What is wanted is worked
//! by hand from docs/FORMATS.md and docs/REGISTRY.md.

mod common;

use std::cell::RefCell;
use std::fs;

use common::{file, needs, program, told, without_culprit, Service};
use registryd::json::Value;
use registryd::{Error, Options, Refusal, Registry, Reply, Request, Resolve, Selected};

/// A way of opening a session, and its words for what is the matter with a file.
trait Way {
    const NAME: &'static str;
    const WORKERS: u8;
    fn open(options: &Options) -> Result<Registry, Error>;
    /// What is told of a journal: by a session in this process, and by the program, which says less of one that is loaded or saved.
    fn fault(of_file: String, of_program: &str) -> String;
}

struct WithProgram;

impl Way for WithProgram {
    const NAME: &'static str = "program";
    const WORKERS: u8 = 3;

    fn open(options: &Options) -> Result<Registry, Error> {
        Registry::open(program(), options)
    }

    fn fault(_: String, of_program: &str) -> String {
        format!("the program ended with status 1: registryd: {of_program}")
    }
}

#[cfg(feature = "embedded")]
struct InProcess;

#[cfg(feature = "embedded")]
impl Way for InProcess {
    const NAME: &'static str = "embedded";
    const WORKERS: u8 = 1;

    fn open(options: &Options) -> Result<Registry, Error> {
        Registry::embedded(options)
    }

    fn fault(of_file: String, _: &str) -> String {
        of_file
    }
}

struct WithService;

thread_local! {
    /// Of the test that this thread runs; they end with it.
    static SERVICES: RefCell<Vec<Service>> = RefCell::new(Vec::new());
}

/// A service has a journal of its own, so only what takes no files is tried with it.
impl Way for WithService {
    const NAME: &'static str = "service";
    const WORKERS: u8 = 1;

    fn open(_: &Options) -> Result<Registry, Error> {
        let service = Service::begin(&[]);
        let registry = Registry::connect(&service.socket);
        SERVICES.with(|all| all.borrow_mut().push(service));
        registry
    }

    fn fault(of_file: String, _: &str) -> String {
        of_file
    }
}

/// A file of a test of one way.
fn file_of<W: Way>(name: &str) -> std::path::PathBuf {
    file(&format!("{}-{name}", W::NAME))
}

macro_rules! tests {
    (each way: $($name:ident)* ; with files: $($other:ident)*) => {
        mod with_program {
            $(#[test] fn $name() { super::$name::<super::WithProgram>() })*
            $(#[test] fn $other() { super::$other::<super::WithProgram>() })*
        }
        mod with_service {
            $(#[test] fn $name() { super::$name::<super::WithService>() })*
        }
        #[cfg(feature = "embedded")]
        mod in_process {
            $(#[test] fn $name() { super::$name::<super::InProcess>() })*
            $(#[test] fn $other() { super::$other::<super::InProcess>() })*
        }
    };
}

tests! {
    each way:
        each_call
        a_refusal_is_explained_and_checked
        what_the_program_refuses
        a_budget_that_is_spent
        many_at_once
        a_long_reply;
    with files:
        a_journal_is_saved_and_loaded
        a_session_that_is_dropped_is_saved
        a_journal_is_gone_on_with
        what_cannot_be_begun_or_saved
}

fn versions(pairs: &[(&str, &str)]) -> Selected {
    Selected::Versions(pairs.iter().map(|(name, version)| (name.to_string(), version.to_string())).collect())
}

fn refused<T>(refusal: Refusal, revision: u64) -> Result<T, Error> {
    Err(Error::Refused { refusal, revision, culprit: None })
}

fn each_call<W: Way>() {
    let mut registry = W::open(&Options::default()).unwrap();
    assert_eq!(registry.publish("a", "1.0.0", &[("b", "^1.0.0")]), Ok(1));
    assert_eq!(registry.publish("b", "1.0.0", &[]), Ok(2));
    assert_eq!(registry.publish("b", "1.1.0+x", &[]), Ok(3));
    assert_eq!(registry.resolve(needs(&[("a", "^1")])), Ok(versions(&[("a", "1.0.0"), ("b", "1.1.0+x")])));
    let locked = Resolve { lock: &[("b", "1.0.0")], ..needs(&[("a", "^1")]) };
    assert_eq!(registry.resolve(locked), Ok(versions(&[("a", "1.0.0"), ("b", "1.0.0")])));
    assert_eq!(registry.yank("b", "1.1.0"), Ok(4));
    let bounded = Resolve { budget: Some(0), ..needs(&[("a", "^1")]) };
    assert_eq!(registry.resolve(bounded), Ok(versions(&[("a", "1.0.0"), ("b", "1.0.0")])));
    let row = |text: &str, is_yanked| (text.to_string(), is_yanked);
    let listed = vec![("a".to_string(), vec![row("1.0.0", false)]), ("b".to_string(), vec![row("1.0.0", false), row("1.1.0+x", true)])];
    assert_eq!(registry.list(), Ok(listed));
    assert_eq!(registry.unyank("b", "1.1.0"), Ok(5));
    assert_eq!(registry.resolve(needs(&[("zed", "*")])), Ok(Selected::Nothing(None)));
    assert_eq!(registry.close(), Ok(()));
}

fn a_refusal_is_explained_and_checked<W: Way>() {
    let mut registry = W::open(&Options::default()).unwrap();
    let Ok(Selected::Nothing(Some(why))) = registry.resolve(Resolve { explain: true, ..needs(&[("zed", "*")]) }) else { panic!("it is not refused") };
    let line = r#"[{"causes":[{"fact":"need","index":0},{"fact":"root"}],"conclusion":[],"pivot":""}]"#;
    assert_eq!(Some(&why.derivation), Value::read(line).as_ref());
    let text = "1. never (), because the request needs zed \"*\" in {} and the request must be met\nSo no selection meets the request.";
    assert_eq!(why.explanation.join("\n"), text);
    assert_eq!(why.tree().unwrap().sentences(), ["Because the request depends on zed * and no version of zed matches *, resolving failed."]);
    assert_eq!(registry.check(&[("zed", "*")], &[], &why.derivation), Ok(true));
    assert_eq!(registry.publish("zed", "1.0.0", &[]), Ok(1));
    assert_eq!(registry.check(&[("zed", "*")], &[("zed", "1.0.0")], &why.derivation), Ok(false));
    assert_eq!(registry.check(&[("zed", "*")], &[], &Value::Null), refused(Refusal::BadLine, 1));
}

fn what_the_program_refuses<W: Way>() {
    let mut registry = W::open(&Options::default()).unwrap();
    registry.publish("a", "1.0.0", &[]).unwrap();
    registry.yank("a", "1.0.0").unwrap();
    registry.publish("b", "1.0.0", &[]).unwrap();
    let many: Vec<String> = (0..65).map(|number| format!("n{number}")).collect();
    let many: Vec<(&str, &str)> = many.iter().map(|name| (name.as_str(), "*")).collect();
    let long = [b' '; 1_048_577];
    let (publish, resolve) = (|name, version, needs| Request::Publish { name, version, needs }, |asked| Request::Resolve(needs(asked)));
    let cases = [
        (Refusal::BadName, publish("A", "1.0.0", &[]), "name, A: \"A\"; did you mean \"a\"?"),
        (Refusal::BadName, resolve(&[("", "*")]), "needs[0], : \"\""),
        (Refusal::BadName, Request::Yank { name: "é", version: "1.0.0" }, "name, é: \"é\""),
        (Refusal::BadVersion, publish("a", "1.0", &[]), "version, a: \"1.0\"; did you mean \"1.0.0\"?"),
        (Refusal::BadVersion, Request::Unyank { name: "a", version: "1.0.0\n" }, "version, a: \"1.0.0\\n\"; did you mean \"1.0.0\"?"),
        (Refusal::BadRequirement, resolve(&[("a", "none")]), "needs[0], a: \"none\""),
        (Refusal::RepeatedDependency, resolve(&[("a", "*"), ("a", "^1")]), "needs[1], a: \"a\""),
        (Refusal::SelfDependency, publish("a", "2.0.0", &[("a", "*")]), "needs[0], a: \"a\""),
        (Refusal::TooManyDependencies, resolve(&many), "needs[64], n64: \"n64\""),
        (Refusal::AlreadyPublished, publish("a", "1.0.0+other", &[]), "a 1.0.0+other"),
        (Refusal::NoSuchVersion, Request::Yank { name: "a", version: "3.0.0" }, "a 3.0.0"),
        (Refusal::AlreadyYanked, Request::Yank { name: "a", version: "1.0.0" }, "a 1.0.0"),
        (Refusal::NotYanked, Request::Unyank { name: "b", version: "1.0.0" }, "b 1.0.0"),
        (Refusal::BadLine, Request::Line(b""), ""),
        (Refusal::BadLine, Request::Line(b"{\"op\":\"yank\",\"name\":\"\xff\",\"version\":\"1.0.0\"}"), ""),
        (Refusal::BadLine, Request::Line(&long), ""),
        (Refusal::BadName, publish("a", "2.0.0", &[("b", "*"), ("C", "*"), ("D", "*")]), "needs[1], C: \"C\"; did you mean \"c\"?"),
        (
            Refusal::BadName,
            Request::Resolve(Resolve { lock: &[("b", "1.0.0"), ("C", "1.0.0")], ..needs(&[("b", "*")]) }),
            "lock[1], C: \"C\"; did you mean \"c\"?",
        ),
        (
            Refusal::BadVersion,
            Request::Resolve(Resolve { lock: &[("b", "1.0.0"), ("c", "v1")], ..needs(&[("b", "*")]) }),
            "lock[1], c: \"v1\"; did you mean \"1.0.0\"?",
        ),
        (Refusal::BadRequirement, publish("c", "1.0.0", &[("b", "^1"), ("a", "==1"), ("d", "none")]), "needs[1], a: \"==1\"; did you mean \"=1\"?"),
        (
            Refusal::RepeatedDependency,
            Request::Resolve(Resolve { lock: &[("b", "1.0.0"), ("b", "1.0.1")], ..Resolve::default() }),
            "lock[1], b: \"b\"",
        ),
    ];
    let lines: Vec<Request> = cases.iter().map(|(_, request, _)| *request).collect();
    let answers = registry.many(&lines).unwrap();
    for ((refusal, request, told), answer) in cases.iter().zip(answers) {
        assert_eq!(answer, refused(*refusal, 3), "{request:?}");
        let alone = registry.ask(*request).unwrap_err();
        let place = if told.is_empty() { String::new() } else { format!(": {told}") };
        assert_eq!(alone.to_string(), format!("refused: {refusal:?}{place}, at revision 3"), "{request:?}");
        assert_eq!(without_culprit(alone), refused::<Reply>(*refusal, 3).unwrap_err(), "{request:?}");
    }
    assert_eq!(registry.many(&[Request::List, Request::Line(b"a\nb")]), Err(Error::LineFeed));
    assert_eq!(registry.publish("c", "1.0.0", &[]), Ok(4));
}

fn a_budget_that_is_spent<W: Way>() {
    // Dart pub's doc/solver.md, "Performing Conflict Resolution": foo 2.0.0 is found out by one conflict
    let mut registry = W::open(&Options::default()).unwrap();
    registry.publish("foo", "2.0.0", &[("bar", "^1.0.0")]).unwrap();
    registry.publish("bar", "1.0.0", &[("foo", "^1.0.0")]).unwrap();
    registry.publish("foo", "1.0.0", &[]).unwrap();
    assert_eq!(registry.resolve(Resolve { budget: Some(0), ..needs(&[("foo", ">=1.0.0")]) }), refused(Refusal::BudgetSpent, 3));
    assert_eq!(registry.resolve(needs(&[("foo", ">=1.0.0")])), Ok(versions(&[("foo", "1.0.0")])));
}

fn many_at_once<W: Way>() {
    let mut registry = W::open(&Options { workers: W::WORKERS, ..Options::default() }).unwrap();
    let texts: Vec<(String, String)> = (0..2000).map(|number| (format!("{number}.0.0"), format!("={number}"))).collect();
    let asked: Vec<[(&str, &str); 1]> = texts.iter().map(|(_, requirement)| [("a", requirement.as_str())]).collect();
    let mut lines: Vec<Request> = texts.iter().map(|(version, _)| Request::Publish { name: "a", version, needs: &[] }).collect();
    lines.extend(asked.iter().map(|pair| Request::Resolve(needs(pair))));
    let mut wanted: Vec<Result<Reply, Error>> = (1..=2000).map(|revision| Ok(Reply::Accepted { revision })).collect();
    wanted.extend(texts.iter().map(|(version, _)| Ok(Reply::Resolved { revision: 2000, selected: versions(&[("a", version)]) })));
    assert!(registry.many(&lines).unwrap() == wanted);
    assert_eq!(registry.many(&[]), Ok(vec![]));
}

fn a_long_reply<W: Way>() {
    // longer than what is read at once: each of these versions is ruled out for a reason of its own
    let mut registry = W::open(&Options::default()).unwrap();
    let texts: Vec<(String, String)> = (0..1500).map(|number| (format!("{number}.0.0"), format!("needed-by-version-{number}"))).collect();
    let needed: Vec<[(&str, &str); 1]> = texts.iter().map(|(_, name)| [(name.as_str(), "*")]).collect();
    let lines = texts.iter().zip(&needed).map(|((version, _), needs)| Request::Publish { name: "a", version, needs });
    assert!(registry.many(&lines.collect::<Vec<_>>()).unwrap().iter().all(|answer| answer.is_ok()));
    let asked = Resolve { explain: true, ..needs(&[("a", "*")]) };
    let Ok(Selected::Nothing(Some(why))) = registry.resolve(asked) else { panic!("it is not refused") };
    assert!(why.explanation.concat().len() > 65_536);
    assert_eq!(registry.check(&[("a", "*")], &[], &why.derivation), Ok(true));
}

fn a_journal_is_saved_and_loaded<W: Way>() {
    let path = file_of::<W>("journal");
    let mut registry = W::open(&Options { save: Some(path.clone()), ..Options::default() }).unwrap();
    registry.publish("a", "1.0.0", &[("b", "^1.0.0")]).unwrap();
    registry.yank("a", "1.0.0").unwrap();
    assert_eq!(registry.close(), Ok(()));
    let text = "registry-journal 2\n{\"name\":\"a\",\"needs\":[[\"b\",\"^1.0.0\"]],\"op\":\"publish\",\"version\":\"1.0.0\"}\n\
                {\"name\":\"a\",\"op\":\"yank\",\"version\":\"1.0.0\"}\nend 2\n";
    assert_eq!(fs::read_to_string(&path).unwrap(), text);
    let load = Options { load: Some(path.clone()), ..Options::default() };
    let listed = vec![("a".to_string(), vec![("1.0.0".to_string(), true)])];
    assert_eq!(W::open(&load).unwrap().list(), Ok(listed));
    fs::write(&path, text.replacen("\"a\"", "\"A\"", 1)).unwrap();
    let wrong = format!("journal {}: line 2 is not a journal's, and nothing was changed", path.display());
    assert_eq!(told(W::open(&load).map(|_| ())), W::fault(wrong, "journal line 2"));
}

fn a_session_that_is_dropped_is_saved<W: Way>() {
    let path = file_of::<W>("dropped");
    let mut registry = W::open(&Options { save: Some(path.clone()), ..Options::default() }).unwrap();
    registry.publish("a", "1.0.0", &[]).unwrap();
    drop(registry);
    assert!(fs::read_to_string(&path).unwrap().ends_with("\nend 1\n"));
    fs::remove_file(&path).unwrap();
    W::open(&Options { save: Some(path.clone()), ..Options::default() }).unwrap().kill();
    assert!(!path.exists());
}

fn a_journal_is_gone_on_with<W: Way>() {
    let path = file_of::<W>("kept.journal");
    let options = Options { journal: Some(path.clone()), workers: W::WORKERS, ..Options::default() };
    let mut registry = W::open(&options).unwrap();
    assert_eq!((registry.publish("a", "1.0.0", &[]), registry.yank("a", "1.0.0")), (Ok(1), Ok(2)));
    // it is there before it is told, and one session has it
    let begun = "registry-journal 2\n{\"name\":\"a\",\"needs\":[],\"op\":\"publish\",\"version\":\"1.0.0\"}\n{\"name\":\"a\",\"op\":\"yank\",\"version\":\"1.0.0\"}\n";
    assert_eq!(fs::read_to_string(&path).unwrap(), begun);
    let in_use = format!("journal {}: in use by another session", path.display());
    assert_eq!(told(W::open(&options).map(|_| ())), W::fault(in_use.clone(), &in_use));
    assert!(told(WithProgram::open(&options).map(|_| ())).ends_with(&in_use));
    registry.kill();
    let mut registry = W::open(&options).unwrap();
    assert_eq!(registry.list(), Ok(vec![("a".to_string(), vec![("1.0.0".to_string(), true)])]));
    assert_eq!(registry.close(), Ok(()));
    assert_eq!(fs::read_to_string(&path).unwrap(), format!("{begun}end 2\n"));
    for other in
        [Options { load: Some(path.clone()), ..options.clone() }, Options { save: Some(path), ..options.clone() }, Options { workers: 0, ..options }]
    {
        let answer = told(W::open(&other).map(|_| ()));
        let by_program = answer.contains(" with status 2: error: ") && answer.ends_with("\nregistryd: bad words");
        assert!(by_program || answer.starts_with("a session "), "{answer}");
    }
}

fn what_cannot_be_begun_or_saved<W: Way>() {
    let none = file_of::<W>("none").join("journal");
    let missing = |how| format!("journal {}: can't be {how}: Not a directory (os error 20)", none.display());
    fs::write(none.parent().unwrap(), "").unwrap();
    let load = Options { load: Some(none.clone()), ..Options::default() };
    assert_eq!(told(W::open(&load).map(|_| ())), W::fault(missing("opened"), "input failed"));
    // that no file can be made is told before the first line, and that its disk is full at the end
    let save = Options { save: Some(none.clone()), ..Options::default() };
    assert_eq!(told(W::open(&save).map(|_| ())), W::fault(missing("opened"), "output failed"));
    let mut registry = W::open(&Options { save: Some("/dev/full".into()), ..Options::default() }).unwrap();
    assert_eq!(registry.publish("a", "1.0.0", &[]), Ok(1));
    let full = "journal /dev/full: can't be written: No space left on device (os error 28)".to_string();
    assert_eq!(told(registry.close()), W::fault(full, "output failed"));
}
