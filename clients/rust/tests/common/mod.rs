//! What the files of tests share; none of them takes all of it.
#![allow(dead_code)]

use std::fs;
use std::io::{BufRead, BufReader};
use std::path::{Path, PathBuf};
use std::process::{self, Child, Command, Stdio};
use std::sync::atomic::{AtomicUsize, Ordering};
use std::time::{Duration, Instant};

use registryd::{Error, Registry, Request, Resolve, Selected};

/// The program, which `REGISTRYD` names.
pub fn program() -> PathBuf {
    let built = concat!(env!("CARGO_MANIFEST_DIR"), "/../../registryd");
    std::env::var_os("REGISTRYD").map_or(built.into(), PathBuf::from)
}

/// A file in a folder of these tests; none is there of an earlier run.
pub fn file(name: &str) -> PathBuf {
    let folder = PathBuf::from(env!("CARGO_TARGET_TMPDIR"));
    fs::create_dir_all(&folder).unwrap();
    let path = folder.join(name);
    fs::remove_file(&path).ok();
    path
}

pub fn needs<'a>(needs: &'a [(&'a str, &'a str)]) -> Resolve<'a> {
    Resolve { needs, ..Resolve::default() }
}

/// Publishes a registry where a 3.0.0 needs an old b, and asks for any of both.
pub fn selected_of_two(registry: &mut Registry) -> Selected {
    let versions: [(&str, &str, &[(&str, &str)]); 5] =
        [("a", "1.0.0", &[]), ("a", "2.0.0", &[]), ("a", "3.0.0", &[("b", "=1.0.0")]), ("b", "1.0.0", &[]), ("b", "2.0.0", &[])];
    versions.iter().for_each(|(name, version, needs)| {
        registry.publish(name, version, needs).unwrap();
    });
    registry.resolve(needs(&[("b", "*"), ("a", "*")])).unwrap()
}

/// The newest selection of these two: a is decided before b.
pub fn newest_of_two() -> Selected {
    Selected::Versions(vec![("a".to_string(), "3.0.0".to_string()), ("b".to_string(), "1.0.0".to_string())])
}

/// How a call tells that the session has ended.
pub fn told<T: std::fmt::Debug>(answer: Result<T, Error>) -> String {
    match answer {
        Err(error @ Error::Ended(_)) => error.to_string(),
        other => panic!("it has not ended: {other:?}"),
    }
}

/// An error as it is told without the text that it was refused for.
pub fn without_culprit(error: Error) -> Error {
    match error {
        Error::Refused { refusal, revision, .. } => Error::Refused { refusal, revision, culprit: None },
        other => other,
    }
}

/// In this time it is over on a busy machine, too, where a search would go on.
pub const SOON: Duration = Duration::from_secs(15);

pub const PIGEONS: usize = 15;

/// Publishes pigeons with one hole too few, and answers the names of all, which no search finds places for in the time of a test.
pub fn pigeons(registry: &mut Registry) -> Vec<String> {
    let publish = |name: String, version: usize, needs: String| {
        format!("{{\"op\":\"publish\",\"name\":\"{name}\",\"version\":\"{version}.0.0\",\"needs\":[{needs}]}}")
    };
    let pairs = (0..PIGEONS - 1).flat_map(|hole| (0..PIGEONS).map(move |pigeon| (hole, pigeon)));
    let lines = pairs.flat_map(|(hole, pigeon)| {
        let in_it = format!("[\"hole-{hole}\",\"={pigeon}.0.0\"]");
        [publish(format!("hole-{hole}"), pigeon, String::new()), publish(format!("pigeon-{pigeon}"), hole, in_it)]
    });
    let lines: Vec<String> = lines.collect();
    let requests: Vec<Request> = lines.iter().map(|line| Request::Line(line.as_bytes())).collect();
    assert!(registry.many(&requests).unwrap().iter().all(|answer| answer.is_ok()));
    (0..PIGEONS).map(|pigeon| format!("pigeon-{pigeon}")).collect()
}

/// A folder that is new, with a short name: so a socket can stand there.
pub fn folder() -> PathBuf {
    static COUNT: AtomicUsize = AtomicUsize::new(0);
    let path = std::env::temp_dir().join(format!("registryd-{}-{}", process::id(), COUNT.fetch_add(1, Ordering::Relaxed)));
    fs::create_dir(&path).unwrap();
    path
}

/// A service over a journal of its own in a folder, which goes with it.
pub struct Service {
    pub socket: PathBuf,
    /// What it has said as it began.
    pub told: String,
    pub words: Vec<String>,
    folder: PathBuf,
    running: Child,
}

impl Service {
    pub fn begin(words: &[&str]) -> Service {
        let folder = folder();
        let words = words.iter().map(|it| it.to_string()).collect::<Vec<_>>();
        let (running, told) = begun(&folder, &words);
        assert!(is_served(&told), "{told}");
        Service { socket: folder.join("socket"), told, words, folder, running }
    }

    pub fn id(&self) -> u32 {
        self.running.id()
    }

    /// Ends it as a kill does.
    pub fn end(&mut self) {
        self.running.kill().unwrap();
        self.running.wait().unwrap();
    }

    /// Begins it again. The program of one that was killed ends with it, and may have the journal a moment longer.
    pub fn begin_again(&mut self) {
        let since = Instant::now();
        loop {
            (self.running, self.told) = begun(&self.folder, &self.words);
            if is_served(&self.told) {
                return;
            }
            self.running.wait().unwrap();
            assert!(since.elapsed() < SOON, "{}", self.told);
        }
    }

    pub fn journal(&self) -> String {
        fs::read_to_string(self.folder.join("journal")).unwrap()
    }
}

impl Drop for Service {
    fn drop(&mut self) {
        self.running.kill().ok();
        self.running.wait().ok();
        fs::remove_dir_all(&self.folder).ok();
    }
}

fn is_served(told: &str) -> bool {
    told.contains(" is served at ")
}

/// Starts a service by the command that `REGISTRY` names, and answers its first line: it listens, or nothing and it ends.
fn begun(folder: &Path, words: &[String]) -> (Child, String) {
    let built = concat!(env!("CARGO_MANIFEST_DIR"), "/../../registry");
    let mut command = Command::new(std::env::var_os("REGISTRY").unwrap_or(built.into()));
    command.env("REGISTRY_PROGRAM", program()).arg("serve").arg("--journal").arg(folder.join("journal")).args(words);
    if !words.iter().any(|it| it == "--port") {
        command.arg("--socket").arg(folder.join("socket"));
    }
    let mut running = command.stdin(Stdio::null()).stdout(Stdio::piped()).spawn().unwrap();
    let mut told = String::new();
    BufReader::new(running.stdout.as_mut().unwrap()).read_line(&mut told).unwrap();
    (running, told)
}

/// Sends a process a signal of this name.
pub fn signal(process: u32, name: &str) {
    assert!(Command::new("kill").args([&format!("-{name}"), &process.to_string()]).status().unwrap().success());
}
