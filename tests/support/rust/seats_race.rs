//! `registryd race` over seats of the client: each file's lines are answered by a seat in a thread of its own, and then the replies are
//! written, as they were before the client read them, and the journal. SEATS_LOAD, if given, tells with which journal they begin.

use std::path::PathBuf;
use std::sync::Barrier;
use std::{env, fs, thread};

use registryd::json::Value;
use registryd::{seats, Error, Reply, Request, Seat, Selected};

fn array<T>(items: impl IntoIterator<Item = T>, value: impl Fn(T) -> Value) -> Value {
    Value::Array(items.into_iter().map(value).collect())
}

fn pairs<T>(items: Vec<(String, T)>, value: impl Fn(T) -> Value) -> Value {
    array(items, |(name, it)| Value::Array(vec![Value::Text(name), value(it)]))
}

/// The revision of a reply, and its other members.
fn members(answer: Result<Reply, Error>) -> (u64, Vec<(&'static str, Value)>) {
    match answer {
        Ok(Reply::Accepted { revision }) => (revision, vec![("ok", Value::Bool(true))]),
        Ok(Reply::Resolved { revision, selected: Selected::Versions(it) }) => (revision, vec![("selected", pairs(it, Value::Text))]),
        Ok(Reply::Resolved { revision, selected: Selected::Nothing(why) }) => {
            let told = why.map(|it| [("derivation", it.derivation), ("explanation", array(it.explanation, Value::Text))]);
            (revision, told.into_iter().flatten().chain([("refused", Value::Bool(true))]).collect())
        }
        Ok(Reply::Verdict { revision, follows }) => (revision, vec![("follows", Value::Bool(follows))]),
        Ok(Reply::Listing { revision, packages }) => (revision, vec![("packages", pairs(packages, |it| pairs(it, Value::Bool)))]),
        Err(Error::Refused { refusal, revision, .. }) => {
            (revision, vec![("error", Value::Number(refusal.number().into())), ("name", Value::Text(refusal.name()))])
        }
        Err(other) => panic!("{other}"),
    }
}

fn answer(seat: &mut Seat, line: &[u8]) -> String {
    let (revision, mut told) = members(seat.many(&[Request::Line(line)]).unwrap().remove(0));
    let stamp = [("place", seat.place().into()), ("revision", revision), ("seat", seat.number() as u64)];
    told.extend(stamp.map(|(name, it)| (name, Value::Number(it))));
    told.sort_by_key(|(name, _)| *name);
    let mut out = String::new();
    Value::Object(told.into_iter().map(|(name, it)| (name.to_string(), it)).collect()).write(&mut out);
    out
}

fn main() {
    let files: Vec<_> = env::args().skip(2).map(|name| fs::read(name).unwrap()).collect();
    let load = env::var_os("SEATS_LOAD").map(PathBuf::from);
    let (all, gate) = (seats(files.len(), load.as_deref(), 65_536).unwrap(), Barrier::new(files.len()));
    let done: Vec<_> = thread::scope(|scope| {
        let race = |(mut seat, file): (Seat, Vec<u8>)| {
            let gate = &gate;
            scope.spawn(move || {
                gate.wait();
                let lines = file.strip_suffix(b"\n").unwrap().split(|byte| *byte == b'\n');
                let replies: Vec<_> = lines.map(|line| answer(&mut seat, line)).collect();
                (seat, replies)
            })
        };
        let threads: Vec<_> = all.into_iter().zip(files).map(race).collect();
        threads.into_iter().map(|it| it.join().unwrap()).collect()
    });
    done.iter().flat_map(|(_, replies)| replies).for_each(|it| println!("{it}"));
    print!("{}", done[0].0.journal().unwrap());
}
