//! As round_trips.c, from Rust: by the client with its values, or by a bare socket.
use std::io::{BufRead, BufReader, Read, Write};
use std::os::unix::net::UnixStream;
use std::time::Instant;
use std::{env, fs};

use registryd::json::Value;
use registryd::{Options, Registry, Request, Resolve};

/// The pairs of a resolve line's needs.
fn needs_of(line: &str) -> Vec<(String, String)> {
    let line = Value::read(line).unwrap();
    let text = |it: &Value| it.as_text().unwrap().to_string();
    let rows = line.get("needs").unwrap().as_array().unwrap().iter();
    rows.map(|row| row.as_array().unwrap()).map(|row| (text(&row[0]), text(&row[1]))).collect()
}

fn by_client(mut registry: Registry, file: &str, trips: usize, lines: &[String]) {
    let text = fs::read(file).unwrap();
    let given: Vec<Request> = text.split(|it| *it == b'\n').filter(|it| !it.is_empty()).map(Request::Line).collect();
    registry.many(&given).unwrap();
    for line in lines {
        let needs = needs_of(line);
        let needs: Vec<(&str, &str)> = needs.iter().map(|(name, text)| (name.as_str(), text.as_str())).collect();
        let asked = Resolve { needs: &needs, ..Resolve::default() };
        println!("{:?}", registry.resolve(asked).unwrap());
        for _ in 0..trips {
            let begun = Instant::now();
            registry.resolve(asked).unwrap();
            println!("{}", begun.elapsed().as_nanos());
        }
    }
    registry.close().unwrap();
}

fn by_socket(path: &str, file: &str, trips: usize, lines: &[String]) {
    let mut sender = UnixStream::connect(path).unwrap();
    let mut receiver = BufReader::new(sender.try_clone().unwrap());
    let mut text = String::new();
    fs::File::open(file).unwrap().read_to_string(&mut text).unwrap();
    sender.write_all(text.as_bytes()).unwrap();
    let mut reply = String::new();
    for _ in text.lines() {
        receiver.read_line(&mut reply).unwrap();
    }
    for line in lines {
        let line = format!("{line}\n");
        for trip in 0..=trips {
            let begun = Instant::now();
            sender.write_all(line.as_bytes()).unwrap();
            reply.clear();
            receiver.read_line(&mut reply).unwrap();
            let spent = begun.elapsed().as_nanos();
            println!("{}", if trip > 0 { spent.to_string() } else { reply.trim_end().to_string() });
        }
    }
}

fn main() {
    let words: Vec<String> = env::args().collect();
    let (target, file, trips, lines) = (&words[2], &words[3], words[4].parse().unwrap(), &words[5..]);
    match words[1].as_str() {
        "embedded" => by_client(Registry::embedded(&Options::default()).unwrap(), file, trips, lines),
        "child" => by_client(Registry::open(target, &Options::default()).unwrap(), file, trips, lines),
        _ => by_socket(target, file, trips, lines),
    }
}
