//! Which text a refusal is for, and what was meant: the rows that all clients are tested with.

mod common;

use std::fs;

use common::program;
use registryd::json::Value;
use registryd::{Culprit, Error, Options, Registry, Request, Resolve};

const ROWS: &str = concat!(env!("CARGO_MANIFEST_DIR"), "/../../rows/culprits.rows");

fn text<'a>(row: &'a Value, name: &str) -> &'a str {
    row.get(name).and_then(Value::as_text).unwrap()
}

fn pairs<'a>(row: &'a Value, name: &str) -> Vec<(&'a str, &'a str)> {
    let rows = row.get(name).and_then(Value::as_array).unwrap_or_default();
    rows.iter().map(|it| it.as_array().unwrap()).map(|it| (it[0].as_text().unwrap(), it[1].as_text().unwrap())).collect()
}

#[test]
fn each_tells_its_culprit() {
    let rows = fs::read_to_string(ROWS).expect("the rows are those of a checkout");
    let mut registry = Registry::open(program(), &Options::default()).unwrap();
    assert_eq!(registry.publish("a", "1.0.0", &[]), Ok(1));
    assert_eq!(registry.yank("a", "1.0.0"), Ok(2));
    assert_eq!(registry.publish("b", "1.0.0", &[]), Ok(3));
    let mut count = 0;
    for row in rows.lines().filter(|it| it.starts_with('{')) {
        let row = Value::read(row).unwrap();
        let asked = row.get("asked").unwrap();
        let (needs, lock) = (pairs(asked, "needs"), pairs(asked, "lock"));
        let request = match text(asked, "op") {
            "publish" => Request::Publish { name: text(asked, "name"), version: text(asked, "version"), needs: &needs },
            "yank" => Request::Yank { name: text(asked, "name"), version: text(asked, "version") },
            "unyank" => Request::Unyank { name: text(asked, "name"), version: text(asked, "version") },
            _ => Request::Resolve(Resolve { needs: &needs, lock: &lock, ..Resolve::default() }),
        };
        let meant = row.get("meant").and_then(Value::as_text).map(str::to_string);
        let wanted = Culprit {
            place: text(&row, "place").to_string(),
            package: text(&row, "package").to_string(),
            text: text(&row, "text").to_string(),
            meant,
        };
        let error = registry.ask(request).unwrap_err();
        let Error::Refused { refusal, revision: 3, culprit: Some(culprit) } = &error else { panic!("{request:?}: {error:?}") };
        assert_eq!((refusal.name().as_str(), culprit), (text(&row, "error"), &wanted), "{request:?}");
        let remedy = wanted.meant.map(|it| format!("; did you mean {it:?}?")).unwrap_or_default();
        assert!(error.to_string().ends_with(&format!("{remedy}, at revision 3")), "{error}");
        count += 1;
    }
    assert!(count > 30);
    registry.close().unwrap();
}
