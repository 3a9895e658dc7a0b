use crate::json::Value;
use crate::Refusal;

/// Each package with its versions in order of publication, each with whether it is yanked.
pub type Packages = Vec<(String, Vec<(String, bool)>)>;

/// What a line is answered.
#[derive(Clone, Debug, PartialEq, Eq)]
pub enum Reply {
    /// A command is accepted; the revision counts those that were.
    Accepted { revision: u64 },
    /// What a resolve line asks for, or that there is none.
    Resolved { revision: u64, selected: Selected },
    /// Whether the derivation of a check line follows.
    Verdict { revision: u64, follows: bool },
    /// What a list line asks for.
    Listing { revision: u64, packages: Packages },
}

impl Reply {
    pub(crate) fn revision(&self) -> u64 {
        match self {
            Reply::Accepted { revision } | Reply::Resolved { revision, .. } | Reply::Verdict { revision, .. } | Reply::Listing { revision, .. } => {
                *revision
            }
        }
    }
}

/// The answer to a request.
#[derive(Clone, Debug, PartialEq, Eq)]
pub enum Selected {
    /// Each selected package, in byte order of the names, with its version.
    Versions(Vec<(String, String)>),
    /// No selection meets the request; and why, where it was asked.
    Nothing(Option<Why>),
}

/// Why no selection meets a request.
#[derive(Clone, Debug, PartialEq, Eq)]
pub struct Why {
    /// For programs: an array that can be sent back to be checked.
    pub derivation: Value,
    /// For people.
    pub explanation: Vec<String>,
}

/// What a reply line says: a reply, or the revision at which it was refused, and by what. None where it is no reply line.
pub(crate) fn read(line: &[u8]) -> Option<Result<Reply, (Refusal, u64)>> {
    let said = Value::read(std::str::from_utf8(line).ok()?)?;
    let revision = said.get("revision")?.as_number()?;
    if let Some(number) = said.get("error") {
        let refusal = Refusal::of(number.as_number()?).filter(|it| said.get("name").and_then(Value::as_text) == Some(&it.name()))?;
        return Some(Err((refusal, revision)));
    }
    Some(Ok(if said.get("ok").is_some() {
        Reply::Accepted { revision }
    } else if let Some(rows) = said.get("selected") {
        Reply::Resolved { revision, selected: Selected::Versions(pairs(rows, text)?) }
    } else if said.get("refused").is_some() {
        Reply::Resolved { revision, selected: Selected::Nothing(why(&said)?) }
    } else if let Some(follows) = said.get("follows") {
        Reply::Verdict { revision, follows: follows.as_bool()? }
    } else {
        Reply::Listing { revision, packages: pairs(said.get("packages")?, |rows| pairs(rows, Value::as_bool))? }
    }))
}

fn text(value: &Value) -> Option<String> {
    value.as_text().map(str::to_string)
}

/// The pairs of an array: a text, and what is read of the second part.
fn pairs<T>(rows: &Value, read: impl Fn(&Value) -> Option<T>) -> Option<Vec<(String, T)>> {
    let pair = |row: &Value| match row.as_array()? {
        [first, second] => Some((text(first)?, read(second)?)),
        _ => None,
    };
    rows.as_array()?.iter().map(pair).collect()
}

/// Why there is no selection, where a reply tells it; none where it tells it in another form.
fn why(said: &Value) -> Option<Option<Why>> {
    let Some(derivation) = said.get("derivation").cloned() else { return Some(None) };
    let explanation = said.get("explanation")?.as_array()?.iter().map(text).collect::<Option<_>>()?;
    Some(Some(Why { derivation, explanation }))
}

#[cfg(test)]
mod tests {
    use super::{read, Reply, Selected, Why};
    use crate::json::Value;
    use crate::Refusal;

    #[test]
    fn replies_are_read() {
        let versions = vec![("a".to_string(), "1.0.0".to_string())];
        let why = Why { derivation: Value::Array(vec![]), explanation: vec!["1. \"".to_string(), "So.".to_string()] };
        for (line, reply) in [
            (r#"{"ok":true,"revision":3}"#, Reply::Accepted { revision: 3 }),
            (r#"{"revision":2,"selected":[["a","1.0.0"]]}"#, Reply::Resolved { revision: 2, selected: Selected::Versions(versions) }),
            (r#"{"refused":true,"revision":0}"#, Reply::Resolved { revision: 0, selected: Selected::Nothing(None) }),
            (
                r#"{"derivation":[],"explanation":["1. \"","So."],"refused":true,"revision":1}"#,
                Reply::Resolved { revision: 1, selected: Selected::Nothing(Some(why)) },
            ),
            (r#"{"follows":false,"revision":1}"#, Reply::Verdict { revision: 1, follows: false }),
            (
                r#"{"packages":[["a",[["1.0.0",true]]]],"revision":2}"#,
                Reply::Listing { revision: 2, packages: vec![("a".to_string(), vec![("1.0.0".to_string(), true)])] },
            ),
        ] {
            assert_eq!(read(line.as_bytes()), Some(Ok(reply)), "{line}");
        }
    }

    #[test]
    fn each_refusal_is_read() {
        for (place, refusal) in Refusal::ALL.into_iter().enumerate() {
            assert_eq!(usize::from(refusal.number()), place + 1);
            let line = format!("{{\"error\":{},\"name\":\"{}\",\"revision\":7}}", place + 1, refusal.name());
            assert_eq!(read(line.as_bytes()), Some(Err((refusal, 7))));
        }
    }

    #[test]
    fn other_lines_are_none() {
        let bad = [
            "",
            "x",
            "{}",
            "[]",
            "null",
            r#"{"revision":1}"#,
            r#"{"ok":true}"#,
            r#"{"error":0,"name":"","revision":1}"#,
            r#"{"error":23,"name":"","revision":1}"#,
            r#"{"error":503,"name":"Unavailable","revision":1}"#,
            r#"{"revision":1,"selected":1}"#,
            r#"{"revision":1,"selected":[["a"]]}"#,
            r#"{"packages":[["a"]],"revision":1}"#,
            r#"{"follows":1,"revision":1}"#,
            r#"{"derivation":[],"refused":true,"revision":1}"#,
        ];
        for line in bad {
            assert_eq!(read(line.as_bytes()), None, "{line}");
        }
        assert_eq!(read(b"{\"ok\":true,\"revision\":1}\xff"), None);
    }
}
