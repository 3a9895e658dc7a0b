use crate::json::{write_text, Value};

/// Names with requirements, or with versions.
pub type Pairs<'a> = &'a [(&'a str, &'a str)];

/// What is asked of a resolve line. `Resolve { needs, ..Resolve::default() }` asks for no more than the needs.
#[derive(Clone, Copy, Debug, Default, PartialEq, Eq)]
pub struct Resolve<'a> {
    pub needs: Pairs<'a>,
    pub lock: Pairs<'a>,
    /// How many conflicts the search may meet; beyond it the line is refused.
    pub budget: Option<u32>,
    /// Whether a request that no selection meets is to be told why.
    pub explain: bool,
}

/// A line that the program is asked by.
#[derive(Clone, Copy, Debug, PartialEq, Eq)]
pub enum Request<'a> {
    Publish {
        name: &'a str,
        version: &'a str,
        needs: Pairs<'a>,
    },
    Yank {
        name: &'a str,
        version: &'a str,
    },
    Unyank {
        name: &'a str,
        version: &'a str,
    },
    Resolve(Resolve<'a>),
    /// The derivation is an array as docs/FORMATS.md has it.
    Check {
        needs: Pairs<'a>,
        lock: Pairs<'a>,
        derivation: &'a Value,
    },
    List,
    /// A line's bytes as they are, without the line feed.
    Line(&'a [u8]),
}

impl Request<'_> {
    /// Writes the line with its line feed behind what stands in `out`. None, and nothing is written, where a line's bytes have
    /// a line feed among them.
    pub(crate) fn write(&self, out: &mut Vec<u8>) -> Option<()> {
        if let Request::Line(text) = self {
            if text.contains(&b'\n') {
                return None;
            }
            out.extend_from_slice(text);
        } else {
            out.extend_from_slice(self.text().as_bytes());
        }
        out.push(b'\n');
        Some(())
    }

    fn text(&self) -> String {
        let mut line = String::from("{\"op\":");
        match *self {
            Request::Publish { name, version, needs } => {
                line.push_str("\"publish\"");
                write_version(name, version, &mut line);
                write_pairs("needs", needs, &mut line);
            }
            Request::Yank { name, version } => {
                line.push_str("\"yank\"");
                write_version(name, version, &mut line);
            }
            Request::Unyank { name, version } => {
                line.push_str("\"unyank\"");
                write_version(name, version, &mut line);
            }
            Request::Resolve(asked) => {
                line.push_str("\"resolve\"");
                write_pairs("needs", asked.needs, &mut line);
                write_pairs("lock", asked.lock, &mut line);
                line.push_str(if asked.explain { ",\"explain\":true" } else { "" });
                line.extend(asked.budget.map(|it| format!(",\"budget\":{it}")));
            }
            Request::Check { needs, lock, derivation } => {
                line.push_str("\"check\"");
                write_pairs("needs", needs, &mut line);
                write_pairs("lock", lock, &mut line);
                line.push_str(",\"derivation\":");
                derivation.write(&mut line);
            }
            Request::List | Request::Line(_) => line.push_str("\"list\""),
        }
        line.push('}');
        line
    }
}

fn write_version(name: &str, version: &str, line: &mut String) {
    line.push_str(",\"name\":");
    write_text(name, line);
    line.push_str(",\"version\":");
    write_text(version, line);
}

fn write_pairs(name: &str, pairs: Pairs<'_>, line: &mut String) {
    line.push_str(&format!(",\"{name}\":["));
    for (place, (first, second)) in pairs.iter().enumerate() {
        line.push_str(if place > 0 { ",[" } else { "[" });
        write_text(first, line);
        line.push(',');
        write_text(second, line);
        line.push(']');
    }
    line.push(']');
}

#[cfg(test)]
mod tests {
    use super::{Request, Resolve};
    use crate::json::Value;

    #[test]
    fn lines_are_written() {
        let (needs, lock) = ([("b", "^1.0.0"), ("c", "*")], [("a", "1.0.0")]);
        let derivation = Value::Array(vec![]);
        for (request, line) in [
            (
                Request::Publish { name: "a", version: "1.0.0", needs: &needs },
                r#"{"op":"publish","name":"a","version":"1.0.0","needs":[["b","^1.0.0"],["c","*"]]}"#,
            ),
            (Request::Yank { name: "a\"", version: "1\n" }, r#"{"op":"yank","name":"a\"","version":"1\u000a"}"#),
            (Request::Unyank { name: "é", version: "" }, r#"{"op":"unyank","name":"é","version":""}"#),
            (Request::Resolve(Resolve::default()), r#"{"op":"resolve","needs":[],"lock":[]}"#),
            (
                Request::Resolve(Resolve { needs: &needs, lock: &lock, budget: Some(u32::MAX), explain: true }),
                r#"{"op":"resolve","needs":[["b","^1.0.0"],["c","*"]],"lock":[["a","1.0.0"]],"explain":true,"budget":4294967295}"#,
            ),
            (
                Request::Check { needs: &[], lock: &lock, derivation: &derivation },
                r#"{"op":"check","needs":[],"lock":[["a","1.0.0"]],"derivation":[]}"#,
            ),
            (Request::List, r#"{"op":"list"}"#),
            (Request::Line(b"x"), "x"),
        ] {
            let mut out = b">".to_vec();
            assert_eq!(request.write(&mut out), Some(()));
            assert_eq!(String::from_utf8(out), Ok(format!(">{line}\n")));
        }
        let mut out = b">".to_vec();
        assert_eq!(Request::Line(b"a\nb").write(&mut out), None);
        assert_eq!(out, b">");
    }
}
