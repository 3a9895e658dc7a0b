//! The trees and the sentences of explanations: the rows that all clients are tested with, and what is none.

use std::fs;

use registryd::json::Value;
use registryd::{External, Node, Term, Why};

fn texts(value: Option<&Value>) -> Vec<String> {
    value.and_then(Value::as_array).unwrap().iter().map(|it| it.as_text().unwrap().to_string()).collect()
}

fn why(explanation: &[&str]) -> Why {
    Why { derivation: Value::Null, explanation: explanation.iter().map(|it| it.to_string()).collect() }
}

fn term(package: &str, is_in: bool, versions: &[&str]) -> Term {
    Term { package: package.to_string(), is_in, versions: versions.iter().map(|it| it.to_string()).collect() }
}

fn need(package: &str, versions: &[&str], target: &str, requirement: &str, within: &[&str]) -> External {
    let all = |it: &[&str]| it.iter().map(|it| it.to_string()).collect();
    let (package, target, requirement) = (package.to_string(), target.to_string(), requirement.to_string());
    External::Need { package, versions: all(versions), target, requirement, within: all(within) }
}

const END: &str = "So no selection meets the request.";
const ROWS: &str = concat!(env!("CARGO_MANIFEST_DIR"), "/../../rows/refusals.rows");

#[test]
fn explanations_are_told_in_sentences() {
    let rows = fs::read_to_string(ROWS).expect("the rows are those of a checkout");
    let rows: Vec<_> = rows.lines().filter(|it| it.starts_with('{')).map(|it| Value::read(it).unwrap()).collect();
    assert!(rows.len() > 10);
    for row in rows {
        let why = Why { derivation: Value::Null, explanation: texts(row.get("explanation")) };
        assert_eq!(why.tree().unwrap().sentences(), texts(row.get("sentences")));
    }
}

#[test]
fn a_tree_is_walked() {
    let tree = why(&[
        "1. never (foo {1.0.0}, not baz {3.0.0}), because bar {2.0.0} needs baz \"^3\" in {3.0.0} and foo {1.0.0} needs bar \"^2\" in {2.0.0}",
        "2. never (the request, foo {1.0.0}), because line 1 and the request needs baz \"^1\" in {1.0.0, 1.1.0}",
        "3. never (the request), because line 2 and foo {1.0.0} is not allowed",
        "4. never (), because line 3 and the request must be met",
        END,
    ]);
    let tree = tree.tree().unwrap();
    assert_eq!(tree.root().terms, []);
    let [Node::Derived(third), Node::External(External::Root)] = tree.causes(tree.root()) else { panic!("{tree:?}") };
    assert_eq!(third.terms, [term("", true, &[])]);
    let [Node::Derived(second), Node::External(disallowed)] = tree.causes(third) else { panic!("{tree:?}") };
    assert_eq!(disallowed, &External::Disallowed { package: "foo".to_string(), versions: vec!["1.0.0".to_string()] });
    assert_eq!(second.terms, [term("", true, &[]), term("foo", true, &["1.0.0"])]);
    let [Node::Derived(first), Node::External(of_request)] = tree.causes(second) else { panic!("{tree:?}") };
    assert_eq!(of_request, &need("", &[], "baz", "^1", &["1.0.0", "1.1.0"]));
    assert_eq!(first.terms, [term("foo", true, &["1.0.0"]), term("baz", false, &["3.0.0"])]);
    let (bar, foo) = (need("bar", &["2.0.0"], "baz", "^3", &["3.0.0"]), need("foo", &["1.0.0"], "bar", "^2", &["2.0.0"]));
    assert_eq!(tree.causes(first), [Node::External(&bar), Node::External(&foo)]);
    assert_eq!(tree.steps().len(), 4);
}

#[test]
fn what_is_no_explanation() {
    let bad: [&[&str]; 12] = [
        &[],
        &[END],
        &["2. never (), because the request must be met and the request must be met", END],
        &["1. never (), because line 1 and the request must be met", END],
        &["1. never (), because line 0 and the request must be met", END],
        &["1. never (), because the request must be met", END],
        &["1. never (), because the request must be met and the request must be met.", END],
        &["1. never (a), because the request must be met and the request must be met", END],
        &["1. never (a {1.0.0} b {1.0.0}), because the request must be met and the request must be met", END],
        &["1. never (), because a {1.0.0} has b \"*\" in {} and the request must be met", END],
        &["1. never (), because a needs b \"*\" in {} and the request must be met", END],
        &["1. never (a {1.0.0}, because the request must be met and the request must be met", END],
    ];
    for explanation in bad {
        assert_eq!(why(explanation).tree(), None, "{explanation:?}");
    }
}
