//! An explanation as a tree that a program can walk, and in sentences, as the reporter of PubGrub tells it.

use crate::Why;

/// Of a set of more versions than this three are named.
const MOST_NAMED: usize = 4;

/// Why no selection meets a request: each derived node follows from two others, as a tree whose root is the last one.
#[derive(Clone, Debug, PartialEq, Eq)]
pub struct Tree {
    steps: Vec<Derived>,
}

/// What follows from two causes: that these terms can't all hold.
#[derive(Clone, Debug, PartialEq, Eq)]
pub struct Derived {
    pub terms: Vec<Term>,
    causes: [Cause; 2],
}

/// That the version of a package is one of some, or is none of them. The empty name stands for the request. Versions are told as they
/// were published, and one that was not is told by `#` and its number among the publications.
#[derive(Clone, Debug, PartialEq, Eq)]
pub struct Term {
    pub package: String,
    pub is_in: bool,
    pub versions: Vec<String>,
}

/// What follows from nothing else.
#[derive(Clone, Debug, PartialEq, Eq)]
pub enum External {
    /// The request must be met.
    Root,
    /// Some versions of a package, or the request by an empty name, need a target in a version that meets a requirement: those within.
    Need { package: String, versions: Vec<String>, target: String, requirement: String, within: Vec<String> },
    /// Versions that are yanked and not in the lock, or not published.
    Disallowed { package: String, versions: Vec<String> },
}

/// A node of a tree.
#[derive(Clone, Copy, Debug, PartialEq, Eq)]
pub enum Node<'a> {
    Derived(&'a Derived),
    External(&'a External),
}

#[derive(Clone, Debug, PartialEq, Eq)]
enum Cause {
    /// An earlier step, by its place.
    Step(usize),
    External(External),
}

impl Why {
    /// The tree of the explanation; none where it is not as docs/FORMATS.md has it.
    pub fn tree(&self) -> Option<Tree> {
        let (_, lines) = self.explanation.split_last()?;
        let steps = lines.iter().enumerate().map(|(place, line)| step(line, place)).collect::<Option<Vec<_>>>()?;
        (!steps.is_empty()).then_some(Tree { steps })
    }
}

impl Tree {
    /// That the request can't be met.
    pub fn root(&self) -> &Derived {
        &self.steps[self.steps.len() - 1]
    }

    /// The derived nodes, each once and behind those that it follows from.
    pub fn steps(&self) -> &[Derived] {
        &self.steps
    }

    /// What a node of this tree follows from. Nodes that rest on the same one have that same reference.
    pub fn causes<'a>(&'a self, of: &'a Derived) -> [Node<'a>; 2] {
        let node = |cause: &'a Cause| match cause {
            Cause::Step(place) => Node::Derived(&self.steps[*place]),
            Cause::External(external) => Node::External(external),
        };
        [node(&of.causes[0]), node(&of.causes[1])]
    }

    /// A sentence for each step. One that begins with "And", or is "Thus", follows from the one before it, too; one that others cite has
    /// a number.
    pub fn sentences(&self) -> Vec<String> {
        let numbers = self.numbers();
        self.steps.iter().enumerate().map(|(place, step)| self.sentence(place, step, &numbers)).collect()
    }

    /// By its place a step's label, where others than the next one cite it.
    fn numbers(&self) -> Vec<String> {
        let mut is_cited = vec![false; self.steps.len()];
        for (place, step) in self.steps.iter().enumerate() {
            for cause in &step.causes {
                match cause {
                    Cause::Step(cited) if cited + 1 != place => is_cited[*cited] = true,
                    _ => {}
                }
            }
        }
        let mut count = 0;
        let label = |is_cited: bool| {
            count += usize::from(is_cited);
            if is_cited {
                format!(" ({count})")
            } else {
                String::new()
            }
        };
        is_cited.into_iter().map(label).collect()
    }

    fn sentence(&self, place: usize, step: &Derived, numbers: &[String]) -> String {
        let is_before = |cause: &Cause| matches!(cause, Cause::Step(cited) if cited + 1 == place);
        let reasons: Vec<_> = step.causes.iter().filter(|it| !is_before(it)).flat_map(|it| self.reasons(it, numbers)).collect();
        let begun = match step.causes.iter().any(is_before) {
            _ if reasons.is_empty() => "Thus".to_string(),
            true => format!("And because {}", reasons.join(" and ")),
            false => format!("Because {}", reasons.join(" and ")),
        };
        format!("{begun}, {}.{}", conclusion(&step.terms), numbers[place])
    }

    /// What a cause says, where that isn't the question itself.
    fn reasons(&self, cause: &Cause, numbers: &[String]) -> Vec<String> {
        match cause {
            Cause::Step(place) => vec![conclusion(&self.steps[*place].terms) + &numbers[*place]],
            Cause::External(External::Root) => vec![],
            Cause::External(External::Disallowed { package, versions }) => {
                let is_published = !versions.iter().any(|it| it.starts_with('#'));
                vec![format!("{} is {}", some(package, versions), if is_published { "yanked" } else { "not allowed" })]
            }
            Cause::External(External::Need { package, versions, target, requirement, within }) => {
                let wanted = if is_plain(requirement) { requirement.clone() } else { format!("\"{requirement}\"") };
                let unmet = within.is_empty().then(|| format!("no version of {target} matches {wanted}"));
                [format!("{} depends on {target} {wanted}", some(package, versions))].into_iter().chain(unmet).collect()
            }
        }
    }
}

/// What it means that these terms can't all hold.
fn conclusion(terms: &[Term]) -> String {
    let holds_of_none = |it: &Term| if it.package.is_empty() { !it.is_in || !it.versions.is_empty() } else { it.is_in && it.versions.is_empty() };
    if terms.iter().any(holds_of_none) {
        return "nothing is said".to_string();
    }
    let told = |is_in: bool| {
        let terms = terms.iter().filter(move |it| it.is_in == is_in && !it.versions.is_empty());
        terms.map(|it| some(&it.package, &it.versions)).collect::<Vec<_>>()
    };
    match (&told(true)[..], told(false).join(" or ")) {
        ([], wanted) if wanted.is_empty() => "resolving failed".to_string(),
        ([], wanted) => format!("the request requires {wanted}"),
        ([one], wanted) if wanted.is_empty() => format!("{one} is forbidden"),
        ([one, other], wanted) if wanted.is_empty() => format!("{one} is incompatible with {other}"),
        (inside, wanted) if wanted.is_empty() => format!("{} are incompatible", listed(inside, "and")),
        ([one], wanted) => format!("{one} requires {wanted}"),
        (inside, wanted) => format!("{} together require {wanted}", listed(inside, "and")),
    }
}

/// A package and some of its versions, or the request.
fn some(package: &str, versions: &[String]) -> String {
    match versions.len() {
        _ if package.is_empty() => "the request".to_string(),
        0 => format!("no version of {package}"),
        1..=MOST_NAMED => format!("{package} {}", listed(versions, "or")),
        count => format!("{package} {} or {} others", versions[..MOST_NAMED - 1].join(", "), count - (MOST_NAMED - 1)),
    }
}

/// Texts in a row: `a, b and c`.
fn listed(texts: &[String], last: &str) -> String {
    match texts {
        [before @ .., end] if !before.is_empty() => format!("{} {last} {end}", before.join(", ")),
        _ => texts.concat(),
    }
}

/// Whether a requirement looks like no range of versions.
fn is_plain(requirement: &str) -> bool {
    requirement == "*" || requirement.starts_with(['~', '^']) && !requirement.contains([' ', ','])
}

// What stands in a line is read from its front; each answers what is left behind it.

/// A step, which rests on earlier ones alone.
fn step(line: &str, place: usize) -> Option<Derived> {
    let (terms, causes) = line.strip_prefix(&format!("{}. never (", place + 1))?.split_once("), because ")?;
    let (first, rest) = cause(causes, place)?;
    let (second, rest) = cause(rest.strip_prefix(" and ")?, place)?;
    Some(Derived { terms: all_terms(terms)?, causes: [first, second] }).filter(|_| rest.is_empty())
}

fn all_terms(mut text: &str) -> Option<Vec<Term>> {
    let mut terms = Vec::new();
    while !text.is_empty() {
        // a package may have the name `not`: its set stands behind that
        let outside = text.strip_prefix("not ").filter(|it| !it.starts_with('{'));
        let (package, versions, rest) = subject(outside.unwrap_or(text))?;
        terms.push(Term { package, is_in: outside.is_none(), versions });
        text = if rest.is_empty() { rest } else { rest.strip_prefix(", ")? };
    }
    Some(terms)
}

fn cause(text: &str, place: usize) -> Option<(Cause, &str)> {
    if let Some(rest) = text.strip_prefix("the request must be met") {
        return Some((Cause::External(External::Root), rest));
    }
    if let Some(number) = text.strip_prefix("line ").filter(|it| it.starts_with(|letter: char| letter.is_ascii_digit())) {
        let (digits, rest) = number.split_at(number.find(' ').unwrap_or(number.len()));
        let cited = digits.parse::<usize>().ok()?.checked_sub(1).filter(|it| *it < place)?;
        return Some((Cause::Step(cited), rest));
    }
    let (package, versions, rest) = subject(text)?;
    if let Some(rest) = rest.strip_prefix(" is not allowed") {
        return Some((Cause::External(External::Disallowed { package, versions }), rest));
    }
    let (target, rest) = rest.strip_prefix(" needs ")?.split_once(" \"")?;
    let (requirement, rest) = rest.split_once("\" in {")?;
    let (within, rest) = rest.split_once('}')?;
    let (target, requirement, within) = (target.to_string(), requirement.to_string(), all_versions(within));
    Some((Cause::External(External::Need { package, versions, target, requirement, within }), rest))
}

/// A package with a set of its versions, or the request, which may go without.
fn subject(text: &str) -> Option<(String, Vec<String>, &str)> {
    let (package, rest) = match text.strip_prefix("the request") {
        Some(rest) => ("", rest),
        None => text.split_at(text.find(' ')?),
    };
    match rest.strip_prefix(" {").and_then(|it| it.split_once('}')) {
        Some((versions, rest)) => Some((package.to_string(), all_versions(versions), rest)),
        None => package.is_empty().then(|| (String::new(), Vec::new(), rest)),
    }
}

fn all_versions(text: &str) -> Vec<String> {
    text.split(", ").filter(|it| !it.is_empty()).map(str::to_string).collect()
}
