use std::fmt;

use crate::{Pairs, Refusal, Request, Resolve};

/// How many needs a line may have.
const MOST_NEEDS: usize = 64;

/// Which text of a request is refused.
#[derive(Clone, Debug, PartialEq, Eq)]
pub struct Culprit {
    /// The member, and the item of it, as `version` or `needs[3]`; empty for the request as a whole.
    pub place: String,
    /// The package that this is about.
    pub package: String,
    /// What stands there.
    pub text: String,
    /// What was probably meant, where there is telling.
    pub meant: Option<String>,
}

impl fmt::Display for Culprit {
    fn fmt(&self, out: &mut fmt::Formatter<'_>) -> fmt::Result {
        match self.place.as_str() {
            "" => write!(out, "{} {}", self.package, self.text),
            place => write!(out, "{place}, {}: {:?}", self.package, self.text),
        }?;
        self.meant.as_ref().map_or(Ok(()), |it| write!(out, "; did you mean {it:?}?"))
    }
}

/// What a request says of its packages.
struct Parts<'a> {
    own: Option<(&'a str, &'a str)>,
    needs: Pairs<'a>,
    lock: Pairs<'a>,
}

impl<'a> Parts<'a> {
    fn of(request: &Request<'a>) -> Parts<'a> {
        let none = Parts { own: None, needs: &[], lock: &[] };
        match *request {
            Request::Publish { name, version, needs } => Parts { own: Some((name, version)), needs, ..none },
            Request::Yank { name, version } | Request::Unyank { name, version } => Parts { own: Some((name, version)), ..none },
            Request::Resolve(Resolve { needs, lock, .. }) | Request::Check { needs, lock, .. } => Parts { needs, lock, ..none },
            Request::List | Request::Line(_) => none,
        }
    }
}

/// The culprit that a request itself shows, of a refusal that no text alone is the reason for.
pub(crate) fn shown(request: &Request<'_>, refusal: Refusal) -> Option<Culprit> {
    let Parts { own, needs, lock } = Parts::of(request);
    match refusal {
        Refusal::RepeatedDependency => repeated("needs", needs).or_else(|| repeated("lock", lock)),
        Refusal::SelfDependency => item("needs", needs, |_, (name, _)| own.map_or(false, |it| it.0 == name)),
        Refusal::TooManyDependencies => item("needs", needs, |place, _| place == MOST_NEEDS),
        Refusal::AlreadyPublished | Refusal::NoSuchVersion | Refusal::AlreadyYanked | Refusal::NotYanked => {
            own.map(|(name, version)| suspect(String::new(), name, version))
        }
        _ => None,
    }
}

fn repeated(whose: &str, pairs: Pairs<'_>) -> Option<Culprit> {
    item(whose, pairs, |place, (name, _)| pairs[..place].iter().any(|it| it.0 == name))
}

/// The name of the first pair that is so.
fn item(whose: &str, pairs: Pairs<'_>, is_it: impl Fn(usize, (&str, &str)) -> bool) -> Option<Culprit> {
    let (place, (name, _)) = pairs.iter().enumerate().find(|(place, pair)| is_it(*place, **pair))?;
    Some(suspect(format!("{whose}[{place}]"), name, name))
}

/// The texts of a request that such a refusal may be for, in the order in which they are judged.
pub(crate) fn suspects(request: &Request<'_>, refusal: Refusal) -> Vec<Culprit> {
    let Parts { own, needs, lock } = Parts::of(request);
    let all = |whose: &'static str, pairs: Pairs<'_>, is_name: bool| {
        let suspect =
            move |(place, (name, text)): (usize, &(&str, &str))| suspect(format!("{whose}[{place}]"), name, if is_name { name } else { text });
        pairs.iter().enumerate().map(suspect).collect::<Vec<_>>()
    };
    match refusal {
        Refusal::BadName => {
            let own = own.map(|(name, _)| suspect("name".to_string(), name, name));
            own.into_iter().chain(all("needs", needs, true)).chain(all("lock", lock, true)).collect()
        }
        Refusal::BadVersion => {
            let own = own.map(|(name, version)| suspect("version".to_string(), name, version));
            own.into_iter().chain(all("lock", lock, false)).collect()
        }
        Refusal::BadRequirement => all("needs", needs, false),
        _ => Vec::new(),
    }
}

fn suspect(place: String, package: &str, text: &str) -> Culprit {
    Culprit { place, package: package.to_string(), text: text.to_string(), meant: None }
}

/// A pair that asks about one text alone, in the needs of a request, or in its lock for a version.
pub(crate) fn alone(text: &str, refusal: Refusal) -> [(&str, &str); 1] {
    [if refusal == Refusal::BadName { (text, "*") } else { ("a", text) }]
}

/// The request about such a pair, which searches next to nothing.
pub(crate) fn question<'a>(pair: Pairs<'a>, refusal: Refusal) -> Request<'a> {
    let asked = Resolve { budget: Some(0), ..Resolve::default() };
    Request::Resolve(if refusal == Refusal::BadVersion { Resolve { lock: pair, ..asked } } else { Resolve { needs: pair, ..asked } })
}
