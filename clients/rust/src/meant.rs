//! What was probably meant by a text that is refused: as other tools write it, told in the way of this registry, which judges it again.

use crate::Refusal;

/// Operators of others, the longest first.
const SAME: [(&str, &str); 11] = [
    ("===", "="),
    ("==", "="),
    ("=>", ">="),
    ("=<", "<="),
    ("<<", "<"),
    (">>", ">"),
    ("^=", "^"),
    ("~=", "~>"),
    ("≥", ">="),
    ("≤", "<="),
    ("~>", "~>"),
];
const ANYTHING: [&str; 5] = ["", "latest", "any", "all", "newest"];
const OPERATORS: [char; 7] = ['=', '<', '>', '~', '^', '≥', '≤'];
const WILDCARDS: [&str; 3] = ["*", "x", "X"];

/// What was probably meant by a text that such a refusal is for.
pub(crate) fn meant(text: &str, refusal: Refusal) -> Option<String> {
    let meant = match refusal {
        Refusal::BadName => name(text),
        Refusal::BadVersion => version(text),
        Refusal::BadRequirement => requirement(text),
        _ => None,
    };
    meant.filter(|it| it != text)
}

/// A name in small letters, with - for what it can't have; none of one with a requirement.
fn name(text: &str) -> Option<String> {
    let has_requirement = text.contains(['=', '<', '>', '~', '^', '!']) || text.char_indices().any(|(place, letter)| place > 0 && letter == '@');
    let parts = text.trim().trim_start_matches('@').split(|letter: char| !letter.is_ascii_alphanumeric() && letter != '-' && letter != '_');
    let parts: Vec<_> = parts.filter(|it| !it.is_empty()).map(str::to_ascii_lowercase).collect();
    (text.is_ascii() && !has_requirement).then(|| parts.join("-").trim_matches('-').to_string())
}

/// Up to three numbers, a pre-release and build metadata, of which what is behind the numbers may be missing a sign.
struct Loose {
    numbers: Vec<String>,
    pre: Option<String>,
    build: Option<String>,
}

fn loose(text: &str) -> Option<Loose> {
    let (text, build) = text.split_once('+').map_or((text, None), |(before, behind)| (before, Some(behind.to_string())));
    let (first, mut rest) = digits(text)?;
    let mut numbers = vec![first];
    while let Some((number, behind)) = rest.strip_prefix('.').and_then(|it| digits(it).or_else(|| wildcard(it))).filter(|_| numbers.len() < 3) {
        numbers.push(number);
        rest = behind;
    }
    let is_named = |it: &&str| it.starts_with(|letter: char| letter.is_ascii_alphabetic()) || it.len() > 1 && it.starts_with('-');
    let pre = rest.strip_prefix(['-', '.', '_']).filter(is_named).or_else(|| Some(rest).filter(is_named));
    let is_whole = pre.map_or(rest.is_empty(), |it| it.chars().all(|letter| letter.is_ascii_alphanumeric() || letter == '-' || letter == '.'));
    let pre = pre.map(|it| it.trim_start_matches('-').to_string());
    is_whole.then_some(Loose { numbers, pre, build })
}

/// A number without zeros before it, and what is behind it.
fn digits(text: &str) -> Option<(String, &str)> {
    let (number, rest) = text.split_at(text.bytes().take_while(u8::is_ascii_digit).count());
    (!number.is_empty()).then(|| (plain(number), rest))
}

fn wildcard(text: &str) -> Option<(String, &str)> {
    WILDCARDS.iter().find_map(|it| text.strip_prefix(it)).map(|rest| ("*".to_string(), rest))
}

fn plain(number: &str) -> String {
    let short = number.trim_start_matches('0');
    if short.is_empty() {
        "0".to_string()
    } else {
        short.to_string()
    }
}

fn version(text: &str) -> Option<String> {
    let Loose { mut numbers, pre, build } = loose(text.trim_start_matches(|it: char| it.is_whitespace() || "=^~vV".contains(it)).trim_end())?;
    numbers.resize_with(3, || "0".to_string());
    let identifier = |it: &str| if !it.is_empty() && it.bytes().all(|byte| byte.is_ascii_digit()) { plain(it) } else { it.to_string() };
    let pre = pre.map(|it| format!("-{}", it.split('.').map(identifier).collect::<Vec<_>>().join(".")));
    Some(numbers.join(".") + &pre.unwrap_or_default() + &build.map(|it| format!("+{it}")).unwrap_or_default())
}

fn requirement(text: &str) -> Option<String> {
    let plain = text.split_whitespace().collect::<Vec<_>>().join(" ");
    if ANYTHING.contains(&plain.to_lowercase().as_str()) {
        return Some("*".to_string());
    }
    if plain.contains("||") {
        return either(&plain);
    }
    interval(&plain).or_else(|| hyphened(&plain)).or_else(|| every(&plain))
}

/// Comparators that all must hold, parted in some way.
fn every(plain: &str) -> Option<String> {
    let parted = plain.replace("&&", ",").replace(" and ", ",").replace(['(', ')', ';'], ",");
    let mut parts: Vec<String> = Vec::new();
    for word in parted.split(',').flat_map(|it| it.split(' ').filter(|it| !it.is_empty()).collect::<Vec<_>>().into_iter()) {
        // what stands behind an operator and spaces belongs to it
        match parts.last_mut().filter(|it| it.ends_with(OPERATORS)) {
            Some(operator) => operator.push_str(word),
            None => parts.push(word.to_string()),
        }
    }
    let is_anything = |it: &&String| WILDCARDS.contains(&it.trim_start_matches(['=', '<', '>', '~', '^']));
    let made: Vec<_> = parts.iter().filter(|it| !is_anything(it)).map(|it| one(it)).collect::<Option<_>>()?;
    match made.is_empty() {
        true => (!parts.is_empty()).then(|| "*".to_string()),
        false => Some(made.join(", ")),
    }
}

/// One comparator in Cargo's words.
fn one(part: &str) -> Option<String> {
    let known = SAME.iter().find_map(|(theirs, ours)| part.strip_prefix(theirs).map(|rest| (*ours, rest)));
    let (sign, rest) = known.unwrap_or_else(|| part.split_at(part.find(|it| !['=', '<', '>', '~', '^'].contains(&it)).unwrap_or(part.len())));
    let Loose { mut numbers, pre, .. } = loose(rest.trim_start().trim_start_matches(['v', 'V']))?;
    if let Some(wild) = numbers.iter().position(|it| it == "*") {
        numbers.truncate(wild + 1);
    }
    let behind = pre.as_ref().map(|it| format!("-{it}")).unwrap_or_default();
    if sign == "~>" {
        return Some(pessimistic(&numbers, &behind));
    }
    if pre.is_some() {
        numbers.resize_with(3, || "0".to_string());
    }
    Some(format!("{sign}{}{behind}", numbers.join(".")))
}

/// Ruby's `~>`: the last number may rise, those before it may not.
fn pessimistic(numbers: &[String], behind: &str) -> String {
    let text = numbers.join(".") + behind;
    match numbers {
        [_, _, _] => format!("~{text}"),
        [major, ..] if major != "0" => format!("^{text}"),
        _ => format!(">={text}, <1"),
    }
}

/// npm's range, `1.2.3 - 2.3.4`.
fn hyphened(plain: &str) -> Option<String> {
    plain.split_once(" - ").map(|(low, high)| format!(">={}, <={}", low.trim(), high.trim()))
}

/// Maven's and NuGet's range, `[1.0,2.0)`.
fn interval(plain: &str) -> Option<String> {
    let inside = plain.strip_prefix(['[', '('])?.strip_suffix([']', ')'])?;
    let (low, high) = inside.split_once(',').map(|(low, high)| (low.trim(), high.trim()))?;
    let low = (!low.is_empty()).then(|| format!("{}{low}", if plain.starts_with('[') { ">=" } else { ">" }));
    let high = (!high.is_empty()).then(|| format!("{}{high}", if plain.ends_with(']') { "<=" } else { "<" }));
    let parts: Vec<_> = low.into_iter().chain(high).collect();
    Some(if parts.is_empty() { "*".to_string() } else { parts.join(", ") })
}

/// Carets of which each begins where the one before it ends are one range.
fn either(plain: &str) -> Option<String> {
    let bound = |text: &str| {
        let Loose { numbers, pre, build } = loose(text.trim().trim_start_matches('^'))?;
        let numbers = numbers.iter().take_while(|it| *it != "*").map(|it| it.parse::<u64>().ok()).collect::<Option<Vec<_>>>()?;
        (pre.is_none() && build.is_none()).then_some(numbers)
    };
    let bounds = plain.split("||").map(bound).collect::<Option<Vec<_>>>()?;
    let first = bounds.first()?;
    let follows = |(place, numbers): (usize, &Vec<u64>)| {
        first[0].checked_add(place as u64) == Some(numbers[0]) && (place == 0 || numbers[1..].iter().all(|it| *it == 0))
    };
    let beyond = bounds.last()?[0].checked_add(1)?;
    let told: Vec<_> = first.iter().map(u64::to_string).collect();
    (first[0] > 0 && bounds.iter().enumerate().all(follows)).then(|| format!(">={}, <{beyond}", told.join(".")))
}
