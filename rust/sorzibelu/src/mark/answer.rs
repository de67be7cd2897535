//! Lines of an answer: comments, numbers, and sets of locals in hex or by name.
use super::Kind;
use crate::text::{digits, quoted};

/// No line of an answer needs more words.
const MOST_WORDS: usize = 400;

/// A line with something on it, without its comment.
pub(super) struct Line<'a> {
    pub number: usize,
    pub text: &'a str,
}

/// The parts of an answer, each a kind and its lines, in the order in which they begin. A line that is the name of a kind begins one, and the first line
/// may go on behind the name; what stands in front is of the kind `first`. The part `code` of a page is left out.
pub(super) fn parts(text: &str, first: Kind) -> Vec<(Kind, Vec<Line<'_>>)> {
    let text = text.strip_prefix('\u{feff}').unwrap_or(text);
    let mut all: Vec<(Kind, Vec<Line>)> = vec![];
    let mut kind = Some(first);
    let mut begun = false;
    for (i, l) in text.lines().enumerate() {
        let words = bare(l, true);
        let mut line = bare(l, kind != Some(Kind::Rewritten));
        let word = words.split_whitespace().next().unwrap_or("");
        let named = Kind::named(word.trim_end_matches(':'));
        if word.len() == words.len() && word.eq_ignore_ascii_case("code") {
            (kind, begun) = (None, true);
            continue;
        }
        if let Some(k) = named.filter(|_| !begun || word.len() == words.len()) {
            kind = Some(k);
            line = bare(l, k != Kind::Rewritten)[word.len()..].trim();
            if !all.iter().any(|(x, _)| *x == k) {
                all.push((k, vec![]));
            }
        }
        begun |= !words.is_empty();
        let Some(k) = kind.filter(|_| !line.is_empty()) else { continue };
        let line = Line { number: i + 1, text: line };
        match all.iter_mut().find(|(x, _)| *x == k) {
            Some((_, lines)) => lines.push(line),
            None => all.push((k, vec![line])),
        }
    }
    if all.is_empty() {
        all.push((first, vec![]));
    }
    all
}

/// A line without its comment and the space around it.
fn bare(line: &str, hash: bool) -> &str {
    let line = line.split("//").next().unwrap_or("");
    let payload = |at: usize| !hash && at > 0 && line[at + 1..].starts_with(|c: char| c.is_ascii_digit());
    let end = line.match_indices('#').map(|(at, _)| at).find(|at| !payload(*at));
    line[..end.unwrap_or(line.len())].trim()
}

/// The words of a line, or what to say where there are too many.
pub(super) fn words(line: &str) -> Result<Vec<&str>, String> {
    let all: Vec<&str> = line.split_whitespace().take(MOST_WORDS + 1).collect();
    if all.len() > MOST_WORDS {
        return Err(format!("{} begins a line of more than {MOST_WORDS} words", quoted(all[0])));
    }
    Ok(all)
}

/// A number in decimal, with a colon behind it or not.
pub(super) fn number(word: &str) -> Result<usize, String> {
    match digits(word.trim_end_matches([':', ',']), "").map(str::parse) {
        Some(Ok(n)) => Ok(n),
        Some(Err(_)) => Err(format!("{} is too large", quoted(word))),
        None => Err(format!("{} is no number", quoted(word))),
    }
}

/// `refused 7 1`.
pub(super) fn refused(words: &[&str]) -> Option<Result<(usize, usize), String>> {
    let (first, rest) = words.split_first()?;
    first.trim_end_matches(':').eq_ignore_ascii_case("refused").then(|| match rest {
        [n, place] => Ok((number(n)?, number(place)?)),
        _ => Err("'refused' has a number and a place behind it".into()),
    })
}

/// A set: hex of any case and length, or names, or both where they agree; `-` for none.
pub(super) fn set(words: &[&str]) -> Result<u64, String> {
    let parts = words.iter().flat_map(|w| w.split(',')).map(|w| w.trim_matches(['{', '}', '[', ']'])).filter(|w| !w.is_empty());
    let (mut hex, mut named, mut none) = (None, None, false);
    for part in parts {
        if let Some(d) = digits(part, "t").or(digits(part, "T")) {
            match d.parse::<u32>() {
                Ok(i) if i < 64 => named = Some(named.unwrap_or(0) | 1u64 << i),
                _ => return Err(format!("{} is no local: there are 64 at most, t0 to t63", quoted(part))),
            }
        } else if matches!(part, "-" | "none") {
            none = true;
        } else if hex.is_none() {
            hex = Some(hexadecimal(part)?);
        } else {
            return Err(format!("{} is a second set in hex", quoted(part)));
        }
    }
    match (hex, named, none) {
        (Some(h), None, false) => Ok(h),
        (None, Some(n), false) => Ok(n),
        (None, None, true) => Ok(0),
        (Some(h), Some(n), false) if h == n => Ok(h),
        (Some(h), Some(_), false) => Err(format!("the hex {h:x} and the names behind it are different sets")),
        (None, None, false) => {
            if words.iter().any(|w| w.contains(['{', '['])) {
                return Ok(0);
            }
            Err("an empty set is written as -".into())
        }
        _ => Err("'-' stands beside locals".into()),
    }
}

fn hexadecimal(word: &str) -> Result<u64, String> {
    let d = word.strip_prefix("0x").or(word.strip_prefix("0X")).unwrap_or(word);
    if d.is_empty() || !d.bytes().all(|c| c.is_ascii_hexdigit()) {
        return Err(format!("{} is neither hex nor a local such as t0", quoted(word)));
    }
    let d = d.trim_start_matches('0');
    match d.len() {
        0 => Ok(0),
        1..=16 => u64::from_str_radix(d, 16).map_err(|e| e.to_string()),
        _ => Err(format!("{} has more than 64 bits", quoted(word))),
    }
}
